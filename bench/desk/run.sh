#!/bin/sh
# Times `enter` and `leave` of a desk, with a value of eight words that is moved out, changed and moved in, against a
# pthread mutex round the same (mutex.c): alone, and with 2 and 4 threads at the same desk. The program that calls them
# is written here and built in a scratch folder, so that the gate doesn't run it. The two take turns, three times five
# samples each. Prints the nanoseconds of a round, best and median, and how many times C's time ours is.
set -eu
here=$(cd "$(dirname "$0")" && pwd)
. "$here/../scratch.sh"
scratch sj_base sj_desk
printf 'desk_speed: sj_base sj_desk\n' >> crates.txt
mkdir -p crates/desk_speed/src crates/desk_speed/proofs/turns
cat > crates/desk_speed/src/main.rt <<'RT'
#![tactic(auto)]

ghost use Rattle.std.specs.Prelude.{◌≡◌, ◌<◌};
ghost use Rattle.sj_desk.specs.Seats.{AreInPlace, IsWaiting};

use sj_desk::{Desk, DeskSeat, Keyed};
use std::alloc::Global;
use std::io;
use std::sync::Wait;
use std::thread;
use std::thread::Threads;
use std::time::{Clock, Duration, Instant};

const SAMPLES: u32 = 5;

// Nothing is said of it: the rows are all alike.
#[derive(Drop)]
struct Words {
    word: [u64; 8],
}

impl Keyed for Words {
    ghost use Rattle.std.specs.Prelude.{ℕ, ◌≡◌};

    ghost Key = { ℕ };

    ghost Row = { ℕ };

    ghost key = { λ w. 0 };

    ghost row_of = { λ w n. 0 };

    ghost sound = { λ w. w ≡ w };
}

impl Words {
    fn count(&mut self) {
        for k in 0..8usize {
            self.word[k] = self.word[k].wrapping_add(1);
        }
    }
}

fn turn<R: Wait>(rt: &R, desk: &Desk<Words>, seat: &mut DeskSeat<Words>)
    requires { IsWaiting desk.now seat.old }
    ensures waits { IsWaiting desk.now seat.new }
    ensures number { seat.new.number ≡ seat.old.number }
{
    let mut words = desk.enter(rt, seat);
    words.count();
    desk.leave(seat, words);
}

fn turns<R: Wait>(rt: &R, desk: &Desk<Words>, seat: &mut DeskSeat<Words>, rounds: u32)
    requires { IsWaiting desk.now seat.old }
    ensures waits { IsWaiting desk.now seat.new }
    ensures number { seat.new.number ≡ seat.old.number }
{
    for _ in 0..rounds {
        turn(rt, desk, seat);
    }
}

fn turns_in_threads<R: Threads + Wait + Sync>(
    rt: &R,
    desk: &Desk<Words>,
    seats: &mut [DeskSeat<Words>],
    rounds: u32,
)
    requires { AreInPlace desk.now seats.old }
{
    let threads = seats.len().max(1);
    thread::for_each_mut(
        rt,
        seats,
        threads,
        &|_, seat| { turns(rt, desk, seat, rounds) },
    );
}

// How long the rounds of all seats take together. None where memory or the clock fails.
fn time_taken<R: Threads + Wait + Clock + Sync>(
    rt: &R,
    alloc: Global,
    seats: u8,
    rounds: u32,
) -> Option<Duration>
    requires { 0 < seats }
{
    let Ok((desk, mut list)) = Desk::make(alloc, Words { word: [0; 8] }, seats) else {
        return None;
    };
    let Ok(start) = Instant::now(rt) else {
        return None;
    };
    turns_in_threads(rt, &desk, list.as_mut_slice(), rounds);
    start.elapsed(rt).ok()
}

fn main(rt: HostRuntime) -> io::Result<()> {
    for _ in 0..SAMPLES {
        for (seats, rounds) in [(1u8, 1000000u32), (2, 500000), (4, 250000)] {
            if let Some(taken) = time_taken(&rt, rt.alloc(), seats, rounds) {
                println!(rt; "{seats} {rounds} {}", taken.as_nanos())?;
            }
        }
    }
    Ok(())
}
RT
cat > crates/desk_speed/proofs/turns/Invariants.antt <<'ANTT'
use Rattle.std.proofs.Common.{◌≡◌}
use Rattle.sj_desk.specs.Seats.{IsWaiting}
use Rattle.desk_speed.proofs.turns.Given as goal

abbrev pub invariant-loop : goal.invariant-loop
invariant-loop g l = record {
  waits : IsWaiting l.desk l.seat;
  number : l.seat.number ≡ l.fn.seat.number;
}
ANTT
built desk_speed first.txt
gcc -O3 -pthread -o mutex "$here/mutex.c"
for _ in 1 2 3; do
    ./mutex 0 1000000 5 >> c.txt
    ./mutex 1 1000000 5 >> c.txt
    ./mutex 2 500000 5 >> c.txt
    ./mutex 4 250000 5 >> c.txt
    crates/desk_speed/out/desk_speed >> rattle.txt
done
echo "cores: $(nproc), load: $(cut -d ' ' -f 1 /proc/loadavg)"
python3 - rattle.txt c.txt "$here/.." <<'PY'
import sys
sys.path.insert(0, sys.argv[3])
import figures
def times(path):
    each = {}
    for line in open(path):
        threads, rounds, taken = map(int, line.split())
        each.setdefault(threads, []).append(taken / (max(threads, 1) * rounds))
    return {threads: sorted(all_) for threads, all_ in each.items()}
desk, mutex = times(sys.argv[1]), times(sys.argv[2])
rows = []
def say(name, ours, c):
    key = name.split(",")[0].replace(" ", "_") + ("_without_threads" if "," in name else "")
    for which, at in (("best", 0), ("median", len(ours) // 2)):
        if "," not in name:
            rows.append((f"{key}.{which}.ns", ours[at], "<=150" if name == "alone" else "<", figures.TIME))
        rows.append((f"{key}.{which}.ratio", ours[at] / c[at], "<=2"))
        print(f"{name}, {which} of {len(ours)}: desk {ours[at]:.1f} ns a round, mutex {c[at]:.1f} ns, ratio {ours[at] / c[at]:.2f}")
say("alone", desk[1], mutex[1])
say("alone, the mutex in a process without threads", desk[1], mutex[0])
for threads in (2, 4):
    say(f"{threads} threads", desk[threads], mutex[threads])
figures.write("desk", rows)
PY
