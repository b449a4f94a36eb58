#!/bin/sh
# Times jobs that four workers run through the library, `run` of `sj_engine`, with one file as disk and with four: the product of two
# matrices of 1024 rows in tiles of 64, and sums of such tiles, in which transfers are nearly all of the time, on four nodes that together
# hold an eighth of their data. With four, blocks are dealt to the disks in the order of their cells, as many to each, so that transfers on
# different disks go on at once. The program that calls the library is written here and built in a scratch folder, over the libraries that
# the repository has built, so that the gate doesn't run it. Runs take turns, the best and the middle of nine count, unless a number is given
# behind the folder of the disks.
set -eu
here=$(cd "$(dirname "$0")" && pwd)
folder=$(mktemp -d "${1:-${TMPDIR:-/tmp}}/disks.XXXXXX")
runs=${2:-9}
. "$here/../scratch.sh"
scratch $(needed sj_engine sj_ready sj_words sj_minplus)
trap 'rm -rf "$work" "$folder"' EXIT
for crate in crates/*; do
    if [ -d "$root/$crate/out/rlib" ]; then mkdir "$crate/out" && cp -r "$root/$crate/out/rlib" "$crate/out/"; fi
done
printf 'disks: sj_engine sj_ready sj_words sj_minplus sj_codelet sj_edge sj_base\n' >> crates.txt
mkdir -p crates/disks/src crates/disks/proofs/sizes_of crates/disks/proofs/run_on
cat > crates/disks/src/main.rt <<'RT'
#![tactic(auto)]

ghost use Rattle.std.specs.Prelude.{◌≡◌, ◌≤◌, ◌^◌, IfOk, length, map};
ghost use Rattle.sj_edge.specs.Sizes.{AreWithin};
ghost use Rattle.sj_ready.specs.Input.{HasJob};
ghost use Rattle.sj_ready.specs.Ready.{HasOwnCodelets, IsReady};
ghost use Rattle.sj_ready.specs.Work.{WorkOrRefusal};
ghost use Rattle.sj_words.specs.Options.{OptionsAreInRange};

use sj_base::ids::Place;
use sj_base::memory::OutOfMemory;
use sj_base::trace::{Event, Trace};
use sj_codelet::set::Codelets;
use sj_edge::disk::Disk;
use sj_edge::file_disk::FileDisk;
use sj_edge::gate::OpenGate;
use sj_engine::engine::{RunOutcome, run};
use sj_minplus::library::Library;
use sj_ready::input::Input;
use sj_ready::ready::{ReadyJob, ready_job};
use sj_words::{Options, read_words};
use std::alloc::Global;
use std::env;
use std::fs::File;
use std::io;
use std::io::Read;
use std::rt::{Clock, Files};
use std::sync::Wait;
use std::thread::Threads;
use std::time::{Duration, Instant};

// The bytes of all blocks: three matrices of 256 tiles of 64 rows, each with a header of 24 bytes.
const BLOCKS: u64 = 25_184_256;

// A run's time, whether it was done, and how many transfers with a disk it made.
#[derive(Debug, Drop)]
struct Taken {
    time: Duration,
    is_done: bool,
    transfers: u64,
}

fn is_with_disk(event: Event) -> bool {
    match event {
        Event::Moved(_, Place::Disk(_), _) => true,
        Event::Moved(_, _, Place::Disk(_)) => true,
        _ => false,
    }
}

fn transfers(trace: &Trace) -> u64 {
    let mut count = 0u64;
    for i in 0..trace.len() {
        if is_with_disk(trace.get(i)) {
            count = count.saturating_add(1);
        }
    }
    count
}

fn one<D: Disk>(alloc: Global, disk: D) -> Result<Vec<D>, OutOfMemory>
    requires { D.size disk ≤ 2 ^ 40 }
    ensures count { IfOk result (λ disks. length disks.items ≡ 1) }
    ensures small { IfOk result (λ disks. AreWithin D.size (2 ^ 40) disks.items) }
{
    let mut disks = Vec::new(alloc);
    disks.push(disk)?;
    Ok(disks)
}

fn four<D: Disk>(alloc: Global, a: D, b: D, c: D, d: D) -> Result<Vec<D>, OutOfMemory>
    requires first { D.size a ≤ 2 ^ 40 }
    requires second { D.size b ≤ 2 ^ 40 }
    requires third { D.size c ≤ 2 ^ 40 }
    requires fourth { D.size d ≤ 2 ^ 40 }
    ensures count { IfOk result (λ disks. length disks.items ≡ 4) }
    ensures small { IfOk result (λ disks. AreWithin D.size (2 ^ 40) disks.items) }
{
    let mut disks = one(alloc, a)?;
    disks.push(b)?;
    disks.push(c)?;
    disks.push(d)?;
    Ok(disks)
}

fn sizes_of<D: Disk>(alloc: Global, disks: &[D]) -> Result<Vec<u64>, OutOfMemory>
    ensures { IfOk result (λ sizes. sizes.items ≡ map D.size disks.now) }
{
    let mut sizes = Vec::new(alloc);
    for disk in disks {
        sizes.push(disk.size())?;
    }
    Ok(sizes)
}

// None where the clock fails.
fn run_ready<C: Codelets, D: Disk + Send, R: Threads + Wait + Clock + Sync>(
    rt: &R,
    alloc: Global,
    ready: ReadyJob,
    disks: Vec<D>,
    codelets: &C,
) -> Option<Taken>
    requires ready { (asked : WorkOrRefusal) × IsReady C.has asked ready }
    requires disks { ready.machine.disks ≡ map D.size disks.items }
{
    let ReadyJob {
        program,
        footprints,
        machine,
        ..
    } = ready;
    let start = Instant::now(rt).ok()?;
    let RunOutcome { result, trace, .. } = run(
        rt, alloc, program, footprints, machine, disks, codelets, &OpenGate,
    );
    Some(Taken {
        time: start.elapsed(rt).ok()?,
        is_done: result.is_ok(),
        transfers: transfers(&trace),
    })
}

// None where memory or the clock fails, or the job isn't accepted.
fn run_on<C: Codelets, D: Disk + Send, R: Threads + Wait + Clock + Sync>(
    rt: &R,
    alloc: Global,
    text: Vec<u8>,
    options: &Options,
    disks: Vec<D>,
    codelets: &C,
) -> Option<Taken>
    requires own { HasOwnCodelets C.has }
    requires options { OptionsAreInRange options.now }
    requires few { length disks.items ≤ 16 }
    requires small { AreWithin D.size (2 ^ 40) disks.items }
{
    let Ok(sizes) = sizes_of(alloc, &disks) else {
        return None;
    };
    match ready_job(alloc, Input::Text(text), options, sizes, codelets) {
        Ok(ready) => run_ready(rt, alloc, ready, disks, codelets),
        Err(_) => None,
    }
}

fn run_text<D: Disk + Send, R: Threads + Wait + Clock + Sync>(
    rt: &R,
    alloc: Global,
    text: Vec<u8>,
    disks: Vec<D>,
) -> Option<Taken>
    requires few { length disks.items ≤ 16 }
    requires small { AreWithin D.size (2 ^ 40) disks.items }
{
    let options = read_words(alloc, &[]).ok()?;
    run_on(rt, alloc, text, &options, disks, &Library)
}

// A file of the folder that the program is run in.
fn timed<R>(rt: &R, alloc: Global, text: Vec<u8>, has_four: bool) -> Option<Taken>
where
    R: Files<File = File> + Threads + Wait + Clock + Sync,
{
    if !has_four {
        let disks = one(alloc, FileDisk::at(rt, "disk", BLOCKS)).ok()?;
        return run_text(rt, alloc, text, disks);
    }
    let each = BLOCKS / 4;
    let disks = four(
        alloc,
        FileDisk::at(rt, "disk0", each),
        FileDisk::at(rt, "disk1", each),
        FileDisk::at(rt, "disk2", each),
        FileDisk::at(rt, "disk3", each),
    )
    .ok()?;
    run_text(rt, alloc, text, disks)
}

fn main(rt: HostRuntime) -> io::Result<()> {
    let mut text = Vec::new(rt.alloc());
    rt.stdin().read_to_end(&mut text)?;
    let has_four = env::args(&rt)?.count() > 1;
    match timed(&rt, rt.alloc(), text, has_four) {
        Some(Taken { time, is_done: true, transfers }) => println!(rt; "{} {transfers}", time.as_micros()),
        _ => println!(rt; "failed"),
    }
}
RT
cat > crates/disks/proofs/sizes_of/Invariants.antt <<'ANTT'
use Rattle.std.proofs.Common.{◌≡◌, map, take}
use Rattle.disks.proofs.sizes_of.Given as goal

abbrev pub invariant-loop-disk : goal.invariant-loop-disk
invariant-loop-disk g l = l.sizes.items ≡ map g.D.Disk.size (take l.disk-index l.disks)
ANTT
cat > crates/disks/proofs/run_on/Answers.antt <<'ANTT'
use Rattle.std.proofs.Common.{ℕ, ◌≤◌, ◌^◌, List, map, ap, ◌∙◌, subst, sym}
use Rattle.std.specs.Prelude.{All}
use Rattle.std.proofs.lemmas.List.Elements.{All-map}
use Rattle.disks.proofs.run_on.Goals as goal

pub ready_job-requires-clause-small : goal.ready_job-requires-clause-small
ready_job-requires-clause-small g c κs within =
    let sizes = c.in-Ok.ensures ∙ ap (map g.D.Disk.size) c.deref.ensures.value in
    subst (λ (ns : List ℕ). All (λ n. n ≤ 2 ^ 40) ns) (sym sizes) (All-map (λ n. n ≤ 2 ^ 40) g.D.Disk.size c.args.disks.items c.requires.small)
ANTT
built disks first.txt < /dev/null
python3 - "$folder" "$PWD/crates/disks/out/disks" "$runs" "$here/.." <<'PY'
import os, subprocess, sys
folder, program, runs = sys.argv[1], sys.argv[2], int(sys.argv[3])
sys.path.insert(0, sys.argv[4])
import figures
ROWS, P = 1024, 16
# four nodes of 24 tiles of 32 KiB
HEAD = ["starjob 1", "workers 4", *["node 786432"] * 4, "policy prio", *(f"matrix {name} {ROWS} {ROWS} by {P} {P} fill {rest}" for name, rest in (("A", "1 1"), ("B", "5 -2"), ("C", "0 0")))]
PRODUCT = [f"task gemm A[{i},{k}]:R B[{k},{j}]:R C[{i},{j}]:RW prio={-1 - P * i - j}" for i in range(P) for j in range(P) for k in range(P)]
SUMS = [f"task add {name}[{i},{j}]:R C[{i},{j}]:RW prio={-1 - P * i - j}" for _ in range(8) for name in "AB" for i in range(P) for j in range(P)]
def once(lines, words):
    said = subprocess.run([program, *words], input="\n".join([*HEAD, *lines]) + "\n", capture_output=True, text=True, cwd=folder).stdout.split()
    for name in os.listdir(folder):
        os.remove(os.path.join(folder, name))
    if len(said) != 2:
        sys.exit(f"failed: {said}")
    return int(said[0]) / 1e6, int(said[1])
print(f"cores: {os.cpu_count()}, load: {os.getloadavg()[0]:.1f}")
rows = []
for name, lines in (("product", PRODUCT), ("sums", SUMS)):
    ones, fours = zip(*((once(lines, []), once(lines, ["four"])) for _ in range(runs)))
    (one, moved), (four, _) = sorted(ones)[0], sorted(fours)[0]
    middle = runs // 2
    ratio = sorted(fours)[middle][0] / sorted(ones)[middle][0]
    print(f"{name}: one disk {one:.3f} s, four disks {four:.3f} s, {four / one:.2f} times by the best, {ratio:.2f} by the middle; {moved} transfers with a disk")
    rows += [(f"disks.{name}.s", four, "<", figures.TIME), (f"disks.{name}.ratio", ratio, "<")]
figures.write("machine", rows)
PY
