#!/bin/sh
# Times each kernel on square tiles of 8 to 1024 rows against plain C loops (loops.h), which gcc -O3 builds without machine
# flags, and again with -march=x86-64-v2, for which Rattle's program is built. The program that calls the kernels is
# written here and built in a scratch folder, so that the gate doesn't run it. The three take turns on one core, three
# times five samples each (one of a cubic kernel on the largest tiles), and the best counts. The kernels that aren't cubic
# have twelve more turns, since from 256 rows on they are as fast as the memory that a run of a program happens to get.
# Prints a table of C's time as a multiple of ours, so that 1 is as fast and more is faster: first against C without
# machine flags, then for x86-64-v2, where C takes the sum of min-plus in a form in which nothing branches within a row.
# After it stands which goals are missed.
# With the argument `large` in place of these tiles one row and one column of 1,048,576 elements, and 4096 by 4096, in one
# turn; each cell then begins with our nanoseconds a step, and C leaves out the cubic kernels of min-plus at 4096, which
# would take it an hour.
set -eu
here=$(cd "$(dirname "$0")" && pwd)
. "$here/../scratch.sh"
scratch sj_base sj_codelet sj_kernels sj_minplus
printf 'kernel_speed: sj_base sj_codelet sj_kernels sj_minplus\n' >> crates.txt
mkdir -p crates/kernel_speed/src
cat > crates/kernel_speed/src/main.rt <<'RT'
#![tactic(auto)]

use sj_base::memory::OutOfMemory;
use sj_kernels::elementwise::{add, axpy, copy, scale};
use sj_kernels::placement::transpose;
use sj_kernels::product::gemm;
use sj_kernels::reduction::{dot, sum};
use sj_minplus::least::lowest;
use sj_minplus::product::mingemm;
use sj_minplus::ways::{fwcol, fwdiag, fwrow};
use std::alloc::Global;
use std::env;
use std::io;
use std::time::Instant;

const SAMPLES: u32 = 5;

#[derive(Clone, Copy)]
enum Kernel {
    Gemm,
    Transpose,
    Add,
    Axpy,
    Scale,
    Dot,
    Sum,
    Lowest,
    MinGemm,
    FwDiag,
    FwRow,
    FwCol,
}

const KERNELS: [Kernel; 12] = [
    Kernel::Gemm,
    Kernel::Transpose,
    Kernel::Add,
    Kernel::Axpy,
    Kernel::Scale,
    Kernel::Dot,
    Kernel::Sum,
    Kernel::Lowest,
    Kernel::MinGemm,
    Kernel::FwDiag,
    Kernel::FwRow,
    Kernel::FwCol,
];

fn name(kernel: Kernel) -> &'static str {
    match kernel {
        Kernel::Gemm => "gemm",
        Kernel::Transpose => "transpose",
        Kernel::Add => "add",
        Kernel::Axpy => "axpy",
        Kernel::Scale => "scale",
        Kernel::Dot => "dot",
        Kernel::Sum => "sum",
        Kernel::Lowest => "lowest",
        Kernel::MinGemm => "mingemm",
        Kernel::FwDiag => "fwdiag",
        Kernel::FwRow => "fwrow",
        Kernel::FwCol => "fwcol",
    }
}

fn is_cubic(kernel: Kernel) -> bool {
    matches!(
        kernel,
        Kernel::Gemm | Kernel::MinGemm | Kernel::FwDiag | Kernel::FwRow | Kernel::FwCol
    )
}

// The product is of m by k and k by n, and all others are on m by n.
#[derive(Clone, Copy)]
struct Sides {
    m: u32,
    k: u32,
    n: u32,
}

// As many calls as take about two milliseconds, and one at least.
fn calls(kernel: Kernel, sides: Sides) -> u32 {
    if sides.m != sides.n {
        return 2;
    }
    match (is_cubic(kernel), sides.n) {
        (true, 8) => 4000,
        (true, 20) => 400,
        (true, 64) => 16,
        (true, 128) => 2,
        (true, _) => 1,
        (false, 8) => 40000,
        (false, 20) => 8000,
        (false, 64) => 800,
        (false, 128) => 160,
        (false, 256) => 32,
        (false, 4096) => 1,
        (false, _) => 2,
    }
}

// The cubic kernels on the largest tiles take long, and have one sample a turn.
fn samples(kernel: Kernel, sides: Sides) -> u32 {
    if is_cubic(kernel) && sides.k >= 1024 { 1 } else { SAMPLES }
}

// Whether the kernel's blocks are as large as these sides say.
fn fits(kernel: Kernel, sides: Sides) -> bool {
    match kernel {
        Kernel::FwDiag => sides.m == sides.k && sides.k == sides.n,
        Kernel::FwRow => sides.m == sides.k,
        Kernel::FwCol => sides.k == sides.n,
        _ => true,
    }
}

fn next(seed: i64) -> i64 {
    seed.wrapping_mul(6364136223846793005).wrapping_add(1442695040888963407)
}

fn numbers(alloc: Global, sides: Sides, seed: i64) -> Result<Vec<i64>, OutOfMemory> {
    let count = sides.m as usize * sides.n as usize;
    let mut made = Vec::with_capacity(alloc, count)?;
    let mut seed = seed;
    for _ in 0..count {
        seed = next(seed);
        made.push(seed)?;
    }
    Ok(made)
}

// Lengths from 0 to 4094, and every sixteenth or so is INF.
fn lengths(alloc: Global, sides: Sides, seed: i64) -> Result<Vec<i64>, OutOfMemory> {
    let count = sides.m as usize * sides.n as usize;
    let mut made = Vec::with_capacity(alloc, count)?;
    let mut seed = seed;
    for _ in 0..count {
        seed = next(seed);
        let high = (seed >> 52) & 4095;
        made.push(if high % 16 == 15 { i64::MAX } else { high })?;
    }
    Ok(made)
}

// The first element of x changes with each call of a reduction, so that no call is left out.
fn reduce(kernel: Kernel, first: i64, x: &mut [i64], y: &[i64], s: &mut [i64]) {
    if x.is_empty() || x.len() != y.len() || s.len() != 1 {
        return;
    }
    x[0] = first;
    match kernel {
        Kernel::Dot => dot(x, y, s),
        _ => sum(x, s),
    }
}

fn ring(kernel: Kernel, call: i64, sides: Sides, x: &[i64], y: &[i64], z: &mut [i64]) {
    let Sides { m, k, n } = sides;
    let left = m as usize * k as usize;
    let right = k as usize * n as usize;
    let area = m as usize * n as usize;
    if x.len() != area || y.len() != area || z.len() != area || left > area || right > area {
        return;
    }
    match kernel {
        Kernel::Gemm => gemm(&x[..left], &y[..right], z, m, k, n),
        Kernel::Transpose => transpose(x, z, m, n),
        Kernel::Add => add(x, z),
        Kernel::Axpy => axpy(call, x, z),
        Kernel::Scale => scale(call, z),
        _ => {}
    }
}

fn least(kernel: Kernel, sides: Sides, x: &[i64], y: &[i64], from: &[i64], z: &mut [i64]) {
    let Sides { m, k, n } = sides;
    let left = m as usize * k as usize;
    let right = k as usize * n as usize;
    let block = k as usize * k as usize;
    let area = m as usize * n as usize;
    if x.len() != area || y.len() != area || from.len() != area || z.len() != area {
        return;
    }
    if left > area || right > area || block > area {
        return;
    }
    copy(from, z);
    match kernel {
        Kernel::Lowest => lowest(x, z),
        Kernel::MinGemm => mingemm(&x[..left], &y[..right], z, m, k, n),
        Kernel::FwDiag if block == area => fwdiag(z, k),
        Kernel::FwRow if right == area => fwrow(&x[..block], z, k, n),
        Kernel::FwCol if left == area => fwcol(&x[..block], z, k, m),
        _ => {}
    }
}

fn said(
    rt: &HostRuntime,
    kernel: Kernel,
    sides: Sides,
    calls: u32,
    start: &Instant,
    written: &[i64],
) {
    if let Ok(taken) = start.elapsed(rt) {
        let mut sum = 0i64;
        for x in written {
            sum = sum.wrapping_mul(31).wrapping_add(*x);
        }
        let Sides { m, k: _, n } = sides;
        let _ = println!(rt; "{} {m}x{n} {calls} {} {sum}", name(kernel), taken.as_nanos());
    }
}

fn time_reduction(rt: &HostRuntime, kernel: Kernel, sides: Sides) -> Result<(), OutOfMemory> {
    let mut x = numbers(rt.alloc(), sides, 1)?;
    let y = numbers(rt.alloc(), sides, 2)?;
    let mut s = [0i64; 1];
    let calls = calls(kernel, sides);
    for _ in 0..samples(kernel, sides) {
        if let Ok(start) = Instant::now(rt) {
            for call in 0..calls {
                reduce(kernel, call as i64, x.as_mut_slice(), y.as_slice(), &mut s);
            }
            said(rt, kernel, sides, calls, &start, &s);
        }
    }
    Ok(())
}

fn time_ring(rt: &HostRuntime, kernel: Kernel, sides: Sides) -> Result<(), OutOfMemory> {
    let x = numbers(rt.alloc(), sides, 1)?;
    let y = numbers(rt.alloc(), sides, 2)?;
    let mut z = numbers(rt.alloc(), sides, 3)?;
    let calls = calls(kernel, sides);
    for _ in 0..samples(kernel, sides) {
        if let Ok(start) = Instant::now(rt) {
            for call in 0..calls {
                ring(kernel, call as i64, sides, x.as_slice(), y.as_slice(), z.as_mut_slice());
            }
            said(rt, kernel, sides, calls, &start, z.as_slice());
        }
    }
    Ok(())
}

fn time_least(rt: &HostRuntime, kernel: Kernel, sides: Sides) -> Result<(), OutOfMemory> {
    let x = lengths(rt.alloc(), sides, 4)?;
    let y = lengths(rt.alloc(), sides, 5)?;
    let from = lengths(rt.alloc(), sides, 6)?;
    let mut z = lengths(rt.alloc(), sides, 6)?;
    let calls = calls(kernel, sides);
    for _ in 0..samples(kernel, sides) {
        if let Ok(start) = Instant::now(rt) {
            for _ in 0..calls {
                least(kernel, sides, x.as_slice(), y.as_slice(), from.as_slice(), z.as_mut_slice());
            }
            said(rt, kernel, sides, calls, &start, z.as_slice());
        }
    }
    Ok(())
}

fn time(rt: &HostRuntime, kernel: Kernel, sides: Sides) -> Result<(), OutOfMemory> {
    if !fits(kernel, sides) {
        return Ok(());
    }
    match kernel {
        Kernel::Dot | Kernel::Sum => time_reduction(rt, kernel, sides),
        Kernel::Gemm | Kernel::Transpose | Kernel::Add | Kernel::Axpy | Kernel::Scale => {
            time_ring(rt, kernel, sides)
        }
        _ => time_least(rt, kernel, sides),
    }
}

fn time_squares(rt: &HostRuntime, cubic: bool) -> Result<(), OutOfMemory> {
    for kernel in KERNELS.iter().copied() {
        for n in [8u32, 20, 64, 128, 256, 1024] {
            if cubic || !is_cubic(kernel) {
                time(rt, kernel, Sides { m: n, k: n, n })?;
            }
        }
    }
    Ok(())
}

fn time_large(rt: &HostRuntime) -> Result<(), OutOfMemory> {
    for kernel in KERNELS.iter().copied() {
        time(rt, kernel, Sides { m: 1, k: 1, n: 1048576 })?;
        time(rt, kernel, Sides { m: 1048576, k: 1, n: 1 })?;
        time(rt, kernel, Sides { m: 4096, k: 4096, n: 4096 })?;
    }
    Ok(())
}

// What the first argument tells: `large` has the large tiles, `linear` the squares without the cubic kernels.
#[derive(Clone, Copy)]
enum Tiles {
    Squares,
    Linear,
    Large,
}

fn asked(rt: &HostRuntime) -> Tiles {
    match env::args(rt) {
        Ok(mut args) => match args.nth(1) {
            Some(word) if word.as_str() == "large" => Tiles::Large,
            Some(_) => Tiles::Linear,
            None => Tiles::Squares,
        },
        Err(_) => Tiles::Squares,
    }
}

fn main(rt: HostRuntime) -> io::Result<()> {
    let _ = match asked(&rt) {
        Tiles::Squares => time_squares(&rt, true),
        Tiles::Linear => time_squares(&rt, false),
        Tiles::Large => time_large(&rt),
    };
    Ok(())
}
RT
built kernel_speed first.txt
program=loops
turns="whole whole whole linear linear linear linear linear linear linear linear linear linear linear linear"
if [ "${1-}" = large ]; then
    program=large
    turns=large
fi
gcc -O3 -o loops "$here/$program.c"
gcc -O3 -march=x86-64-v2 -o loops_v2 "$here/$program.c"
core=$(($(nproc) - 1))
# The arrays of all three lie alike to each other: those of 128 KiB and more begin a page each. Else it is chance whether a
# load comes from where, but for a multiple of 4096 bytes, a store has just gone, for which this processor waits.
export MALLOC_MMAP_THRESHOLD_=131072
for turn in $turns; do
    if [ $turn = whole ]; then set --; else set -- $turn; fi
    taskset -c $core ./loops "$@" >> c.txt
    taskset -c $core ./loops_v2 "$@" >> c_v2.txt
    taskset -c $core crates/kernel_speed/out/kernel_speed "$@" >> rattle.txt
done
echo "cores: $(nproc), of which one is used, load: $(cut -d ' ' -f 1 /proc/loadavg)"
python3 - rattle.txt c.txt c_v2.txt $program "$here/.." <<'PY'
import sys
sys.path.insert(0, sys.argv[5])
import figures
def read(path):
    least, sums = {}, {}
    for line in open(path):
        name, sides, calls, taken, sum_ = line.split()
        m, _, n = sides.partition("x")
        key = name, (int(m), int(n or m))
        each = int(taken) / int(calls) / 1000
        least[key] = min(each, least.get(key, each))
        sums.setdefault(key, []).append(sum_)
    return least, sums
(ours, sums), (c, c_sums), (v2, v2_sums) = map(read, sys.argv[1:4])
large = sys.argv[4] == "large"
CUBIC = ("gemm", "mingemm", "fwdiag", "fwrow", "fwcol")
every = list(dict.fromkeys(sides for _, sides in ours))
print("| Kernel | " + " | ".join(f"{m} by {n}" if large else f"{n}" for m, n in every) + " |")
print("|---" * (len(every) + 1) + "|")
def cell(name, form, second, sides):
    key = name, sides
    if key not in ours:
        return "-"
    m, n = sides
    steps = m * n * (n if m == n and name in CUBIC else 1)
    shown = f"{ours[key] * 1000 / steps:.2f} ns, " if large else ""
    if (form, sides) not in c:
        return shown + "-"
    same = sums[key] == c_sums[form, sides] == v2_sums[second, sides]
    wrong = "" if same else " ANOTHER RESULT"
    return f"{shown}{c[form, sides] / ours[key]:.2f} / {v2[second, sides] / ours[key]:.2f}{wrong}"
# What is wanted at least, of the squares: in words, and the two speeds from one side to another, of which the first that fits counts.
LINEAR = "1.0 / 0.95", [(8, 1024, 1.0, 0.95)]
WAYS = "from 20 on 1.5 / 1.2", [(20, 1024, 1.5, 1.2)]
GOALS = {
    "gemm": ("1.7 / 1.4; at 8 and 1024 1.4 / 1.3", [(20, 256, 1.7, 1.4), (8, 1024, 1.4, 1.3)]),
    "transpose": ("from 256 on 1.5 / 1.5", [(256, 1024, 1.5, 1.5)]),
    "mingemm": ("from 20 on 2 / 1.6", [(20, 1024, 2, 1.6)]),
    "transpose_by_b": ("none", []),
} | dict.fromkeys(("fwdiag", "fwrow", "fwcol"), WAYS)
def goal(form):
    return GOALS.get(form, LINEAR)
def misses(name, form, second):
    for (m, n) in every:
        wanted = next((speeds for first, last, *speeds in goal(form)[1] if first <= n <= last), ())
        for which, speed in zip((c.get((form, (m, n))), v2.get((second, (m, n)))), wanted):
            if round(which / ours[name, (m, n)], 2) < speed:
                yield f"{name} at {n}: {which / ours[name, (m, n)]:.2f} of {speed}"
# (the same loop runs at 0.6 to 1.6 times its speed, by where a build puts it)
def rows(name, form, second):
    for m, n in every:
        wanted = next((speeds for first, last, *speeds in goal(form)[1] if first <= n <= last), (None, None))
        for what, theirs, speed in zip(("plain", "v2"), (c.get((form, (m, n))), v2.get((second, (m, n)))), wanted):
            if theirs and (name, (m, n)) in ours:
                yield f"{form}.{n}.{what}", theirs / ours[name, (m, n)], f">={speed:g}" if speed else ">", 40
missed, told = [], []
for name in dict.fromkeys(name for name, _ in ours):
    for form in [name] + [form for form in (name + "_by_b",) if any(key[0] == form for key in c)]:
        second = name + "_chosen" if any(key[0] == name + "_chosen" for key in v2) else form
        what = name if form == name else f"{name}, C in the order of B"
        if not large:
            what += f" ({goal(form)[0]})"
            missed += misses(name, form, second)
            told += rows(name, form, second)
        print(f"| {what} | " + " | ".join(cell(name, form, second, sides) for sides in every) + " |")
if not large:
    print("Missed: " + ("; ".join(missed) or "none"))
    figures.write("kernels", told)
PY
