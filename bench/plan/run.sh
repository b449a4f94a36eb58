#!/bin/sh
# Times `split` and `gather` of a 4096 by 4096 array under a plan of 8 by 8 parts against C's memcpy,
# row by row (rows.c). The program that calls them is written here and built in a scratch folder, so
# that the gate doesn't run it. Prints the least and the median milliseconds of ten rounds of each.
set -eu
here=$(cd "$(dirname "$0")" && pwd)
. "$here/../scratch.sh"
scratch sj_base sj_plan
printf 'plan_speed: sj_base sj_plan\n' >> crates.txt
mkdir -p crates/plan_speed/src
cat > crates/plan_speed/src/main.rt <<'RT'
#![tactic(auto)]

use sj_base::memory::OutOfMemory;
use sj_base::tile::{Dims, Tile};
use sj_plan::children::children;
use sj_plan::parts::Parts;
use sj_plan::rect::Rect;
use sj_plan::tiles::{gather, split};
use std::alloc::Global;
use std::io;
use std::time::Instant;

fn copy_through(alloc: Global, from: &Tile, into: &mut Tile, rects: &[Rect]) -> Result<(), OutOfMemory> {
    for rect in rects {
        if rect.is_within(from.dims()) && rect.is_within(into.dims()) {
            let child = split(alloc, from, *rect)?;
            gather(into, *rect, &child);
        }
    }
    Ok(())
}

fn rounds(rt: &HostRuntime, alloc: Global) -> Result<(), OutOfMemory> {
    let dims = Dims { rows: 4096, cols: 4096 };
    let from = Tile::of(dims, vec![in alloc; 7i64; dims.area() as usize]?);
    let mut into = Tile::of(dims, vec![in alloc; 1i64; dims.area() as usize]?);
    let parts = Parts { r: 8, c: 8 };
    if parts.fit(dims) {
        let rects = children(alloc, dims, parts)?;
        for _ in 0..10 {
            if let Ok(start) = Instant::now(rt) {
                copy_through(alloc, &from, &mut into, rects.items())?;
                if let Ok(taken) = start.elapsed(rt) {
                    let _ = println!(rt; "{}", taken.as_micros());
                }
            }
        }
    }
    Ok(())
}

fn main(rt: HostRuntime) -> io::Result<()> {
    let alloc = rt.alloc();
    let _ = rounds(&rt, alloc);
    Ok(())
}
RT
built plan_speed "$work/rattle.txt"
cc -O2 -o rows "$here/rows.c"
./rows > c.txt
python3 - "$work/rattle.txt" "$work/c.txt" "$here/.." <<'PY'
import sys
sys.path.insert(0, sys.argv[3])
import figures
rattle = sorted(float(x) / 1000 for x in open(sys.argv[1]) if x.strip().isdigit())
c = sorted(float(x) for x in open(sys.argv[2]))
print(f"rattle: least {rattle[0]:.2f} ms, median {rattle[len(rattle)//2]:.2f} ms of {len(rattle)}")
print(f"c:      least {c[0]:.2f} ms, median {c[len(c)//2]:.2f} ms of {len(c)}")
best, median = c[0] / rattle[0], c[len(c) // 2] / rattle[len(rattle) // 2]
print(f"speed as a part of c's: least {best:.2f}, median {median:.2f}")
figures.write("plan", [("speed.median", median, ">"), ("speed.best", best, ">")])
PY
