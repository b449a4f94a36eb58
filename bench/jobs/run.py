#!/usr/bin/env python3
"""Times whole jobs at one worker against the same loops called in order in C (order.c, gcc -O3 without machine flags).

The product of two matrices of 1024 rows in tiles of 256, 128 and 64, and the shortest ways between 480 places in tiles of
60 and 20. The tiles are matrices of their own. Of `starjob` (built by ./run examples/first.job) the processor time of the
job counts, less that of the job without its kernels' tasks; of C that of the calls. The two take turns, and the best of
some runs counts, five unless a number is given. Prints C's time as a multiple of ours, so that more is faster, and writes it
into bench/figures.txt.
"""
import os, subprocess, sys, tempfile

here = os.path.dirname(os.path.abspath(__file__))
top = os.path.dirname(os.path.dirname(here))
sys.path.insert(0, os.path.dirname(here))
import figures

starjob = os.path.join(top, "bin", "starjob")
RUNS = int(sys.argv[1]) if len(sys.argv) > 1 else 5
MIB = 1024 * 1024
GOALS = {("product", 256): 1.5, ("product", 128): 1.5, ("product", 64): 1.5, ("ways", 60): 1.3, ("ways", 20): 0.6}
MACHINE = ["--workers", "1", "--node", str(256 * MIB), "--swap-size", str(64 * MIB)]


def matrices(name, count, tile, step):
    return [f"matrix {name}{t} {tile} {tile} fill {t % 97 + 1} {step}" for t in range(count * count)]


def sums(name, count):
    return ["vector s 1 values 0"] + [f"task sum {name}{t}:R s:RW" for t in range(count * count)] + ["print s"]


def product(tile):
    count = 1024 // tile
    made = matrices("a", count, tile, 3) + matrices("b", count, tile, 5) + matrices("c", count, tile, 0)
    each = range(count)
    tasks = [
        f"task gemm a{i * count + l}:R b{l * count + j}:R c{i * count + j}:RW" for i in each for j in each for l in each
    ]
    return made, tasks, sums("c", count)


def ways(tile):
    count = 480 // tile
    tasks = []
    for k in range(count):
        others = [i for i in range(count) if i != k]
        d = k * count + k
        tasks.append(f"task fwdiag a{d}:RW")
        tasks += [f"task fwrow a{d}:R a{k * count + j}:RW" for j in others]
        tasks += [f"task fwcol a{d}:R a{i * count + k}:RW" for i in others]
        tasks += [
            f"task mingemm a{i * count + k}:R a{k * count + j}:R a{i * count + j}:RW" for i in others for j in others
        ]
    return matrices("a", count, tile, 3), tasks, sums("a", count)


def timed(folder, lines):
    path = os.path.join(folder, "job")
    with open(path, "w") as f:
        f.write("\n".join(["starjob 1"] + lines) + "\n")
    out = os.path.join(folder, "out")
    with open(path) as source, open(out, "w") as sink:
        child = subprocess.Popen([starjob, *MACHINE], stdin=source, stdout=sink)
        _, status, usage = os.wait4(child.pid, 0)
    if status != 0:
        sys.exit(f"starjob ended with {status}")
    with open(out) as f:
        return usage.ru_utime + usage.ru_stime, f.read().split()


def in_c(folder, job, tile):
    taken, total = subprocess.check_output([os.path.join(folder, "order"), job, str(tile)], text=True).split()
    return int(taken) / 1e9, total


def main():
    print(f"cores: {os.cpu_count()}, load: {os.getloadavg()[0]:.1f}")
    print("| Job | Tile | starjob | C | Speed |\n|---|---|---|---|---|")
    rows = []
    with tempfile.TemporaryDirectory() as folder:
        subprocess.check_call(["gcc", "-O3", "-o", os.path.join(folder, "order"), os.path.join(here, "order.c")])
        for job, name, tile in [(product, "product", 256), (product, "product", 128), (product, "product", 64)] + [
            (ways, "ways", 60),
            (ways, "ways", 20),
        ]:
            made, tasks, ends = job(tile)
            ours, empty, c = [], [], []
            for _ in range(RUNS):
                taken, printed = timed(folder, made + tasks + ends)
                ours.append(taken)
                empty.append(timed(folder, made + ends)[0])
                taken, total = in_c(folder, name, tile)
                c.append(taken)
                if total not in printed:
                    sys.exit(f"{name} {tile}: another result, {printed[:20]} and {total}")
            mine = min(ours) - min(empty)
            print(f"| {name} | {tile} | {mine:.3f} s | {min(c):.3f} s | {min(c) / mine:.2f} |", flush=True)
            rows.append((f"{name}.{tile}.speed", min(c) / mine, f">={GOALS[name, tile]}"))
    figures.write("jobs", rows)


main()
