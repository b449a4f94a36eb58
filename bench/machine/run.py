#!/usr/bin/env python3
"""Times jobs whose data is eight times a node's size, and counts from the trace what they move.

Build `starjob` first, by ./run examples/first.job. Three jobs at one worker, each on an ample node and on a small one: the product
of two matrices of 2048 rows in tiles of 128, the shortest ways between 2048 places in tiles of 128, and 100,000 tasks
(and 10,000) each of which evicts one cell of 8 bytes. Wall time of whole runs, best of five unless a number is given; peak
memory is the process's own. Where the machine is small, its disk is memory too, so the peak holds what was moved out. Then the
product and the shortest ways by four workers that share a node, with a swap file, beside the ample node: of runs that take turns the
middle one counts. Writes the figures into bench/figures.txt.
"""
import os, re, resource, statistics, subprocess, sys, tempfile, time
from collections import OrderedDict

here = os.path.dirname(os.path.abspath(__file__))
top = os.path.dirname(os.path.dirname(here))
sys.path.insert(0, os.path.dirname(here))
import figures

starjob = os.path.join(top, "bin", "starjob")
RUNS = int(sys.argv[1]) if len(sys.argv) > 1 else 5
MIB = 1024 * 1024
AMPLE = ["--node", str(1024 * MIB)]


def product(n, tile):
    """Its priorities let one worker take the tasks in the order in which they stand, behind all that load tiles; where there are more
    tiles than priorities, neighbours share one."""
    p = n // tile
    yield "policy prio"
    yield from (f"matrix A {n} {n} by {p} {p} fill 1 1", f"matrix B {n} {n} by {p} {p} fill 5 -2", f"matrix C {n} {n} by {p} {p} fill 0 0")
    for i in range(p):
        for j in range(p):
            for k in range(p):
                yield f"task gemm A[{i},{k}]:R B[{k},{j}]:R C[{i},{j}]:RW prio={-1 - (p * i + j) * 999 // max(p * p, 999)}"


def product_by_recency(p, room):
    """What the product's tasks move in that order, tile by tile, on a node with room for so many tiles."""
    loads = [((name, i, j),) for name in "ABC" for i in range(p) for j in range(p)]
    products = [(("A", i, k), ("B", k, j), ("C", i, j)) for i in range(p) for j in range(p) for k in range(p)]
    node, stored, known = OrderedDict(), set(), set()
    out = back = 0
    for tiles in loads + products:
        lacking = [tile for tile in tiles if tile not in node]
        for victim in [tile for tile in node if tile not in tiles]:
            if len(node) + len(lacking) <= room:
                break
            del node[victim]
            out += victim not in stored
            stored.add(victim)
        back += sum(tile in known for tile in lacking)
        for tile in tiles:
            node.pop(tile, None)
            node[tile] = True
            known.add(tile)
        stored.discard(tiles[-1])
    return out, back


def ways(n, tile):
    p = n // tile
    yield f"matrix D {n} {n} by {p} {p} fill 0 7"
    for k in range(p):
        others = [i for i in range(p) if i != k]
        yield f"task fwdiag D[{k},{k}]:RW"
        yield from (f"task fwrow D[{k},{k}]:R D[{k},{j}]:RW" for j in others)
        yield from (f"task fwcol D[{k},{k}]:R D[{i},{k}]:RW" for i in others)
        yield from (f"task mingemm D[{i},{k}]:R D[{k},{j}]:R D[{i},{j}]:RW" for i in others for j in others)


def evicting(n):
    yield from (f"vector v{k} 1 fill {k} 0" for k in range(3))
    yield from (f"task scale(3) v{k % 3}:RW" for k in range(n))


def written(folder, lines):
    path = os.path.join(folder, "job")
    with open(path, "w") as f:
        f.write("\n".join(["starjob 1", *lines]) + "\n")
    return path


def run_once(path, words):
    """The seconds and the peak in MiB."""
    with open(path) as source:
        started = time.monotonic()
        child = subprocess.Popen([starjob, *words], stdin=source, stdout=subprocess.DEVNULL)
        _, status, usage = os.wait4(child.pid, 0)
        taken = time.monotonic() - started
    if status != 0:
        sys.exit(f"starjob {' '.join(words)} ended with {status}")
    return taken, usage.ru_maxrss / 1024


def run(folder, lines, words):
    """The least seconds and the greatest peak in MiB."""
    path = written(folder, lines)
    times, peaks = zip(*(run_once(path, words) for _ in range(RUNS)))
    return min(times), max(peaks)


def by_four(folder, name, lines, node, goal):
    """Four workers, with a file as swap on the small node."""
    path = written(folder, lines)
    four = ["--workers", "4", "--swap-size", str(256 * MIB)]
    small, ample = zip(*((run_once(path, [*four, "--node", str(node), "--swap", folder])[0], run_once(path, [*four, *AMPLE])[0]) for _ in range(RUNS)))
    small, ample = statistics.median(small), statistics.median(ample)
    print(f"{name} by 4 workers, on a swap file: {small:.3f} s, on an ample node {ample:.3f} s, {small / ample:.2f} times (goal: at most {goal})", flush=True)
    return f"four.{name}.ratio", small / ample, f"<={goal}"


def switches(path, words):
    """The seconds of a run, and how often its threads were put to sleep or taken off a processor."""
    before = resource.getrusage(resource.RUSAGE_CHILDREN)
    taken, _ = run_once(path, words)
    after = resource.getrusage(resource.RUSAGE_CHILDREN)
    return taken, after.ru_nvcsw + after.ru_nivcsw - before.ru_nvcsw - before.ru_nivcsw


def by_four_nodes(folder):
    """The product in tiles of 8 KiB by four workers, each on a small node of its own: transfers are about half of the time."""
    path = written(folder, product(1024, 32))
    words = ["--workers", "4", "--nodes", "4", "--node", str(192 * 1024), "--swap-size", str(64 * MIB)]
    times, counts = zip(*(switches(path, words) for _ in range(RUNS)))
    taken, switched = statistics.median(times), statistics.median(counts)
    print(f"product in tiles of 8 KiB by 4 workers on 4 nodes: {taken:.3f} s, {switched:.0f} switches", flush=True)
    return [("nodes.product.s", taken, "<", figures.TIME), ("nodes.product.switches", switched, "<", figures.TIME)]


def moved(folder, words, tile_bytes):
    """MiB that went out to a disk, and that came back."""
    with open(os.path.join(folder, "job")) as source:
        trace = subprocess.run([starjob, *words, "--trace"], stdin=source, capture_output=True, check=True).stdout
    out = len(re.findall(rb"^moved c\d+ n\d+ d\d+$", trace, re.M))
    back = len(re.findall(rb"^moved c\d+ d\d+ n\d+$", trace, re.M))
    return out * tile_bytes / MIB, back * tile_bytes / MIB


def tiled(folder, name, lines, node, goal, by_recency=None):
    lines = list(lines)
    swap = ["--swap-size", str(256 * MIB)]
    ample, _ = run(folder, lines, AMPLE + swap)
    small = ["--node", str(node)] + swap
    taken, peak = run(folder, lines, small)
    out, back = moved(folder, small, 8 * 128 * 128)
    if by_recency:
        wanted = tuple(tiles / 8 for tiles in by_recency)
        print(f"    by strict recency: {wanted[0]:.1f} MiB out, {wanted[1]:.1f} MiB in; {'the same' if wanted == (out, back) else 'NOT the same'}")
    print(f"{name}: {taken:.3f} s, on an ample node {ample:.3f} s, {taken / ample:.2f} times (goal: at most {goal}); "
          f"{out:.1f} MiB out, {back:.1f} MiB in; peak {peak:.0f} MiB", flush=True)
    key, wanted = name.split()[0].replace("shortest", "ways"), tuple(f"<={tiles / 8:g}" for tiles in by_recency or ())
    yield f"{key}.ratio", taken / ample, f"<={goal}"
    for which, value, most in zip(("out", "in"), (out, back), wanted or ("<", "<")):
        yield f"{key}.{which}_mib", value, most, 0
    yield f"{key}.peak_mib", peak, "<"


def main():
    print(f"cores: {os.cpu_count()}, load: {os.getloadavg()[0]:.1f}")
    with tempfile.TemporaryDirectory() as folder:
        rows = [*tiled(folder, "product n 2048 tile 128 at 1/8", product(2048, 128), 12 * MIB, 1.1, product_by_recency(16, 96))]
        rows += tiled(folder, "shortest ways n 2048 tile 128 at 1/8", ways(2048, 128), 4 * MIB, 1.5)
        rows.append(by_four(folder, "product", product(2048, 128), 12 * MIB, 1.15))
        rows.append(by_four(folder, "ways", ways(2048, 128), 4 * MIB, 1.5))
        rows += by_four_nodes(folder)
        for workers in (2, 4):
            words = ["--workers", str(workers), "--node", "16"]
            taken = statistics.median(run_once(written(folder, evicting(100_000)), words)[0] for _ in range(RUNS))
            print(f"100,000 tasks that evict, by {workers} workers: {taken:.3f} s", flush=True)
            rows.append((f"evictions.by_{workers}.s", taken, "<", figures.TIME))
        each = []
        for n in (10_000, 100_000):
            without, _ = run(folder, evicting(0), ["--node", "16"])
            small, peak = run(folder, evicting(n), ["--node", "16"])
            ample, _ = run(folder, evicting(n), AMPLE)
            each.append((small - without) / n * 1e6)
            rows += [(f"evictions.{n}.us", each[-1], "<", figures.TIME), (f"evictions.{n}.ratio", (small - without) / (ample - without), "<=4")]
            print(f"{n} tasks that evict: {each[-1]:.2f} us a task, {(small - without) / (ample - without):.2f} times the ample node's (goal: at most 4), peak {peak:.0f} MiB")
        print(f"ratio of a task's time at 100,000 to 10,000: {each[1] / each[0]:.2f}")
    figures.write("machine", rows)


main()
