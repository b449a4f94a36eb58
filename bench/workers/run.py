#!/usr/bin/env python3
"""Times jobs by several workers: small tasks, the product, shortest ways, a chain, forks and joins, phases of one contribution by
many workers, and workers with nothing to do.

Build `starjob` first, by ./run examples/first.job, on a machine of four processors that does nothing else. Wall time of whole
runs, best of five unless a number is given, less that of the job without its tasks where these are small. How long these take to
read is known from the same text with a last line that is refused. The runs of small tasks, and StarPU's, take turns, since a
machine that others share goes at different speeds from one minute to the next. C's plain loops for the shortest ways are those of
bench/jobs (order.c). Writes the figures into bench/figures.txt.
"""
import os, subprocess, sys, tempfile, time

here = os.path.dirname(os.path.abspath(__file__))
top = os.path.dirname(os.path.dirname(here))
sys.path.insert(0, os.path.dirname(here))
import figures

starjob = os.path.join(top, "bin", "starjob")
RUNS = int(sys.argv[1]) if len(sys.argv) > 1 else 5


def run_once(folder, lines, workers, swap=2**20, wanted=0, on=None):
    """The wall seconds and the processor seconds of a run that ends with the wanted status."""
    path = os.path.join(folder, "job")
    with open(path, "w") as f:
        f.write("\n".join(["starjob 1", *lines]) + "\n")
    words = ["--workers", str(workers), "--swap-size", str(swap), "--node", str(2**30)]
    bound = None if on is None else lambda: os.sched_setaffinity(0, on)
    with open(path) as source:
        started = time.monotonic()
        said = subprocess.DEVNULL if wanted else None
        child = subprocess.Popen([starjob, *words], stdin=source, stdout=subprocess.DEVNULL, stderr=said, preexec_fn=bound)
        _, status, usage = os.wait4(child.pid, 0)
        wall = time.monotonic() - started
    if os.waitstatus_to_exitcode(status) != wanted:
        sys.exit(f"starjob {' '.join(words)} ended with {status}")
    return wall, usage.ru_utime + usage.ru_stime


def run(folder, lines, workers, swap=2**20, on=None):
    """The least wall seconds, and the least processor seconds, of some runs, on these processors or on all."""
    lines = list(lines)
    walls, works = zip(*(run_once(folder, lines, workers, swap, on=on) for _ in range(RUNS)))
    return min(walls), min(works)


def starpu(folder):
    """StarPU's program, or None where it isn't installed."""
    flags = subprocess.run(["pkg-config", "--cflags", "--libs", "starpu-1.3"], capture_output=True, text=True)
    if flags.returncode != 0:
        return None
    program = os.path.join(folder, "starpu")
    subprocess.run(["cc", "-O2", os.path.join(here, "starpu.c"), "-o", program, *flags.stdout.split()], check=True)
    return program


def starpu_time(program, workers):
    environment = {**os.environ, "STARPU_SILENT": "1"}
    return float(subprocess.check_output([program, str(workers)], env=environment))


def product(n, tile):
    p = n // tile
    yield from (f"matrix A {n} {n} by {p} {p} fill 1 1", f"matrix B {n} {n} by {p} {p} fill 5 -2", f"matrix C {n} {n} by {p} {p} fill 0 0")
    yield from (
        f"task gemm A[{i},{k}]:R B[{k},{j}]:R C[{i},{j}]:RW" for i in range(p) for j in range(p) for k in range(p)
    )


def ways(n, tile):
    p = n // tile
    yield f"matrix D {n} {n} by {p} {p} fill 0 7"
    for k in range(p):
        others = [i for i in range(p) if i != k]
        yield f"task fwdiag D[{k},{k}]:RW"
        yield from (f"task fwrow D[{k},{k}]:R D[{k},{j}]:RW" for j in others)
        yield from (f"task fwcol D[{k},{k}]:R D[{i},{k}]:RW" for i in others)
        yield from (f"task mingemm D[{i},{k}]:R D[{k},{j}]:R D[{i},{j}]:RW" for i in others for j in others)


def small(n):
    yield from (f"vector v{k} 1 fill {k} 0" for k in range(100))
    yield from (f"task scale(3) v{k % 100}:RW" for k in range(n))


def chain(n):
    yield "vector x 1 fill 1 0"
    yield from ["task scale(3) x:RW"] * n


def fork_join(rounds):
    """Four tasks that read one array, each into its own, and four that write it, one after the other, and so on."""
    yield from (f"vector v{k} 1 fill {k} 0" for k in range(5))
    for _ in range(rounds):
        yield from (f"task axpy(1) v4:R v{k}:RW" for k in range(4))
        yield from (f"task axpy(1) v{k}:R v4:RW" for k in range(4))


def phases(n):
    """Each a single contribution, which a look at the array closes: two tasks for each worker beside it."""
    yield from ("vector s 1 fill 0 0", "redux s plus", "vector v 1 fill 1 0", "vector out 1 fill 0 0")
    yield from ["task dot v:R v:R s:REDUX", "task axpy(1) s:R out:RW"] * n


def long_chain(n):
    yield "matrix A 512 512 fill 1 1"
    yield "matrix B 512 512 fill 1 1"
    yield "matrix C 512 512 fill 0 0"
    yield from ["task gemm A:R B:R C:RW"] * n


def small_tasks(folder, program):
    """For each number of workers the microseconds that a small task takes, how many of them are reading, and StarPU's."""
    texts = [([*small(n), *refused], wanted) for refused, wanted in (([], 0), (["task"], 3)) for n in (0, 100_000)]
    counts = 1, 2, 4
    walls = {workers: [[] for _ in texts] for workers in counts}
    theirs = {workers: [] for workers in counts}
    for _ in range(RUNS):
        for workers in counts:
            for wall, (lines, wanted) in zip(walls[workers], texts):
                wall.append(run_once(folder, lines, workers, wanted=wanted)[0])
            if program:
                theirs[workers].append(starpu_time(program, workers))
    for workers in counts:
        nothing, whole, no_lines, read = map(min, walls[workers])
        yield workers, (whole - nothing) * 10, (read - no_lines) * 10, min(theirs[workers], default=None)


def main():
    print(f"cores: {os.cpu_count()}, load: {os.getloadavg()[0]:.1f}")
    with tempfile.TemporaryDirectory() as folder:
        program = starpu(folder)
        first, rows = None, []
        for workers, taken, read, theirs in small_tasks(folder, program):
            first = first or taken
            other = f"; StarPU: {theirs:.2f}, a third: {theirs / 3:.2f}" if theirs else ""
            print(
                f"100,000 tasks by {workers}: {taken:.2f} us a task, {taken / first:.2f} times one worker's, "
                f"{taken - read:.2f} without reading{other}",
                flush=True,
            )
            rows += [(f"small.{workers}.us", taken, "<", figures.TIME), (f"unread.{workers}.us", taken - read, "<", figures.TIME)]
            if workers == 4:
                rows.append(("small.4.growth", taken / first, "<=1.5"))
            if theirs:
                rows.append((f"unread.{workers}.of_starpu", (taken - read) / theirs, "<=0.333"))
        for tile, goal in ((256, 0.93), (128, 0.90)):
            one, _ = run(folder, product(2048, tile), 1, 2**27)
            four, _ = run(folder, product(2048, tile), 4, 2**27)
            print(f"product n 2048 tile {tile}: {one:.3f} s by 1, {four:.3f} s by 4, {one / four / 4:.2f} of 4 (goal: at least {goal})", flush=True)
            rows.append((f"product.{tile}.of_4", one / four / 4, f">={goal}"))
        for workers in (1, 4):
            taken, _ = run(folder, ways(480, 20), workers, 2**22)
            print(f"shortest ways n 480 tile 20 by {workers}: {taken:.3f} s", flush=True)
            rows.append((f"ways.{workers}.s", taken, "<", figures.TIME))
        _, one = run(folder, chain(10_000), 1)
        _, four = run(folder, chain(10_000), 4)
        print(f"chain of 10,000: {one:.3f} s of processors by 1, {four:.3f} s by 4, {four / one:.2f} times (goal: at most 1.3)", flush=True)
        rows.append(("chain.ratio", four / one, "<=1.3"))
        for workers in (1, 4):
            taken, used = run(folder, fork_join(1000), workers)
            print(f"1,000 forks and joins by {workers}: {taken:.3f} s, {used:.3f} s of processors", flush=True)
            rows += [(f"forks.{workers}.s", taken, "<", figures.TIME), (f"forks.{workers}.processors", used, "<", figures.TIME)]
        one_processor = {min(os.sched_getaffinity(0))}
        _, few = run(folder, phases(1000), 16, on=one_processor)
        _, many = run(folder, phases(1000), 64, on=one_processor)
        print(f"1,000 phases on one processor: {few:.3f} s of it by 16 workers, {many:.3f} by 64, {many / few:.2f} times (goal: at most 4)", flush=True)
        taken, used = run(folder, phases(1000), 64)
        print(f"1,000 phases by 64 workers on four: {taken:.3f} s (goal: at most 0.5), {used:.3f} s of processors", flush=True)
        rows += [("phases.ratio", many / few, "<=4", figures.TIME), ("phases.64.s", taken, "<=0.5", figures.TIME)]
        wall, one = run(folder, long_chain(8), 1, 2**24)
        _, four = run(folder, long_chain(8), 4, 2**24)
        print(f"a chain of {wall:.1f} s: 3 idle workers take {(four - one) / wall:.3f} s of processors a second (goal: at most 0.05)")
        rows.append(("idle.of_a_processor", (four - one) / wall, "<=0.05", 400))
    figures.write("workers", rows)


main()
