#!/usr/bin/env python3
"""Times jobs of many small tasks: how their time grows from 10,000 to 100,000 tasks.

Makes four job texts of each size: a chain of tasks on one vector of one element; many readers of one vector (print
statements) and then one writer; tasks over 100 vectors in turn; tasks that add one of 4,096 vectors to another. Runs
`starjob` (built by ./run examples/first.job) on each fifteen times, takes the least processor time less that of the job
without its tasks, and prints microseconds a task and the ratio of the two sizes' times. Run it by hand, on a machine that
does nothing else. Writes the figures into bench/figures.txt.
"""
import os, subprocess, sys, tempfile

here = os.path.dirname(os.path.abspath(__file__))
top = os.path.dirname(os.path.dirname(here))
sys.path.insert(0, os.path.dirname(here))
import figures

starjob = os.path.join(top, "bin", "starjob")
SIZES = (10_000, 100_000)


def chain(n):
    return ["vector x 1 values 1"] + ["task scale(3) x:RW"] * n


def readers(n):
    return ["vector x 1 values 1"] + ["print x"] * n + ["task scale(3) x:RW"]


def spread(n):
    names = [f"v{k}" for k in range(100)]
    return [f"vector {v} 1 values 1" for v in names] + [f"task scale(3) {names[k % 100]}:RW" for k in range(n)]


def names(n):
    names = [f"name_{k}" for k in range(4096)]
    tasks = [f"task add {names[7 * k % 4096]}:R {names[(7 * k + 1) % 4096]}:RW" for k in range(n)]
    return [f"vector {v} 1 values 1" for v in names] + tasks


def best(text):
    times = []
    with tempfile.TemporaryDirectory() as folder:
        path = os.path.join(folder, "job")
        with open(path, "w") as f:
            f.write("\n".join(["starjob 1"] + text) + "\n")
        for _ in range(15):
            with open(path) as source, open(os.path.join(folder, "out"), "w") as sink:
                child = subprocess.Popen([starjob], stdin=source, stdout=sink)
                _, status, usage = os.wait4(child.pid, 0)
                times.append(usage.ru_utime + usage.ru_stime)
                if status != 0:
                    sys.exit(f"starjob ended with {status}")
    return min(times)


def main():
    print(f"cores: {os.cpu_count()}, load: {os.getloadavg()[0]:.1f}")
    rows = []
    for make in (chain, readers, spread, names):
        empty = best(make(0))
        few, many = (best(make(n)) - empty for n in SIZES)
        print(
            f"{make.__name__}: {few / SIZES[0] * 1e6:.2f} us a task of {SIZES[0]}, "
            f"{many / SIZES[1] * 1e6:.2f} us of {SIZES[1]}, ratio of times {many / few:.1f}"
        )
        for size, taken, goal in zip(SIZES, (few, many), ("<", "<=1.3")):
            rows.append((f"{make.__name__}.{size}.us", taken / size * 1e6, goal, figures.TIME))
        rows.append((f"{make.__name__}.growth", many / few, "<=11"))
    figures.write("tasks", rows)


main()
