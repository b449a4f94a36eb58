#!/usr/bin/env python3
"""Compares reading, running and printing large job texts with a plain C program.

Makes three texts of 64 MiB, one of vectors with 16 million values, one of a matrix with as many in one line, and one of
262,144 statement lines, runs `starjob` (built by `rt run` in crates/starjob) and the C program on each, five times, and
prints the ratio of the best times, of processor times too, and starjob's peak memory as a multiple of the text. Run it
by hand, on a machine that does nothing else. Writes the figures into bench/figures.txt.
"""
import filecmp, os, subprocess, sys, tempfile, time

here = os.path.dirname(os.path.abspath(__file__))
top = os.path.dirname(os.path.dirname(here))
sys.path.insert(0, os.path.dirname(here))
import figures

starjob = os.path.join(top, "bin", "starjob")
LIMIT = 67_108_864
# the values take 128 MiB as cells, more than the swap disk has without words
SWAP = ["--swap-size", str(160 * 1024 * 1024)]


def values(path):
    with open(path, "w") as f:
        f.write("starjob 1\n")
        left = LIMIT - 2000
        for k in range(16):
            n = min(1_048_576, left // 4)
            left -= 4 * n
            f.write(f"vector v{k} {n} values" + " 123" * n + "\n")
        for k in range(16):
            f.write(f"print v{k}\n")


def matrix(path):
    with open(path, "w") as f:
        f.write("starjob 1\nmatrix A 16 1048575 values" + " 123" * (16 * 1_048_575) + "\nprint A\n")


def lines(path):
    with open(path, "w") as f:
        f.write("starjob 1\nvector x 3 values 1 2 3\nvector y 3 values 10 20 30\n")
        for _ in range(262_141):
            f.write("task add x:R y:RW".ljust(254) + "\n")
        f.write("print y\n")


def best(command, path, out):
    times, busy, peak = [], [], 0
    for _ in range(5):
        with open(path) as source, open(out, "w") as sink:
            start = time.perf_counter()
            child = subprocess.Popen(command, stdin=source, stdout=sink)
            _, status, usage = os.wait4(child.pid, 0)
            times.append(time.perf_counter() - start)
            busy.append(usage.ru_utime + usage.ru_stime)
            peak = max(peak, usage.ru_maxrss * 1024)
            if status != 0:
                sys.exit(f"{command} ended with {status}")
    return min(times), min(busy), peak


TEXTS = {"values": values, "matrix": matrix, "lines": lines}
GOALS = {"values": "<=1", "matrix": "<=1", "lines": "<=2.5"}


def main():
    if len(sys.argv) == 3:
        TEXTS[sys.argv[1]](sys.argv[2])
        return
    with tempfile.TemporaryDirectory() as folder:
        plain = os.path.join(folder, "plain")
        subprocess.run(["gcc", "-O3", "-o", plain, os.path.join(here, "plain.c")], check=True)
        print(f"cores: {os.cpu_count()}, load: {os.getloadavg()[0]:.1f}")
        rows = []
        for name in TEXTS:
            path = os.path.join(folder, name)
            # by a process of its own: the peak of a child counts what its parent has held when it began
            subprocess.run([sys.executable, __file__, name, path], check=True)
            ours, theirs = os.path.join(folder, "ours"), os.path.join(folder, "theirs")
            time_ours, busy_ours, peak = best([starjob, *SWAP], path, ours)
            time_theirs, busy_theirs, _ = best([plain], path, theirs)
            same = filecmp.cmp(ours, theirs, shallow=False)
            size = os.path.getsize(path)
            print(
                f"{name}: text {size} bytes, starjob {time_ours:.3f} s, C {time_theirs:.3f} s, "
                f"ratio {time_ours / time_theirs:.2f}, of processor time {busy_ours / busy_theirs:.2f}, "
                f"peak {peak / size:.1f} times the text, same output: {same}"
            )
            rows += [(f"{name}.ratio", time_ours / time_theirs, GOALS[name]), (f"{name}.peak", peak / size, "<=5")]
    figures.write("reading", rows)


main()
