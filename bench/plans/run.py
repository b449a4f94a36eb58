#!/usr/bin/env python3
"""Times changes of plans in whole jobs against C's memcpy row by row (rows.c), and the late limits.

Build `starjob` first, by ./run examples/first.job. The processor time of a job counts, less that of the same job without its
plan lines; the best of some runs, five unless a number is given. Peak memory is the process's own. Writes the figures into
bench/figures.txt.
"""
import os, subprocess, sys, tempfile

here = os.path.dirname(os.path.abspath(__file__))
top = os.path.dirname(os.path.dirname(here))
sys.path.insert(0, os.path.dirname(here))
import figures

starjob = os.path.join(top, "bin", "starjob")
RUNS = int(sys.argv[1]) if len(sys.argv) > 1 else 5
# two plans of one matrix take 256 MiB as cells, and their blocks a little more
MIB = 1024 * 1024
MACHINE = ["--node", str(512 * MIB)]


def run(folder, lines, said=None, swap=16 * MIB):
    """The least processor seconds, and the greatest peak in MiB; the line on standard error has to be `said`."""
    path = os.path.join(folder, "job")
    with open(path, "w") as f:
        f.write("\n".join(["starjob 1"] + lines) + "\n")
    times, peak = [], 0
    for _ in range(RUNS):
        with open(path) as source, open(os.path.join(folder, "err"), "w") as err:
            child = subprocess.Popen([starjob, *MACHINE, "--swap-size", str(swap)], stdin=source, stdout=subprocess.DEVNULL, stderr=err)
            _, status, usage = os.wait4(child.pid, 0)
        with open(os.path.join(folder, "err")) as f:
            got = f.read()
        if (status != 0) != (said is not None) or (said or "") not in got:
            sys.exit(f"starjob ended with {status} and said {got}")
        times.append(usage.ru_utime + usage.ru_stime)
        peak = max(peak, usage.ru_maxrss / 1024)
    return min(times), peak


def main():
    print(f"cores: {os.cpu_count()}, load: {os.getloadavg()[0]:.1f}")
    with tempfile.TemporaryDirectory() as folder:
        rows = os.path.join(folder, "rows")
        subprocess.check_call(["gcc", "-O3", "-o", rows, os.path.join(here, "rows.c")])
        c = int(subprocess.check_output([rows], text=True).split()[0]) / 1e9
        array = ["matrix M 4096 4096 by 64 64 fill 1 1"]
        without, _ = run(folder, array, swap=320 * MIB)
        with_plans, peak = run(folder, array + ["plan M 1 1", "plan M 64 64"], swap=320 * MIB)
        ours = with_plans - without
        print(f"64 by 64 parts to 1 by 1 and back: {ours:.3f} s, C {c:.3f} s, {ours / c:.2f} times C's (goal: at most 2.5), peak {peak:.0f} MiB")
        rows = [("parts.ratio", ours / c, "<=2.5"), ("parts.peak_mib", peak, "<")]
        cells = [f"matrix A{k} 64 64 by 64 64 none" for k in range(64)]
        taken, peak = run(folder, cells)
        print(f"262,144 cells in 65 lines: {taken:.3f} s (goal: below 0.3), peak {peak:.0f} MiB (goal: below 200)")
        rows += [("cells.s", taken, "<=0.3", figures.TIME), ("cells.peak_mib", peak, "<=200")]
        turns = [f"plan A 4096 1", f"plan A 1 4096"] * 30
        taken, peak = run(folder, ["matrix A 4096 4096 fill 0 1"] + turns, "limit Tasks")
        print(f"a job of 10^9 pastes, refused: {taken:.3f} s, peak {peak:.0f} MiB")
        rows += [("refused.s", taken, "<", figures.TIME), ("refused.peak_mib", peak, "<")]
    figures.write("plans", rows)


main()
