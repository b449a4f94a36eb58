#!/usr/bin/env python3
"""Times traces: their text, reading it, and checking them.

Build both programs first, by ./run --build. The job has
100,000 tasks each of which evicts one cell of 8 bytes. Its trace is written and read by a C program, too (`plain.c`), which checks
nothing. Reading is what `trace_check` takes longer where the last line is no event than where the first isn't; checking alone, and
what memory it takes, is what it takes longer with the whole trace than where the last line is no event; writing is what `starjob`
takes longer with `--trace`. Least processor time of seven runs each. Run it by hand, on a machine that does nothing else.
Writes the figures into bench/figures.txt.
"""
import os, subprocess, sys, tempfile

here = os.path.dirname(os.path.abspath(__file__))
top = os.path.dirname(os.path.dirname(here))
sys.path.insert(0, os.path.dirname(here))
import figures

starjob = os.environ.get("STARJOB") or os.path.join(top, "bin", "starjob")
checker = os.environ.get("TRACE_CHECK") or os.path.join(top, "bin", "trace_check")
EVENTS = ("claim ", "run ", "end ", "move ", "moved ", "drop ")


def evicting(n):
    yield from (f"vector v{k} 1 fill {k} 0" for k in range(3))
    yield from (f"task scale(3) v{k % 3}:RW" for k in range(n))


def long_tasks(n):
    yield "vector x 1000000 fill 1 0"
    yield from ("task scale(3) x:RW" for _ in range(n))


def least(words, job, output=None):
    """The least processor time of the runs, in milliseconds."""
    return measured(words, job, output)[0]


def measured(words, job, output=None, runs=7):
    """The least processor time of the runs, in milliseconds, and their most memory, in bytes."""
    times, most = [], 0
    for _ in range(runs):
        with open(job) as given, open(output or os.devnull, "w") as out:
            process = subprocess.Popen(words, stdin=given, stdout=out, stderr=subprocess.DEVNULL)
            _, status, used = os.wait4(process.pid, 0)
            process.returncode = status
        times.append(1e3 * (used.ru_utime + used.ru_stime))
        most = max(most, 1024 * used.ru_maxrss)
    return min(times), most


def main():
    with tempfile.TemporaryDirectory() as folder:
        path = lambda name: os.path.join(folder, name)

        def write(name, lines):
            with open(path(name), "w") as it:
                it.writelines(line + "\n" for line in lines)
            return path(name)

        subprocess.run(["gcc", "-O3", "-o", path("plain"), os.path.join(here, "plain.c")], check=True)
        job, node = write("job", ["starjob 1", *evicting(100_000)]), ["--node", "16"]
        plain = least([starjob, *node], job)
        traced = least([starjob, *node, "--trace"], job, path("out"))
        with open(path("out")) as it:
            events = [line.rstrip("\n") for line in it if line.startswith(EVENTS)]
        whole = write("whole", events)
        first = write("first", ["no event", *events[1:]])
        last = write("last", [*events[:-1], "no event"])
        checked, most = measured([checker, *node, whole], job)
        unchecked, most_unchecked = measured([checker, *node, last], job)
        alone = checked - unchecked
        read = unchecked - least([checker, *node, first], job)
        rows = [subprocess.run([path("plain"), whole, path("copy")], capture_output=True, text=True).stdout.split() for _ in range(7)]
        c_read, c_write = min(float(row[1]) for row in rows), min(float(row[2]) for row in rows)
        print(f"{len(events)} events")
        print(f"text: {traced - plain:.1f} ms, C {c_write:.1f} ms, {(traced - plain) / c_write:.2f} times (goal: at most 2)")
        print(f"read_trace: {read:.1f} ms, C {c_read:.1f} ms, {read / c_read:.2f} times (goal: at most 2)")
        print(f"trace_check: {checked:.0f} ms, starjob {plain:.0f} ms, {checked / plain:.2f} times (goal: at most 2)")
        print(f"checking alone: {alone:.1f} ms, {alone / plain:.2f} of the run (goal: at most 0.27)")
        print(f"memory of checking: {(most - most_unchecked) / len(events):.1f} bytes an event")
        job = write("long", ["starjob 1", *long_tasks(300)])
        without, trace = least([starjob], job), least([starjob, "--trace"], job)
        print(f"--trace on 300 tasks of {without / 300:.2f} ms: {trace / without:.3f} times (goal: at most 1.1)")
    # (reading is the difference of two whole runs, so that it has their noise)
    rows = [("text.ratio", (traced - plain) / c_write, "<=2"), ("read.ratio", read / c_read, "<=2", 140)]
    figures.write("traces", [*rows, ("check.ratio", checked / plain, "<=2"), ("alone.ratio", alone / plain, "<=0.27", 40), ("flag.ratio", trace / without, "<=1.1")])


main()
