#!/usr/bin/env python3
"""Runs jobs with allocations refused, and looks at what comes of it.

    bench/memory/run.py [--from | --chance RUNS | --limits | --check] [--swap FOLDER]

Without a word: each example with each of its allocations refused in turn. With --from each example with all refused from one on, at some
fifty places. With --chance so many runs of the examples by four workers on two small nodes, where each allocation is refused with the
probability 1/50. With --limits a large job by one and by four workers with 32 to 512 MiB of address space. With --check the program
trace_check in place of starjob, which shows each example's text and its program, and judges the trace of its run, with each of its
allocations refused in turn. With --swap all runs but those of --limits and --check have a swap file in this folder, in which nothing else may
be, and two small nodes, so that a disk's calls meet refused memory.

A run that is refused memory ends with 10 and writes nothing, or is as without: its output whole and status 0. None takes longer than
twenty seconds. Build the programs first, by ./run --build; STARJOB and TRACE_CHECK may name others.
"""
import argparse, collections, glob, os, random, resource, subprocess, sys, tempfile

here = os.path.dirname(os.path.abspath(__file__))
top = os.path.dirname(os.path.dirname(here))
sys.path.insert(0, os.path.dirname(here))
import figures

starjob = os.environ.get("STARJOB", os.path.join(top, "bin", "starjob"))
trace_check = os.environ.get("TRACE_CHECK", os.path.join(top, "bin", "trace_check"))
LONGEST = 20
MEBIBYTE = 1 << 20


def run(job, words=(), shim=None, limit=None, program=starjob, **more):
    environment = {**os.environ, **{name: str(value) for name, value in more.items()}}
    if shim:
        environment["LD_PRELOAD"] = shim
    bound = limit and (lambda: resource.setrlimit(resource.RLIMIT_AS, (limit, limit)))
    try:
        return subprocess.run([program, *words], input=job, capture_output=True, env=environment, timeout=LONGEST, preexec_fn=bound)
    except subprocess.TimeoutExpired:
        return None


class Count:
    """What came of the runs so far."""

    def __init__(self):
        self.refused, self.whole, self.failed = 0, 0, 0

    def judge(self, what, got, wanted):
        if got is None:
            print(f"FAILED {what}: it hangs")
            self.failed += 1
        elif got.returncode == 10 and got.stdout == b"" and got.stderr in (b"", b"starjob: out of memory\n", b"out of memory\n"):
            self.refused += 1
        elif (got.returncode, got.stdout, got.stderr) == (0, wanted, b""):
            self.whole += 1
        else:
            print(f"FAILED {what}: {got}")
            self.failed += 1

    def told(self, what):
        print(f"{what}: {self.refused} refused runs, {self.whole} whole, {self.failed} failed", flush=True)


def examples():
    for path in sorted(glob.glob(os.path.join(top, "examples", "*.job"))):
        with open(path, "rb") as job:
            yield os.path.basename(path), job.read()


def counted(shim, folder, job, words, program=starjob):
    """What a job prints, and how many allocations it asks for."""
    told = os.path.join(folder, "count")
    wanted = run(job, words, shim, program=program, COUNT=told).stdout
    with open(told, "rb") as count:
        return wanted, int.from_bytes(count.read(), sys.byteorder)


def each_in_turn(shim, folder, swap):
    failed = 0
    for name, job in examples():
        words = words_for(job, 1, swap) if swap else []
        (wanted, total), count = counted(shim, folder, job, words), Count()
        for number in range(1, total + 1):
            count.judge(f"{name}: allocation {number}", run(job, words, shim, REFUSE=number), wanted)
        count.told(f"{name}, {total} allocations")
        failed += count.failed
    print(f"{failed} failed")
    figures.write("memory", [("swap.failed" if swap else "failed", failed, "<=0", 0)])
    return failed


def each_in_turn_of_check(shim, folder):
    failed, trace = 0, os.path.join(folder, "trace")
    for name, job in examples():
        printed = run(job).stdout
        with open(trace, "wb") as events:
            events.write(run(job, ["--trace"]).stdout[len(printed) :])
        for words in (["--text"], ["--program"], [trace]):
            (wanted, total), count = counted(shim, folder, job, words, trace_check), Count()
            for number in range(1, total + 1):
                count.judge(f"{name} {words[0]}: allocation {number}", run(job, words, shim, program=trace_check, REFUSE=number), wanted)
            count.told(f"{name} {os.path.basename(words[0])}, {total} allocations")
            failed += count.failed
    print(f"{failed} failed")
    figures.write("memory", [("check.failed", failed, "<=0", 0)])
    return failed


def all_from_one_on(shim, folder, swap):
    failed = 0
    for name, job in examples():
        words = words_for(job, 1, swap) if swap else []
        (wanted, total), count = counted(shim, folder, job, words), Count()
        for number in range(1, total + 1, max(1, total // 50)):
            count.judge(f"{name}: from {number} on", run(job, words, shim, REFUSE_FROM=number), wanted)
        count.told(f"{name}, {total} allocations")
        failed += count.failed
    return failed


def words_for(job, workers, swap):
    """So many workers on two nodes, as large as the job's greatest task: the refusal of a node that is too small says how large."""
    words = ["--workers", str(workers), "--nodes", "2", *(["--swap", swap] if swap else [])]
    node = 8
    said = run(job, [*words, "--node", str(node)]).stderr.decode()
    while "needs" in said and "one node" in said:
        node = int(said.split("needs ")[1].split()[0])
        said = run(job, [*words, "--node", str(node)]).stderr.decode()
    return [*words, "--node", str(node)]


def by_chance(shim, runs, swap):
    jobs = [(name, job, words_for(job, 4, swap), run(job).stdout) for name, job in examples()]
    count, rng = Count(), random.Random(1)
    for seed in range(1, runs + 1):
        name, job, words, wanted = rng.choice(jobs)
        count.judge(f"{name}, seed {seed}", run(job, words, shim, REFUSE_ONE_IN=50, SEED=seed), wanted)
    count.told(f"{runs} runs by chance")
    return count.failed


def large(side=1024, parts=4):
    """A product of matrices of 8 MiB each, in 64 tasks."""
    lines = ["starjob 1"] + [f"matrix {name} {side} {side} by {parts} {parts} fill {k} {k}" for k, name in enumerate("ABC")]
    cells = range(parts)
    lines += [f"task gemm A[{i},{k}]:R B[{k},{j}]:R C[{i},{j}]:RW" for i in cells for j in cells for k in cells]
    lines += ["vector s 1 fill 0 0", "plan C 1 1", "task sum C:R s:RW", "print s"]
    return ("\n".join(lines) + "\n").encode()


def within_limits():
    job, failed = large(), 0
    wanted = run(job).stdout
    for workers in (1, 4):
        ends = []
        for mebibytes in (32, 48, 64, 96, 128, 192, 256, 384, 512):
            count = Count()
            got = run(job, ["--workers", str(workers), "--swap-size", str(64 * MEBIBYTE)], limit=mebibytes * MEBIBYTE)
            count.judge(f"{mebibytes} MiB, {workers} workers", got, wanted)
            ends.append(f"{mebibytes} MiB {'done' if count.whole else 'status 10' if count.refused else 'FAILED'}")
            failed += count.failed
        print(f"{workers} workers: {', '.join(ends)}")
    return failed


def main():
    words = argparse.ArgumentParser(description=__doc__, formatter_class=argparse.RawDescriptionHelpFormatter)
    words.add_argument("--from", action="store_true", dest="from_one_on")
    words.add_argument("--chance", type=int)
    words.add_argument("--limits", action="store_true")
    words.add_argument("--check", action="store_true")
    words.add_argument("--swap")
    given = words.parse_args()
    with tempfile.TemporaryDirectory() as folder:
        shim = os.path.join(folder, "refuse.so")
        subprocess.run(["gcc", "-O1", "-shared", "-fPIC", "-o", shim, os.path.join(here, "refuse.c")], check=True)
        if given.limits:
            failed = within_limits()
        elif given.check:
            failed = each_in_turn_of_check(shim, folder)
        elif given.chance:
            failed = by_chance(shim, given.chance, given.swap)
        else:
            failed = (all_from_one_on if given.from_one_on else each_in_turn)(shim, folder, given.swap)
    left = os.listdir(given.swap) if given.swap else []
    if left:
        print(f"FAILED: in {given.swap} stays {', '.join(left)}")
        failed += len(left)
    sys.exit(failed != 0)


main()
