#!/usr/bin/env python3
"""Random jobs at 2 to 64 workers with small nodes, each compared with what one worker prints on an ample node.

    bench/stress/run.py [--jobs N | --hours H] [--seed S] [--kinds K,K,..] [--busy K] [--swap FOLDER]
                        [--keep FOLDER] [--tries RUNS] [--minutes M]

Build both programs first, by ./run --build; STARJOB and TRACE_CHECK may name others. Each job is run once by one worker; then by a
random number of workers, under a random policy, with one to four nodes that hold between once and four times its greatest task. What
is printed has to be the same. Its seed makes a job and its words; by several workers threads decide the rest. The kinds, of which each
job takes one:

    plain          a swap of memory
    contributions  the same, with REDUX and COMMUTE operands
    file           a swap file in a folder of --swap, or of the system's temporary one
    slow           the same, on a disk each of whose calls sleeps for up to two milliseconds (slow.c, by gcc)
    filling        the same, on a disk that is full some way on: the job is done, or ends with a disk's fault and nothing printed
    full           a swap that takes nothing: the job is done, or ends with a disk's fault and nothing printed
    memory         little address space: the job is done, or ends for want of memory and nothing printed
    trace          with the trace of the run, which trace_check has to find legal and complete

--swap on a small file system makes disks that fail: then `file` may end with a disk's fault, too. A run that takes a hundred times one
worker's time, and ten seconds at least, counts as one that hangs. --busy keeps K processors taken by other work. A job that fails is kept in
--keep with the command that runs it, and a second time made small: lines, words and options are left out, and numbers made less, as long as
it goes on failing in the same way, until none of these can be (small.py), or after --tries runs or --minutes of it. Each hour a line says
how far it is; the last line is a summary, also of a run that is interrupted; the exit code is 1 where a job failed.
"""
import argparse, collections, os, random, re, resource, subprocess, sys, tempfile, time

from jobs import Job
from small import Bound, made_small

HERE = os.path.dirname(os.path.abspath(__file__))
TOP = os.path.dirname(os.path.dirname(HERE))
STARJOB = os.environ.get("STARJOB", os.path.join(TOP, "bin", "starjob"))
TRACE_CHECK = os.environ.get("TRACE_CHECK", os.path.join(TOP, "bin", "trace_check"))
DONE, DISK_FAULT, DAMAGED, OUT_OF_MEMORY = 0, 6, 7, 10
KINDS = ["plain", "contributions", "file", "slow", "filling", "full", "memory", "trace"]
EVENT = re.compile(rb"^(claim|run|end) t\d+ w\d+$|^moved? c\d+ [nd]\d+ [nd]\d+$|^drop c\d+ n\d+$")
# how often a job is run again that failed, before it counts as one that doesn't fail
TRIES = 10

Case = collections.namedtuple("Case", "kind words limit fake may_end lines")
Ended = collections.namedtuple("Ended", "status printed said seconds")


def run(words, lines, seconds, limit=None, fake=None):
    """How a run of these lines ends; no status where it hangs. A fake is what the environment has for slow.c."""
    bound = limit and (lambda: resource.setrlimit(resource.RLIMIT_AS, (limit, limit)))
    started, text = time.monotonic(), ("\n".join(lines) + "\n").encode()
    try:
        environment = {**os.environ, **(fake or {})}
        ended = subprocess.run([STARJOB] + words, input=text, capture_output=True, timeout=seconds, preexec_fn=bound, env=environment)
    except subprocess.TimeoutExpired:
        return Ended(None, b"", b"", seconds)
    return Ended(ended.returncode, ended.stdout, ended.stderr, time.monotonic() - started)


def case_of(rng, kind, folder):
    """A job of this kind, and the words of its run."""
    job = Job(rng, kind == "contributions" or (kind != "plain" and rng.random() < 0.5))
    node = max(8, int(job.footprint * rng.choice([1, 1, 1.5, 2, 4])))
    words = ["--workers", str(rng.choice([2, 3, 4, 8, 16, 64])), "--sched", rng.choice(["eager", "prio", "ws"])]
    words += ["--node", str(node), "--nodes", str(rng.randint(1, 4)), "--swap-size", "1048576"]
    limit, fake, may_end = None, {}, [DONE]
    if kind in ("slow", "filling"):
        words += ["--swap", folder]
        fake = {"LD_PRELOAD": os.path.join(folder, "slow.so"), "SLOW": str(rng.choice([20, 200, 2000]))}
    if kind == "filling":
        fake, may_end = {**fake, "ROOM": str(rng.randint(1, 4096))}, [DONE, DISK_FAULT]
    if kind == "file":
        words, may_end = words + ["--swap", folder], [DONE, DISK_FAULT, DAMAGED]
    if kind == "full":
        words, may_end = words + ["--swap", "/dev/full"], [DONE, DISK_FAULT]
    if kind == "memory":
        # the loader wants more than 2 MiB for the C library, before the program begins
        limit, may_end = rng.randint(4, 48) << 20, [DONE, OUT_OF_MEMORY]
    if kind == "trace":
        words += ["--trace"]
    return Case(kind, words, limit, fake, may_end, job.lines)


def illegal(case, events):
    """What trace_check says against the events of a run, or nothing."""
    with tempfile.NamedTemporaryFile() as trace:
        trace.write(b"".join(event + b"\n" for event in events))
        trace.flush()
        words = [word for word in case.words if word != "--trace"]
        text = ("\n".join(case.lines) + "\n").encode()
        said = subprocess.run([TRACE_CHECK, *words, trace.name], input=text, capture_output=True)
        return None if said.returncode == 0 else "has an illegal trace: " + (said.stdout + said.stderr).decode().strip()


def fault_of(case, ended, wanted):
    """What is wrong with a run, or nothing."""
    if ended.status is None:
        return "hangs"
    if ended.status not in case.may_end:
        return f"ends with {ended.status}: {ended.said.decode(errors='replace').strip()}"
    if ended.status != DONE:
        return None if ended.printed == b"" else "prints something though it isn't done"
    lines = ended.printed.split(b"\n")
    printed = b"\n".join(line for line in lines if not EVENT.match(line))
    if printed != wanted:
        return "prints something else"
    return illegal(case, [line for line in lines if EVENT.match(line)]) if case.kind == "trace" else None


def tried(case):
    """How a case ends by one worker and then as it asks, and what is wrong with that, or nothing."""
    alone = run([], case.lines, 60)
    if alone.status != DONE:
        return alone, alone, f"ends with {alone.status} by one worker: {alone.said.decode(errors='replace').strip()}"
    ended = run(case.words, case.lines, max(10, 100 * alone.seconds), case.limit, case.fake)
    return alone, ended, fault_of(case, ended, alone.printed)


def sort_of(fault):
    """What kind of fault it is, without what a program said."""
    return fault.split(":")[0]


def fails_so(sort, bound):
    """Whether a case fails in this way, in some tries."""
    def fails(case):
        for _ in range(TRIES):
            bound.used += 1
            fault = tried(case)[2]
            if fault and sort_of(fault) == sort:
                return True
            if bound.is_over():
                break
        return False
    return fails


def kept(case, name, folder):
    """Where a case is kept, with the command that runs it."""
    os.makedirs(folder, exist_ok=True)
    path = os.path.join(folder, name + ".job")
    with open(path, "w") as job:
        job.write("\n".join(case.lines) + "\n")
    bound = f"ulimit -v {case.limit >> 10}; " if case.limit else ""
    fake = "".join(f"{name}={value} " for name, value in case.fake.items())
    return f"{bound}{fake}{STARJOB} {' '.join(case.words)} < {path}"


class Tally:
    """What came of the jobs so far."""

    def __init__(self):
        self.began, self.jobs, self.bad, self.slowest = time.monotonic(), collections.Counter(), 0, 0.0
        self.ends = collections.Counter()

    def hours(self):
        return (time.monotonic() - self.began) / 3600

    def count(self, case, alone, ended):
        self.jobs[case.kind] += 1
        self.ends[ended.status] += 1
        self.slowest = max(self.slowest, ended.seconds / max(alone.seconds, 0.01))

    def summary(self, seed):
        kinds = ", ".join(f"{count} {kind}" for kind, count in self.jobs.items())
        ends = f"{self.ends[DISK_FAULT] + self.ends[DAMAGED]} ended with a disk's fault, {self.ends[OUT_OF_MEMORY]} for want of memory"
        return (f"{sum(self.jobs.values())} jobs ({kinds}) from seed {seed} on in {60 * self.hours():.0f} minutes: {self.bad} wrong; "
                f"{ends}; the slowest took {self.slowest:.1f} times one worker's time")


def told(given, case, number, fault):
    """Says what failed, makes it small, and keeps it."""
    name = f"stress-{given.seed}-{number}"
    print(f"job {number}, {case.kind}, {fault}\n  {kept(case, name, given.keep)}", flush=True)
    bound = Bound(given.tries, 60 * given.minutes)
    small, is_least = made_small(case, fails_so(sort_of(fault), bound), bound)
    least = "the least" if is_least else "not to the least"
    print(f"  made small in {bound.used} runs, {least}, {len(small.lines)} of {len(case.lines)} lines: "
          f"{kept(small, name + '-small', given.keep)}", flush=True)


def goes_on(given, tally):
    done = sum(tally.jobs.values())
    return tally.hours() < given.hours if given.hours else done < given.jobs


def try_all(given, folder):
    tally = Tally()
    try:
        try_each(given, folder, tally)
    except KeyboardInterrupt:
        print("interrupted")
    print(tally.summary(given.seed))
    return tally.bad


def try_each(given, folder, tally):
    number, said = 0, 0
    while goes_on(given, tally):
        rng = random.Random(given.seed * 1_000_000 + number)
        case = case_of(rng, rng.choice(given.kinds), folder)
        alone, ended, fault = tried(case)
        tally.count(case, alone, ended)
        if fault:
            tally.bad += 1
            told(given, case, number, fault)
        number += 1
        if tally.hours() > said + 1:
            said = tally.hours()
            print(f"so far: {tally.summary(given.seed)}", flush=True)


def main():
    words = argparse.ArgumentParser(description=__doc__, formatter_class=argparse.RawDescriptionHelpFormatter)
    words.add_argument("--jobs", type=int, default=10_000)
    words.add_argument("--hours", type=float)
    words.add_argument("--seed", type=int, default=1)
    words.add_argument("--kinds", type=lambda text: text.split(","), default=KINDS)
    words.add_argument("--busy", type=int, default=0)
    words.add_argument("--tries", type=int, default=20_000)
    words.add_argument("--minutes", type=float, default=10)
    words.add_argument("--swap")
    words.add_argument("--keep", default=os.path.join(tempfile.gettempdir(), "stress"))
    given = words.parse_args()
    if unknown := [kind for kind in given.kinds if kind not in KINDS]:
        sys.exit(f"unknown kind {unknown[0]}: there are {', '.join(KINDS)}")
    busy = [subprocess.Popen([sys.executable, "-c", "while True: pass"]) for _ in range(given.busy)]
    try:
        with tempfile.TemporaryDirectory(dir=given.swap) as folder:
            if {"slow", "filling"} & set(given.kinds):
                made = ["gcc", "-O2", "-shared", "-fPIC", os.path.join(HERE, "slow.c"), "-o", os.path.join(folder, "slow.so")]
                subprocess.run(made, check=True)
            sys.exit(try_all(given, folder) != 0)
    finally:
        for child in busy:
            child.kill()


if __name__ == "__main__":
    main()
