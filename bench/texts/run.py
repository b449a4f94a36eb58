#!/usr/bin/env python3
"""Job texts that are made to break a reader.

    bench/texts/run.py [--prefixes] [--bytes] [--step N] [--sizes] [--instructions] [--memory] [--limits]

Build both programs first, by ./run --build; STARJOB and TRACE_CHECK may name others. Without a word all of them are done.

    --prefixes  each prefix of each example, read and run
    --bytes     each byte of each example changed to each of the 255 others, read; with --step N every Nth of these
    --limits    lines, names, numbers and counts at each limit and one beyond it
    --sizes     the worst texts of each kind at two sizes, read: the ratio of the times may be that of the sizes times that of their logarithms;
                with --instructions that of the instructions, counted by callgrind at a tenth of the sizes, which no other work changes
    --memory    bad lines of 60 MB, each beside a good one: the peak of memory

A text is read as it should be where its canonical text is read to itself, or where its answer is one line on standard error that names a
line of the text, or the one behind it, and nothing is printed. A run has one worker.
"""
import argparse, glob, math, os, re, struct, subprocess, sys, tempfile, time

here = os.path.dirname(os.path.abspath(__file__))
top = os.path.dirname(os.path.dirname(here))
sys.path.insert(0, os.path.dirname(here))
import figures

STARJOB = os.environ.get("STARJOB", os.path.join(top, "bin", "starjob"))
TRACE_CHECK = os.environ.get("TRACE_CHECK", os.path.join(top, "bin", "trace_check"))
MILLION = 1_000_000


class Program:
    """A program that is run on text after text, each time in a process of its own."""

    def __init__(self, shim, words):
        texts, self.texts = os.pipe()
        self.answers, answers = os.pipe()
        self.child = os.posix_spawn(words[0], words, {**os.environ, "LD_PRELOAD": shim}, file_actions=[
            (os.POSIX_SPAWN_DUP2, texts, 13), (os.POSIX_SPAWN_DUP2, answers, 14),
            (os.POSIX_SPAWN_DUP2, 13, 3), (os.POSIX_SPAWN_DUP2, 14, 4), (os.POSIX_SPAWN_CLOSE, 13), (os.POSIX_SPAWN_CLOSE, 14),
        ])
        os.close(texts), os.close(answers)

    def whole(self, size):
        had = b""
        while len(had) < size:
            more = os.read(self.answers, size - len(had))
            if not more:
                sys.exit("the program's server ended")
            had += more
        return had

    def run(self, text):
        """Exit code, or minus the signal, and both streams."""
        os.write(self.texts, struct.pack("I", len(text)) + text)
        code = struct.unpack("i", self.whole(4))[0]
        return code, *(self.whole(struct.unpack("I", self.whole(4))[0]) for _ in range(2))


def examples():
    for path in sorted(glob.glob(os.path.join(top, "examples", "*.job"))):
        with open(path, "rb") as job:
            yield os.path.basename(path), job.read()


class Tally:
    def __init__(self, what):
        self.what, self.ends, self.failed, self.began = what, {}, 0, time.monotonic()

    def count(self, end):
        self.ends[end] = self.ends.get(end, 0) + 1

    def fails(self, where, got):
        self.failed += 1
        print(f"FAILED {self.what}, {where}: {got}", flush=True)

    def passes(self, name):
        print(f"{self.what}: behind {name} after {time.monotonic() - self.began:.0f} s, {sum(self.ends.values())} so far", flush=True)

    def told(self):
        ends = ", ".join(f"{count} {end}" for end, count in sorted(self.ends.items()))
        print(f"{self.what}: {ends}; {self.failed} failed, {time.monotonic() - self.began:.0f} s", flush=True)
        return self.failed


REFUSED = re.compile(rb"^line (\d+) of the job is refused[^\n]*\n$")
BAD = re.compile(rb"^starjob: line (\d+): (header|word|number|unknown name|taken name|unknown codelet|operand count|shape|part|aliased|no value"
                 rb"|no reduction|not lawful|mixed outputs|limit [A-Za-z]+|ended name)\n$")
CAUSE = re.compile(rb"^starjob: (line \d+: task needs \d+ bytes on one node|swap needs \d+ bytes, has \d+)\n$")


def names_a_line(said, form, text):
    found = form.match(said)
    return found and 0 <= int(found[1]) <= len(text.split(b"\n")) + 1


def try_reading(tally, where, shower, text):
    """The canonical text is read to itself, or a line is named."""
    code, printed, said = got = shower.run(text)
    if code == 0 and said == b"":
        again = shower.run(printed)
        tally.count("read") if again == (0, printed, b"") else tally.fails(where, (got, again))
    elif printed == b"" and code == 2 and names_a_line(said, REFUSED, text):
        tally.count("refused")
    else:
        tally.fails(where, got)


def try_running(tally, where, runner, text):
    code, printed, said = got = runner.run(text)
    if code == 0 and said == b"":
        tally.count("done")
    elif printed == b"" and (names_a_line(said, BAD, text) or CAUSE.match(said)):
        tally.count("refused")
    else:
        tally.fails(where, got)


def prefixes(shower, runner):
    tally = Tally("prefixes")
    for name, job in examples():
        for length in range(len(job) + 1):
            try_reading(tally, f"{name} to {length}", shower, job[:length])
            try_running(tally, f"{name} to {length}", runner, job[:length])
    return tally.told()


def changed_bytes(shower, step):
    tally, number = Tally("bytes"), 0
    for name, job in examples():
        for at in range(len(job)):
            for byte in range(256):
                number += 1
                if byte != job[at] and number % step == 0:
                    try_reading(tally, f"{name}, {byte} at {at}", shower, job[:at] + bytes([byte]) + job[at + 1:])
        tally.passes(name)
    return tally.told()


# ---- limits

def after(*lines):
    return "\n".join(("starjob 1",) + lines) + "\n"


def limit_cases():
    """A text, and nothing where it is read, or the line and the reason."""
    name, most = "n" * 31, 2**63 - 1
    yield after(f"vector {name} 1 none"), None
    yield after(f"vector {name}n 1 none"), (2, "word")
    yield after("vector x 1 none", f"print {name}n"), (3, "word")
    yield after(f"vector x 2 values {most} -{most + 1}"), None
    yield after(f"vector x 1 values {most + 1}"), (2, "number")
    yield after(f"vector x 1 values -{most + 2}"), (2, "number")
    yield after("vector x 1 values " + "0" * 100_000 + "7"), None
    yield after(f"vector x {most + 1} none"), (2, "number")
    yield after("vector x 0 none"), (2, "limit Elements")
    yield after("vector x 1048576 none"), None
    yield after("vector x 1048577 none"), (2, "limit Elements")
    yield after("matrix x 4096 4096 none"), None
    yield after("matrix x 4096 4097 none"), (2, "limit Elements")
    yield after("matrix x 64 64 by 64 64 none"), None
    yield after("matrix x 4097 1 by 4097 1 none"), (2, "limit Parts")
    yield after("matrix x 4 4 by 4 5 none"), (2, "part")
    yield after("matrix x 4 4 by 0 4 none"), (2, "part")
    yield after("vector x 1 values 1", "task scale(2) x:RW prio=1000", "task scale(2) x:RW prio=-1000"), None
    yield after("vector x 1 values 1", "task scale(2) x:RW prio=1001"), (3, "limit Priority")
    yield after("vector x 1 values 1", "task scale(2) x:RW prio=-1001"), (3, "limit Priority")
    yield after("workers 64"), None
    yield after("workers 65"), (2, "limit Workers")
    yield after("workers 0"), (2, "limit Workers")
    yield after("node 8"), None
    yield after("node 7"), (2, "limit NodeBytes")
    yield after(f"node {2**40}"), None
    yield after(f"node {2**40 + 1}"), (2, "limit NodeBytes")
    yield after(*["node 8"] * 16), None
    yield after(*["node 8"] * 17), (18, "limit Nodes")
    yield after(*[f"vector n{k} 1 none" for k in range(4096)]), None
    yield after(*[f"vector n{k} 1 none" for k in range(4097)]), (4098, "limit Names")
    yield after(*[f"vector n{k} 1 none\nunregister n{k}" for k in range(4096)], "vector x 1 none"), (8194, "limit Names")
    yield after("vector x 1 none", *["invalidate x"] * 262_143), None
    yield after("vector x 1 none", *["invalidate x"] * 262_144), (262_146, "limit Statements")
    # brackets within brackets, as deep as a line is long
    yield after("vector x 1 none", "task add x" + "[" * 100_000 + ":R"), (3, "word")
    yield after("vector x 1 none", "task add" + "(" * 100_000 + " x:R"), (3, "word")
    yield after("vector x 1 values 1", "task scale(2) x"), (3, "word")
    yield after("vector x 1 values 1", "task scale(2) x[0,0:RW"), (3, "word")
    yield after("vector x 1 none", "plan x 0 1"), (3, "part")
    yield after("vector x 1 none", "plan x 65 64"), (3, "limit Parts")
    yield after("vector x 1 values 1", "workers 2"), (3, "word")
    yield "starjob 1\nvector x 1 none \x80\n", (2, "word")
    yield "", (1, "header")
    yield "\n\n", (3, "header")


def limits():
    tally = Tally("limits")
    for text, wanted in limit_cases():
        got = subprocess.run([STARJOB, "--swap-size", "268435456"], input=text.encode("latin-1"), capture_output=True)
        said = "" if wanted is None else f"starjob: line {wanted[0]}: {wanted[1]}\n"
        if (got.returncode, got.stdout, got.stderr.decode()) == (3 if wanted else 0, b"", said):
            tally.count("refused" if wanted else "read")
        else:
            tally.fails(repr(text[:60]), got)
    return tally.told()


# ---- sizes

def size_texts():
    """Texts of each kind, by a size that is about their bytes."""
    yield "blank lines", lambda n: "starjob 1\n" + "\n" * n
    yield "comments", lambda n: "starjob 1\n" + "#\n" * (n // 2)
    yield "blanks before the header", lambda n: "\n" * n + "starjob 1\n"
    yield "one line of blanks", lambda n: "starjob 1\n" + " " * n
    yield "one comment", lambda n: "starjob 1\n#" + "x" * n
    yield "one word", lambda n: "starjob 1\n" + "x" * n
    yield "blanks between words", lambda n: "starjob 1\nvector" + " " * n + "x 1 none"
    yield "blanks behind words", lambda n: "starjob 1\nvector x 1 none" + "\t" * n
    yield "one name", lambda n: "starjob 1\nvector " + "x" * n + " 1 none"
    yield "one number", lambda n: "starjob 1\nvector x " + "9" * n + " none"
    yield "zeros before a number", lambda n: "starjob 1\nvector x " + "0" * n + "1 none"
    yield "values", lambda n: "starjob 1\nmatrix x 16 1048576 values" + " 1" * (n // 2)
    yield "values, the last one bad", lambda n: "starjob 1\nmatrix x 16 1048576 values" + " 1" * (n // 2) + " x"
    yield "operands", lambda n: "starjob 1\nvector x 1 none\ntask add" + " x:R" * (n // 4)
    yield "operands, the last one bad", lambda n: "starjob 1\nvector x 1 none\ntask add" + " x:R" * (n // 4) + " x"
    yield "operands with an index", lambda n: "starjob 1\nvector x 1 none\ntask add" + " x[0,0]:R" * (n // 9)
    yield "arguments", lambda n: "starjob 1\nvector x 1 none\ntask add(" + "1," * (n // 2) + "1) x:R"
    yield "empty arguments", lambda n: "starjob 1\nvector x 1 none\ntask add(" + "," * n + ") x:R"
    yield "brackets", lambda n: "starjob 1\nvector x 1 none\ntask add " + "[" * n
    yield "colons", lambda n: "starjob 1\nvector x 1 none\ntask add " + ":" * n
    yield "pieces of an index", lambda n: "starjob 1\nvector x 1 none\ntask add x[" + "0," * (n // 2) + "0]:R"
    yield "prio words", lambda n: "starjob 1\nvector x 1 none\ntask add" + " prio=1" * (n // 7)
    yield "registrations", lambda n: "starjob 1\n" + "".join(f"vector n{k} 1 none\n" for k in range(min(4096, n // 16)))
    yield "ended names", lambda n: "starjob 1\n" + "".join(f"vector n{k} 1 none\nunregister n{k}\n" for k in range(min(4096, n // 32)))
    yield "plans", lambda n: "starjob 1\nmatrix x 64 64 fill 1 1\n" + "plan x 64 64\nplan x 1 1\n" * min(131_000, n // 24)
    yield "first values", lambda n: "starjob 1\nmatrix x 64 64 by 64 64 none\n" + "invalidate x\ntask fill(1,1) x[63,63]:W\n" * min(131_000, n // 39)
    yield "tasks", lambda n: "starjob 1\nvector x 1 fill 1 1\n" + "task scale(2) x:RW\n" * min(262_000, n // 19)
    yield "prints", lambda n: "starjob 1\nvector x 1 fill 1 1\n" + "print x\n" * min(262_000, n // 8)


def seconds_of(words, text):
    """The processor's seconds for reading a text: the best of three runs."""
    best = math.inf
    for _ in range(3):
        with tempfile.TemporaryFile() as source:
            source.write(text)
            source.seek(0)
            child = subprocess.Popen(words, stdin=source, stdout=subprocess.DEVNULL, stderr=subprocess.DEVNULL)
            usage = os.wait4(child.pid, 0)[2]
        best = min(best, usage.ru_utime + usage.ru_stime)
    return best


def instructions_of(words, text):
    """The instructions that reading a text takes, in thousands."""
    with tempfile.TemporaryFile() as source:
        source.write(text)
        source.seek(0)
        counting = ["valgrind", "--tool=callgrind", "--callgrind-out-file=/dev/null", *words]
        said = subprocess.run(counting, stdin=source, stdout=subprocess.DEVNULL, stderr=subprocess.PIPE).stderr
    return int(re.search(rb"Collected : (\d+)", said)[1]) / 1000


def sizes(counts):
    tally, worst = Tally("instructions" if counts else "sizes"), 0
    cost_of, least, whole, unit = (instructions_of, 1, 2 * MILLION, "thousand instructions") if counts else (seconds_of, 0.002, 20 * MILLION, "s")
    for name, text in size_texts():
        small, large = text(whole // 5).encode(), text(whole).encode()
        if len(large) < 3 * len(small):
            # at most so many of these: at a quarter of the limit and at the limit
            small, large = text(len(large) // 4).encode(), large
        # what both take for the program's start
        start = cost_of([TRACE_CHECK, "--text"], b"starjob 1\n")
        costs = [max(cost_of([TRACE_CHECK, "--text"], t) - start, least) for t in (small, large)]
        most = len(large) / len(small) * math.log(len(large)) / math.log(len(small))
        ratio = costs[1] / costs[0]
        worst = max(worst, ratio / most)
        print(f"{name}: {len(small)} bytes {costs[0]:.4g} {unit}, {len(large)} bytes {costs[1]:.4g}: {ratio:.1f} times, at most {most:.1f}", flush=True)
        # a fifth for what one run's time differs from the next
        tally.count("within") if ratio <= (1 if counts else 1.2) * most else tally.fails(name, f"{ratio:.1f} times")
    figures.write("texts", [("worst_ratio.instructions", round(worst, 2), "<=1", 5)] if counts else [("worst_ratio", round(worst, 2), "<=1.2", 30)])
    return tally.told()


# ---- memory

def memory_texts():
    """Bad lines of sixty million bytes, and a good one first."""
    n = 60 * MILLION
    yield "good: values", "starjob 1\nmatrix x 14 1048576 values" + " 12" * (14 * 1048576)
    yield "operands", "starjob 1\nvector x 1 none\ntask add" + " x:R" * (n // 4)
    yield "operands, the last one bad", "starjob 1\nvector x 1 none\ntask add" + " x:R" * (n // 4) + " x"
    yield "operands with an index", "starjob 1\nvector x 1 none\ntask add" + " x[0,0]:R" * (n // 9)
    yield "arguments", "starjob 1\nvector x 1 none\ntask add(" + "1," * (n // 2) + "1) x:R"
    yield "empty arguments", "starjob 1\nvector x 1 none\ntask add(" + "," * n + ") x:R"
    yield "pieces of an index", "starjob 1\nvector x 1 none\ntask add x[" + "0," * (n // 2) + "0]:R"
    yield "values, too many", "starjob 1\nvector x 1 values" + " 1" * (n // 2)
    yield "values, the last one bad", "starjob 1\nmatrix x 16 1048576 values" + " 123" * (n // 4) + " x"
    yield "one word", "starjob 1\n" + "x" * n
    yield "blank lines", "starjob 1\n" + "\n" * n + "x"
    yield "prio words", "starjob 1\nvector x 1 none\ntask add" + " prio=1" * (n // 7)


def peak_of(words, text):
    with tempfile.TemporaryFile() as source:
        source.write(text)
        source.seek(0)
        child = subprocess.Popen(words, stdin=source, stdout=subprocess.DEVNULL, stderr=subprocess.DEVNULL)
        return os.wait4(child.pid, 0)[2].ru_maxrss / 1024


def memory():
    tally, good, worst = Tally("memory"), None, 0
    for name, text in memory_texts():
        peak = peak_of([TRACE_CHECK, "--text"], text.encode())
        good = good or peak
        worst = max(worst, peak / good)
        print(f"{name}: {len(text)} bytes, {peak:.0f} MiB", flush=True)
        tally.count("within") if peak <= good else tally.fails(name, f"{peak:.0f} MiB, a good line {good:.0f}")
    figures.write("texts_memory", [("worst_over_good", round(worst, 2), "<=1", 5)])
    return tally.told()


def main():
    words = argparse.ArgumentParser(description=__doc__, formatter_class=argparse.RawDescriptionHelpFormatter)
    kinds = ["prefixes", "bytes", "limits", "sizes", "instructions", "memory"]
    for kind in kinds:
        words.add_argument("--" + kind, action="store_true")
    words.add_argument("--step", type=int, default=1)
    given = words.parse_args()
    asked = [kind for kind in kinds if getattr(given, kind) and not (kind == "sizes" and given.instructions)] or kinds
    with tempfile.TemporaryDirectory() as folder:
        shim = os.path.join(folder, "serve.so")
        subprocess.run(["gcc", "-O1", "-shared", "-fPIC", "-o", shim, os.path.join(here, "serve.c")], check=True)
        # each asks for the programs that it needs
        def shower():
            return Program(shim, [TRACE_CHECK, "--text"])

        def runner():
            return Program(shim, [STARJOB, "--workers", "1"])

        does = {"prefixes": lambda: prefixes(shower(), runner()), "bytes": lambda: changed_bytes(shower(), given.step),
                "limits": limits, "sizes": lambda: sizes(False), "instructions": lambda: sizes(True), "memory": memory}
        sys.exit(sum(does[kind]() for kind in asked) != 0)


main()
