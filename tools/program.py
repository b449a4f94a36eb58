"""A job's lowered program, as `trace_check --program` prints it, with the names that the job's text has, for the pictures and
summaries of this folder. TRACE_CHECK may name another trace_check than that of bin/ or of crates/.
"""
import os
import subprocess
import sys
from collections import namedtuple

# An access of a task: its mode, the cell, and the cell's partial copies where the mode is REDUX.
Access = namedtuple("Access", "mode cell copies")
Cell = namedtuple("Cell", "number label rows cols")
Task = namedtuple("Task", "number codelet accesses line")

DEFAULT_NODE = 268_435_456
GREATEST_DISK = 1 << 40
# A colour for each codelet; those beyond the list begin it again.
COLOURS = """load loadfill deliver paste init_plus init_least fill copy scale add axpy butterfly gemm gemm3 transpose
dot sum lowest mingemm fwdiag fwrow fwcol""".split()
PALETTE = """#c7c7c7 #dbdb8d #9edae5 #c49c94 #e7cbbf #f0d9c8 #bcbd22 #aec7e8 #ffbb78 #98df8a #8dd3c7 #c5b0d5 #6baed6 #4a90c2
#f7b6d2 #fdae6b #fdd0a2 #a1d99b #74c476 #ff9896 #ffd92f #b3a2c7""".split()


class Unreadable(Exception):
    """Why a text gives no picture."""


class Root:
    """An array of the job: its cells by plan, each plan's row by row; the last plan may still want some."""

    def __init__(self, name, rows, cols):
        self.name, self.area, self.cols = name, rows * cols, cols
        self.plans = []

    def add(self, number, rows, cols):
        if not self.plans or sum(it[1] * it[2] for it in self.plans[-1]) == self.area:
            self.plans.append([])
        self.plans[-1].append((number, rows, cols))

    def labels(self):
        """The names of the cells: NAME, NAME[i,j], and NAME(RxC)[i,j] from the second plan on."""
        for k, cells in enumerate(self.plans):
            across, width = 0, 0
            while width < self.cols:
                width += cells[across][2]
                across += 1
            many = f"({len(cells) // across}x{across})" if k else ""
            for place, (number, _, _) in enumerate(cells):
                child = "" if len(cells) == 1 else f"[{place // across},{place % across}]"
                yield number, f"{self.name}{many}{child}"


def checker():
    top = os.path.dirname(os.path.dirname(os.path.abspath(__file__)))
    built = [os.path.join(top, "bin", "trace_check"), os.path.join(top, "crates", "trace_check", "out", "trace_check")]
    for file in [os.environ.get("TRACE_CHECK"), *built]:
        if file and os.access(file, os.X_OK):
            return file
    raise Unreadable("build trace_check first, by tools/build trace_check")


def roots_of(lines):
    """The arrays that a job registers, by their numbers."""
    found = []
    for words in lines:
        if words[0] == "vector":
            found.append(Root(words[1], 1, int(words[2])))
        elif words[0] == "matrix":
            found.append(Root(words[1], int(words[2]), int(words[3])))
    return found


class Program:
    """The cells and tasks of a job text, and the machine that it asks for; words may ask for another one."""

    def __init__(self, text, workers=None, node=None, nodes=None):
        self.given_workers, self.cells, self.tasks = workers, [], []
        words = {"workers": workers, "node": node, "nodes": nodes, "swap-size": GREATEST_DISK}
        words = [part for name, value in words.items() if value is not None for part in (f"--{name}", str(value))]
        run = subprocess.run([checker(), *words, "--program"], input=text, capture_output=True, encoding="utf-8", errors="replace")
        if run.returncode != 0:
            raise Unreadable(run.stderr.strip() or "trace_check says nothing of the job")
        lines = [it for it in (line.split() for line in text.split("\n")) if it and not it[0].startswith("#")]
        self.nodes = [node] * (nodes or 1) if node else [int(it[1]) for it in lines if it[0] == "node"] or [DEFAULT_NODE]
        self.roots, self.sizes, self.copies, self.root_of = roots_of(lines), [], {}, {}
        copied = {}
        for line in run.stdout.splitlines():
            what, *rest = line.split(" ")
            if what == "workers":
                self.workers = int(rest[0])
            elif what == "cell":
                self.cell(copied, *(int(it.lstrip("cr")) for it in rest if it != "copies"))
            elif what == "task":
                self.task(int(rest[0][1:]), int(rest[2]), rest[5], rest[6:])
        self.name_cells(copied)

    def cell(self, copied, number, root, rows, cols, first=None):
        self.sizes.append((rows, cols))
        self.root_of[number] = self.roots[root]
        if first is not None:
            self.copies[number] = list(range(first, first + self.workers))
            copied.update((copy, (number, worker)) for worker, copy in enumerate(self.copies[number]))
        if number not in copied:
            self.roots[root].add(number, rows, cols)

    def task(self, number, line, codelet, operands):
        accesses = []
        for operand in operands:
            cell, _, mode = operand[1:].partition(":")
            accesses.append(Access(mode, int(cell), self.copies.get(int(cell), []) if mode == "REDUX" else []))
        self.tasks.append(Task(number, codelet.partition("(")[0], accesses, line))

    def name_cells(self, copied):
        labels = {number: label for root in self.roots for number, label in root.labels()}
        labels.update({copy: f"{labels[number]} copy {worker}" for copy, (number, worker) in copied.items()})
        self.cells = [Cell(number, labels[number], *size) for number, size in enumerate(self.sizes)]

    def array_of(self, cell):
        """The name of the array that a cell is a child of, or a copy of a child of."""
        return self.root_of[cell].name


def colour(codelet):
    return PALETTE[COLOURS.index(codelet) % len(PALETTE)] if codelet in COLOURS else "#eeeeee"


# The words of a run that make the cells, tasks and nodes of a job; the others may stand with them.
SETTINGS = {"workers": int, "node": int, "nodes": int}
PASSED_OVER = {"sched": str, "swap": str, "swap-size": str, "summary": None, "trace": None}


def options(words, known):
    """The files that the words name, and the values of the options, each in the next word or behind the first =."""
    known, files, found, left = {**PASSED_OVER, **SETTINGS, **known}, [], {}, list(words)
    while left:
        word = left.pop(0)
        name, behind, value = word.removeprefix("--").partition("=")
        if not word.startswith("--"):
            files.append(word)
        elif name not in known or known[name] is None and behind:
            raise Unreadable(f"{word} is no word of it")
        elif known[name] is None:
            found[name] = True
        else:
            try:
                found[name] = known[name](value if behind else left.pop(0))
            except (ValueError, IndexError):
                raise Unreadable(f"--{name} wants a {'number' if known[name] is int else 'word'}") from None
    return files, {name: value for name, value in found.items() if name not in PASSED_OVER}


def run(main, usage, most, **known):
    """Calls main with the files' texts and the settings, and says on standard error why there is no picture."""
    name = sys.argv[0].rpartition("/")[2]
    try:
        if "--help" in sys.argv[1:]:
            print(f"usage: {usage}")
            return
        files, settings = options(sys.argv[1:], known)
        if len(files) != most:
            sys.exit(f"usage: {usage}")
        print(main(*map(text_of, files), **settings))
    except BrokenPipeError:
        sys.exit(1)
    except OSError as error:
        sys.exit(f"{name}: {error.filename}: {error.strerror}")
    except Unreadable as why:
        sys.exit(f"{name}: {why}")


def text_of(file):
    with open(file, encoding="utf-8", errors="replace") as text:
        return text.read()
