"""The events of a trace, and what they say of each worker and memory node, for the picture and the summary of a run.

A trace may stand behind what a job prints: no printed line reads like an event.
"""
import re
from collections import namedtuple

from program import Unreadable

EVENT = re.compile(r"(claim|run|end) t(\d+) w(\d+)|(move|moved) c(\d+) ([nd]\d+) ([nd]\d+)|(drop) c(\d+) n(\d+)")
Event = namedtuple("Event", "line text words")
# A transfer of a cell from a place to another, or its drop from a node, where the target is None.
Way = namedtuple("Way", "cell source target")


def events(text):
    found = []
    for line, it in enumerate(text.split("\n"), 1):
        match = EVENT.fullmatch(it)
        if match:
            found.append(Event(line, it, [word for word in match.groups() if word is not None]))
    if not found:
        raise Unreadable("the trace has no event")
    return found


class Box:
    """A task on a worker or a cell on its way, from one event to another; run is where a task's kernel begins."""

    def __init__(self, begin, what):
        self.begin, self.run, self.end, self.what = begin, None, None, what


class Replay:
    """What the events say, one after another: the tasks of each worker, and the ways and bytes of each node."""

    def __init__(self, job, trace):
        self.job, self.now = job, 0
        self.workers = job.given_workers or job.workers
        self.tasks = {}
        self.boxes = {w: [] for w in range(self.workers)}
        self.bars = {n: [] for n in range(len(job.nodes))}
        self.cells = {n: set() for n in self.bars}
        self.scratch = {n: {} for n in self.bars}
        self.bytes_now = {n: 0 for n in self.bars}
        self.held = {n: [] for n in self.bars}
        for event in trace:
            self.take(event)
            self.now += 1
            for n, held in self.held.items():
                held.append(self.bytes_now[n])

    def take(self, event):
        why = self.unknown(event.words)
        if not why:
            try:
                getattr(self, event.words[0])(*event.words[1:])
                return
            except (KeyError, IndexError, StopIteration):
                why = "it doesn't fit the events before it, of which trace_check says more"
        raise Unreadable(f"line {event.line} of the trace, {event.text}: {why}")

    def unknown(self, words):
        """Why an event can't be one of this job on this machine, by its numbers alone."""
        nodes = [int(it.removeprefix("n")) for it in words[2:] if it[0] != "d"]
        if words[0] in ("claim", "run", "end"):
            if int(words[2]) >= self.workers:
                return f"the job has {counted(self.workers, 'worker')}; give --workers N as the run had"
            if int(words[1]) >= len(self.job.tasks):
                return f"the job has {counted(len(self.job.tasks), 'task')} by {counted(self.workers, 'worker')}; is this its trace?"
        elif int(words[1]) >= len(self.job.cells):
            return f"the job has {counted(len(self.job.cells), 'cell')} by {counted(self.workers, 'worker')}; is this its trace?"
        elif max(nodes) >= len(self.job.nodes):
            return f"the machine has {counted(len(self.job.nodes), 'node')}; give --node BYTES and --nodes K as the run had"
        return None

    def bytes(self, cell):
        return 8 * self.job.cells[cell].rows * self.job.cells[cell].cols

    def come(self, cell, n):
        if cell not in self.cells[n]:
            self.cells[n].add(cell)
            self.bytes_now[n] += self.bytes(cell)

    def go(self, cell, n):
        self.cells[n].remove(cell)
        self.bytes_now[n] -= self.bytes(cell)

    def claim(self, t, w):
        box = self.tasks[int(t)] = Box(self.now, self.job.tasks[int(t)])
        self.boxes[int(w)].append(box)

    def run(self, t, w):
        task, here = self.job.tasks[int(t)], int(w) % len(self.job.nodes)
        self.tasks[int(t)].run = self.now
        for access in task.accesses:
            cell = access.copies[int(w)] if access.mode == "REDUX" else access.cell
            if access.mode == "SCRATCH":
                self.scratch[here][int(t)] = self.scratch[here].get(int(t), 0) + self.bytes(cell)
                self.bytes_now[here] += self.bytes(cell)
            elif access.mode != "R":
                for n, cells in self.cells.items():
                    if n != here and cell in cells:
                        self.go(cell, n)
                self.come(cell, here)

    def end(self, t, w):
        here = int(w) % len(self.job.nodes)
        self.tasks[int(t)].end = self.now + 1
        self.bytes_now[here] -= self.scratch[here].pop(int(t), 0)

    def move(self, cell, source, target):
        into = target[0] == "n"
        if into:
            self.come(int(cell), int(target[1:]))
        self.bars[int((target if into else source)[1:])].append(Box(self.now, Way(int(cell), source, target)))

    def moved(self, cell, source, target):
        bars = self.bars[int((target if target[0] == "n" else source)[1:])]
        next(it for it in reversed(bars) if it.what == (int(cell), source, target) and it.end is None).end = self.now + 1

    def drop(self, cell, n):
        self.go(int(cell), int(n))
        self.bars[int(n)].append(Box(self.now, Way(int(cell), f"n{n}", None)))
        self.bars[int(n)][-1].end = self.now + 1


def counted(n, what):
    return f"{n} {what}{'' if n == 1 else 's'}"


def size(n):
    return f"{n / 2**20:.1f} MiB" if n >= 2**20 else f"{n / 2**10:.1f} KiB" if n >= 2**10 else f"{n} B"
