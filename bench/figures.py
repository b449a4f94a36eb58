"""The figures of the benches, each a line of figures.txt: bench, name, value, goal and noise.

A goal is `<=1.3` or `>=0.93`; `<` or `>` alone says that less or more is better, where no goal is set. The noise is a percentage: a
figure that is worse by no more than this may be the machine's doing. A bench that is run puts its lines in place of those
that it had; `bench/compare` says what became worse.
"""
import os
import re
from collections import namedtuple

FILE = os.path.join(os.path.dirname(os.path.abspath(__file__)), "figures.txt")

# what a time may differ by from one minute to the next on a machine that goes at two speeds, and a ratio of runs that take turns
TIME, RATIO = 60, 10

Figure = namedtuple("Figure", "bench name value goal noise")


def read(text):
    """The figures of a text, by bench and name."""
    found = {}
    for number, line in enumerate(text.split("\n"), 1):
        if line and not line.startswith("#"):
            words = line.split()
            if len(words) != 5 or not re.fullmatch(r"[<>](=-?[\d.]+)?", words[3]):
                raise SystemExit(f"figures.txt:{number}: not `bench name value goal noise`: {line}")
            found[tuple(words[:2])] = Figure(*words[:2], float(words[2]), words[3], float(words[4]))
    return found


def line_of(figure):
    return f"{figure.bench} {figure.name} {figure.value:g} {figure.goal} {figure.noise:g}"


def is_missed(figure):
    """Whether a figure, as it is shown, with two places, misses its goal."""
    if len(figure.goal) == 1:
        return False
    wanted = float(figure.goal[2:])
    shown = round(figure.value, 2)
    return shown > wanted if figure.goal[0] == "<" else shown < wanted


def is_worse(new, old):
    """Whether a figure is worse than it was by more than its noise."""
    part = old.noise / 100
    return new.value > old.value * (1 + part) if new.goal[0] == "<" else new.value < old.value * (1 - part)


def write(bench, rows, file=FILE):
    """Puts a bench's rows, each a name, a value, a goal and perhaps a noise, in place of those of the same names."""
    with open(file, encoding="utf-8") as it:
        lines = it.read().rstrip("\n").split("\n")
    for name, value, goal, *noise in rows:
        new = line_of(Figure(bench, name, round(value, 4), goal, *(noise or [RATIO])))
        at = next((n for n, line in enumerate(lines) if line.split()[:2] == [bench, name]), None)
        if at is None:
            last = max((n for n, line in enumerate(lines) if line.split()[:1] == [bench]), default=len(lines) - 1)
            lines.insert(last + 1, new)
        else:
            lines[at] = new
    with open(file, "w", encoding="utf-8") as it:
        it.write("\n".join(lines) + "\n")
