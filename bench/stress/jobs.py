"""Random jobs for bench/stress: small arrays under plans that change, with tasks of every shape that one target takes."""


def sizes(n, p):
    return [n // p + (k < n % p) for k in range(p)]


class Array:
    """A root: its sides, its active plan, and which of its children have values."""

    def __init__(self, rng, name, reduction):
        self.name = name
        self.rows, self.columns = rng.randint(1, 9), rng.randint(1, 9)
        self.plan = (rng.randint(1, min(3, self.rows)), rng.randint(1, min(3, self.columns)))
        self.reduction = reduction

    def children(self):
        for i, r in enumerate(sizes(self.rows, self.plan[0])):
            for j, c in enumerate(sizes(self.columns, self.plan[1])):
                yield (f"{self.name}[{i},{j}]", r, c, self)


class Job:
    """The lines of a job, and the bytes of its greatest task."""

    def __init__(self, rng, contributions):
        self.rng, self.contributions = rng, contributions
        self.lines, self.footprint = ["starjob 1"], 8
        self.arrays = [Array(rng, f"a{k}", rng.choice(["plus", "least", None])) for k in range(rng.randint(2, 6))]
        for a in self.arrays:
            self.lines.append(
                f"matrix {a.name} {a.rows} {a.columns} by {a.plan[0]} {a.plan[1]} fill {rng.randint(-9, 9)} {rng.randint(-9, 9)}"
            )
            if contributions and a.reduction:
                self.lines.append(f"redux {a.name} {a.reduction}")
        for _ in range(rng.randint(5, 80)):
            rng.choice([self.task] * 12 + [self.change_plan, self.show])()
        for a in self.arrays:
            self.lines.append(f"print {a.name}")
        for a in self.arrays:
            self.takes([(a.rows * a.columns, 0), (a.rows * a.columns, 1)])

    def takes(self, cells):
        self.footprint = max(self.footprint, 8 * sum(size for size, _ in cells))

    def show(self):
        self.lines.append(f"print {self.rng.choice(self.arrays).name}")

    def change_plan(self):
        a = self.rng.choice(self.arrays)
        a.plan = (self.rng.randint(1, min(3, a.rows)), self.rng.randint(1, min(3, a.columns)))
        self.lines.append(f"plan {a.name} {a.plan[0]} {a.plan[1]}")

    def pick(self, fits):
        found = [c for a in self.arrays for c in a.children() if fits(c)]
        return self.rng.choice(found) if found else None

    def task(self):
        rng = self.rng
        target = self.pick(lambda c: True)
        _, rows, columns, root = target
        same = self.pick(lambda c: c[1:3] == (rows, columns) and c[0] != target[0])
        turned = self.pick(lambda c: c[1:3] == (columns, rows) and c[0] != target[0])
        forms = [("fill", [], f"({rng.randint(-9, 9)},{rng.randint(-9, 9)})", "W"), ("scale", [], f"({rng.randint(-3, 3)})", "RW")]
        if same:
            forms += [("copy", [same], "", "W"), ("add", [same], "", "RW"), ("axpy", [same], f"({rng.randint(-3, 3)})", "RW")] * 2
            forms += [("lowest", [same], "", "RW")]
        if turned:
            forms += [("transpose", [turned], "", "W")]
        left = self.pick(lambda c: c[1] == rows and c[0] != target[0])
        if left:
            right = self.pick(lambda c: c[1:3] == (left[2], columns) and c[0] != target[0])
            if right:
                forms += [(rng.choice(["gemm", "mingemm"]), [left, right], "", "RW")] * 3
        codelet, read, arguments, mode = rng.choice(forms)
        if self.contributions and mode == "RW":
            mode = self.mode_of(codelet, root, mode)
        operands = [f"{c[0]}:R" for c in read] + [f"{target[0]}:{mode}"]
        urgent = f" prio={rng.randint(-3, 3)}" if rng.random() < 0.2 else ""
        self.lines.append(f"task {codelet}{arguments} {' '.join(operands)}{urgent}")
        self.takes([(c[1] * c[2], c[0]) for c in [target] + read])

    def mode_of(self, codelet, root, mode):
        modes = [mode]
        if codelet in ("add", "axpy", "gemm"):
            modes += ["COMMUTE"] + ["REDUX"] * (root.reduction == "plus")
        if codelet in ("lowest", "mingemm"):
            modes += ["COMMUTE"] + ["REDUX"] * (root.reduction == "least")
        return self.rng.choice(modes)
