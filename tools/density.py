"""The parts of a picture in which a step has several events: which share of a step's events something goes on in."""
from traces import size

STEPS = 300


def outline(held, first, last):
    """The corners of the bytes that a node holds: event by event, or above 1,500 events the most within each step."""
    width = 1 if last - first <= 1500 else (last - first) / STEPS
    event = first
    while event < last:
        end = min(last, event + width)
        most = max(held[int(event) : max(int(end), int(event) + 1)])
        yield event, most
        yield end, most
        event = end


class Steps:
    """A picture's events in at most 300 steps."""

    def __init__(self, picture):
        self.first, self.last = picture.first, picture.last
        self.number = min(STEPS, self.last - self.first)
        self.width = (self.last - self.first) / self.number

    def of(self, begin, end):
        """The steps that a stretch of events overlaps, each with the share of the step."""
        begin, end = max(begin, self.first) - self.first, min(end, self.last) - self.first
        step = int(begin / self.width)
        while begin < end and step < self.number:
            till = min(end, (step + 1) * self.width)
            yield step, (till - begin) / self.width
            begin, step = till, step + 1


def path(picture, steps, columns, fill, tip):
    """Columns of one colour, each with its step, its foot and its height."""
    width = steps.width * picture.step
    parts = [f"M{picture.x(steps.first) + step * width:.1f} {foot:.1f}v{-height:.1f}h{width:.1f}v{height:.1f}z" for step, foot, height in columns]
    if parts:
        picture.parts.append(f'<path fill="{fill}" d="{"".join(parts)}"><title>{tip}</title></path>')


def draw_tasks(picture, y, row, boxes, colour, waiting):
    """A worker's row: from the ground up the shares of its kernels by codelet, and above them those in which a task was only claimed."""
    steps, shares = Steps(picture), {}
    for box in filter(picture.shows, boxes):
        end = box.end or picture.last
        run = end if box.run is None else box.run
        for kind, begin, till in ((box.what.codelet, run, end), ("claimed", box.begin, run)):
            for step, share in steps.of(begin, till):
                at = shares.setdefault(kind, {})
                at[step] = at.get(step, 0) + share
    feet = [y + row] * steps.number
    for kind in sorted(shares, key=lambda it: (it == "claimed", it)):
        columns = [(step, feet[step], share * row) for step, share in sorted(shares[kind].items())]
        path(picture, steps, columns, waiting if kind == "claimed" else colour(kind), kind)
        for step, foot, height in columns:
            feet[step] = foot - height


def kind_of(way):
    return 2 if not way.target else 0 if way.target[0] == "n" else 1


def draw_ways(picture, y, lane, replay, node, kinds):
    """Below a node's bytes: the bytes that come in, those that go out, and the bytes of the copies that are dropped."""
    steps, sums = Steps(picture), [{}, {}, {}]
    for bar in filter(picture.shows, replay.bars[node]):
        step = min(int((max(bar.begin, picture.first) - picture.first) / steps.width), steps.number - 1)
        at = sums[kind_of(bar.what)]
        at[step] = at.get(step, 0) + replay.bytes(bar.what.cell)
    most = max((n for at in sums for n in at.values()), default=1)
    for k, (fill, name) in enumerate(kinds):
        foot = y + (k + 1) * lane - 3
        columns = [(step, foot, n / most * (lane - 3)) for step, n in sorted(sums[k].items())]
        path(picture, steps, columns, fill, name)
        picture.text(12, foot, f"{name} {size(sum(sums[k].values()))}", 9, fill="#666")
    return y + len(kinds) * lane
