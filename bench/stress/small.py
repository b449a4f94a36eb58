"""Makes a case that fails small: leaves out what it fails without, until nothing can be left out any more.

A case has lines and words. Of its lines, behind the first, so many in a row are left out, half of them at first and then ever fewer, by
one at last, and of a short job any two; of a line up to three words in a row; of the words each option with its value. A number, of a line
or an option, becomes a lesser one. All that is done again until it changes nothing: then the case goes on failing without no line, no pair
of lines where they are few, no word, no option, and with no lesser one of the numbers tried.
"""
import re, time

# a job with so many lines is short enough to leave out each two of them
SHORT = 24
# so many words in a row are left out of a line at most: `by 2 2` is one thing
WORDS = 3
NUMBER = re.compile(r"\d+")


class Bound:
    """How often, and for how long, a case may be tried: a run or a second beyond it, and nothing is left out any more."""

    def __init__(self, runs, seconds):
        self.runs, self.end, self.used = runs, time.monotonic() + seconds, 0

    def is_over(self):
        return self.used >= self.runs or time.monotonic() >= self.end


def spans(count, longest):
    """Where so many things in a row begin and end, the longest rows first: halves of them, and so on to one."""
    while longest:
        yield from ((at, min(at + longest, count)) for at in range(0, count, longest))
        longest //= 2


def without(things, start, end):
    return things[:start] + things[end:]


def fewer_lines(lines):
    """The header stays."""
    for start, end in spans(len(lines) - 1, (len(lines) - 1) // 2 or 1):
        yield [lines[0], *without(lines[1:], start, end)]


def fewer_by_two(lines):
    if len(lines) > SHORT:
        return
    for first in range(1, len(lines)):
        for second in range(first + 1, len(lines)):
            yield [line for at, line in enumerate(lines) if at not in (first, second)]


def fewer_words(lines):
    for at, line in enumerate(lines[1:], 1):
        words = line.split()
        for many in range(WORDS, 0, -1):
            for start in range(1, len(words) - many + 1):
                yield [*lines[:at], " ".join(without(words, start, start + many)), *lines[at + 1 :]]


def lesser(text):
    """The text with one of its numbers lesser: the least first."""
    for found in NUMBER.finditer(text):
        number = int(found[0])
        for less in sorted({0, 1, number // 2, number - 1}):
            if 0 <= less < number:
                yield text[: found.start()] + str(less) + text[found.end() :]


def lesser_numbers(lines):
    # (the indices of an operand have to go with its plan)
    for at, line in enumerate(lines[1:], 1):
        for text in lesser(line):
            yield [*lines[:at], text, *lines[at + 1 :]]


def options_of(words):
    """The options, each with the words that are its value."""
    options = []
    for word in words:
        if word.startswith("--") or not options:
            options.append([word])
        else:
            options[-1].append(word)
    return options


def fewer_options(words):
    options = options_of(words)
    for at in range(len(options)):
        yield [word for option in without(options, at, at + 1) for word in option]
    for at, option in enumerate(options):
        # a path isn't a number
        if len(option) == 2 and NUMBER.fullmatch(option[1]):
            for text in lesser(option[1]):
                yield [word for other in [*options[:at], [option[0], text], *options[at + 1 :]] for word in other]


LEAVE_OUT = [("lines", fewer_lines), ("lines", fewer_by_two), ("lines", fewer_words), ("words", fewer_options), ("lines", lesser_numbers)]


def left_out(case, what, smaller, fails, bound):
    """The case as small as these candidates make it: behind each that fails they begin anew."""
    found = True
    while found and not bound.is_over():
        found = False
        for candidate in smaller(getattr(case, what)):
            if bound.is_over():
                break
            if fails(case._replace(**{what: candidate})):
                case, found = case._replace(**{what: candidate}), True
                break
    return case


def made_small(case, fails, bound):
    """The least case that these find, and whether they came to their end."""
    before = None
    while before != case and not bound.is_over():
        before = case
        for what, smaller in LEAVE_OUT:
            case = left_out(case, what, smaller, fails, bound)
    return case, not bound.is_over()
