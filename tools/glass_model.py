#!/usr/bin/env python3
"""Usage: glass_model.py < SCRIPT > ANSWER: answer a script of docs/GLASS.md, by model.py and history_model.py for the calls."""

import collections
import re
import sys

sys.dont_write_bytecode = True

import history_model
import lossless_model
import model
from stream import Answer, Case

TOO_LONG = 262_144
MOST_NUMBERS = 1028
LARGEST = 2**31 - 1

REFUSALS = {
    1: "depth",
    2: "size number",
    3: "type number",
    4: "kind",
    5: "stride",
    6: "length or place",
    7: "coefficient or level",
    8: "sample",
    10: "sample after the step",
    12: "history",
    13: "step to take out",
    14: "room for a step",
}
SLICES = {
    1: "coefficients or levels",
    2: "prediction or plane",
    3: "output",
    4: "first chroma",
    5: "second chroma",
}

# The counts of numbers that a command takes, how many of the first are never negative, and what it takes.
Form = collections.namedtuple("Form", "counts named takes")

FORMS = {
    "screen": Form(range(3, 5), 4, "WIDTH HEIGHT DEPTH and a pad or nothing"),
    "block": Form(range(4, MOST_NUMBERS + 1), 4, "ROW COLUMN SIZE TYPE and coefficients"),
    "change": Form(range(18, 19), 2, "ROW COLUMN and 16 samples"),
    "withdraw": Form(range(1, 2), 1, "a NUMBER"),
    "fold": Form(range(1), 0, "nothing"),
    "undo": Form(range(2), 1, "a count or nothing"),
    "keep": Form(range(1), 0, "nothing"),
    "show": Form(range(1), 0, "nothing"),
    "compare": Form(range(1), 0, "nothing"),
    "pad": Form(range(1), 0, "nothing"),
    "free": Form(range(1, 2), 1, "a NUMBER"),
    "who": Form(range(2, 3), 2, "ROW COLUMN"),
    "steps": Form(range(1), 0, "nothing"),
}

WORD = re.compile(rb"[^ \t\r]+")
NUMBER = re.compile(rb"(-?)0*([0-9]{1,10})")

# The answer to a block or change that leaves the screen: it isn't given the samples that it needs.
NO_SAMPLES = Answer(6, 2)


class Bad(Exception):
    """A bad line, with its message."""


def number_of(place, word):
    match = NUMBER.fullmatch(word)
    value = int(b"".join(match.groups())) if match else LARGEST + 1
    if abs(value) > LARGEST:
        raise Bad(f"number {place} is no whole number from {-LARGEST} to {LARGEST}")
    return value


def command_of(words):
    """The command of a line and its numbers."""
    name = words[0].decode("latin-1")
    if name not in FORMS:
        raise Bad("no such command")
    numbers = [number_of(place, word) for place, word in enumerate(words[1 : MOST_NUMBERS + 1], 1)]
    if len(words) > MOST_NUMBERS + 1:
        raise Bad(f"more than {MOST_NUMBERS} numbers")
    form = FORMS[name]
    if len(numbers) not in form.counts:
        raise Bad(f"{name} takes {form.takes}")
    for place, value in enumerate(numbers[: form.named], 1):
        if value < 0:
            raise Bad(f"number {place} is negative")
    return name, numbers


def refused(answer):
    words = [REFUSALS[answer.number], *([SLICES[answer.slice]] if answer.slice else [])]
    return f"refused {answer.number}, slice {answer.slice}, place {answer.place}: {', '.join(words)}"


class Glass:
    """A screen with its remaining steps. Each command gives its lines; outcome answers the calls, as model.outcome does."""

    def __init__(self, outcome=model.outcome):
        self.outcome = outcome
        self.plane = None

    def obey(self, name, numbers):
        if name != "screen" and self.plane is None:
            raise Bad("no screen yet")
        return getattr(self, name)(*numbers)

    def screen(self, width, height, depth, pad=0):
        if not (4 <= width <= 256 and 4 <= height <= 256 and 8 <= depth <= 12):
            raise Bad("sides are 4 to 256, depth 8 to 12")
        if pad > 64:
            raise Bad("a pad is 0 to 64")
        self.stride, self.width, self.height, self.depth = width + pad, width, height, depth
        self.plane = [2 ** (depth - 1)] * (self.stride * height)
        for at in self.pads():
            self.plane[at] = at % 256
        self.remaining = []
        self.kept = None
        return [f"screen of {width} by {height}, depth {depth}" + (f", pad {pad}" if pad else "")]

    def pads(self):
        """The places of the pad; each holds its number modulo 256 at the start."""
        return [at for at in range(self.stride * self.height) if at % self.stride >= self.width]

    def place(self, words, at):
        return f"{words} at row {at // self.stride}, column {at % self.stride}"

    def inside(self, row, column, width, height):
        return column + width <= self.width and row + height <= self.height

    def block(self, row, column, size, type, *coefficients):
        known = size < 25
        count = model.used(size)[0] if known else len(coefficients)
        if len(coefficients) > count:
            raise Bad(f"the block has {count} coefficients")
        start = row * self.stride + column
        slices = [[*coefficients, *[0] * (count - len(coefficients))], self.plane[start:]]
        answer, after = self.outcome(Case(3, [self.depth, size, type, self.stride], slices))
        if known and not 1 <= answer.number <= 5 and not self.inside(row, column, *model.width_and_height(size)):
            answer = NO_SAMPLES
        if answer == model.DONE:
            self.plane[start:] = after.slices[1]
            self.remaining = []
        return [f"block at row {row}, column {column}: {'done' if answer == model.DONE else refused(answer)}"]

    # The calls of the history, on a list of steps that is in range.

    def ended(self, answer):
        return f"done, steps {len(self.remaining)}" if answer == model.DONE else refused(answer)

    def move(self, entry, sign):
        """The plane with a step taken, or taken back; refusals 8 and 10 where a sample is out of range."""
        refusals = lossless_model.sample_refusals(entry.depth, self.plane, self.stride, 4, 4, entry.row * self.stride + entry.column)
        answer = next(refusals, model.DONE)
        if answer == model.DONE:
            moved = lossless_model.moved_refusals(entry.depth, self.stride, entry.row, entry.column, entry.levels, self.plane, sign)
            answer = next(moved, model.DONE)
        return answer

    def change(self, row, column, *samples):
        top = 2**self.depth - 1
        for place, sample in enumerate(samples, 3):
            if not 0 <= sample <= top:
                raise Bad(f"number {place} is outside 0 to {top}")
        return [f"change at row {row}, column {column}: {self.ended(self.step(row, column, samples))}"]

    def step(self, row, column, samples):
        if not self.inside(row, column, 4, 4):
            return NO_SAMPLES
        present = [self.plane[at] for at in model.places(self.stride, row, column)]
        difference = [s - p for s, p in zip(samples, present)]
        levels = self.outcome(Case(6, [], [difference, [0] * 16]))[1].slices[1]
        number = self.remaining[-1].number + 1 if self.remaining else 1
        entry = history_model.Entry(number, self.depth, row, column, levels)
        answer = self.move(entry, 1)
        if answer == model.DONE and len(self.remaining) == history_model.MOST:
            answer = Answer(14)
        if answer == model.DONE:
            history_model.move(self.plane, self.stride, entry, 1)
            self.remaining.append(entry)
        return answer

    def can_withdraw(self, number):
        at = history_model.place_of(self.remaining, number)
        if at is None:
            return Answer(13, place=number)
        answer = self.move(self.remaining[at], -1)
        if answer == model.DONE and any(history_model.share(self.remaining[at], e) for e in self.remaining[at + 1 :]):
            answer = Answer(13, place=number)
        return answer

    def take_out(self, at):
        gone = self.remaining.pop(at)
        history_model.move(self.plane, self.stride, gone, -1)
        return gone

    def withdraw(self, number):
        answer = self.can_withdraw(number)
        if answer == model.DONE:
            self.take_out(history_model.place_of(self.remaining, number))
        return [f"withdraw {number}: {self.ended(answer)}"]

    def free(self, number):
        answer = self.can_withdraw(number)
        return [f"free {number}: {'yes' if answer == model.DONE else refused(answer)}"]

    def fold(self):
        folded = history_model.folded(self.remaining)
        if folded is None:
            raise AssertionError("a fold of steps that were taken is never refused")
        self.remaining = folded
        return [f"fold: {self.ended(model.DONE)}"]

    def who(self, row, column):
        if row >= self.height:
            raise Bad("no such row")
        if column >= self.width:
            raise Bad("no such column")
        cell = row // 4 * history_model.cells_across(self.width) + column // 4
        number = history_model.latest(self.width, self.remaining, cell)
        return [f"who at row {row}, column {column}: {f'step {number}' if number else 'none'}"]

    def steps(self):
        listed = [f"step {entry.number} at row {entry.row}, column {entry.column}" for entry in self.remaining]
        return [f"steps {len(listed)}", *listed]

    def undo(self, count=1):
        if count > len(self.remaining):
            raise Bad(f"no more than {len(self.remaining)} steps")
        if count == 0:
            return [f"undo of nothing, steps {len(self.remaining)}"]
        return [self.undo_newest() for _ in range(count)]

    def undo_newest(self):
        if self.move(self.remaining[-1], -1) != model.DONE:
            raise AssertionError("an undo of the newest step is never refused")
        gone = self.take_out(-1)
        return f"undo at row {gone.row}, column {gone.column}: {self.ended(model.DONE)}"

    def show(self):
        return ["show" + self.picture()]

    def picture(self):
        lines = ["", "P2", f"{self.width} {self.height}", str(2**self.depth - 1)]
        for at in range(0, len(self.plane), self.stride):
            row = [f" {sample}" for sample in self.plane[at : at + self.width]]
            lines += ["".join(row[x : x + 14]) for x in range(0, self.width, 14)]
        return "\n".join(lines)

    def keep(self):
        self.kept = list(self.plane)
        return ["keep"]

    def compare(self):
        if self.kept is None:
            raise Bad("nothing kept")
        for at, (now, then) in enumerate(zip(self.plane, self.kept)):
            if now != then:
                return [self.place("compare: first differs", at)]
        return ["compare: equal"]

    def pad(self):
        touched = [at for at in self.pads() if self.plane[at] != at % 256]
        return [self.place("pad: first touched", touched[0]) if touched else "pad: untouched"]


def answer(script, glass=None):
    """What glass writes for the bytes of a script."""
    if len(script) >= TOO_LONG:
        return f"# error: script of {TOO_LONG} bytes or more; nothing done\n".encode()
    glass = glass or Glass()
    told = []
    for number, line in enumerate(script.split(b"\n"), 1):
        words = WORD.findall(line)
        if not words or words[0].startswith(b"#"):
            continue
        try:
            events = glass.obey(*command_of(words))
        except Bad as bad:
            events = [f"error: {bad}; nothing changed"]
        told += [f"# line {number}: {event}\n" for event in events]
    return "".join(told).encode()


if __name__ == "__main__":
    if len(sys.argv) != 1:
        sys.exit(__doc__.splitlines()[0])
    sys.stdout.buffer.write(answer(sys.stdin.buffer.read()))
