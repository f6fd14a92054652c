#!/usr/bin/env python3
"""Usage: cases.py accepted|refused COUNT SEED > STREAM, or cases.py document|edges > STREAM: write cases of one sort.

Random cases for the stream of docs/CASES.md, from a seed: accepted ones over all sizes, kinds, depths and magnitudes, and
refused ones, made by spoiling accepted ones. The fixed cases are in demands.py.
"""

import array
import random
import sys

sys.dont_write_bytecode = True

import av1_cases
import history_model
import model
import stream
import tables
from stream import Case

RANGE = (-11_864_550, 11_864_549)  # of clamping calls, where a size is scaled
WHOLE = (-(2**31), 2**31 - 1)


# Numbers.


def raw(rng, count):
    """Any 32-bit numbers."""
    return array.array("i", rng.randbytes(4 * count)).tolist()


def clamped(values, low, high):
    return [low if v < low else high if v > high else v for v in values]


def of_one_size(rng, count, low, high):
    """Numbers of about one size out of a range, small sizes as likely as large ones."""
    bits = rng.randrange(32)
    return clamped([v >> bits for v in raw(rng, count)], low, high)


def from_ends(rng, count, low, high):
    return rng.choices((low, low + 1, -1, 0, 1, high - 1, high), k=count)


def some(rng, count, low, high):
    return rng.choice((of_one_size, of_one_size, of_one_size, from_ends))(rng, count, low, high)


def samples(rng, count, depth):
    top = 2**depth - 1
    pattern = rng.randrange(4)
    if pattern == 0:
        return [rng.randint(0, top)] * count
    if pattern == 1:
        return rng.choices((0, top), k=count)
    if pattern == 2:
        return rng.choices((0, 1, 2, top - 2, top - 1, top), k=count)
    return [v & top for v in raw(rng, count)]


def extra(rng, room):
    """Numbers past those that a call uses; anything may stand there."""
    return raw(rng, min(rng.choice((0, 0, 0, 1, 2, 5, 16)), max(room, 0)))


def old_output(rng, count):
    """What a float slice holds before the call, by its bits."""
    pattern = rng.randrange(3)
    if pattern == 0:
        return raw(rng, count)
    return [0] * count if pattern == 1 else [model.float_bits(-7)] * count


# Blocks.


def combinations():
    """Every size, pair of kinds and depth that is accepted."""
    return [
        (depth, size, horizontal, vertical)
        for size, (w, h, _, _) in enumerate(tables.SIZES)
        for horizontal in range(tables.CODES[w])
        for vertical in range(tables.CODES[h])
        for depth in range(8, 13)
    ]


# The sizes without a side of 64, which are those of the calls on bytes.
NARROW_SIZES = [size for size, (w, h, _, _) in enumerate(tables.SIZES) if 64 not in (w, h)]


def coefficient_range(call, depth, size):
    """What a call accepts for a coefficient."""
    return model.coefficient_range(depth, size, call in stream.CLAMPED) or WHOLE


# Patterns of coefficients within some ends, for a size and its two kinds, in column order.


def single(rng, ends, size, *_):
    numbers = [0] * model.used(size)[0]
    numbers[rng.choice((0, rng.randrange(len(numbers))))] = some(rng, 1, *ends)[0]
    return numbers


def corner(rng, ends, size, *_):
    """A few low coefficients of the first rows and columns."""
    count, sh = model.used(size)
    numbers = [0] * count
    for value in some(rng, rng.randint(1, 8), *ends):
        numbers[rng.randrange(4) + sh * rng.randrange(4)] = value
    return numbers


def scattered(rng, ends, size, *_):
    numbers = [0] * model.used(size)[0]
    for value in some(rng, rng.randint(2, 12), *ends):
        numbers[rng.randrange(len(numbers))] = value
    return numbers


def dense(rng, ends, size, *_):
    return some(rng, model.used(size)[0], *ends)


def sign(value):
    return (value > 0) - (value < 0)


def aligned(rng, ends, size, horizontal, vertical):
    """Numbers of one size with the signs of a kernel row, so that one output becomes as large as it can."""
    w, h = model.width_and_height(size)
    across = rng.choice(model.matrix(w, horizontal))
    down = rng.choice(model.matrix(h, vertical))
    top = rng.choice((2**15, 2**16, 2**17, 2**18, 2**19, 2**20, ends[1]))
    return clamped([top * sign(a) * sign(b) for a in across for b in down], *ends)


def empty(rng, ends, size, *_):
    return [0] * model.used(size)[0]


PATTERNS = (empty, single, single, corner, corner, scattered, dense, dense, dense, aligned, aligned)


def strides(rng, width, height, room):
    """A stride that leaves the block within the room."""
    largest = max(width, min(65_536, (room - width) // (height - 1)))
    return min(largest, rng.choice((width, width, width + 1, width + rng.randrange(20), 2 * width, largest)))


def plane_of(rng, depth, stride, width, height, start, room):
    """A plane with a block of samples at the start; what lies around it may be anything."""
    length = start + (height - 1) * stride + width
    around = raw if rng.randrange(2) else lambda rng, count: samples(rng, count, depth)
    plane = around(rng, length) + extra(rng, room - length)
    block = samples(rng, width * height, depth)
    for y in range(height):
        at = start + y * stride
        plane[at : at + width] = block[y * width : (y + 1) * width]
    return plane


def in_bytes(call, case):
    """A case of a wide call as one of its byte call: any number outside the block as a byte."""
    numbers, plane = case.slices
    return Case(call, case.arguments, [numbers, [value & 255 for value in plane]])


def block(rng, call, depth, size, horizontal, vertical, room=stream.LIMIT):
    """An accepted case of a pixel call."""
    if call in stream.WIDE:
        return in_bytes(call, block(rng, stream.WIDE[call], depth, size, horizontal, vertical, room))
    w, h = model.width_and_height(size)
    type = horizontal | rng.choice((0, 0, rng.randrange(4))) << 3 | vertical << 5
    coefficients = rng.choice(PATTERNS)(rng, coefficient_range(call, depth, size), size, horizontal, vertical)
    if call in stream.ROWS:
        coefficients = model.row_by_row(size, coefficients)
    coefficients += extra(rng, room - len(coefficients))
    if stream.CALLS[call].kind == "recon":
        spare = room - w * h
        prediction = samples(rng, w * h, depth) + extra(rng, spare)
        return Case(call, [depth, size, type], [coefficients, prediction, old_output(rng, w * h) + extra(rng, spare)])
    stride = strides(rng, w, h, room)
    return Case(call, [depth, size, type, stride], [coefficients, plane_of(rng, depth, stride, w, h, 0, room)])


class Blocks:
    """Random blocks: two in three go through every combination in a shuffled order, the others give each size its share."""

    def __init__(self, rng):
        self.rng = rng
        self.all = combinations()
        self.waiting = []

    def next_combination(self):
        if not self.waiting:
            self.waiting = self.rng.sample(self.all, len(self.all))
        return self.waiting.pop()

    def by_size(self, size):
        w, h = model.width_and_height(size)
        return size, self.rng.randrange(tables.CODES[w]), self.rng.randrange(tables.CODES[h])

    def case(self, call):
        if call in stream.WIDE:
            return block(self.rng, call, 8, *self.by_size(self.rng.choice(NARROW_SIZES)))
        if self.rng.randrange(3) == 0:
            return block(self.rng, call, self.rng.randint(8, 12), *self.by_size(self.rng.randrange(25)))
        return block(self.rng, call, *self.next_combination())


# The other calls.


def chroma(rng, room=stream.LIMIT):
    depth = rng.randint(8, 12)
    half = 2 ** (depth + 7)
    count = min(room, rng.choice((0, 1, 2, 3, 16, rng.randrange(100), rng.randrange(1000))))
    angles = [some(rng, 1, -256, 256)[0] if rng.randrange(3) == 0 else rng.randint(-256, 256) for _ in range(2)]
    return Case(5, [depth, *angles], [some(rng, count, -half, half - 1) for _ in range(2)])


def wht(rng, call):
    limit = 65_535 if call == 6 else 262_144
    return Case(call, [], [some(rng, 16, -limit, limit), raw(rng, 16)])


def place_of_block(rng, room):
    """Stride, visible width, row and column of a 4x4 block that a plane of that room can hold."""
    row = rng.choice((0, 1, 2, rng.randrange(20), rng.randrange(room // 4 - 3)))
    largest = min(65_536, room // (row + 4))
    stride = rng.choice((4, 5, min(largest, rng.randint(4, 40)), rng.randint(4, largest)))
    stride = min(stride, largest)
    width = rng.choice((stride, stride, rng.randint(4, stride)))
    return stride, width, row, rng.choice((0, width - 4, rng.randint(0, width - 4)))


def lossless(rng, call, room=1200, depth=None):
    """An accepted step or undo: the levels lead from one block of samples to another."""
    if call in stream.WIDE:
        return in_bytes(call, lossless(rng, stream.WIDE[call], room, 8))
    depth = depth or rng.randint(8, 12)
    stride, width, row, column = place_of_block(rng, room)
    plane = plane_of(rng, depth, stride, 4, 4, row * stride + column, room)
    present = [plane[at] for at in model.places(stride, row, column)]
    wanted = present if rng.randrange(10) == 0 else samples(rng, 16, depth)
    residual = [b - a if call == 8 else a - b for a, b in zip(present, wanted)]
    return Case(call, [depth, stride, width, row, column], [model.forward(residual), plane])


def history(rng, steps, step=8, undo=9):
    """Steps on one plane, some of them refused, then the undoing of the taken ones, newest first."""
    depth, stride, rows = 8 if step in stream.WIDE else rng.randint(8, 12), rng.randint(6, 12), rng.randint(6, 12)
    width = rng.randint(5, stride)
    plane = samples(rng, stride * rows, depth)
    cases, taken = [], []
    for _ in range(steps):
        row, column = rng.randint(0, rows - 4), rng.randint(0, width - 4)
        present = [plane[at] for at in model.places(stride, row, column)]
        levels = model.forward([b - a for a, b in zip(present, samples(rng, 16, depth))])
        if rng.randrange(4) == 0:
            levels[rng.randrange(16)] += rng.choice((1, 2**depth, -(2**14)))
        cases.append(Case(step, [depth, stride, width, row, column], [levels, plane]))
        answer, after = model.outcome(cases[-1])
        plane = after.slices[1]
        if answer == model.DONE:
            taken.append(cases[-1])
    for case in reversed(taken):
        cases.append(Case(undo, case.arguments, [case.slices[0], plane]))
        plane = model.outcome(cases[-1])[1].slices[1]
    return cases


# Histories that remain: section 9 of document 02.


def empty_memory(width, rows):
    return [0] * history_model.STEPS, [0] * history_model.LEVELS, [0] * history_model.cells_of(width, rows)


class Remaining:
    """A history and its plane, from the beginning on. Each move makes a case of it, and goes on from what the model leaves."""

    def __init__(self, rng):
        self.rng = rng
        self.stride, self.rows = rng.randint(5, 16), rng.randint(4, 12)
        self.width = rng.randint(4, self.stride)
        length = self.stride * self.rows
        depth = rng.randint(8, 12)
        self.plane = samples(rng, length, 8) if rng.randrange(2) else [100] * length
        self.depths = [depth] * 3 + [rng.randint(8, 12)]
        self.memory = list(empty_memory(self.width, self.rows))

    def remaining(self):
        return history_model.entries(*self.memory[:2])

    def step(self):
        rng = self.rng
        depth, row, column = rng.choice(self.depths), rng.randint(0, self.rows - 4), rng.randint(0, self.width - 4)
        if self.remaining() and rng.randrange(3) == 0:
            row, column = rng.choice(self.remaining())[2:4]
        present = [self.plane[at] for at in model.places(self.stride, row, column)]
        wanted = [min(max(p + rng.randint(-9, 9), 0), 255) for p in present] if rng.randrange(2) else samples(rng, 16, 8)
        level = model.forward([b - a for a, b in zip(present, wanted)])
        if self.remaining() and rng.randrange(5) == 0:
            _, depth, row, column, old = rng.choice(self.remaining())
            level = model.forward([-residual for residual in model.inverse(old)])
        if rng.randrange(6) == 0:
            level[rng.randrange(16)] += rng.choice((1, -300, 9000))
        return Case(28, [depth, self.stride, self.width, self.rows, row, column], [level, self.plane, *self.memory])

    def move(self, call):
        """The case of a call on what stands now; a withdrawal is more often of a step that remains."""
        if call == 28:
            return self.step()
        numbers = [entry.number for entry in self.remaining()]
        extra = [self.rng.choice((*numbers, *numbers, 0, max(numbers, default=0) + 1))] if call in (30, 31) else []
        return Case(call, [self.stride, self.width, self.rows, *extra], [self.plane, *self.memory])

    def go_on(self, case):
        answer, after = model.outcome(case)
        self.plane, self.memory = after.slices[-4], after.slices[-3:]
        return answer

    def play(self, moves):
        """Cases one after the other, each on what the one before it left."""
        for _ in range(moves):
            case = self.move(self.rng.choice((28, 28, 28, 28, *stream.HISTORY_CALLS)))
            self.go_on(case)
            yield case


def remembered(rng, call):
    """An accepted case of a call on a history."""
    while True:
        history = Remaining(rng)
        for _ in range(rng.randint(2, 8)):
            history.go_on(history.step())
        case = history.move(call)
        if model.outcome(case)[0] == model.DONE:
            return case


def older(rng, make):
    """A case of the older edition, drawn until none of its numbers leaves the bit count."""
    while True:
        case = make(rng)
        if model.outcome(case)[0] == model.DONE:
            return case


def accepted(rng, blocks, call):
    """An accepted case of any call."""
    makers = {"chroma": lambda: chroma(rng), "wht": lambda: wht(rng, call)}
    makers |= {"lossless": lambda: lossless(rng, call), "byte lossless": lambda: lossless(rng, call)}
    makers |= {name: lambda: remembered(rng, call) for name in map(lambda c: stream.CALLS[c].kind, stream.HISTORY_CALLS)}
    makers |= {"av1 dct": lambda: older(rng, av1_cases.a_dct), "av1 wht": lambda: older(rng, av1_cases.a_wht)}
    return makers.get(stream.CALLS[call].kind, lambda: blocks.case(call))()


# Faults: each takes an accepted case and spoils it in one way. What comes of it, the model says.


def set_argument(name, *values):
    def spoil(rng, case):
        names = stream.CALLS[case.call].arguments
        if name in names:
            case.arguments[names.index(name)] = rng.choice(values)

    return spoil


def missing_kind(rng, case):
    names = stream.CALLS[case.call].arguments
    if "type" in names:
        low, high = rng.randrange(8), rng.randrange(8)
        case.arguments[names.index("type")] = rng.choice((low | high << 5, low, high << 5))


def cut(rng, case):
    """A slice a little shorter, or empty."""
    values = rng.choice(case.slices)
    del values[max(0, len(values) - rng.choice((1, 1, 2, 3, 17))) :]
    if rng.randrange(8) == 0:
        values.clear()


def lengthen(rng, case):
    values = rng.choice(case.slices)
    if len(values) < stream.LIMIT:
        values.append(0)


def stray(rng, case):
    """Some numbers anywhere in a slice replaced by far or near ones."""
    slice = rng.randrange(len(case.slices))
    values = case.slices[slice]
    depth = case.arguments[0] if case.arguments and case.arguments[0] <= 12 else 8
    ends = (-1, 2**depth, -(2 ** (depth + 7)) - 1, 2 ** (depth + 7), RANGE[0] - 1, RANGE[1] + 1)
    ends += (-65_536, 65_536, -262_145, 262_145, 524_288, *WHOLE)
    name = stream.CALLS[case.call].slices[slice]
    for _ in range(rng.randint(1, 3) if values else 0):
        value = rng.choice(ends)
        values[rng.randrange(len(values))] = value & 255 if name in stream.BYTES else value % 2**32 if name in stream.UNSIGNED else value


def forge(rng, case):
    """A history whose list says something else than before."""
    if case.call in stream.HISTORY_CALLS:
        steps, levels = case.slices[-3:-1]
        place = rng.choice((0, rng.randint(1, max(4 * min(steps[0], 4096), 1)) if steps else 0))
        if place < len(steps):
            steps[place] = rng.choice((0, 1, 2, 7, 13, 40, 4096, 4097, 2**31, 2**32 - 4, 2**32 - 1))
        if levels and rng.randrange(3) == 0:
            levels[rng.randrange(16)] = rng.choice((262_144, 262_145, -262_145, *WHOLE))


def nudge(rng, case):
    """A level changed a little, so that a step may leave the range."""
    if case.call in (8, 9, 22, 23) and len(case.slices[0]) == 16:
        k = rng.randrange(16)
        changed = case.slices[0][k] + rng.choice((-5000, -300, -3, -1, 1, 3, 300, 5000))
        case.slices[0][k] = min(max(changed, WHOLE[0]), WHOLE[1])


HUGE = (2**31, 2**32, 2**32 + 8, 2**62, 2**63 - 1, 2**63, 2**64 - 4, 2**64 - 1)
FAULTS = (
    set_argument("depth", 0, 7, 9, 12, 13, 31, 32, 2**31, 2**32 - 1),
    set_argument("size", 4, 24, 25, 26, 255, *HUGE),
    set_argument("type", 256, 257, 512, *HUGE),
    missing_kind,
    missing_kind,
    set_argument("stride", 0, 1, 3, 7, 63, 65_536, 65_537, *HUGE),
    set_argument("width", 0, 3, 4, 5, 65_536, 65_537, *HUGE),
    set_argument("row", 65_535, 65_536, *HUGE),
    set_argument("column", 1, 5, 65_533, *HUGE, 2**64 - 5, 2**64 - 3),
    set_argument("sine", -257, 257, *WHOLE),
    set_argument("cosine", -257, 257, *WHOLE),
    set_argument("rows", 0, 3, 4, 5, 65_536, 65_537, *HUGE),
    set_argument("number", 0, 1, 2, 3, 2**32 - 1),
    forge,
    set_argument("length", 0, 1, 3, 5, 12, 31, 63, 65, 128, *HUGE),
    set_argument("bits", 0, 8, 15, 21, 32, 2**31, 2**32 - 1),
    cut,
    cut,
    lengthen,
    stray,
    stray,
    stray,
    nudge,
    nudge,
)


def copied(case):
    return Case(case.call, list(case.arguments), [list(values) for values in case.slices])


def refused(rng, make):
    """A case made by make() and spoilt until the model refuses it, by one fault or several."""
    while True:
        case = copied(make())
        for fault in rng.choices(FAULTS, k=rng.choice((1, 1, 2, 3))):
            fault(rng, case)
        if model.outcome(case)[0] != model.DONE:
            return case


def random_cases(sort, count, seed):
    rng = random.Random(seed)
    blocks = Blocks(rng)
    make = lambda: accepted(rng, blocks, rng.choice(list(stream.CALLS)))
    return (make() if sort == "accepted" else refused(rng, make) for _ in range(count))


def main(sort, *numbers):
    import demands

    fixed = {"document": demands.document, "edges": demands.edges}
    chosen = (demand.case for demand in fixed[sort]()) if sort in fixed else random_cases(sort, *numbers)
    for case in chosen:
        sys.stdout.buffer.write(stream.encode(case))


if __name__ == "__main__":
    if sys.argv[1:2] not in (["accepted"], ["refused"], ["document"], ["edges"]) or len(sys.argv) not in (2, 4):
        sys.exit(__doc__.splitlines()[0])
    main(sys.argv[1], *map(int, sys.argv[2:]))
