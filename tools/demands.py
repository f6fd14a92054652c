"""What documents 01 and 02 lay down for single cases: P1 to P12, "Run:" lines, both sides and the slice of each refusal.

The answers are written here by hand from the documents, so that a test can hold the model, and any other program,
against them.
"""

import collections
import itertools

import model
import stream
import tables
from cases import RANGE, WHOLE
from stream import BYTE_CALLS, CLAMPED, HISTORY_CALLS, PIXEL_CALLS, ROWS, Case, of_kind

# A case and its answer; after is what the written slices hold then, None where only the answer is laid down.
Demand = collections.namedtuple("Demand", "label case number slice place after", defaults=[0, 0, 0, None])

STRICT = tuple(call for call in PIXEL_CALLS if call not in CLAMPED)
BYTE_ADD = of_kind("byte add")
STEPS = of_kind("lossless", "byte lossless")
RECTANGULAR = (5, 6, 7, 8, 9, 10, 11, 12, 19, 20, 21, 22)
SMALL_SIZE_OF_LENGTH = {4: (0, 0), 8: (6, 5), 16: (14, 13), 32: (20, 19), 64: (24, 23)}


# Cases.


def calls_of(size):
    """The pixel calls that have a size: no call on bytes has a side of 64."""
    return PIXEL_CALLS if 64 in model.width_and_height(size) else PIXEL_CALLS + BYTE_ADD


def floats(call):
    return stream.CALLS[call].kind == "recon"


def lengths_of(size):
    w, h = model.width_and_height(size if size < 25 else 0)
    return min(w, 32) * min(h, 32), w, h


def recon(call, depth=8, size=0, type=0, coefficients=None, prediction=None, output=None):
    count, w, h = lengths_of(size)
    slices = coefficients, prediction, output
    usual = [0] * count, [100] * (w * h), [7] * (w * h)
    return Case(call, [depth, size, type], [list(b if a is None else a) for a, b in zip(slices, usual)])


def add(call, depth=8, size=0, type=0, coefficients=None, plane=None, stride=None):
    count, w, h = lengths_of(size)
    stride = w if stride is None else stride
    reach = (h - 1) * stride + w if stride <= 65_536 else w * h
    usual = [0] * count, [100] * min(reach, stream.LIMIT)
    slices = [list(b if a is None else a) for a, b in zip((coefficients, plane), usual)]
    return Case(call, [depth, size, type, stride], slices)


def pixel(call, depth=8, size=0, type=0, coefficients=None, present=None):
    """A case of a pixel call; the samples before it are the prediction or the plane."""
    return (recon if floats(call) else add)(call, depth, size, type, coefficients, present)


def chroma(u, v, depth=8, sine=0, cosine=256):
    return Case(5, [depth, sine, cosine], [list(u), list(v)])


def wht(call, source, target=None):
    return Case(call, [], [list(source), [7] * 16 if target is None else list(target)])


def lossless(call, depth=8, stride=8, width=None, row=0, column=0, levels=None, plane=None):
    """A step or an undo; all of a line is visible where no width is named."""
    levels = [0] * 16 if levels is None else list(levels)
    arguments = [depth, stride, stride if width is None else width, row, column]
    return Case(call, arguments, [levels, [100] * 64 if plane is None else list(plane)])


UP = [4] + [0] * 15  # P12: the levels of sixteen residuals of 1


def memory(*entries, width=8, rows=8, index=None):
    """A history in its lent memory: entries of number, depth, row, column, levels; an index all 0 where none is named."""
    steps, levels = [len(entries)], []
    for number, depth, row, column, own in entries:
        steps += [number, depth, row, column]
        levels += own
    steps += [0] * (16_385 - len(steps))
    levels += [0] * (65_536 - len(levels))
    return [steps, levels, [0] * (-(-width // 4) * -(-rows // 4)) if index is None else list(index)]


def remembered(call, *entries, depth=8, stride=8, width=8, rows=8, row=0, column=0, level=UP, number=1, plane=None, index=None):
    """A case of a call on a history."""
    glass = [stride, width, rows]
    arguments = {28: [depth, *glass, row, column], 30: [*glass, number], 31: [*glass, number]}.get(call, glass)
    own = [list(level)] if call == 28 else []
    plane = [100] * 64 if plane is None else list(plane)
    fits = 4 <= width <= 65_536 and 4 <= rows <= 65_536
    return Case(call, arguments, [*own, plane, *memory(*entries, width=width if fits else 8, rows=rows if fits else 8, index=index)])


def older_dct(length, numbers, bits=16):
    return Case(34, [length, bits], [list(numbers)])


def older_wht(numbers, bits=16):
    return Case(35, [bits], [list(numbers)])


def with_number(count, index, value, others=0):
    numbers = [others] * count
    numbers[index] = value
    return numbers


# The sums of document 01.


def index_of(call, size, row, column):
    """Where a call finds the coefficient of a row and column: document 01, and for the row order document 02, section 1."""
    count, w, h = lengths_of(size)
    return row * min(w, 32) + column if call in ROWS else row + column * min(h, 32)


def on_pixel_calls(label, size, type, place, value, pixels):
    """One coefficient that is not zero, by its row and column, prediction 100: the same pixels by every call."""
    for call in calls_of(size):
        index = index_of(call, size, *place)
        case = pixel(call, 8, size, type, with_number(lengths_of(size)[0], index, value))
        after = list(map(model.float_bits, pixels)) if floats(call) else list(pixels)
        yield Demand(f"{label}, call {call}", case, after=[after])


def pixel_sums():
    row = [100] * 4
    yield from on_pixel_calls("P1", 0, 0, (0, 0), 15, [101] * 16)
    yield from on_pixel_calls("P2", 0, 0, (0, 0), 14, [100] * 16)
    yield from on_pixel_calls("P3", 0, 0, (0, 0), -18, [99] * 16)
    yield from on_pixel_calls("P4", 0, 0, (0, 0), -17, [100] * 16)
    yield from on_pixel_calls("P5", 19, 0, (0, 0), 256, [103] * 128)
    yield from on_pixel_calls("P6", 0, 34, (0, 0), 128, [102, 106, 109, 111] + 3 * row)
    yield from on_pixel_calls("P7", 0, 35, (0, 1), 128, [109, 98, 89, 94] + 3 * row)
    yield from on_pixel_calls("P8", 5, 33, (1, 0), 256, row + [132] + [100] * 27)
    yield from on_pixel_calls("Run 64 at size 4", 4, 0, (0, 0), 64, [101] * 4096)
    yield from on_pixel_calls("Run 63 at size 4", 4, 0, (0, 0), 63, [100] * 4096)


TRANSFORMS = (
    ("P10", [1, 2, 3, 4] + [0] * 12, [3, -1, 0, 0] + 3 * [2, -1, 0, -1]),
    ("P11", [-1] + [0] * 15, [0] * 4 + 3 * [0, -1, -1, -1]),
    ("P12", [1] * 16, [4] + [0] * 15),
)


def other_sums():
    yield Demand("P9", chroma([128, -128, 127, -127], [0] * 4, cosine=1), after=[[1, -1, 0, 0], [0] * 4])
    for label, residual, levels in TRANSFORMS:
        yield Demand(label, wht(6, residual), after=[levels])
        yield Demand(f"{label} inverted", wht(7, levels), after=[residual])
    for call in STEPS:
        for width, fits in ((8, 4), (6, 2)):
            make = lambda column: lossless(call, stride=8, width=width, column=column)
            label = f"call {call}, width {width}"
            yield Demand(f"Run column {fits}, {label}", make(fits), after=[[100] * 64])
            yield Demand(f"Run column {fits + 1}, {label}", make(fits + 1), 6, 2, 0, [[100] * 64])


def range_sums():
    """Document 01's runs go to the clamping calls, by document 02, section 5, which has runs for the others."""
    clamping = (5, RANGE[1] + 1, 7, 1), (5, RANGE[1]), (0, WHOLE[1])
    strict = (0, 32_767), (0, -32_768), (0, 32_768, 7, 1), (0, -32_769, 7, 1)
    for call in PIXEL_CALLS:
        for size, value, *refusal in clamping if call in CLAMPED else strict:
            case = pixel(call, 8, size, 0, with_number(lengths_of(size)[0], 0, value))
            yield Demand(f"Run {value} at size {size}, call {call}", case, *refusal)


def older_sums():
    """Small sums of the older edition, by hand: 2896 / 4096 is the cosine of an eighth of a turn."""
    yield Demand("DCT 4 of 4096", older_dct(4, [4096, 0, 0, 0]), after=[[2896] * 4])
    yield Demand("DCT 8 of 4096", older_dct(8, [4096] + [0] * 7), after=[[2896] * 8])
    yield Demand("DCT 64 of -4096", older_dct(64, [-4096] + [0] * 63, 20), after=[[-2896] * 64])
    yield Demand("DCT 4, number 1", older_dct(4, [0, 4096, 0, 0]), after=[[3784, 1567, -1567, -3784]])
    yield Demand("DCT 4, number 2", older_dct(4, [0, 0, 4096, 0]), after=[[2896, -2896, -2896, 2896]])
    yield Demand("DCT 4, number 3", older_dct(4, [0, 0, 0, 4096]), after=[[1567, -3784, 3784, -1567]])
    for label, residual, levels in TRANSFORMS:
        yield Demand(f"{label}, four times the levels", older_wht([4 * level for level in levels]), after=[residual])


# The history of document 02, section 9: plane, steps, levels and index after each call, by hand.


def on_block(plane, stride, row, column, gain):
    plane = list(plane)
    for y in range(row, row + 4):
        for x in range(column, column + 4):
            plane[y * stride + x] += gain
    return plane


def history_steps():
    flat = [100] * 64
    for row, column, cells in ((0, 0, [1, 0, 0, 0]), (4, 4, [0, 0, 0, 1]), (0, 2, [1, 1, 0, 0]), (3, 0, [1, 0, 1, 0]), (2, 1, [1] * 4)):
        after = [on_block(flat, 8, row, column, 1), *memory((1, 8, row, column, UP), index=cells)]
        yield Demand(f"first step at {row}, {column}", remembered(28, row=row, column=column), after=after)
    first, gap = (3, 8, 0, 0, UP), (7, 9, 4, 4, UP)
    after = [on_block(flat, 8, 0, 4, 1), *memory(first, gap, (8, 8, 0, 4, UP), index=[3, 8, 0, 7])]
    case = remembered(28, first, gap, row=0, column=4, index=[3, 0, 0, 7])
    yield Demand("a list with a gap", case, after=after)
    after = [on_block(flat, 8, 0, 4, 1), *memory(first, gap, (8, 8, 0, 4, UP), index=[40, 8, 42, 43])]
    case = remembered(28, first, gap, row=0, column=4, index=[40, 41, 42, 43])
    yield Demand("an index is not read", case, after=after)
    pads = ([100] * 6 + [-1] * 2) * 7
    after = [on_block(pads, 8, 3, 2, 1), *memory((1, 8, 3, 2, UP), width=6, rows=7, index=[1] * 4)]
    case = remembered(28, width=6, rows=7, row=3, column=2, plane=pads)
    yield Demand("partial cells at the edges", case, after=after)


def history_undos():
    one, two = (1, 8, 0, 0, UP), (5, 8, 2, 2, UP)
    shown = on_block(on_block([100] * 64, 8, 0, 0, 1), 8, 2, 2, 1)
    behind = memory(one, two, index=[1, 0, 0, 0])
    behind[0][0] = 1
    yield Demand("undo of the newest", remembered(29, one, two, plane=shown, index=[5] * 4), after=[on_block(shown, 8, 2, 2, -1), *behind])
    gone = memory(one, index=[0, 9, 9, 9])
    gone[0][0] = 0
    yield Demand("undo of the only step", remembered(29, one, plane=shown, index=[9] * 4), after=[on_block(shown, 8, 0, 0, -1), *gone])
    for call in (29, 30, 31):
        yield Demand("nothing remains", remembered(call, number=0), 13)


def history_withdrawals():
    """Steps at columns 0, 4 and 8 of a line share cells with a step at column 2 or 6, samples with none two places on."""
    plane = [100] * 48
    entry = lambda number, column: (number, 8, 0, column, UP)
    make = lambda call, *entries, number: remembered(
        call, *entries, number=number, stride=12, width=12, rows=4, plane=plane, index=[9] * 3
    )
    two = entry(1, 2), entry(2, 6)
    left = memory(entry(2, 6), index=[0, 2, 9], width=12, rows=4)
    left[0][5:9] = [2, 8, 0, 6]
    left[1][16:32] = UP
    yield Demand("a step in the same cell", make(30, *two, number=1), after=[on_block(plane, 12, 0, 2, -1), *left])
    yield Demand("a step in the same cell, asked", make(31, *two, number=1))
    for call in (30, 31):
        for column in (0, 3, 5):
            yield Demand(f"overlapped at {column}", make(call, entry(4, 2), entry(9, column), number=4), 13, 0, 4)
        for column in (6, 7, 8):
            yield Demand(f"free at {column}", make(call, entry(4, 2), entry(9, column), number=4))
        yield Demand("the newest", make(call, entry(4, 2), entry(9, 2), number=9))
        for number in (0, 1, 3, 5, 8, 10, 2**32 - 1):
            yield Demand(f"no step {number}", make(call, entry(4, 2), entry(9, 2), number=number), 13, 0, number)
    three = entry(1, 0), entry(2, 4), entry(6, 8)
    left = memory(entry(1, 0), entry(6, 8), index=[9, 0, 9], width=12, rows=4)
    left[0][9:13], left[1][32:48] = [6, 8, 0, 8], UP
    yield Demand("out of the middle", make(30, *three, number=2), after=[on_block(plane, 12, 0, 4, -1), *left])


def history_rebuilds():
    entries = (2, 8, 0, 0, UP), (3, 8, 1, 3, UP), (9, 8, 4, 4, UP)
    yield Demand("a rebuild", remembered(32, *entries, index=[7] * 4), after=[[3, 3, 3, 9]])
    yield Demand("a rebuild of nothing", remembered(32, index=[7] * 4), after=[[0] * 4])


def history_glasses():
    """Refusal 5, and 6 of a step: stride, width and rows, then the block."""
    for call in HISTORY_CALLS:
        for name, value in (("stride", 3), ("stride", 65_537), ("width", 3), ("width", 9), ("rows", 3), ("rows", 65_537)):
            yield Demand(f"{name} {value}", remembered(call, **{name: value}), 5)
        yield Demand("rows 2^32 + 8", remembered(call, rows=2**32 + 8), 5)
        expected = {29: (13,), 30: (13, 0, 1), 31: (13, 0, 1)}.get(call, ())
        yield Demand("4 rows", remembered(call, width=4, rows=4), *expected)
        yield Demand("65,536 rows", remembered(call, stride=4, width=4, rows=65_536), *expected)
    for row, column, *refusal in ((4, 4), (5, 4, 6, 2), (4, 5, 6, 2), (2**64 - 4, 0, 6, 2), (0, 2**64 - 4, 6, 2)):
        yield Demand(f"row {row}, column {column}", remembered(28, row=row, column=column, plane=[100] * 128), *refusal)
    yield Demand("below the visible rows", remembered(28, rows=7, row=4, plane=[100] * 128), 6, 2)
    yield Demand("a short plane", remembered(28, row=4, column=4, plane=[100] * 63), 6, 2)
    for length in (0, 15, 17):
        yield Demand(f"{length} levels", remembered(28, level=[0] * length, row=9), 6, 1)


def history_memories():
    """Refusal 12: lengths, a count, entries out of range, numbers that don't rise."""
    fine = (1, 8, 0, 0, UP)
    bad = {
        "depth 7": (2, 7, 0, 0, UP),
        "depth 13": (2, 13, 0, 0, UP),
        "level 262,145": (2, 8, 0, 0, [262_145] + [0] * 15),
        "level -262,145": (2, 8, 0, 0, [0] * 15 + [-262_145]),
        "column 5": (2, 8, 0, 5, UP),
        "column 2^32 - 4": (2, 8, 0, 2**32 - 4, UP),
        "row 5": (2, 8, 5, 0, UP),
        "row 2^32 - 4": (2, 8, 2**32 - 4, 0, UP),
        "the same number": (1, 8, 0, 0, UP),
        "a lower number": (0, 8, 0, 0, UP),
    }
    for call in HISTORY_CALLS:
        for label, entry in bad.items():
            yield Demand(label, remembered(call, fine, entry), 12)
        yield Demand("a number 0", remembered(call, (0, 8, 0, 0, UP)), 12)
        yield Demand("ends of the ranges", remembered(call, (1, 12, 4, 4, [0] * 15 + [-262_144])), *((10, 2, 36) if call in (29, 30, 31) else ()))
        yield Demand("an entry off the plane", remembered(call, (1, 8, 4, 4, UP), plane=[100] * 63), 12)
        for i, name in enumerate(("steps", "levels", "index"), -3):
            for change in (lambda values: values[:-1], lambda values: values + [0], lambda values: []):
                case = remembered(call)
                case.slices[i] = change(case.slices[i])
                yield Demand(f"{len(case.slices[i])} {name}", case, 12)
        case = remembered(call)
        case.slices[-3][0] = 4097
        yield Demand("4,097 steps", case, 12)


def history_numbers():
    """Refusals 7, 8, 10 of a step, 8 and 10 of an undo, before 13 and 14; the plane's own places."""
    own, other = (3, 8, 2, 3, UP), (4, 8, 2, 3, UP)
    down = [-4] + [0] * 15
    last = (2**32 - 1, 8, 0, 0, [0] * 16)
    yield Demand("a level", remembered(28, level=[0] * 9 + [262_145] + [0] * 6), 7, 1, 9)
    yield Demand("a level before a sample", remembered(28, level=[262_145] * 16, plane=[-1] * 64), 7, 1, 0)
    for value in (-1, 256):
        yield Demand(f"sample {value}", remembered(28, row=2, column=3, plane=with_number(64, 29, value, 100)), 8, 2, 29)
        for call in (29, 30, 31):
            case = remembered(call, own, other, number=3, plane=with_number(64, 29, value, 100))
            yield Demand(f"sample {value}", case, 8, 2, 29)
    yield Demand("a sample that would leave", remembered(28, row=2, column=3, plane=with_number(64, 46, 255, 100)), 10, 2, 46)
    yield Demand("a sample that would leave", remembered(28, level=down, plane=[0] * 64), 10, 2, 0)
    for call in (29, 30, 31):
        case = remembered(call, own, other, number=3, plane=with_number(64, 46, 0, 100))
        yield Demand("a sample that would leave", case, 10, 2, 46)
        yield Demand("overlapped, and fine", remembered(call, own, other, number=3), *((13, 0, 3) if call != 29 else ()))
    yield Demand("the last number", remembered(28, last), 14)
    yield Demand("a sample before the last number", remembered(28, last, plane=[256] * 64), 8, 2, 0)
    yield Demand("the last number but one", remembered(28, (2**32 - 2, 8, 0, 0, UP)))
    full = [(number, 8, 0, 0, [0] * 16) for number in range(1, 4097)]
    yield Demand("4,096 remain", remembered(28, *full), 14)
    yield Demand("4,096 remain, and a sample", remembered(28, *full, plane=with_number(64, 3, 256, 100)), 8, 2, 3)
    yield Demand("4,095 remain", remembered(28, *full[:-1]))
    yield Demand("undo of 4,096", remembered(29, *full))


# Folding: document 02, section 10.


def behind(before, after, index, width=8, rows=8):
    """The memory of a list that was folded from a longer one: what stood behind it stays."""
    old, new = memory(*before, width=width, rows=rows), memory(*after)
    count = len(after)
    return [new[0][: 1 + 4 * count] + old[0][1 + 4 * count :], new[1][: 16 * count] + old[1][16 * count :], list(index)]


def of_residual(*residual):
    return model.forward([*residual, *[0] * (16 - len(residual))])


def folds():
    """Lists before and after, with the index that the list after has, at 8 by 8."""
    up, down, two = UP, [-4] + [0] * 15, [8] + [0] * 15
    at = lambda number, row, column, levels, depth=8: (number, depth, row, column, levels)
    yield "nothing", (), (), [0] * 4
    yield "one step", [at(7, 4, 0, up)], [at(1, 4, 0, up)], [0, 0, 1, 0]
    yield "a pair", [at(2, 0, 0, up), at(9, 0, 0, up)], [at(1, 0, 0, two)], [1, 0, 0, 0]
    yield "three", [at(n, 1, 1, up) for n in (1, 2, 3)], [at(1, 1, 1, [12] + [0] * 15)], [1] * 4
    yield "a pair of zero sum", [at(2, 0, 0, up), at(9, 0, 0, down)], [], [0] * 4
    yield "up, down, up", [at(1, 0, 0, up), at(2, 0, 0, down), at(3, 0, 0, up)], [at(1, 0, 0, up)], [1, 0, 0, 0]
    yield "two depths", [at(4, 0, 0, up), at(5, 0, 0, up, 9)], [at(1, 0, 0, up), at(2, 0, 0, up, 9)], [2, 0, 0, 0]
    yield "two blocks", [at(4, 0, 0, up), at(5, 0, 1, up)], [at(1, 0, 0, up), at(2, 0, 1, up)], [2, 2, 0, 0]
    beside, over = at(5, 4, 4, up), at(5, 3, 3, up)
    pair = at(4, 0, 0, up), at(6, 0, 0, up)
    yield "a step beside between", [pair[0], beside, pair[1]], [at(1, 0, 0, two), at(2, 4, 4, up)], [1, 0, 0, 2]
    three = [at(1, 0, 0, up), at(2, 3, 3, up), at(3, 0, 0, up)]
    yield "a step over it between", [pair[0], over, pair[1]], three, [3, 2, 2, 2]
    apart = [pair[0], over, at(7, 3, 3, down), at(8, 0, 0, up)]
    yield "a pair that a dropped pair was over", apart, [at(1, 0, 0, two)], [1, 0, 0, 0]
    wild, tame = at(4, 0, 0, [262_144] + [0] * 15), at(5, 4, 4, up)
    yield "absurd levels alone", [wild, tame], [at(1, 0, 0, wild[4]), at(2, 4, 4, up)], [1, 0, 0, 2]
    far = [at(4, 0, 0, of_residual(60_000)), at(5, 0, 0, of_residual(-59_999))]
    yield "absurd levels that sum to little", far, [at(1, 0, 0, of_residual(1))], [1, 0, 0, 0]
    for depth, top in ((8, 255), (10, 1023), (12, 4095)):
        for sign in (1, -1):
            most = [at(4, 0, 0, of_residual(0, sign * (top - 5)), depth), at(5, 0, 0, of_residual(0, sign * 5), depth)]
            yield f"a sum of {sign * top} at depth {depth}", most, [at(1, 0, 0, of_residual(0, sign * top), depth)], [1, 0, 0, 0]


def history_folds():
    for label, before, after, index in folds():
        yield Demand(label, remembered(33, *before, index=[9] * 4), after=behind(before, after, index))
        whole = [(number, *entry[1:]) for number, entry in enumerate(after, 1)]
        yield Demand(f"{label}, again", remembered(33, *whole, index=index), after=memory(*whole, index=index))
    many = lambda *residuals, depth=8: remembered(33, *((n, depth, 0, 0, of_residual(r)) for n, r in enumerate(residuals, 1)))
    for depth, top in ((8, 255), (10, 1023), (12, 4095)):
        for sign in (1, -1):
            yield Demand(f"a sum of {sign * (top + 1)}", many(sign * (top - 5), sign * 6, depth=depth), 12)
    yield Demand("a sum that the next step would bring back", many(200, 100, -100), 12)
    yield Demand("the same in another order", many(100, -100, 200))
    yield Demand("A, B, -B, A", many(150, 100, -100, 150), 12)
    yield Demand("samples are not read", remembered(33, (1, 8, 0, 0, UP), plane=[-1] * 64))


def history():
    sections = history_steps, history_undos, history_withdrawals, history_rebuilds, history_glasses, history_memories
    sections += history_numbers, history_folds
    return [demand for section in sections for demand in section()]


def document():
    return [*pixel_sums(), *other_sums(), *range_sums(), *older_sums()]


# Both sides of each refusal, one at a time.


def depths():
    makers = [lambda depth, call=call: pixel(call, depth) for call in PIXEL_CALLS]
    makers += [lambda depth: chroma([1], [2], depth), lambda depth: chroma([], [], depth)]
    makers += [lambda depth, call=call: lossless(call, depth) for call in (8, 9)]
    makers += [lambda depth: remembered(28, depth=depth)]
    for make in makers:
        for depth in (8, 9, 10, 11, 12):
            yield Demand(f"depth {depth}", make(depth))
        for depth in (0, 7, 13, 32, 2**31, 2**32 - 1):
            yield Demand(f"depth {depth}", make(depth), 1)


def sizes_and_types():
    for call in PIXEL_CALLS + BYTE_ADD:
        yield Demand("size 24", pixel(call, size=24), *((11,) if call in BYTE_ADD else ()))
        for size in (25, 26, 256, 2**32, 2**32 + 1, 2**63, 2**64 - 1):
            yield Demand(f"size {size}", pixel(call, size=size), 2)
        for type in (0, 8, 16, 24, 34, 58, 67, 99):
            yield Demand(f"type {type}", pixel(call, type=type))
        yield Demand("type 255", pixel(call, type=255), 4)
        for type in (256, 257, 512, 2**32, 2**63, 2**64 - 1):
            yield Demand(f"type {type}", pixel(call, type=type), 3)


def kinds():
    """Every code at every length; a missing one is told before an empty slice is."""
    chosen = ((call, length, sides) for length, sides in SMALL_SIZE_OF_LENGTH.items() for call in calls_of(sides[0]))
    for (call, length, (wide, tall)), code in itertools.product(chosen, range(8)):
        for size, type, place in ((wide, code, 0), (tall, code << 5, 1)):
            label = f"code {code} at length {length}, place {place}"
            if code < tables.CODES[length]:
                yield Demand(label, pixel(call, size=size, type=type))
            else:
                yield Demand(label, pixel(call, 8, size, type, [], []), 4, place=place)
    for call in calls_of(0):
        yield Demand("two missing kinds", pixel(call, type=4 | 5 << 5), 4, place=0)
        yield Demand("a class beside a missing kind", pixel(call, type=24 | 6 << 5), 4, place=1)


def pixel_lengths():
    for call, size in ((call, size) for size in (0, 5, 6, 13, 20, 24) for call in calls_of(size)):
        whole = pixel(call, size=size)
        yield Demand(f"exact lengths, size {size}", whole)
        for i, name in enumerate(stream.CALLS[call].slices):
            for rest in ([], whole.slices[i][1:]):
                slices = whole.slices[:i] + [rest] + whole.slices[i + 1 :]
                label = f"{len(rest)} {name}, size {size}"
                yield Demand(label, Case(call, whole.arguments, slices), 6, i + 1)
    yield Demand("1,023 coefficients, size 4", add(3, size=4, coefficients=[0] * 1023), 6, 1)
    yield Demand("1,024 coefficients, size 4", add(3, size=4, coefficients=[0] * 1024))


def several_short():
    """Of several short slices the lowest is named, whichever lacks more."""
    for call, size in ((call, size) for size in (0, 5, 24) for call in calls_of(size)):
        whole = pixel(call, size=size)
        names = stream.CALLS[call].slices
        for lacks in itertools.product((0, 1, None), repeat=len(names)):
            if lacks.count(0) < len(names) - 1:
                slices = [values[lack:] if lack is not None else [] for values, lack in zip(whole.slices, lacks)]
                lowest = next(i for i, lack in enumerate(lacks, 1) if lack != 0)
                label = ", ".join(f"{len(values)} {name}" for values, name in zip(slices, names))
                yield Demand(f"{label}, size {size}", Case(call, whole.arguments, slices), 6, lowest)


def strict_ranges():
    """Document 02, section 5: every size has the range of its depth."""
    ends = {8: 32_768, 9: 65_536, 10: 131_072, 11: 262_144, 12: 524_288}
    for depth, size in [*itertools.product(ends, (0, 5)), *((8 + size % 5, size) for size in range(25))]:
        count, end, turn = lengths_of(size)[0], ends[depth], depth + size
        for value, fits in ((end - 1, True), (end, False), (-end, True), (-end - 1, False)):
            refusal = (0, 0, 0) if fits else (7, 1, count - 1)
            call = STRICT[turn % len(STRICT)]
            case = pixel(call, depth, size, 0, with_number(count, count - 1, value))
            yield Demand(f"coefficient {value}, depth {depth}, size {size}", case, *refusal)
    for call in STRICT + BYTE_ADD:
        for value, place in itertools.product((32_767, 32_768, -32_769, RANGE[1] + 1, *WHOLE), (0, 7, 31, 32)):
            refusal = (7, 1, place) if value != 32_767 and place < 32 else (0, 0, 0)
            case = pixel(call, size=5, coefficients=with_number(33, place, value))
            yield Demand(f"coefficient {value} at {place} of 32", case, *refusal)


def orders():
    """Document 02, section 1: what number 1 and number sw are in each order, and where refusal 7 finds them. Size 5 is 4x8."""
    for call in STRICT + BYTE_ADD:
        across, down = (1, 4) if call in ROWS else (8, 1)
        numbers = with_number(32, across, 32_768)
        numbers[down] = -32_769
        place = min(across, down)
        yield Demand("two out of range", pixel(call, size=5, coefficients=numbers), 7, 1, place)
        plane = [100] * 32
        plane[4] = 132
        after = list(map(model.float_bits, plane)) if floats(call) else plane
        case = pixel(call, size=5, type=33, coefficients=with_number(32, down, 256))
        yield Demand("row 1, column 0", case, after=[after])


def clamping_ranges():
    """Document 01: a size that is scaled has a range, any other takes every number."""
    for size in range(25):
        count = lengths_of(size)[0]
        for value, call in ((RANGE[1] + 1, 16), (RANGE[0] - 1, 17)):
            refusal = (7, 1, count - 1) if size in RECTANGULAR else (0, 0, 0)
            case = add(call, size=size, coefficients=with_number(count, count - 1, value))
            yield Demand(f"coefficient {value}, size {size}", case, *refusal)
    for call in CLAMPED:
        for value, place in itertools.product((*RANGE, *WHOLE), (0, 7, 31, 32)):
            refusal = (7, 1, place) if value in WHOLE and place < 32 else (0, 0, 0)
            case = pixel(call, size=5, coefficients=with_number(33, place, value))
            yield Demand(f"coefficient {value} at {place} of 32", case, *refusal)
        for value in WHOLE:
            yield Demand(f"coefficient {value}, size 0", pixel(call, coefficients=[value] * 16))


def sample_ranges():
    for call, depth in itertools.product(PIXEL_CALLS, (8, 12)):
        for value, place in itertools.product((-1, 0, 2**depth - 1, 2**depth, *WHOLE), (0, 6, 15, 16)):
            refused = place < 16 and not 0 <= value < 2**depth
            present = with_number(17, place, value, 100)
            label = f"sample {value} at {place} of 16, depth {depth}"
            yield Demand(label, pixel(call, depth, present=present), *((8, 2, place) if refused else (0, 0, 0)))


def plane_pads():
    """Numbers between the width and the stride are not read."""
    for call, value in itertools.product(of_kind("add"), (-1, 256, *WHOLE)):
        plane = [value if at % 7 >= 4 else 100 for at in range(32)]
        yield Demand("pads", add(call, stride=7, plane=plane))
        yield Demand("a sample among pads", add(call, stride=7, plane=plane[:24] + [value] + plane[25:]), 8, 2, 24)


def add_strides():
    for call in of_kind("add", "byte add"):
        for stride in (4, 5, 300):
            yield Demand(f"stride {stride}", add(call, stride=stride))
        for stride in (0, 3, 65_537, 2**31, 2**32 + 4, 2**63, 2**64 - 4, 2**64 - 1):
            yield Demand(f"stride {stride}", add(call, stride=stride), 5)
        for plane in ([], [100] * 16, [100] * 1000):
            yield Demand("stride 65,536, a short plane", add(call, stride=65_536, plane=plane), 6, 2)
        for stride, length, *refusal in ((7, 25), (7, 24, 6, 2), (4, 15, 6, 2), (64, 195, 6, 2), (64, 196)):
            label = f"stride {stride}, {length} samples"
            yield Demand(label, add(call, stride=stride, plane=[100] * length), *refusal)
        yield Demand("stride 31 at width 32", add(call, size=20, stride=31), 5)
        yield Demand("stride 32 at width 32", add(call, size=20, stride=32))
    for call in of_kind("add"):
        yield Demand("stride 63 at width 64", add(call, size=24, stride=63), 5)
    yield Demand("the longest plane", add(3, stride=6665, plane=[100] * stream.LIMIT))


def chroma_edges():
    for u, v, *refusal in ((0, 0), (1, 0, 6, 5), (0, 1, 6, 4), (3, 4, 6, 4), (4, 3, 6, 5), (0, 40, 6, 4), (40, 1, 6, 5)):
        for value in (1, WHOLE[1]):
            yield Demand(f"{u} and {v} chroma of {value}", chroma([value] * u, [value] * v), *refusal)
    for depth in (8, 12):
        half = 2 ** (depth + 7)
        for value, number in ((-half, 0), (half - 1, 0), (-half - 1, 7), (half, 7), (WHOLE[0], 7), (WHOLE[1], 7)):
            for place in (0, 2, 4):
                numbers = with_number(5, place, value)
                refusal = lambda slice: (number, slice, place) if number else (0, 0, 0)
                yield Demand(f"u {value} at {place}", chroma(numbers, [0] * 5, depth), *refusal(4))
                yield Demand(f"v {value} at {place}", chroma([0] * 5, numbers, depth), *refusal(5))
                yield Demand(f"both {value} at {place}", chroma(numbers, numbers, depth), *refusal(4))
    for at, other in itertools.permutations(range(4), 2):
        one, two = with_number(5, at, 40_000), with_number(5, other, -40_000)
        both, first = [a or b for a, b in zip(one, two)], min(at, other)
        yield Demand(f"u at {at} and v at {other}", chroma(one, two), 7, 4 if at == first else 5, first)
        yield Demand(f"u at {at}, both at {other}", chroma(both, two), 7, 4, first)
        yield Demand(f"v at {at}, both at {other}", chroma(two, both), 7, 5 if at == first else 4, first)
    yield Demand("v bad in pair 0, u in pair 1", chroma([0, 32_768], [32_768, 0]), 7, 5, 0)
    yield Demand("both bad in pair 0", chroma([32_768, 0], [-32_769, 0]), 7, 4, 0)
    for angle, number in ((-256, 0), (256, 0), (-257, 9), (257, 9), (WHOLE[0], 9), (WHOLE[1], 9)):
        for pair in ([], [3]):
            yield Demand(f"sine {angle}", chroma(pair, pair, sine=angle), number)
            yield Demand(f"cosine {angle}", chroma(pair, pair, cosine=angle), number, place=1 if number else 0)


def wht_edges():
    for call, limit in ((6, 65_535), (7, 262_144)):
        for length in (0, 1, 15, 17, 32):
            yield Demand(f"{length} to transform", wht(call, [0] * length), 6, 1)
            yield Demand(f"{length} for the result", wht(call, [0] * 16, [7] * length), 6, 3)
        for read, written in itertools.product((0, 15, 17), repeat=2):
            yield Demand(f"{read} and {written}", wht(call, [0] * read, [7] * written), 6, 1)
        yield Demand("17, the last out of range", wht(call, [0] * 16 + [WHOLE[1]]), 6, 1)
        yield Demand("out of range, 17 for the result", wht(call, [WHOLE[1]] * 16, [7] * 17), 6, 3)
        for value in (-limit, limit):
            yield Demand(f"all {value}", wht(call, [value] * 16))
            yield Demand(f"{value} by turns", wht(call, [value, -value] * 8))
        for value, place in itertools.product((-limit - 1, limit + 1, *WHOLE), (0, 7, 15)):
            yield Demand(f"{value} at {place}", wht(call, with_number(16, place, value)), 7, 1, place)
        yield Demand("two out of range", wht(call, [0] * 9 + [limit + 1, -limit - 1] + [0] * 5), 7, 1, 9)


def lossless_places():
    for call in STEPS:
        for stride, *refusal in ((0, 5), (3, 5), (4,), (65_536, 6, 2), (65_537, 5), (2**32 + 8, 5), (2**64 - 1, 5)):
            yield Demand(f"stride {stride}", lossless(call, stride=stride), *refusal)
        for row in (5, 65_535, 65_536, 2**31, 2**32, 2**61, 2**62, 2**63, 2**64 - 3, 2**64 - 1):
            yield Demand(f"row {row}", lossless(call, row=row), 6, 2)
        for column in (5, 8, 2**32, 2**63, 2**64 - 8, 2**64 - 5, 2**64 - 4, 2**64 - 3, 2**64 - 1):
            yield Demand(f"column {column}", lossless(call, column=column), 6, 2)
        for length, *refusal in ((27, 6, 2), (28,), (0, 6, 2)):
            label = f"{length} samples, stride 8"
            yield Demand(label, lossless(call, plane=[100] * length), *refusal)
        for length, *refusal in ((63, 6, 2), (64,), (65,)):
            label = f"{length} samples, the last block"
            yield Demand(label, lossless(call, row=4, column=4, plane=[100] * length), *refusal)
        for length in (0, 15, 17, 32):
            yield Demand(f"{length} levels", lossless(call, levels=[0] * length), 6, 1)
            for name, place in (("row", {"row": 5}), ("column", {"column": 5}), ("plane", {"plane": []})):
                yield Demand(f"{length} levels, {name} too", lossless(call, levels=[0] * length, **place), 6, 1)


def lossless_widths():
    """The visible width of document 02, section 2, at stride 8."""
    for call in STEPS:
        for width, *refusal in ((0, 5), (3, 5), (4,), (5,), (8,), (9, 5), (65_536, 5), (2**32 + 6, 5), (2**64 - 1, 5)):
            yield Demand(f"width {width}", lossless(call, width=width), *refusal)
        for stride, width in ((3, 3), (3, 4), (65_537, 65_537), (2**64 - 1, 8)):
            yield Demand(f"width {width}, stride {stride}", lossless(call, stride=stride, width=width), 5)
        for width, column in itertools.product((4, 5, 6, 7, 8), (0, 1, 2, 3, 4, 5, 2**64 - 4, 2**64 - 2)):
            refusal = () if column + 4 <= width else (6, 2)
            yield Demand(f"width {width}, column {column}", lossless(call, width=width, column=column), *refusal)
        yield Demand("width 3, column 5", lossless(call, width=3, column=5), 5)
        yield Demand("width 3, 15 levels", lossless(call, width=3, levels=[0] * 15), 5)


def lossless_pads():
    """What stands in the pad, sample or not, is neither read nor written: width 6 at stride 8, columns 6 and 7."""
    visible = lambda sample, pad: ([sample] * 6 + [pad] * 2) * 8
    for (call, gain), pad in itertools.product(((8, 1), (9, -1), (22, 1), (23, -1)), (-1, 0, 255, 256, *WHOLE)):
        if call in BYTE_CALLS and not 0 <= pad <= 255:
            continue
        make = lambda column, **words: lossless(call, width=6, row=3, column=column, levels=[4] + [0] * 15, **words)
        after = visible(100, pad)
        for row in range(3, 7):
            after[8 * row + 2 : 8 * row + 6] = [100 + gain] * 4
        label = f"pad of {pad}"
        yield Demand(label, make(2, plane=visible(100, pad)), after=[after])
        yield Demand(f"{label}, column 3", make(3, plane=visible(100, pad)), 6, 2)
        yield Demand(f"{label}, column 6", make(6, plane=visible(100, pad)), 6, 2)
        at_end = visible(255 if gain > 0 else 0, pad)
        yield Demand(f"{label}, a refused sample", make(2, plane=at_end), 10, 2, 26)


def lossless_numbers():
    """A block at row 2, column 3 of stride 8: its samples have the indices 19 to 22, 27 to 30, 35 to 38, 43 to 46."""
    for call in STEPS:
        make = lambda **words: lossless(call, row=2, column=3, **words)
        for value, place in itertools.product((-262_145, 262_145, *WHOLE), (0, 5, 15)):
            yield Demand(f"level {value} at {place}", make(levels=with_number(16, place, value)), 7, 1, place)
        for value, place in itertools.product((-1, 256, *WHOLE) if call in (8, 9) else (), (18, 19, 23, 29, 46, 47)):
            refusal = (8, 2, place) if place in (19, 29, 46) else (0, 0, 0)
            yield Demand(f"sample {value} at {place}", make(plane=with_number(64, place, value, 100)), *refusal)
        yield Demand("level 262,144", make(levels=with_number(16, 0, 262_144)), 10, 2, 19)
        towards = 1 if call in (8, 22) else -1
        for index, place in ((0, 19), (5, 28), (15, 46)):
            for gain, at_end in ((1, 255), (-1, 0)):
                levels = model.forward(with_number(16, index, towards * gain))
                label = f"{gain} more at {place}"
                last = with_number(64, place, at_end, 100)
                before = with_number(64, place, at_end - gain, 100)
                yield Demand(f"{label}, at the end", make(levels=levels, plane=last), 10, 2, place)
                yield Demand(f"{label}, before it", make(levels=levels, plane=before), after=[last])


def byte_planes():
    """Document 02, section 4: depth 8 alone, no side of 64, and every byte a sample."""
    makers = [lambda depth, call=call: pixel(call, depth) for call in BYTE_ADD]
    makers += [lambda depth, call=call: lossless(call, depth) for call in (22, 23)]
    for make in makers:
        yield Demand("depth 8", make(8))
        for depth in (0, 7, 9, 10, 11, 12, 13, 32, 2**31, 2**32 - 1):
            yield Demand(f"depth {depth}", make(depth), 1)
    for call, size in itertools.product(BYTE_ADD, range(25)):
        refusal = (11,) if 64 in model.width_and_height(size) else ()
        yield Demand(f"size {size}", pixel(call, size=size), *refusal)
        yield Demand(f"size {size} at depth 9", pixel(call, 9, size), 1)
        yield Demand(f"size {size}, type 256", pixel(call, size=size, type=256), *(refusal or (3,)))
        yield Demand(f"size {size}, no bytes", pixel(call, size=size, present=[]), *(refusal or (6, 2)))
    for call, byte in itertools.product(BYTE_ADD, (0, 1, 254, 255)):
        low, high = with_number(16, 0, -32_768), with_number(16, 0, 32_767)
        yield Demand(f"bytes of {byte}, as dark as can be", pixel(call, coefficients=low, present=[byte] * 16), after=[[0] * 16])
        yield Demand(f"bytes of {byte}, as light as can be", pixel(call, coefficients=high, present=[byte] * 16), after=[[255] * 16])
        for around in (0, 255):
            plane = [byte if at % 7 < 4 else around for at in range(25)]
            yield Demand(f"bytes of {byte} beside {around}", add(call, stride=7, plane=plane), after=[plane])
    for call, byte in itertools.product((22, 23), (0, 1, 254, 255)):
        gain = 1 if call == 22 else -1
        fits = 0 <= byte + gain <= 255
        wanted = {"after": [[byte + gain] * 16]} if fits else {"number": 10, "slice": 2}
        yield Demand(f"bytes of {byte}, one more or less", lossless(call, stride=4, levels=UP, plane=[byte] * 16), **wanted)


def older_edges():
    """Document 02, section 12: bit counts 16 to 20, five lengths, a list of that length, numbers that fit."""
    for bits in (0, 8, 15, 16, 17, 18, 19, 20, 21, 32, 2**32 - 1):
        refusal = () if 16 <= bits <= 20 else (1,)
        for make in (lambda: older_dct(8, [1] * 8, bits), lambda: older_wht([1] * 16, bits)):
            yield Demand(f"bits {bits}", make(), *refusal)
    for length in (0, 1, 2, 3, 5, 7, 9, 12, 24, 31, 33, 48, 63, 65, 128, 2**32 + 4, 2**63, 2**64 - 1):
        yield Demand(f"length {length}", older_dct(length, [0] * min(length, 128)), 2)
        yield Demand(f"length {length} and bits 15", older_dct(length, [0] * min(length, 128), 15), 1)
    for length in (4, 8, 16, 32, 64):
        yield Demand(f"length {length}", older_dct(length, [0] * length), after=[[0] * length])
        for count in (0, length - 1, length + 1, 2 * length):
            yield Demand(f"{count} numbers for {length}", older_dct(length, [2**31 - 1] * count), 6, 1)
    for count in (0, 15, 17, 32):
        yield Demand(f"{count} numbers for the WHT", older_wht([2**31 - 1] * count), 6, 1)
    for bits, (value, fits) in itertools.product(range(16, 21), ((-1, 1), (0, 1), (1, 1), (2, 0), (-2, 0))):
        end = {1: 2 ** (bits - 1) - 1, 2: 2 ** (bits - 1), -1: -(2 ** (bits - 1)), -2: -(2 ** (bits - 1)) - 1, 0: 0}[value]
        for length, place in ((4, 0), (4, 3), (16, 7), (64, 63)):
            refusal = () if fits else (15, 0, place)
            yield Demand(f"input {end} at {place}, bits {bits}", older_dct(length, with_number(length, place, end), bits), *refusal)
        yield Demand(f"input {end}, bits {bits}", older_wht(with_number(16, 9, end), bits), *(() if fits else (15, 0, 9)))
    for numbers, place in (([32_768, 32_768, 0, 0], 0), ([0, 0, -32_769, 32_768], 2)):
        yield Demand("two inputs out of range", older_dct(4, numbers), 15, 0, place)


def older_intermediates():
    """DCT 4 stores the sum and the difference of results 0 and 3, places 4 and 5, then of results 1 and 2, places 6 and 7."""
    top = 32_767
    yield Demand("sum of 0 and 3", older_dct(4, [top, 0, top, 0]), 15, 0, 4)
    yield Demand("sum of 1 and 2", older_dct(4, [top, 0, -top, 0]), 15, 0, 6)
    yield Demand("difference of 0 and 3", older_dct(4, [top, -top, 0, 0]), 15, 0, 5)
    yield Demand("difference of 1 and 2", older_dct(4, [16_000, 0, 0, top]), 15, 0, 7)
    yield Demand("the same at 17 bits", older_dct(4, [top, 0, top, 0], 17), after=[[46_335, 0, 0, 46_335]])
    yield Demand("an input before a sum", older_dct(4, [top, 0, top, top + 1]), 15, 0, 3)


# Two refusals at once: the one that stands first counts, within a number the lowest place, then the lowest slice.

ORDER = (1, 2, 11, 3, 4, 5, 6, 12, 7, 8, 9, 10, 13, 14)

Fault = collections.namedtuple("Fault", "number slice place spoil")


def argument(index, value):
    def spoil(case):
        case.arguments[index] = value

    return spoil


def in_type(bits):
    def spoil(case):
        case.arguments[2] |= bits

    return spoil


def number_at(slice, index, value):
    def spoil(case):
        case.slices[slice][index] = value

    return spoil


def shorter(slice):
    def spoil(case):
        del case.slices[slice][-1]

    return spoil


def longer(slice):
    def spoil(case):
        case.slices[slice].append(0)

    return spoil


def one_level_up(index, towards):
    """Levels for a gain of one at an index, on top of those that are there."""
    levels = model.forward(with_number(16, index, towards))

    def spoil(case):
        case.slices[0][:] = [a + b for a, b in zip(case.slices[0], levels)] + case.slices[0][16:]

    return spoil


def block_faults(call):
    low, high = RANGE if call in CLAMPED else (-32_768, 32_767)
    return [
        Fault(1, 0, 0, argument(0, 7)),
        Fault(1, 0, 0, argument(0, 13)),
        Fault(2, 0, 0, argument(1, 25)),
        Fault(3, 0, 0, in_type(256)),
        Fault(4, 0, 0, in_type(4)),
        Fault(4, 0, 1, in_type(6 << 5)),
        Fault(6, 1, 0, shorter(0)),
        Fault(6, 2, 0, shorter(1)),
        Fault(7, 1, 3, number_at(0, 3, high + 1)),
        Fault(7, 1, 2, number_at(0, 2, low - 1)),
    ]


RECON_FAULTS = [
    Fault(6, 3, 0, shorter(2)),
    Fault(8, 2, 9, number_at(1, 9, 256)),
    Fault(8, 2, 6, number_at(1, 6, -1)),
]
ADD_FAULTS = [
    Fault(5, 0, 0, argument(3, 3)),
    Fault(5, 0, 0, argument(3, 65_537)),
    Fault(8, 2, 8, number_at(1, 8, 256)),
    Fault(8, 2, 7, number_at(1, 7, -1)),
]
CHROMA_FAULTS = [
    Fault(1, 0, 0, argument(0, 7)),
    Fault(6, 4, 0, longer(1)),
    Fault(7, 4, 2, number_at(0, 2, 600_000)),
    Fault(7, 5, 1, number_at(1, 1, -600_000)),
    Fault(7, 4, 1, number_at(0, 1, -600_000)),
    Fault(9, 0, 0, argument(1, 257)),
    Fault(9, 0, 1, argument(2, -257)),
]
WHT_FAULTS = [
    Fault(6, 1, 0, shorter(0)),
    Fault(6, 3, 0, longer(1)),
    Fault(7, 1, 4, number_at(0, 4, 300_000)),
    Fault(7, 1, 3, number_at(0, 3, -300_000)),
]


def lossless_faults(towards):
    return [
        Fault(1, 0, 0, argument(0, 13)),
        Fault(5, 0, 0, argument(1, 3)),
        Fault(5, 0, 0, argument(1, 65_537)),
        Fault(5, 0, 0, argument(2, 3)),
        Fault(5, 0, 0, argument(2, 9)),
        Fault(6, 2, 0, argument(3, 65_536)),
        Fault(6, 2, 0, argument(4, 4)),
        Fault(6, 2, 0, argument(4, 2**64 - 4)),
        Fault(6, 1, 0, shorter(0)),
        Fault(6, 2, 0, shorter(1)),
        Fault(7, 1, 4, number_at(0, 4, 300_000)),
        Fault(7, 1, 2, number_at(0, 2, -300_000)),
        Fault(8, 2, 45, number_at(1, 45, 256)),
        Fault(8, 2, 37, number_at(1, 37, -1)),
        Fault(10, 2, 28, one_level_up(5, towards)),
        Fault(10, 2, 20, one_level_up(1, towards)),
    ]


def spoilt(make, faults):
    """All pairs of faults, and all faults together."""
    for chosen in [*itertools.combinations(faults, 2), faults]:
        case = make()
        for fault in chosen:
            fault.spoil(case)
        lowest = min(chosen, key=lambda fault: (ORDER.index(fault.number), fault.place, fault.slice))
        label = "faults " + " ".join(f"{fault.number}/{fault.slice}@{fault.place}" for fault in chosen)
        yield Demand(label, case, lowest.number, lowest.slice, lowest.place)


def together():
    for call in of_kind("recon"):
        yield from spoilt(lambda: recon(call, size=5), [*block_faults(call), *RECON_FAULTS])
    for call in of_kind("add"):
        yield from spoilt(lambda: add(call, size=5, stride=6), [*block_faults(call), *ADD_FAULTS])
    for call in BYTE_ADD:
        faults = [fault for fault in [*block_faults(call), *ADD_FAULTS] if fault.number != 8]
        yield from spoilt(lambda: add(call, size=5, stride=6), faults)
        narrow = [Fault(11, 0, 0, argument(1, 24)), *(fault for fault in faults if fault.number != 2)]
        yield from spoilt(lambda: add(call, size=5, stride=6), narrow)
    yield from spoilt(lambda: chroma([0] * 4, [0] * 4), CHROMA_FAULTS)
    for call in (6, 7):
        yield from spoilt(lambda: wht(call, [0] * 16), WHT_FAULTS)
    for call, towards in ((8, 1), (9, -1), (22, 1), (23, -1)):
        make = lambda: lossless(call, width=7, row=2, column=3, plane=[255] * 47)
        yield from spoilt(make, [fault for fault in lossless_faults(towards) if fault.number != 8 or call in (8, 9)])


def edges():
    sections = (depths, sizes_and_types, kinds, pixel_lengths, several_short, strict_ranges, orders, clamping_ranges)
    sections += (sample_ranges, plane_pads, add_strides, chroma_edges, wht_edges, lossless_places, lossless_widths)
    sections += (lossless_pads, lossless_numbers, byte_planes, older_edges, older_intermediates, together)
    return [demand for section in sections for demand in section()] + history()


# Streams that break the rules of docs/CASES.md, each after one whole case.


def broken_streams():
    case = wht(6, [1] * 16)
    whole = stream.encode(case)
    word = stream.word
    unknown = [word(call) for call in (0, 24, 27, 255, 2**32 + 6, 2**63, 2**64 - 1)]
    ends = [whole[:count] for count in (1, 7, 8, 15, 16, 17, 79, 80, 87, 88, len(whole) - 1)]
    longer = [word(6) + word(length) for length in (20_001, 2**31, 2**32, 2**62, 2**63, 2**64 - 1)]
    longer.append(word(6) + word(20_001) + bytes(4 * 20_001) + word(16) + bytes(64))
    wide = [word(5) + word(2**32 + 8) + word(0) + word(256) + word(0) + word(0)]
    wide += [word(5) + word(8) + word(angle) + word(256) + word(0) + word(0) for angle in (2**31, -(2**31) - 1, 2**63)]
    for value in (256, -1, 2**31 - 1, -(2**31)):
        wide.append(stream.encode(lossless(22, plane=with_number(64, 40, value, 100))))
        wide.append(stream.encode(add(18, plane=with_number(17, 16, value, 100))))
    glass = word(8) * 3
    for length, count in ((4, 5), (70_001, 0), (2**64 - 1, 0), (4, 2**64 - 1)):
        longer.append(word(29) + glass + word(0) + word(length) + word(count) + bytes(4 * min(count, 8)))
    wide.append(word(30) + glass + word(2**32) + word(0) + word(0) * 6)
    return [whole + part + rest for part in unknown + longer + wide for rest in (b"", whole)] + [whole + end for end in ends]
