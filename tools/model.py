#!/usr/bin/env python3
"""Usage: model.py < STREAM > ANSWERS: answer a case stream (docs/CASES.md) by documents 01 and 02 alone.

Whole numbers and dense table products; no butterfly, no machine number. Each call is a list of refusals in the order
of their numbers, of which the first one counts, and the work that follows if there is none. The slices that refusals
name are those of document 02, section 6. The lossless calls are in lossless_model.py, the history in history_model.py.
"""

import functools
import operator
import struct
import sys

sys.dont_write_bytecode = True

import av1_model
import history_model
import stream
import tables
from lossless_model import DONE, OUTPUT, READ, SAMPLES, U, V, depth_refusals, outside, sample_refusals
from lossless_model import forward, fwht4x4, inverse, iwht4x4, lossless_step, lossless_undo, places
from stream import Answer

def clamp(value, low, high):
    return low if value < low else high if value > high else value


def rounded(value, shift):
    return (value + 2**shift // 2) // 2**shift


# Kernels.


def dct(length):
    """The DCT table of a length, input by output: every second row of the next longer one, first half of its columns."""
    if length == 32:
        return tables.DCT32
    return [row[:length] for row in dct(2 * length)[::2]]


def identity(length):
    factor = tables.IDENTITY[length]
    return [[factor if i == j else 0 for j in range(length)] for i in range(length)]


@functools.cache
def matrix(length, code):
    """The rows whose products with the input are a kernel's outputs."""
    length = min(length, 32)
    if code == 0:
        return tuple(zip(*dct(length)))
    if code == 1:
        return identity(length)
    return {
        (4, 2): tables.ADST4,
        (8, 2): tables.ADST8,
        (16, 2): tables.ADST16,
        (4, 3): tables.FLIPADST4,
        (8, 3): tables.ADST8[::-1],
        (16, 3): tables.FLIPADST16,
        (8, 4): tables.DDT8,
        (16, 4): tables.DDT16,
        (8, 5): tables.DDT8[::-1],
        (16, 5): tables.DDT16[::-1],
    }[length, code]


def product(rows, numbers):
    return [sum(map(operator.mul, row, numbers)) for row in rows]


# From coefficients to pixels.


def width_and_height(size):
    return tables.SIZES[size][:2]


def used(size):
    """The count of coefficients that a size uses, and of rows among them."""
    w, h = width_and_height(size)
    return min(w, 32) * min(h, 32), min(h, 32)


def rectangular(size):
    w, h = width_and_height(size)
    return (w.bit_length() + h.bit_length()) % 2 == 1


def row_by_row(size, coefficients):
    """The numbers that a size uses: row r, column x of a list in column order becomes number r * sw + x."""
    count, sh = used(size)
    return [coefficients[at] for r in range(sh) for at in range(r, count, sh)]


def column_by_column(size, coefficients):
    """The same the other way: row r, column x of a list in row order becomes number r + x * sh."""
    count, sh = used(size)
    sw = count // sh
    return [coefficients[at] for x in range(sw) for at in range(x, count, sw)]


def load(depth, size, coefficients):
    """The rows that enter the horizontal kernel."""
    count, sh = used(size)
    numbers = coefficients[:count]
    if rectangular(size):
        numbers = [(181 * v + 128) // 256 for v in numbers]
    half = 2 ** (depth + 7)
    numbers = [clamp(v, -half, half - 1) for v in numbers]
    return [numbers[r::sh] for r in range(sh)]


def residuals(depth, size, type, coefficients):
    """The residuals of a block, row by row."""
    w, h, after_rows, after_columns = tables.SIZES[size]
    horizontal, vertical = matrix(w, type & 7), matrix(h, type >> 5)
    half, top = 2 ** (depth + 7), 2**depth
    across = [
        [clamp(rounded(v, after_rows), -half, half - 1) for v in product(horizontal, row)]
        for row in load(depth, size, coefficients)
    ]
    down = [
        [clamp(rounded(v, after_columns), -top, top - 1) for v in product(vertical, column)]
        for column in zip(*across)
    ]
    return repeat([repeat(row, w) for row in zip(*down)], h)


def repeat(items, count):
    """The items, each twice where the count is 64."""
    return [item for item in items for _ in range(2)] if count == 64 else list(items)


def pixels(depth, present, residual):
    top = 2**depth - 1
    return [clamp(p + r, 0, top) for p, r in zip(present, residual)]


@functools.cache
def float_bits(whole):
    return struct.unpack("<i", struct.pack("<f", whole))[0]


def block_refusals(depth, size, type):
    yield from depth_refusals(depth)
    if size > 24:
        yield Answer(2)
    if type > 255:
        yield Answer(3)
    w, h = width_and_height(size)
    if type & 7 >= tables.CODES[w]:
        yield Answer(4, place=0)
    if type >> 5 >= tables.CODES[h]:
        yield Answer(4, place=1)


def short_refusals(lengths):
    """Refusal 6: which slices, each by its number, are shorter than they have to be."""
    for slice, (numbers, least) in sorted(lengths.items()):
        if len(numbers) < least:
            yield Answer(6, slice)


def coefficient_range(depth, size, clamping):
    """The range that refusal 7 tests: document 02, section 5; for clamping calls document 01's, None where any number passes."""
    if not clamping:
        return -(2 ** (depth + 7)), 2 ** (depth + 7) - 1
    return (-11_864_550, 11_864_549) if rectangular(size) else None


def coefficient_refusals(depth, size, coefficients, clamping):
    tested = coefficient_range(depth, size, clamping)
    place = outside(coefficients[: used(size)[0]], *tested) if tested else None
    if place is not None:
        yield Answer(7, READ, place)


def recon_refusals(depth, size, type, coefficients, prediction, output, clamping):
    yield from block_refusals(depth, size, type)
    w, h = width_and_height(size)
    lengths = {READ: (coefficients, used(size)[0]), SAMPLES: (prediction, w * h), OUTPUT: (output, w * h)}
    yield from short_refusals(lengths)
    yield from coefficient_refusals(depth, size, coefficients, clamping)
    yield from sample_refusals(depth, prediction, w, w, h)


def inv_txfm_recon_f32(depth, size, type, coefficients, prediction, output, clamping=False, rows=False):
    verdict = next(recon_refusals(depth, size, type, coefficients, prediction, output, clamping), DONE)
    if verdict == DONE:
        w, h = width_and_height(size)
        in_columns = column_by_column(size, coefficients) if rows else coefficients
        residual = [v for row in residuals(depth, size, type, in_columns) for v in row]
        output[: w * h] = map(float_bits, pixels(depth, prediction, residual))
    return verdict


def add_refusals(depth, size, type, stride, coefficients, plane, clamping):
    yield from block_refusals(depth, size, type)
    w, h = width_and_height(size)
    if not w <= stride <= 65_536:
        yield Answer(5)
    yield from short_refusals({READ: (coefficients, used(size)[0]), SAMPLES: (plane, (h - 1) * stride + w)})
    yield from coefficient_refusals(depth, size, coefficients, clamping)
    yield from sample_refusals(depth, plane, stride, w, h)


def inv_txfm_add(depth, size, type, stride, coefficients, plane, clamping=False, rows=False):
    verdict = next(add_refusals(depth, size, type, stride, coefficients, plane, clamping), DONE)
    if verdict == DONE:
        w = width_and_height(size)[0]
        in_columns = column_by_column(size, coefficients) if rows else coefficients
        for y, row in enumerate(residuals(depth, size, type, in_columns)):
            at = y * stride
            plane[at : at + w] = pixels(depth, plane[at : at + w], row)
    return verdict


# Planes of bytes: document 02, section 4. Any byte is a sample of depth 8, so no test of samples is left.


def byte_refusals(depth, size=0):
    if depth != 8:
        yield Answer(1)
    if size > 24:
        yield Answer(2)
    if 64 in width_and_height(size):
        yield Answer(11)


def inv_txfm_add_bytes(depth, size, type, stride, coefficients, plane, rows=False):
    verdict = next(byte_refusals(depth, size), DONE)
    return verdict if verdict != DONE else inv_txfm_add(depth, size, type, stride, coefficients, plane, rows=rows)


def in_bytes(step):
    """A step or an undo on a plane of bytes."""

    def narrow(depth, *arguments):
        verdict = next(byte_refusals(depth), DONE)
        return verdict if verdict != DONE else step(depth, *arguments)

    return narrow


# Chroma pairs.


def over_256(value):
    """A number divided by 256, halves away from zero."""
    size = (abs(value) + 128) // 256
    return size if value >= 0 else -size


def cctx_refusals(depth, sine, cosine, u, v):
    yield from depth_refusals(depth)
    if len(u) != len(v):
        yield Answer(6, U if len(u) < len(v) else V)
    half = 2 ** (depth + 7)
    for place, pair in enumerate(zip(u, v)):
        for slice, value in zip((U, V), pair):
            if not -half <= value < half:
                yield Answer(7, slice, place)
    if not -256 <= sine <= 256:
        yield Answer(9, place=0)
    if not -256 <= cosine <= 256:
        yield Answer(9, place=1)


def cctx(depth, sine, cosine, u, v):
    verdict = next(cctx_refusals(depth, sine, cosine, u, v), DONE)
    if verdict == DONE:
        half = 2 ** (depth + 7)
        for i, (a, b) in enumerate(list(zip(u, v))):
            u[i] = clamp(over_256(a * cosine - b * sine), -half, half - 1)
            v[i] = clamp(over_256(a * sine + b * cosine), -half, half - 1)
    return verdict


# The older edition: av1_model.py has its steps.


def older(transform):
    def in_place(*arguments):
        *words, numbers = arguments
        number, slice, place, numbers[:] = transform(*words, numbers)
        return Answer(number, slice, place)

    return in_place


# The case stream.

CALLS = {
    1: inv_txfm_recon_f32,
    2: inv_txfm_recon_f32,
    3: inv_txfm_add,
    4: inv_txfm_add,
    5: cctx,
    6: fwht4x4,
    7: iwht4x4,
    8: lossless_step,
    9: lossless_undo,
    10: functools.partial(inv_txfm_recon_f32, rows=True),
    11: functools.partial(inv_txfm_recon_f32, rows=True),
    12: functools.partial(inv_txfm_add, rows=True),
    13: functools.partial(inv_txfm_add, rows=True),
    14: functools.partial(inv_txfm_recon_f32, clamping=True),
    15: functools.partial(inv_txfm_recon_f32, clamping=True),
    16: functools.partial(inv_txfm_add, clamping=True),
    17: functools.partial(inv_txfm_add, clamping=True),
    18: inv_txfm_add_bytes,
    19: inv_txfm_add_bytes,
    20: functools.partial(inv_txfm_add_bytes, rows=True),
    21: functools.partial(inv_txfm_add_bytes, rows=True),
    22: in_bytes(lossless_step),
    23: in_bytes(lossless_undo),
    24: inv_txfm_recon_f32,
    25: functools.partial(inv_txfm_recon_f32, rows=True),
    26: inv_txfm_add,
    27: functools.partial(inv_txfm_add, rows=True),
    28: history_model.history_step,
    29: history_model.history_undo,
    30: history_model.history_withdraw,
    31: history_model.history_can_withdraw,
    32: history_model.history_rebuild,
    33: history_model.history_fold,
    34: older(av1_model.dct),
    35: older(av1_model.wht),
    36: inv_txfm_recon_f32,
    37: functools.partial(inv_txfm_recon_f32, rows=True),
    38: inv_txfm_add,
    39: functools.partial(inv_txfm_add, rows=True),
    40: inv_txfm_add_bytes,
    41: functools.partial(inv_txfm_add_bytes, rows=True),
}


def outcome(case):
    """A case's answer, and the case with its slices as the call leaves them; the case itself stays."""
    after = stream.Case(case.call, case.arguments, [list(values) for values in case.slices])
    return CALLS[case.call](*after.arguments, *after.slices), after


def answer(case):
    """The bytes that answer a case."""
    given, after = outcome(case)
    return stream.encode_answer(after, given)


def replay(data, write):
    try:
        for case in stream.decode(data):
            write(answer(case))
    except stream.Broken:
        write(stream.BROKEN)


if __name__ == "__main__":
    if len(sys.argv) != 1:
        sys.exit(__doc__.splitlines()[0])
    replay(sys.stdin.buffer.read(), sys.stdout.buffer.write)
