"""The Walsh-Hadamard transform and the lossless step by documents 01 and 02, and what other calls have in common with them.

A call is a list of refusals in the order of their numbers, of which the first one counts, and the work that follows if there is
none. A step's visible width is that of document 02, section 2.
"""

import functools

from stream import Answer

DONE = Answer(0)

# The numbers of slices.
READ, SAMPLES, OUTPUT, U, V = 1, 2, 3, 4, 5


def outside(numbers, low, high):
    """The index of the first number outside the range, or None."""
    if not numbers or (min(numbers) >= low and max(numbers) <= high):
        return None
    return next(i for i, v in enumerate(numbers) if not low <= v <= high)


def depth_refusals(depth):
    if not 8 <= depth <= 12:
        yield Answer(1)


def sample_refusals(depth, plane, stride, width, height, start=0):
    """Refusal 8 over the rows of a block, by the index in the plane."""
    for at in range(start, start + height * stride, stride):
        place = outside(plane[at : at + width], 0, 2**depth - 1)
        if place is not None:
            yield Answer(8, SAMPLES, at + place)


# The Walsh-Hadamard transform.


def forward_four(o0, o1, o2, o3):
    e = (o0 + o1 + o2 - o3) // 2
    return o0 + o1 + o2 - e, e - o2, o3 - o2 + e - o1, e - o1


def inverse_four(a, b, c, d):
    """The one solution of forward_four(o0, o1, o2, o3) = a, b, c, d: there o0+o1+o2−o3 = a+b−c+d."""
    e = (a + b - c + d) // 2
    return a + b + d - e, e - d, e - b, c - b - d + e


def by_rows(four, block):
    return [v for r in range(0, 16, 4) for v in four(*block[r : r + 4])]


def turned(block):
    return [block[4 * c + r] for r in range(4) for c in range(4)]


def by_columns(four, block):
    return turned(by_rows(four, turned(block)))


def forward(residual):
    return by_rows(forward_four, by_columns(forward_four, residual))


def inverse(levels):
    return by_columns(inverse_four, by_rows(inverse_four, levels))


def wht_refusals(source, target, limit):
    if len(source) != 16:
        yield Answer(6, READ)
    if len(target) != 16:
        yield Answer(6, OUTPUT)
    place = outside(source, -limit, limit)
    if place is not None:
        yield Answer(7, READ, place)


def fwht4x4(residual, levels):
    verdict = next(wht_refusals(residual, levels, 65_535), DONE)
    if verdict == DONE:
        levels[:] = forward(residual)
    return verdict


def iwht4x4(levels, residual):
    verdict = next(wht_refusals(levels, residual, 262_144), DONE)
    if verdict == DONE:
        residual[:] = inverse(levels)
    return verdict


# Lossless steps.


def places(stride, row, column):
    """The indices of a 4x4 block in its plane, row by row."""
    return [(row + y) * stride + column + x for y in range(4) for x in range(4)]


def moved(stride, row, column, levels, plane, sign):
    """What the sixteen samples become, with their indices."""
    return [
        (at, plane[at] + sign * residual)
        for at, residual in zip(places(stride, row, column), inverse(levels))
    ]


def level_refusals(levels):
    place = outside(levels, -262_144, 262_144)
    if place is not None:
        yield Answer(7, READ, place)


def moved_refusals(depth, stride, row, column, levels, plane, sign):
    """Refusal 10: a sample that the step would take out of range."""
    for at, sample in moved(stride, row, column, levels, plane, sign):
        if not 0 <= sample < 2**depth:
            yield Answer(10, SAMPLES, at)


def lossless_refusals(depth, stride, width, row, column, levels, plane, sign):
    yield from depth_refusals(depth)
    if not 4 <= stride <= 65_536:
        yield Answer(5)
    if not 4 <= width <= stride:
        yield Answer(5)
    if len(levels) != 16:
        yield Answer(6, READ)
    reach = (row + 3) * stride + column + 4
    if row > 65_535 or column + 4 > width or len(plane) < reach:
        yield Answer(6, SAMPLES)
    yield from level_refusals(levels)
    yield from sample_refusals(depth, plane, stride, 4, 4, row * stride + column)
    yield from moved_refusals(depth, stride, row, column, levels, plane, sign)


def lossless(depth, stride, width, row, column, levels, plane, sign):
    verdict = next(lossless_refusals(depth, stride, width, row, column, levels, plane, sign), DONE)
    if verdict == DONE:
        for at, sample in moved(stride, row, column, levels, plane, sign):
            plane[at] = sample
    return verdict


lossless_step = functools.partial(lossless, sign=1)
lossless_undo = functools.partial(lossless, sign=-1)
