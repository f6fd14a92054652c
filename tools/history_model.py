"""The history of steps that remain, from document 02, sections 9 and 10: the calls 28 to 33 of the case stream.

Lists in lent memory: steps[0] is the count, entry i has its number, depth, row and column from place 1 + 4 * i on, and its
sixteen levels from place 16 * i on. What a step alone does is lossless_model.py's; here stands what the history adds.
"""

import collections

import lossless_model
from lossless_model import DONE
from stream import Answer

MOST = 4096
STEPS, LEVELS = 1 + 4 * MOST, 16 * MOST
LAST_NUMBER = 2**32 - 1

Entry = collections.namedtuple("Entry", "number depth row column levels")


# What a list of remaining steps says.


def entries(steps, levels):
    return [Entry(*steps[4 * i + 1 : 4 * i + 5], levels[16 * i : 16 * i + 16]) for i in range(steps[0])]


def share(a, b):
    """Whether two steps have a sample in common."""
    return abs(a.row - b.row) < 4 and abs(a.column - b.column) < 4


def cells_across(width):
    return -(-width // 4)


def cells_of(width, rows):
    return cells_across(width) * -(-rows // 4)


def touched(width, entry):
    """The places in the index of the cells that share a sample with a step."""
    return {
        y // 4 * cells_across(width) + x // 4
        for y in range(entry.row, entry.row + 4)
        for x in range(entry.column, entry.column + 4)
    }


def latest(width, remaining, place):
    """The number of the latest step that shares a sample with a cell, 0 for none."""
    return next((entry.number for entry in reversed(remaining) if place in touched(width, entry)), 0)


def index_of(width, rows, remaining):
    index = [0] * cells_of(width, rows)
    for entry in remaining:
        for place in touched(width, entry):
            index[place] = entry.number
    return index


# Refusals.


def glass_refusals(stride, width, rows):
    if not 4 <= stride <= 65_536:
        yield Answer(5)
    if not 4 <= width <= stride:
        yield Answer(5)
    if not 4 <= rows <= 65_536:
        yield Answer(5)


def off_the_glass(plane, stride, width, rows, row, column):
    return column + 4 > width or row + 4 > rows or len(plane) < (row + 3) * stride + column + 4


def memory_refusals(plane, stride, width, rows, steps, levels, index):
    if (len(steps), len(levels), len(index)) != (STEPS, LEVELS, cells_of(width, rows)):
        yield Answer(12)
    if steps[0] > MOST:
        yield Answer(12)
    before = 0
    for entry in entries(steps, levels):
        if not 8 <= entry.depth <= 12 or lossless_model.outside(entry.levels, -262_144, 262_144) is not None:
            yield Answer(12)
        if off_the_glass(plane, stride, width, rows, entry.row, entry.column) or entry.number <= before:
            yield Answer(12)
        before = entry.number


def undo_refusals(plane, stride, entry):
    """Refusals 8 and 10 of a step's undo."""
    yield from lossless_model.sample_refusals(entry.depth, plane, stride, 4, 4, entry.row * stride + entry.column)
    yield from lossless_model.moved_refusals(entry.depth, stride, entry.row, entry.column, entry.levels, plane, -1)


def step_refusals(depth, stride, width, rows, row, column, level, plane, steps, levels, index):
    yield from lossless_model.depth_refusals(depth)
    yield from glass_refusals(stride, width, rows)
    if len(level) != 16:
        yield Answer(6, lossless_model.READ)
    if off_the_glass(plane, stride, width, rows, row, column):
        yield Answer(6, lossless_model.SAMPLES)
    yield from memory_refusals(plane, stride, width, rows, steps, levels, index)
    yield from lossless_model.level_refusals(level)
    yield from lossless_model.sample_refusals(depth, plane, stride, 4, 4, row * stride + column)
    yield from lossless_model.moved_refusals(depth, stride, row, column, level, plane, 1)
    remaining = entries(steps, levels)
    if len(remaining) == MOST or (remaining and remaining[-1].number == LAST_NUMBER):
        yield Answer(14)


def undone_refusals(stride, width, rows, plane, steps, levels, index):
    yield from glass_refusals(stride, width, rows)
    yield from memory_refusals(plane, stride, width, rows, steps, levels, index)
    remaining = entries(steps, levels)
    if not remaining:
        yield Answer(13)
    yield from undo_refusals(plane, stride, remaining[-1])


def withdrawn_refusals(stride, width, rows, number, plane, steps, levels, index):
    yield from glass_refusals(stride, width, rows)
    yield from memory_refusals(plane, stride, width, rows, steps, levels, index)
    remaining = entries(steps, levels)
    at = place_of(remaining, number)
    if at is None:
        yield Answer(13, place=number)
    yield from undo_refusals(plane, stride, remaining[at])
    if any(share(remaining[at], later) for later in remaining[at + 1 :]):
        yield Answer(13, place=number)


def place_of(remaining, number):
    """The place in the list of the step of a number, or None."""
    return next((i for i, entry in enumerate(remaining) if entry.number == number), None)


# The calls.


def move(plane, stride, entry, sign):
    for at, sample in lossless_model.moved(stride, entry.row, entry.column, entry.levels, plane, sign):
        plane[at] = sample


def write(steps, levels, i, entry):
    steps[4 * i + 1 : 4 * i + 5] = entry[:4]
    levels[16 * i : 16 * i + 16] = entry.levels


def mend(width, entry, steps, levels, index):
    """The cells of one step, by the list as it now is."""
    remaining = entries(steps, levels)
    for place in touched(width, entry):
        index[place] = latest(width, remaining, place)


def history_step(depth, stride, width, rows, row, column, level, plane, steps, levels, index):
    arguments = depth, stride, width, rows, row, column, level, plane, steps, levels, index
    verdict = next(step_refusals(*arguments), DONE)
    if verdict == DONE:
        count = steps[0]
        number = entries(steps, levels)[-1].number + 1 if count else 1
        entry = Entry(number, depth, row, column, list(level))
        move(plane, stride, entry, 1)
        write(steps, levels, count, entry)
        steps[0] = count + 1
        mend(width, entry, steps, levels, index)
    return verdict


def take_out(plane, stride, width, at, steps, levels, index):
    """Undoes one step, and moves the later ones of the list down; what stood last stays behind the list."""
    remaining = entries(steps, levels)
    gone = remaining.pop(at)
    move(plane, stride, gone, -1)
    for i in range(at, len(remaining)):
        write(steps, levels, i, remaining[i])
    steps[0] = len(remaining)
    mend(width, gone, steps, levels, index)


def history_undo(stride, width, rows, plane, steps, levels, index):
    verdict = next(undone_refusals(stride, width, rows, plane, steps, levels, index), DONE)
    if verdict == DONE:
        take_out(plane, stride, width, steps[0] - 1, steps, levels, index)
    return verdict


def history_can_withdraw(stride, width, rows, number, plane, steps, levels, index):
    return next(withdrawn_refusals(stride, width, rows, number, plane, steps, levels, index), DONE)


def history_withdraw(stride, width, rows, number, plane, steps, levels, index):
    verdict = history_can_withdraw(stride, width, rows, number, plane, steps, levels, index)
    if verdict == DONE:
        take_out(plane, stride, width, place_of(entries(steps, levels), number), steps, levels, index)
    return verdict


def rebuild_refusals(stride, width, rows, plane, steps, levels, index):
    yield from glass_refusals(stride, width, rows)
    yield from memory_refusals(plane, stride, width, rows, steps, levels, index)


def history_rebuild(stride, width, rows, plane, steps, levels, index):
    verdict = next(rebuild_refusals(stride, width, rows, plane, steps, levels, index), DONE)
    if verdict == DONE:
        index[:] = index_of(width, rows, entries(steps, levels))
    return verdict


# Folding: document 02, section 10, by its own words.


def pair_in(remaining):
    """The pair whose later step stands earliest, by the places of its two steps, or None."""
    for j, later in enumerate(remaining):
        for i in reversed(range(j)):
            if share(remaining[i], later):
                if remaining[i][1:4] == later[1:4]:
                    return i, j
                break
    return None


def summed(one, other):
    return [a + b for a, b in zip(lossless_model.inverse(one.levels), lossless_model.inverse(other.levels))]


def folded(remaining):
    """The list with no pair left, numbered from 1 on; None where a summed residual is too large."""
    remaining = list(remaining)
    while (pair := pair_in(remaining)) is not None:
        i, j = pair
        residual = summed(remaining[i], remaining[j])
        if max(map(abs, residual)) > 2 ** remaining[i].depth - 1:
            return None
        del remaining[j]
        if any(residual):
            remaining[i] = remaining[i]._replace(levels=lossless_model.forward(residual))
        else:
            del remaining[i]
    return [entry._replace(number=number) for number, entry in enumerate(remaining, 1)]


def fold_refusals(stride, width, rows, plane, steps, levels, index):
    yield from rebuild_refusals(stride, width, rows, plane, steps, levels, index)
    if folded(entries(steps, levels)) is None:
        yield Answer(12)


def history_fold(stride, width, rows, plane, steps, levels, index):
    verdict = next(fold_refusals(stride, width, rows, plane, steps, levels, index), DONE)
    if verdict == DONE:
        remaining = folded(entries(steps, levels))
        for i, entry in enumerate(remaining):
            write(steps, levels, i, entry)
        steps[0] = len(remaining)
        index[:] = index_of(width, rows, remaining)
    return verdict
