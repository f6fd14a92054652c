"""The AV1 inverse DCT and inverse 4x4 WHT of document 02, section 12, in Python: answers, places and lists.

Written from the page of steps (permutation, B, H, thirty rows; the WHT's assignments), not from the Rattle code: cosines come
from math, steps from their formulas. Shares nothing with the crates but the page.

    dct(length, bits, t)  -> (number, slice, place, list)
    wht(bits, t)          -> (number, slice, place, list)

Run as a program it tries the page's own cases and the counts of its table."""
import math

COSINES = [round(4096 * math.cos(k * math.pi / 128)) for k in range(65)]


def cos128(angle):
    a = angle % 256
    if a <= 64:
        return COSINES[a]
    if a <= 128:
        return -COSINES[128 - a]
    if a <= 192:
        return -COSINES[a - 128]
    return COSINES[256 - a]


def sin128(angle):
    return cos128(angle - 64)


def brev(bits, x):
    return int(format(x, f'0{bits}b')[::-1], 2)


def steps(n):
    """The steps of 2^n numbers, in their order: ('B', a, b, angle, flip) and ('H', a, b, flip)."""
    def b(*step):
        return ('B', *step)

    def h(*step):
        return ('H', *step)

    def over(count, step):
        return [step(i) for i in range(count)]

    def over2(outer, inner, step):
        return [step(i, j) for i in range(outer) for j in range(inner)]

    rows = [
        (6, over(16, lambda i: b(32 + i, 63 - i, 63 - 4 * brev(4, i), 0))),
        (5, over(8, lambda i: b(16 + i, 31 - i, 6 + 8 * brev(3, 7 - i), 0))),
        (6, over(16, lambda i: h(32 + 2 * i, 33 + 2 * i, i & 1))),
        (4, over(4, lambda i: b(8 + i, 15 - i, 12 + 16 * brev(2, 3 - i), 0))),
        (5, over(8, lambda i: h(16 + 2 * i, 17 + 2 * i, i & 1))),
        (6, over2(4, 2, lambda i, j: b(62 - 4 * i - j, 33 + 4 * i + j, 60 - 16 * brev(2, i) + 64 * j, 1))),
        (3, over(2, lambda i: b(4 + i, 7 - i, 56 - 32 * i, 0))),
        (4, over(4, lambda i: h(8 + 2 * i, 9 + 2 * i, i & 1))),
        (5, over2(2, 2, lambda i, j: b(30 - 4 * i - j, 17 + 4 * i + j, 24 + 64 * j + 32 * (1 - i), 1))),
        (6, over2(8, 2, lambda i, j: h(32 + 4 * i + j, 35 + 4 * i - j, i & 1))),
        (2, over(2, lambda i: b(2 * i, 2 * i + 1, 32 + 16 * i, 1 - i))),
        (3, over(2, lambda i: h(4 + 2 * i, 5 + 2 * i, i))),
        (4, over(2, lambda i: b(14 - i, 9 + i, 48 + 64 * i, 1))),
        (5, over2(4, 2, lambda i, j: h(16 + 4 * i + j, 19 + 4 * i - j, i & 1))),
        (6, over2(2, 4, lambda i, j: b(61 - 8 * i - j, 34 + 8 * i + j, 56 - 32 * i + 64 * (j >> 1), 1))),
        (2, over(2, lambda i: h(i, 3 - i, 0))),
        (3, [b(6, 5, 32, 1)]),
        (4, over2(2, 2, lambda i, j: h(8 + 4 * i + j, 11 + 4 * i - j, i))),
        (5, over(4, lambda i: b(29 - i, 18 + i, 48 + 64 * (i >> 1), 1))),
        (6, over2(4, 4, lambda i, j: h(32 + 8 * i + j, 39 + 8 * i - j, i & 1))),
        (3, over(4, lambda i: h(i, 7 - i, 0))),
        (4, over(2, lambda i: b(13 - i, 10 + i, 32, 1))),
        (5, over2(2, 4, lambda i, j: h(16 + 8 * i + j, 23 + 8 * i - j, i))),
        (6, over(8, lambda i: b(59 - i, 36 + i, 48 if i < 4 else 112, 1))),
        (4, over(8, lambda i: h(i, 15 - i, 0))),
        (5, over(4, lambda i: b(27 - i, 20 + i, 32, 1))),
        (6, over2(8, 2, lambda i, j: h(48 + i, 63 - i, 1) if j else h(32 + i, 47 - i, 0))),
        (5, over(16, lambda i: h(i, 31 - i, 0))),
        (6, over(8, lambda i: b(55 - i, 40 + i, 32, 1))),
        (6, over(32, lambda i: h(i, 63 - i, 0))),
    ]
    return [step for least, row in rows if n >= least for step in row]


STEPS = {1 << n: steps(n) for n in range(2, 7)}


def fits(bits, z):
    return -(1 << (bits - 1)) <= z < 1 << (bits - 1)


def first_out(bits, values):
    """The place of the first value that does not fit, or None."""
    return next((k for k, z in enumerate(values) if not fits(bits, z)), None)


def ends(bits, values, before, after):
    place = first_out(bits, values)
    return (0, 0, 0, list(after)) if place is None else (15, 0, place, list(before))


def dct(length, bits, t):
    if not 16 <= bits <= 20:
        return 1, 0, 0, list(t)
    if length not in STEPS:
        return 2, 0, 0, list(t)
    if len(t) != length:
        return 6, 1, 0, list(t)
    n = length.bit_length() - 1
    w = [t[brev(n, i)] for i in range(length)]
    values = list(t)
    for step in STEPS[length]:
        if step[0] == 'B':
            _, a, b, angle, flip = step
            x = w[a] * cos128(angle) - w[b] * sin128(angle)
            y = w[a] * sin128(angle) + w[b] * cos128(angle)
            w[a], w[b] = (x + 2048) >> 12, (y + 2048) >> 12
            if flip:
                w[a], w[b] = w[b], w[a]
        else:
            _, a, b, flip = step
            if flip:
                a, b = b, a
            w[a], w[b] = w[a] + w[b], w[a] - w[b]
            values += [w[a], w[b]]
    return ends(bits, values, t, w)


def wht4(t, shift):
    a, c, d, b = (z >> shift for z in t)
    a = a + c
    d = d - b
    e = (a - d) >> 1
    b = e - b
    c = e - c
    a = a - b
    d = d + c
    return [a, b, c, d]


def wht(bits, t):
    if not 16 <= bits <= 20:
        return 1, 0, 0, list(t)
    if len(t) != 16:
        return 6, 1, 0, list(t)
    w = list(t)
    values = list(t)
    for row in range(4):
        w[4 * row:4 * row + 4] = wht4(w[4 * row:4 * row + 4], 2)
        values += w[4 * row:4 * row + 4]
    for column in range(4):
        w[column::4] = wht4(w[column::4], 0)
        values += w[column::4]
    return ends(bits, values, t, w)


def page():
    """The page's cases and counts."""
    assert dct(4, 16, [1, 2, 3, 4]) == (0, 0, 0, [6, -4, 2, 0])
    assert dct(8, 16, [100, -200, 300, -400, 500, -600, 700, -800])[3] == [-49, 130, -252, 348, -590, 750, -1760, 1987]
    for length, t, place in ((4, [32768, 0, 0, 0], 0), (4, [32767, 0, 32767, 0], 4), (4, [32767, 0, -32768, 0], 6),
                             (8, [32767] * 8, 9), (16, [20000] * 16, 20), (64, [9000] * 64, 136)):
        assert dct(length, 16, t) == (15, 0, place, t)
    assert wht(16, list(range(-32, 32, 4))) == (0, 0, 0, [-2, -4, 0, -2, -16, 0, 0, 0, 0, 0, 0, 0, -8, 0, 0, 0])
    for length, turns, sums in ((4, 2, 2), (8, 5, 8), (16, 13, 24), (32, 33, 64), (64, 81, 160)):
        kinds = [step[0] for step in STEPS[length]]
        assert (kinds.count('B'), kinds.count('H')) == (turns, sums)
    return 'the page: 9 cases and 5 counts'


if __name__ == '__main__':
    print(page())
