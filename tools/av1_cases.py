"""Cases of the two AV1 calls for the case stream (docs/CASES.md): 34 av1_inv_dct, 35 av1_inv_wht4x4.

    a_dct(rng), a_wht(rng)  a case whose inputs fit; a number on the way may not
    many(rng, count)        random cases of all lengths and bit counts, extremes and every refusal among them
    fixed()                 the cases of the page, and both sides of every edge
    recorded()              the cases whose answers tools/av1/answers has: fixed, and 300 random ones
"""

import random

from stream import Case

DCT, WHT = 34, 35
LENGTHS = (4, 8, 16, 32, 64)


def a_list(rng, count, bits):
    """Numbers that fit: small, of every size, sparse, or at the ends."""
    top = 1 << (bits - 1)
    kind = rng.randrange(8)
    if kind == 0:
        size = 1 << rng.randrange(1, bits)
        return [rng.randrange(-size, size) for _ in range(count)]
    if kind == 1:
        return [rng.choice((-top, top - 1, 0, 1, -1)) if rng.random() < 0.3 else 0 for _ in range(count)]
    if kind == 2:
        values = [0] * count
        for _ in range(rng.randrange(1, 4)):
            values[rng.randrange(count)] = rng.choice((-top, top - 1, rng.randrange(-top, top)))
        return values
    if kind == 3:
        size = max(2, 2 * top // count)
        return [rng.choice((-size, size - 1)) for _ in range(count)]
    if kind == 4:
        return [rng.choice((-top, top - 1))] + [0] * (count - 1)
    if kind == 5:
        return [rng.randrange(-top >> 3, top >> 3) >> rng.randrange(0, 12) for _ in range(count)]
    size = max(2, top // (1 << rng.randrange(1, 10)))
    return [rng.randrange(-size, size) for _ in range(count)]


def a_dct(rng):
    length, bits = rng.choice(LENGTHS), rng.randint(16, 20)
    return Case(DCT, [length, bits], [a_list(rng, length, bits)])


def a_wht(rng):
    bits = rng.randint(16, 20)
    values = a_list(rng, 16, bits)
    if rng.random() < 0.5:
        values = [z >> rng.randrange(0, 9) for z in values]
    return Case(WHT, [bits], [values])


def refused(rng):
    """A case with one thing wrong: bits, length, the list's length, an input one outside."""
    call, arguments, (values,) = a_dct(rng) if rng.random() < 0.6 else a_wht(rng)
    kind = rng.randrange(4)
    if kind == 0:
        arguments = [*arguments[:-1], rng.choice((0, 15, 21, 2**32 - 1))]
    elif kind == 1 and call == DCT:
        arguments = [rng.choice((0, 1, 2, 3, 5, 12, 31, 33, 63, 65, 128, 2**64 - 1)), arguments[1]]
    elif kind == 2:
        values = values[:rng.randrange(len(values))] if rng.random() < 0.5 else values + [0] * rng.randrange(1, 5)
    else:
        top = 1 << (arguments[-1] - 1)
        values[rng.randrange(len(values))] = rng.choice((top, -top - 1, 2**31 - 1, -2**31))
    return Case(call, arguments, [values])


def many(rng, count):
    for turn in range(count):
        yield refused(rng) if turn % 16 == 15 else a_wht(rng) if turn % 5 == 4 else a_dct(rng)


def fixed():
    yield Case(DCT, [4, 16], [[1, 2, 3, 4]])
    yield Case(DCT, [8, 16], [[100, -200, 300, -400, 500, -600, 700, -800]])
    for values in ([32768, 0, 0, 0], [32767, 0, 32767, 0], [32767, 0, -32768, 0]):
        yield Case(DCT, [4, 16], [values])
    yield Case(DCT, [8, 16], [[32767] * 8])
    yield Case(DCT, [16, 16], [[20000] * 16])
    yield Case(DCT, [64, 16], [[9000] * 64])
    yield Case(WHT, [16], [list(range(-32, 32, 4))])
    for bits in range(15, 22):
        top = 1 << (bits - 1)
        for length in LENGTHS:
            yield Case(DCT, [length, bits], [[top - 1] + [0] * (length - 1)])
            yield Case(DCT, [length, bits], [[0] * (length - 1) + [-top]])
            yield Case(DCT, [length, bits], [[0] * (length - 1) + [top]])
            yield Case(DCT, [length, bits], [[-top - 1] + [0] * (length - 1)])
        for values in ([top - 1] * 16, [-top] * 16, [-top, top - 1] * 8, [top] + [0] * 15, [0] * 15 + [-top - 1]):
            yield Case(WHT, [bits], [values])
    for length in (0, 3, 5, 63, 65, 2**64 - 1):
        yield Case(DCT, [length, 16], [[0] * 4])
    for count in (0, 15, 17):
        yield Case(DCT, [16, 16], [[0] * count])
        yield Case(WHT, [16], [[0] * count])


def recorded():
    yield from fixed()
    yield from many(random.Random(12), 300)
