#!/usr/bin/env python3
"""Usage: stream.py STREAM ANSWERS OTHER: describe the first case on which two files of answers differ.

The case stream of docs/CASES.md: its calls, its bytes, its answers.
"""

import array
import collections
import struct
import sys

LIMIT, TRIMMED_LIMIT = 20_000, 70_000
BROKEN = struct.pack("<Q", 2**64 - 1)

# A kind is what calls have in common that differ in lanes, order or range. Slices are written or trimmed by their places.
Call = collections.namedtuple("Call", "name kind arguments slices written trimmed", defaults=[()])
Case = collections.namedtuple("Case", "call arguments slices")

# Number 0 is Done, slice 0 none; the order is that of the record that a call returns.
Answer = collections.namedtuple("Answer", "number slice place", defaults=[0, 0])


class Broken(Exception):
    """The stream breaks its rules from here on."""


def _recon(name):
    return Call(name, "recon", ("depth", "size", "type"), ("coefficients", "prediction", "output"), (2,))


def _add(name):
    return Call(name, "add", ("depth", "size", "type", "stride"), ("coefficients", "plane"), (1,))


def _lossless(name):
    return Call(name, "lossless", ("depth", "stride", "width", "row", "column"), ("levels", "plane"), (1,))


def _byte_add(name):
    return Call(name, "byte add", ("depth", "size", "type", "stride"), ("coefficients", "plane of bytes"), (1,))


def _byte_lossless(name):
    return Call(name, "byte lossless", ("depth", "stride", "width", "row", "column"), ("levels", "plane of bytes"), (1,))


def _history(name, arguments, first, written):
    slices = (*first, "plane", "steps", "levels of the history", "index")
    places = tuple(slices.index(slice) for slice in written)
    return Call(name, name, arguments, slices, places, tuple(range(len(slices) - 3, len(slices))))


_GLASS = ("stride", "width", "rows")
_MEMORY = ("steps", "levels of the history", "index")

# Slices of unsigned numbers, and of bytes, which a stream has as numbers from 0 to 255.
UNSIGNED = ("steps", "index")
BYTES = ("plane of bytes",)

CALLS = {
    1: _recon("inv_txfm_recon_f32"),
    2: _recon("inv_txfm_recon_f32, four lanes"),
    3: _add("inv_txfm_add"),
    4: _add("inv_txfm_add, four lanes"),
    5: Call("cctx", "chroma", ("depth", "sine", "cosine"), ("u", "v"), (0, 1)),
    6: Call("fwht4x4", "wht", (), ("residuals", "levels"), (1,)),
    7: Call("iwht4x4", "wht", (), ("levels", "residuals"), (1,)),
    8: _lossless("lossless_step"),
    9: _lossless("lossless_undo"),
    10: _recon("inv_txfm_recon_f32_rows"),
    11: _recon("inv_txfm_recon_f32_rows, four lanes"),
    12: _add("inv_txfm_add_rows"),
    13: _add("inv_txfm_add_rows, four lanes"),
    14: _recon("inv_txfm_recon_f32_clamped"),
    15: _recon("inv_txfm_recon_f32_clamped, four lanes"),
    16: _add("inv_txfm_add_clamped"),
    17: _add("inv_txfm_add_clamped, four lanes"),
    18: _byte_add("inv_txfm_add_bytes"),
    19: _byte_add("inv_txfm_add_bytes, four lanes"),
    20: _byte_add("inv_txfm_add_rows_bytes"),
    21: _byte_add("inv_txfm_add_rows_bytes, four lanes"),
    22: _byte_lossless("lossless_step_bytes"),
    23: _byte_lossless("lossless_undo_bytes"),
    24: _recon("inv_txfm_recon_f32, eight lanes"),
    25: _recon("inv_txfm_recon_f32_rows, eight lanes"),
    26: _add("inv_txfm_add, eight lanes"),
    27: _add("inv_txfm_add_rows, eight lanes"),
    28: _history("history_step", ("depth", *_GLASS, "row", "column"), ("levels",), ("plane", *_MEMORY)),
    29: _history("history_undo", _GLASS, (), ("plane", *_MEMORY)),
    30: _history("history_withdraw", (*_GLASS, "number"), (), ("plane", *_MEMORY)),
    31: _history("history_can_withdraw", (*_GLASS, "number"), (), ()),
    32: _history("history_rebuild", _GLASS, (), ("index",)),
    33: _history("history_fold", _GLASS, (), _MEMORY),
    34: Call("av1_inv_dct", "av1 dct", ("length", "bits"), ("list",), (0,)),
    35: Call("av1_inv_wht4x4", "av1 wht", ("bits",), ("list",), (0,)),
    36: _recon("inv_txfm_recon_f32, fast"),
    37: _recon("inv_txfm_recon_f32_rows, fast"),
    38: _add("inv_txfm_add, fast"),
    39: _add("inv_txfm_add_rows, fast"),
    40: _byte_add("inv_txfm_add_bytes, fast"),
    41: _byte_add("inv_txfm_add_rows_bytes, fast"),
}

CLAMPED = (14, 15, 16, 17)
ROWS = (10, 11, 12, 13, 20, 21, 25, 27, 37, 39, 41)

# The wide call of each call on bytes.
WIDE = {18: 3, 19: 4, 20: 12, 21: 13, 22: 8, 23: 9, 40: 38, 41: 39}


def of_kind(*kinds):
    """The calls of some kinds, in order."""
    return tuple(number for number, call in sorted(CALLS.items()) if call.kind in kinds)


PIXEL_CALLS = of_kind("recon", "add")
BYTE_CALLS = of_kind("byte add", "byte lossless")
HISTORY_CALLS = tuple(number for number, call in CALLS.items() if call.trimmed)


def word(value):
    return struct.pack("<Q", value % 2**64)


def nums(values):
    """The bytes of numbers, signed or unsigned."""
    packed = array.array("I" if values and max(values) >= 2**31 else "i", values)
    if sys.byteorder == "big":
        packed.byteswap()
    return packed.tobytes()


def used(values):
    """The count of numbers up to the last that is not 0."""
    return -(-len(nums(values).rstrip(b"\0")) // 4)


def encode(case):
    parts = [word(case.call), *map(word, case.arguments)]
    for i, values in enumerate(case.slices):
        parts.append(word(len(values)))
        if i in CALLS[case.call].trimmed:
            parts.append(word(used(values)))
            values = values[: used(values)]
        parts.append(nums(values))
    return b"".join(parts)


def encode_answer(case, answer):
    """The answer to a case whose written slices hold what the call left."""
    call = CALLS[case.call]
    parts = [word(answer.number), word(answer.place), word(answer.slice)]
    for i in call.written:
        values = case.slices[i]
        if i in call.trimmed:
            values = values[: used(values)]
            parts.append(word(len(values)))
        parts.append(nums(values))
    return b"".join(parts)


def answer_in(data):
    """The answer that stands at the beginning of its bytes."""
    number, place, slice = struct.unpack_from("<QQQ", data)
    return Answer(number, slice, place)


def outcome_in(case, data):
    """The answer to a case by its bytes, and the case with its written slices as the call left them."""
    reader, slices, call = Reader(data[24:]), [list(values) for values in case.slices], CALLS[case.call]
    for i in call.written:
        length = len(slices[i])
        slices[i] = reader.numbers(reader.word() if i in call.trimmed else length, call.slices[i])
        slices[i] += [0] * (length - len(slices[i]))
    return answer_in(data), Case(case.call, case.arguments, slices)


def answer_end(case, data, at):
    """Where the answer to a case ends that begins at a place of some data."""
    call = CALLS[case.call]
    at += 24
    for i in call.written:
        count = len(case.slices[i])
        if i in call.trimmed:
            count = int.from_bytes(data[at : at + 8], "little")
            at += 8
        at += 4 * count
    return at


class Reader:
    def __init__(self, data):
        self.data = data
        self.at = 0

    def take(self, count):
        if count > len(self.data) - self.at:
            raise Broken
        self.at += count
        return self.data[self.at - count : self.at]

    def word(self):
        return struct.unpack("<Q", self.take(8))[0]

    def nums(self, name):
        length = self.word()
        if length > LIMIT:
            raise Broken
        return self.numbers(length, name)

    def trimmed(self, name):
        length, count = self.word(), self.word()
        if length > TRIMMED_LIMIT or count > length:
            raise Broken
        return self.numbers(count, name) + [0] * (length - count)

    def numbers(self, count, name):
        values = array.array("I" if name in UNSIGNED else "i", self.take(4 * count))
        if sys.byteorder == "big":
            values.byteswap()
        if name in BYTES and not all(0 <= value <= 255 for value in values):
            raise Broken
        return values.tolist()

    def argument(self, name):
        value = self.word()
        if name in ("sine", "cosine"):
            value -= 2**64 if value >= 2**63 else 0
            if not -(2**31) <= value < 2**31:
                raise Broken
        if name in ("depth", "bits", "number") and value >= 2**32:
            raise Broken
        return value

    def case(self):
        number = self.word()
        if number not in CALLS:
            raise Broken
        call = CALLS[number]
        arguments = [self.argument(name) for name in call.arguments]
        readers = [self.trimmed if i in call.trimmed else self.nums for i in range(len(call.slices))]
        return Case(number, arguments, [read(name) for read, name in zip(readers, call.slices)])


def decode(data):
    """The cases of a stream, in order; raises Broken at the first that breaks the rules."""
    reader = Reader(data)
    while reader.at < len(data):
        yield reader.case()


def answers(data, cases):
    """The bytes that answer each of the cases; short ones where the data ends early."""
    at = 0
    for case in cases:
        end = answer_end(case, data, at)
        yield data[at:end]
        at = end


def describe(case):
    call = CALLS[case.call]
    arguments = [f"{name} {value}" for name, value in zip(call.arguments, case.arguments)]
    lengths = [f"{len(values)} {name}" for name, values in zip(call.slices, case.slices)]
    return f"call {case.call} ({call.name}): " + ", ".join(arguments + lengths)


def describe_difference(case, wanted, got):
    """Where two different answers to one case part."""
    try:
        (right, left), (answer, after) = (outcome_in(case, data) for data in (wanted, got))
    except (Broken, struct.error):
        return f"{len(got)} bytes instead of {len(wanted)}"
    for name in Answer._fields:
        a, b = getattr(right, name), getattr(answer, name)
        if a != b:
            return f"{name} {b} instead of {a}"
    for i in CALLS[case.call].written:
        name = CALLS[case.call].slices[i]
        shown = (lambda bits: struct.unpack("<f", nums([bits]))[0]) if name == "output" else int
        for index, (a, b) in enumerate(zip(left.slices[i], after.slices[i])):
            if a != b:
                return f"{name}[{index}] is {shown(b)} instead of {shown(a)}"
    return "no difference" if wanted == got else f"{len(got)} bytes instead of {len(wanted)}"


def counts(refusals):
    """How often each pair of a number and a slice was met, as text."""
    return ", ".join(f"{number}/{slice}: {count}" for (number, slice), count in sorted(refusals.items()))


def main(path, wanted_path, got_path):
    data, wanted, got = (open(name, "rb").read() for name in (path, wanted_path, got_path))
    at = 0
    try:
        for index, case in enumerate(decode(data)):
            end = answer_end(case, wanted, at)
            if wanted[at:end] != got[at:end]:
                print(f"case {index}: {describe(case)}")
                print(describe_difference(case, wanted[at:end], got[at:end]))
                return 1
            at = end
    except Broken:
        pass
    if wanted[at:] != got[at:]:
        print(f"after the last whole case: {got[at:at + 16].hex()} instead of {wanted[at:at + 16].hex()}")
        return 1
    print("no difference")
    return 0


if __name__ == "__main__":
    if len(sys.argv) != 4:
        sys.exit(__doc__.splitlines()[0])
    sys.exit(main(*sys.argv[1:]))
