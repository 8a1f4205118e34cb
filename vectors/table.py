"""Answers written down by hand: 01's table cases, orders, operands carried, slots, places in a sheet.

An answer is a value, a refusal's number, or a refusal's number, detail and
operand carried.
"""

import floats
import scalars
from scalars import ABSTRACT_INT, BOOL, CONST, EXEC, F16, F32, I32, OVERRIDE, U32
from shapes import Value


def scalar(ty, bits):
    return Value(ty, 1, 1, (bits,))


def integer(ty, number):
    return scalar(ty, scalars.pattern(ty, number))


def flat(ty, cols, rows, *numbers):
    """A float value with whole components."""
    comps = tuple(floats.from_whole(scalars.FORMATS[ty], n) for n in numbers)
    return Value(ty, cols, rows, comps)


def integer_cases():
    """01's table cases on integers: operator, stage, operands, answer."""
    most, least, count = 2 ** 63 - 1, -(2 ** 31), lambda n: integer(U32, n)
    one, five = integer(U32, 1), integer(ABSTRACT_INT, -5)
    return [
        (scalars.ADD, CONST, integer(ABSTRACT_INT, most), integer(ABSTRACT_INT, 1), 4),
        (scalars.DIV, CONST, integer(I32, least), integer(I32, -1), 7),
        (scalars.DIV, EXEC, integer(I32, least), integer(I32, -1), integer(I32, least)),
        (scalars.REM, OVERRIDE, integer(I32, 7), integer(I32, 0), 8),
        (scalars.REM, EXEC, integer(I32, 7), integer(I32, 0), integer(I32, 0)),
        (scalars.SHL, CONST, one, count(32), (9, 32, one)),
        (scalars.SHL, EXEC, one, count(32), one),
        (scalars.SHL, CONST, integer(I32, -1), count(31), integer(I32, least)),
        (scalars.SHL, CONST, integer(I32, 1), count(31), (9, 31, integer(I32, 1))),
        (scalars.SHR, CONST, five, count(65), integer(ABSTRACT_INT, -1)),
        (scalars.SHR, CONST, scalar(BOOL, 1), count(0), 2),
        (scalars.DIV, EXEC, integer(ABSTRACT_INT, 5), integer(I32, 0), integer(I32, 5)),
        (scalars.LOGICAL_AND, CONST, scalar(BOOL, 1), scalar(BOOL, 0), scalar(BOOL, 0)),
    ]


def float_cases():
    """01's table cases on floats, and cases that fix the order of steps."""
    big, pair = flat(F16, 1, 1, 65504), flat(F32, 1, 2, 1, 2)
    mixed = Value(F32, 1, 2, (0x40E00000, 0x40600000))
    steps = Value(F16, 2, 2, (0x7400, 0x7800, 0x7400, 0))
    return [
        (scalars.ADD, CONST, big, flat(F16, 1, 1, 15), big),
        (scalars.ADD, CONST, big, flat(F16, 1, 1, 16), 4),
        (scalars.MUL, CONST, pair, flat(F32, 2, 2, 3, 4, 5, 6), flat(F32, 1, 2, 11, 17)),
        (scalars.MUL, CONST, steps, flat(F16, 1, 2, 2, 2), 4),
        (scalars.BIT_OR, CONST, Value(I32, 1, 2, (0, 0)), Value(U32, 1, 3, (0, 0, 0)), 2),
        (scalars.SHL, CONST, Value(U32, 1, 2, (0, 0)), Value(I32, 1, 3, (0, 0, 0)), 2),
        (scalars.SHR, CONST, Value(U32, 1, 2, (0, 0)), Value(ABSTRACT_INT, 1, 2, (32, 2 ** 64 - 1)), 2),
        (scalars.DIV, EXEC, integer(ABSTRACT_INT, 7), flat(F32, 1, 2, 0, 2), mixed),
    ]


def integers(ty, *numbers):
    """An integer vector."""
    return Value(ty, 1, len(numbers), tuple(scalars.pattern(ty, n) for n in numbers))


def carried_cases():
    """02 §5: the left operand that a shift's refusal carries, of a vector that of its first failing component."""
    counts, powers = integers(U32, 31, 31, 31), integers(U32, 1, 2, 4)
    signed, wide = integers(I32, 7, -1, -5), integers(ABSTRACT_INT, 1, -(2 ** 62), -3)
    return [
        (scalars.SHR, OVERRIDE, integer(I32, -1), integer(U32, 40), (10, 40, scalar(I32, 0xFFFFFFFF))),
        (scalars.SHR, CONST, integer(U32, 9), integer(ABSTRACT_INT, 33), (10, 33, scalar(U32, 9))),
        (scalars.SHL, CONST, integer(ABSTRACT_INT, -1), integer(U32, 64), (9, 64, scalar(ABSTRACT_INT, 2 ** 64 - 1))),
        (scalars.SHL, OVERRIDE, integer(ABSTRACT_INT, 2 ** 62), integer(U32, 1), (9, 1, scalar(ABSTRACT_INT, 2 ** 62))),
        (scalars.SHL, CONST, powers, counts, (9, 31, scalar(U32, 2))),
        (scalars.SHL, CONST, powers, integers(ABSTRACT_INT, 30, 30, 30), (9, 30, scalar(U32, 4))),
        (scalars.SHR, CONST, signed, integers(U32, 0, 32, 99), (10, 32, scalar(I32, 0xFFFFFFFF))),
        (scalars.SHR, OVERRIDE, signed, integers(ABSTRACT_INT, 31, 31, 32), (10, 32, scalar(I32, 0xFFFFFFFB))),
        (scalars.SHL, CONST, wide, integers(U32, 62, 2, 62), (9, 2, scalar(ABSTRACT_INT, 0xC000000000000000))),
        (scalars.SHL, CONST, wide, integers(U32, 62, 1, 62), (9, 62, scalar(ABSTRACT_INT, 2 ** 64 - 3))),
    ]


# Slots in hex without the zeros at their end, whether they are well formed, and their line as entry 1 of a listing.
SLOTS = [
    ("00040101 00000000 07", True, "1 0 4 1 1 0 0000000000000007"),
    ("09040101 20000000 01", True, "1 9 4 1 1 32 0000000000000001"),
    ("0A030101 FFFFFFFF FFFFFFFF", True, "1 10 3 1 1 4294967295 00000000ffffffff"),
    ("09010101 00000000 FEFFFFFFFFFFFFFF", True, "1 9 1 1 1 0 fffffffffffffffe"),
    ("09040101 20000000", True, "1 9 4 1 1 32 0000000000000000"),
    ("09000000 20000000", False, "1 9 0 0 0 32"),
    ("0A000000 20000000", False, "1 10 0 0 0 32"),
    ("09050101 20000000 01", False, "1 9 5 1 1 32"),
    ("09000101 20000000 01", False, "1 9 0 1 1 32"),
    ("0A070101 20000000 01", False, "1 10 7 1 1 32"),
    ("09040102 20000000 01", False, "1 9 4 1 2 32"),
    ("09040001 20000000 01", False, "1 9 4 0 1 32"),
    ("09030101 20000000 0000000001", False, "1 9 3 1 1 32"),
    ("09040101 20000000 0100000000000000 01", False, "1 9 4 1 1 32"),
    ("07040101 00000000 01", False, "1 7 4 1 1 0"),
    ("0B000000 01000000", True, "1 11 0 0 0 1"),
]

# Sheets in hex, with the number and the place that 01's checks give them.
SETTING = "D517030C00010401010500000000000000"
PLACES = [
    ("", 0, 0),
    (SETTING, 0, 1),
    ("D5", 22, 1),
    ("00000000", 22, 4),
    ("D518000000", 21, 0),
    ("D517040000", 23, 2),
    ("D517000100", 22, 5),
    ("D517000000", 22, 5),
    ("D51700010005", 25, 5),
    ("D51700010001", 22, 6),
    ("D5170004000107 0101", 26, 5),
    ("D517000400 01040101", 22, 9),
    ("D517000400 01040202", 26, 5),
    ("D517000D00 01040101 0100000000000000 00", 29, 17),
    ("D517000C00 01000101 0200000000000000", 26, 5),
    ("D517000100 03", 22, 6),
    ("D517000200 0304", 25, 5),
    ("D517000200 0413", 25, 5),
    ("D517000200 0301", 22, 7),
    ("D517000100 02", 22, 6),
    ("D517000200 0200", 27, 5),
    ("D517030200 0200", 25, 5),
    ("D517030C00 01010101 0000000000000000", 26, 5),
    ("D517030400 01040102", 26, 5),
    (SETTING + "D517000200 0200", 23, 22),
    (SETTING + "D517010200 0200", 0, 2),
    (SETTING + "D517010200 0201", 27, 22),
    (SETTING + "D517010200 0200 00", 22, 25),
    (SETTING * 128 + "00", 24, 2176),
    ("D517004000" + "0301" * 32, 28, 69),
    ("D517003E00" + "0301" * 31, 22, 67),
]
