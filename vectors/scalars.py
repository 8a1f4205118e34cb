"""Scalars: seven types, their conversions and the operators in three stages.

A scalar is a type number and a pattern of at most 64 bits. An operation
gives a pattern or raises Refused with a number and a detail, a shift also with
its left operand.
"""

import floats

BOOL, ABSTRACT_INT, ABSTRACT_FLOAT, I32, U32, F32, F16 = range(7)
CONST, OVERRIDE, EXEC = range(3)

FORMATS = {ABSTRACT_FLOAT: floats.F64, F32: floats.F32, F16: floats.F16}
WIDTHS = {BOOL: 1, ABSTRACT_INT: 64, ABSTRACT_FLOAT: 64, I32: 32, U32: 32, F32: 32, F16: 16}
RANGES = {
    ABSTRACT_INT: (-(2 ** 63), 2 ** 63 - 1),
    I32: (-(2 ** 31), 2 ** 31 - 1),
    U32: (0, 2 ** 32 - 1),
}
INTEGERS = tuple(RANGES)

UNARY, BINARY, COMPWISE_BINARY = 1, 2, 3
ADD_OVERFLOW, SUB_OVERFLOW, MUL_OVERFLOW = 4, 5, 6
DIV_BY_ZERO, REM_ZERO_DIV, SHL_OVERFLOW, SHR_OVERFLOW, FROM_ENTRY = 7, 8, 9, 10, 11
SHIFT_OVERFLOWS = (SHL_OVERFLOW, SHR_OVERFLOW)

NOT, NEG, BITNOT = 1, 2, 3
LOGICAL_OR, LOGICAL_AND, ADD, SUB, MUL, DIV, REM = range(1, 8)
EQ, NE, LT, LE, GT, GE, BIT_OR, BIT_AND, BIT_XOR, SHL, SHR = range(8, 19)
LOGICAL = (LOGICAL_OR, LOGICAL_AND)
ARITHMETIC = (ADD, SUB, MUL, DIV, REM)
COMPARISONS = (EQ, NE, LT, LE, GT, GE)
BITS = (BIT_OR, BIT_AND, BIT_XOR)
SHIFTS = (SHL, SHR)
SYMBOLS = {ADD: "+", SUB: "-", MUL: "*", DIV: "/", REM: "%"}
NOT_FINITE = {ADD: ADD_OVERFLOW, SUB: SUB_OVERFLOW, MUL: MUL_OVERFLOW, REM: REM_ZERO_DIV}


class Refused(Exception):
    """An operation or a call ends with this number and detail.

    A shift's refusal carries its left operand, a type and a pattern; any other
    carries None.
    """

    def __init__(self, number, detail=0, operand=None):
        super().__init__(number, detail, operand)
        self.number = number
        self.detail = detail
        self.operand = operand


def proper(ty, bits):
    """Whether a 64-bit pattern is one of the type: zero above its width."""
    return 0 <= bits < 2 ** WIDTHS[ty]


def kept(ty, bits):
    """The pattern as it is kept: any NaN under its type's one pattern."""
    return floats.kept(FORMATS[ty], bits) if ty in FORMATS else bits


def whole(ty, bits):
    """The number of an integer pattern."""
    low, high = RANGES[ty]
    return bits if bits <= high else bits - 2 ** WIDTHS[ty]


def pattern(ty, number):
    """The pattern of a number, wrapped around at the type's width."""
    return number % 2 ** WIDTHS[ty]


def fits(ty, number):
    low, high = RANGES[ty]
    return low <= number <= high


def common(left, right):
    """The common type of two types, or None."""
    if left == right:
        return left
    for source, target in ((left, right), (right, left)):
        if source == ABSTRACT_INT and target != BOOL:
            return target
        if source == ABSTRACT_FLOAT and target in (F32, F16):
            return target
    return None


def convert(source, target, bits):
    """The pattern in another type, or None where it has no conversion."""
    if source == target:
        return kept(source, bits)
    if source == ABSTRACT_INT and target in INTEGERS:
        number = whole(source, bits)
        return pattern(target, number) if fits(target, number) else None
    if source == ABSTRACT_INT and target in FORMATS:
        result = floats.from_whole(FORMATS[target], whole(source, bits))
        return result if floats.is_finite(FORMATS[target], result) else None
    if source == ABSTRACT_FLOAT and target in (F32, F16):
        result = floats.convert(floats.F64, FORMATS[target], bits)
        return result if floats.is_finite(FORMATS[target], result) else None
    return None


def takes(op, ty):
    """Whether the type has a right to the binary operator."""
    if op in LOGICAL:
        return ty == BOOL
    if op in ARITHMETIC:
        return ty != BOOL
    if op in COMPARISONS:
        return ty != BOOL or op in (EQ, NE)
    if op in (BIT_OR, BIT_AND):
        return ty == BOOL or ty in INTEGERS
    return ty in INTEGERS


def unary_takes(op, ty):
    """Whether the type has a right to the unary operator."""
    if op == NOT:
        return ty == BOOL
    if op == NEG:
        return ty not in (BOOL, U32)
    return ty in INTEGERS


def result_type(op, ty):
    return BOOL if op in COMPARISONS else ty


def unary(op, ty, bits):
    """A unary operator on a pattern of a type that takes it."""
    if op == NOT:
        return 1 - bits
    if op == BITNOT:
        return pattern(ty, ~bits)
    if ty in FORMATS:
        return floats.negate(FORMATS[ty], bits)
    return pattern(ty, -whole(ty, bits))


def binary(op, stage, ty, left, right):
    """A binary operator on two patterns of a type that takes it.

    For a shift the right pattern is a count in U32.
    """
    if op in SHIFTS:
        return shift(op, stage, ty, left, right)
    if op in COMPARISONS:
        return compare(op, ty, left, right)
    if op in (LOGICAL_OR, BIT_OR):
        return left | right
    if op in (LOGICAL_AND, BIT_AND):
        return left & right
    if op == BIT_XOR:
        return left ^ right
    if ty in FORMATS:
        return float_arithmetic(op, stage, ty, left, right)
    if op in (DIV, REM):
        return integer_division(op, stage, ty, whole(ty, left), whole(ty, right))
    return integer_arithmetic(op, ty, whole(ty, left), whole(ty, right))


def integer_arithmetic(op, ty, a, b):
    """`+ - *`: 32 bits wrap around, AbstractInt refuses outside its range."""
    exact = {ADD: a + b, SUB: a - b, MUL: a * b}[op]
    if ty == ABSTRACT_INT and not fits(ty, exact):
        raise Refused(NOT_FINITE[op])
    return pattern(ty, exact)


def integer_division(op, stage, ty, a, b):
    """`/` truncates and `%` takes the left sign; what fails depends on the stage."""
    if b == 0 or (b == -1 and a == RANGES[ty][0]):
        if stage != EXEC:
            raise Refused(DIV_BY_ZERO if op == DIV else REM_ZERO_DIV)
        return pattern(ty, a) if op == DIV else 0
    quotient = abs(a) // abs(b)
    if (a < 0) != (b < 0):
        quotient = -quotient
    return pattern(ty, quotient if op == DIV else a - b * quotient)


def float_arithmetic(op, stage, ty, left, right):
    """Rounded once; a result that is not finite is refused, left or kept."""
    result = floats.arithmetic(FORMATS[ty], SYMBOLS[op], left, right)
    if floats.is_finite(FORMATS[ty], result):
        return result
    if op == DIV:
        if stage != EXEC:
            raise Refused(DIV_BY_ZERO)
        return kept(ty, left)
    if ty == ABSTRACT_FLOAT or stage != EXEC:
        raise Refused(NOT_FINITE[op])
    return result


def compare(op, ty, left, right):
    """1 or 0. With a NaN only `!=` holds."""
    if ty in FORMATS:
        sign = floats.compare(FORMATS[ty], left, right)
    else:
        a, b = (whole(ty, left), whole(ty, right)) if ty in INTEGERS else (left, right)
        sign = (a > b) - (a < b)
    if sign is None:
        return 1 if op == NE else 0
    holds = {EQ: sign == 0, NE: sign != 0, LT: sign < 0, LE: sign <= 0, GT: sign > 0, GE: sign >= 0}
    return 1 if holds[op] else 0


def shift(op, stage, ty, left, count):
    """Shifts of a pattern by a count, which is from 0 to 2^32 - 1."""
    overflow = Refused(SHL_OVERFLOW if op == SHL else SHR_OVERFLOW, count, (ty, left))
    number = whole(ty, left)
    if ty != ABSTRACT_INT and count > 31:
        if stage != EXEC:
            raise overflow
        count %= 32
    if op == SHR:
        return pattern(ty, number >> min(count, 64))
    if count > 63:
        if stage != EXEC and number != 0:
            raise overflow
        return 0
    product = number * 2 ** count
    if stage != EXEC and not fits(ty, product):
        raise overflow
    return pattern(ty, product)
