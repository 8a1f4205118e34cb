"""Tests of the model: 01's table cases and example, answers by hand, the machine's own floats."""

import collections
import itertools
import math
import operator
import random
import struct
import sys

import floats
import fold
import list_ops
import list_rounding
import listing
import pools
import scalars
import shapes
import slots
from example import AFTER, BEFORE, SHEET
from scalars import U32
from shapes import Value
from table import PLACES, SLOTS, carried_cases, float_cases, integer_cases, scalar

MACHINE = {"+": operator.add, "-": operator.sub, "*": operator.mul, "/": operator.truediv}
CODES = {
    "F64": (floats.F64, "<d", "<Q"),
    "F32": (floats.F32, "<f", "<I"),
    "F16": (floats.F16, "<e", "<H"),
}


def expected(answer):
    """The outcome that an answer of table.py stands for."""
    if isinstance(answer, Value):
        return shapes.Outcome(0, 0, answer)
    return shapes.Outcome(*answer) if isinstance(answer, tuple) else shapes.Outcome(answer, 0, None)


def test_table():
    for op, stage, left, right, answer in integer_cases() + float_cases() + carried_cases():
        got = shapes.model_ops(2, op, stage, left, right)
        assert got == expected(answer), (op, stage, left, right, got)


def test_example():
    results = bytearray(slots.SIZE * 3)
    assert len(SHEET) == 59
    assert fold.evaluate(SHEET, results) == (0, 3)
    assert fold.change(SHEET, results, 0, U32, 32) == (0, 2)
    assert listing.listings(SHEET, [(0, U32, 32), (1, U32, 32)]) == BEFORE + AFTER + "refused 31\n"
    assert listing.listings(SHEET[:-1], []) == "refused 22\n"


def test_slots():
    for text, good, line in SLOTS:
        slot = bytes.fromhex(text).ljust(slots.SIZE, b"\0")
        assert slots.well_formed(slot) == good, text
        assert listing.line(1, slot) == line + "\n", text
        assert (slots.value_of(slot) is not None) == (good and slot[0] == 0), text


def test_places():
    for text, number, detail in PLACES:
        sheet = bytes.fromhex(text)
        results = bytearray(slots.SIZE * detail if number == 0 else 0)
        assert fold.evaluate(sheet, results) == (number, detail), text


def machine(name, bits):
    """The machine's float of a pattern, as a Python number."""
    _, code, whole = CODES[name]
    return struct.unpack(code, struct.pack(whole, bits))[0]


def machine_bits(name, number):
    """The machine's pattern of a number, infinity beyond the range."""
    fmt, code, whole = CODES[name]
    if math.isnan(number):
        return fmt.nan
    try:
        return struct.unpack(whole, struct.pack(code, number))[0]
    except OverflowError:
        return fmt.infinity + (fmt.sign_bit if number < 0 else 0)


def machine_result(symbol, a, b):
    """The machine's operation in F64; IEEE where Python raises an error."""
    if symbol == "/" and b == 0:
        if a == 0 or math.isnan(a):
            return math.nan
        return math.copysign(math.inf, a) * math.copysign(1, b)
    if symbol == "%":
        bad = math.isnan(a) or math.isnan(b) or math.isinf(a) or b == 0
        return math.nan if bad else math.fmod(a, b)
    return MACHINE[symbol](a, b)


def some_patterns(fmt, rng, count):
    """Edges of a format and patterns drawn at random."""
    top, one = fmt.infinity, fmt.reach << (fmt.digits - 1)
    edges = [0, 1, 2, (1 << (fmt.digits - 1)) - 1, 1 << (fmt.digits - 1), one - 1, one, one + 1, top - 1, top, fmt.nan]
    edges += [edge + fmt.sign_bit for edge in edges[:-1]]
    return edges + [rng.randrange(1 << fmt.width) for _ in range(count)]


def test_arithmetic():
    """F64 and F32 against the machine; a result in F64 rounds right to F32 and F16."""
    rng = random.Random(1)
    for name in CODES:
        fmt = CODES[name][0]
        pool = some_patterns(fmt, rng, 60)
        for a, b in itertools.product(pool, pool):
            x, y = machine(name, a), machine(name, b)
            for symbol in "+-*/%":
                want = machine_bits(name, machine_result(symbol, x, y))
                assert floats.arithmetic(fmt, symbol, a, b) == want, (name, symbol, hex(a), hex(b))
            order = None if x != x or y != y else (x > y) - (x < y)
            assert floats.compare(fmt, a, b) == order, (name, hex(a), hex(b))


def test_conversion():
    """F64 to F32 and F16, F16 to F32, whole numbers, against the machine."""
    rng = random.Random(2)
    for bits in some_patterns(floats.F64, rng, 4000):
        for name in ("F32", "F16"):
            want = machine_bits(name, machine("F64", bits))
            assert floats.convert(floats.F64, CODES[name][0], bits) == want, hex(bits)
    for bits in range(1 << 16):
        want = machine_bits("F32", machine("F16", bits))
        assert floats.convert(floats.F16, floats.F32, bits) == want, hex(bits)
    for _ in range(4000):
        number = rng.randrange(-(2 ** 63), 2 ** 63) >> rng.randrange(64)
        assert floats.from_whole(floats.F64, number) == machine_bits("F64", float(number))


def test_coverage():
    """The list of shapes asks every operator and stage of every pair of shapes, and of every pair of types beyond scalars."""
    shape_pairs, type_pairs = set(), set()
    for kind, op, stage, left, right in list_ops.ops_shape(random.Random(1)):
        if kind == 2 and op in list_ops.BINARY_OPS and stage in list_ops.STAGES:
            shape_pairs.add((op, stage, left.cols, left.rows, right.cols, right.rows))
            if (left.cols, left.rows) != pools.SCALAR or (right.cols, right.rows) != pools.SCALAR:
                type_pairs.add((op, stage, left.ty, right.ty))
    for op, stage in itertools.product(list_ops.BINARY_OPS, list_ops.STAGES):
        for left, right in itertools.product(pools.SHAPES, pools.SHAPES):
            assert (op, stage) + left + right in shape_pairs, (op, stage, left, right)
        for left, right in itertools.product(list_ops.TYPES, list_ops.TYPES):
            assert (op, stage, left, right) in type_pairs, (op, stage, left, right)


def overflows(op, stage, left, right):
    """The components at which a shift of two vectors refuses."""
    pairs = enumerate(zip(left.comps, right.comps))
    lone = ((at, shapes.model_ops(2, op, stage, scalar(left.ty, a), scalar(right.ty, b))) for at, (a, b) in pairs)
    return [at for at, outcome in lone if outcome.status in scalars.SHIFT_OVERFLOWS]


def test_carried():
    """The list of shapes has shifts that refuse past component 0, and at two components, where the bits of the two differ."""
    past, twice = set(), set()
    for kind, op, stage, left, right in list_ops.ops_shape(random.Random(1)):
        shift = kind == 2 and op in scalars.SHIFTS
        if shift and shapes.model_ops(2, op, stage, left, right).status in scalars.SHIFT_OVERFLOWS:
            left, right = shapes.taken(left), shapes.taken(right)
            first, *others = overflows(op, stage, left, right)
            past |= {(op, left.ty, right.ty)} if left.comps[first] != left.comps[0] else set()
            twice |= {(op, left.ty, right.ty)} if others and left.comps[first] != left.comps[others[-1]] else set()
    pairs = itertools.product(scalars.SHIFTS, scalars.INTEGERS, (U32, scalars.ABSTRACT_INT))
    refusing = {pair for pair in pairs if pair[:2] != (scalars.SHR, scalars.ABSTRACT_INT)}
    assert past == twice == refusing, (past, twice)


def test_rounding_kinds():
    """The list `rounding` has every kind of conversion, hundreds of records of each; `rounding_back` has kind 3 of every F16 value."""
    counts = collections.Counter(what for what, _, _ in list_rounding.rounding(random.Random(1)))
    assert sorted(counts) == list(range(1, 13)) and min(counts.values()) > 200, counts
    assert collections.Counter(what for what, _, _ in list_rounding.rounding_back()) == {3: 1 << 16}


def main():
    tests = (test_table, test_example, test_slots, test_places, test_arithmetic, test_conversion, test_coverage, test_carried,
             test_rounding_kinds)
    for test in tests:
        test()
        print(test.__name__, "passed")


if __name__ == "__main__":
    sys.exit(main())
