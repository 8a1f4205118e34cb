"""The lists of operator cases: scalars, and shapes.

A case is (kind, op, stage, left, right); the model gives its outcome.
"""

import itertools

import floats
import list_rounding
import pools
import scalars
from pools import COUNTS, EDGES, FLOAT_TYPES, MATRICES, SCALAR, SHAPES, VECTORS, mixed, tame, value, wild
from scalars import ABSTRACT_FLOAT, ABSTRACT_INT, BOOL, F16, F32, FORMATS, I32, INTEGERS, SHIFTS, U32
from shapes import Value
from table import carried_cases, float_cases, integer_cases, scalar

STAGES = (0, 1, 2)
BINARY_OPS = range(1, 19)
UNARY_OPS = range(1, 4)
TYPES = range(7)


def pair_takes(op, left, right):
    """How far a pair of types gets: no common type, no right, or both."""
    target = left if op in SHIFTS else scalars.common(left, right)
    if op in SHIFTS and right not in (U32, ABSTRACT_INT):
        return False
    return target is not None and scalars.takes(op, target)


def scalar_pairs(rng):
    """Every operator, stage and pair of types; more where they meet."""
    for op, stage, left, right in itertools.product(BINARY_OPS, STAGES, TYPES, TYPES):
        count = 1
        if pair_takes(op, left, right):
            count = 10 if left == right else 5
        for turn in range(count):
            pick = pools.plain if turn == 1 else wild
            a, b = pick(rng, left), pick(rng, right)
            if op in SHIFTS and turn != 1:
                b = rng.choice(COUNTS) if right in INTEGERS else b
            yield 2, op, stage, scalar(left, a), scalar(right, b % 2 ** scalars.WIDTHS[right])


def shift_grid():
    """Each integer type with lefts and counts at the edges."""
    for ty, right in itertools.product(INTEGERS, (U32, ABSTRACT_INT)):
        low, high = scalars.RANGES[ty]
        lefts = {0, 1, 3, low, high, low // 2, high // 2, high // 2 + 1} | ({-1, -5} if low else set())
        for number, count, op, stage in itertools.product(sorted(lefts), COUNTS, SHIFTS, STAGES):
            if right == U32 or count in (0, 31, 32, 63, 64):
                yield 2, op, stage, scalar(ty, scalars.pattern(ty, number)), scalar(right, count)
    for count in (-1, 2 ** 32, 2 ** 32 + 1, -(2 ** 63)):
        for ty, op, stage in itertools.product(INTEGERS, SHIFTS, STAGES):
            yield 2, op, stage, scalar(ty, 1), scalar(ABSTRACT_INT, count % 2 ** 64)


def tied(rng, ty):
    """Two floats whose sum lies at or beside a tie."""
    fmt = FORMATS[ty]
    left = pools.finite(rng, ty)
    unit = max((left % fmt.sign_bit) >> (fmt.digits - 1), 1) - 1 + fmt.least_unit
    half = floats.round_to(fmt, rng.randrange(2), floats.power(unit - 1))
    return left, max(half + rng.choice((-1, 0, 1)), 0)


def float_grid(rng):
    """Float arithmetic: ties, finite pairs and edges for every type and stage."""
    for ty, op, stage in itertools.product(FLOAT_TYPES, scalars.ARITHMETIC, STAGES):
        for turn in range(24):
            a, b = tied(rng, ty) if turn % 3 == 0 else (pools.finite(rng, ty), pools.finite(rng, ty))
            if turn % 3 == 2:
                a, b = rng.choice(EDGES[ty]), rng.choice(EDGES[ty])
            yield 2, op, stage, scalar(ty, a), scalar(ty, b)


def extremes(ty):
    """The patterns of a type at which arithmetic is likely to refuse."""
    if ty in FORMATS:
        fmt = FORMATS[ty]
        last = floats.round_to(fmt, 0, floats.power(fmt.reach - fmt.digits))
        sizes = [0, last, floats.from_whole(fmt, 1), floats.from_whole(fmt, 2), fmt.infinity - 1, fmt.infinity]
        return sizes + [bits + fmt.sign_bit for bits in sizes] + [fmt.nan, last - 1]
    low, high = scalars.RANGES[ty]
    numbers = [0, 1, 2, low, low + 1, high, high - 1, high // 2 + 1, 3037000500]
    numbers += [-1, -2, -3037000500] if low else []
    return [scalars.pattern(ty, number) for number in numbers]


def extreme_grid(rng):
    """Arithmetic on every pair of extremes; division by 0 and -1 in every stage."""
    for ty in (ABSTRACT_INT, I32, U32) + FLOAT_TYPES:
        minus = scalars.pattern(ty, -1)
        for left, right, op in itertools.product(extremes(ty), extremes(ty), scalars.ARITHMETIC):
            hard = op in (scalars.DIV, scalars.REM) and right in (0, minus)
            for stage in STAGES if hard else (rng.choice(STAGES),):
                yield 2, op, stage, scalar(ty, left), scalar(ty, right)


def conversion_grid():
    """Each edge of an abstract type against each type that it converts to."""
    pairs = [(ABSTRACT_INT, ty) for ty in (ABSTRACT_FLOAT, I32, U32, F32, F16)]
    pairs += [(ABSTRACT_FLOAT, F32), (ABSTRACT_FLOAT, F16)]
    for source, target in pairs:
        extra = pools.CONVERSION_EDGES if source == ABSTRACT_FLOAT else []
        for turn, bits in enumerate(EDGES[source] + extra):
            one = scalar(target, scalars.convert(ABSTRACT_INT, target, 1))
            left, right = scalar(source, bits), one
            if turn % 2:
                left, right = right, left
            yield 2, scalars.DIV if turn % 2 == 0 else scalars.MUL, turn % 3, left, right
    for turn, bits in enumerate(list(list_rounding.traps())[::70]):
        yield 2, scalars.SUB, turn % 3, scalar(ABSTRACT_FLOAT, bits), scalar(F16, 0)


def unary_scalars():
    """Every unary operator, type and stage with every edge."""
    for op, ty in itertools.product(UNARY_OPS, TYPES):
        full = scalars.unary_takes(op, ty)
        for turn, bits in enumerate(EDGES[ty] if full else EDGES[ty][:2]):
            for stage in STAGES if turn < 4 else (turn % 3,):
                yield 1, op, stage, scalar(ty, bits), None


def table_cases():
    """01's own table cases, the cases that fix an order and those that fix the operand carried."""
    for op, stage, left, right, _ in integer_cases() + float_cases() + carried_cases():
        yield 2, op, stage, left, right


def ops_scalar(rng):
    """The cases of `ops_scalar`."""
    table = [case for case in table_cases() if case[3].kind == case[4].kind == "scalar"]
    return itertools.chain(
        table, unary_scalars(), shift_grid(), conversion_grid(), extreme_grid(rng), float_grid(rng), scalar_pairs(rng)
    )


def shape_grid(rng):
    """Every operator, stage and pair of shapes, the types drawn."""
    for op, stage, left, right in itertools.product(BINARY_OPS, STAGES, SHAPES, SHAPES):
        pairs = pools.meeting_pairs(left, right)
        fitting = [pair for pair in pairs if pair_takes(op, *pair)] or pairs
        lt, rt = rng.choice(fitting) if rng.randrange(6) else (
            rng.choice(pools.types_for(left)), rng.choice(pools.types_for(right)))
        pick = mixed if rng.randrange(3) else tame
        yield 2, op, stage, value(rng, lt, left, pick), value(rng, rt, right, pick)


def type_grid(rng):
    """Every operator, stage and pair of types, on two vectors of one size and on shapes drawn from those that the types have."""
    for op, stage, lt, rt in itertools.product(BINARY_OPS, STAGES, TYPES, TYPES):
        size = rng.choice(VECTORS)
        drawn = rng.choice(pools.shapes_for(lt)), rng.choice(pools.shapes_for(rt))
        for left, right in ((size, size), drawn):
            pick = tame if rng.randrange(4) else mixed
            yield 2, op, stage, value(rng, lt, left, pick), value(rng, rt, right, pick)


def fitting_shapes(op):
    """The pairs of shapes, one of them no scalar, that an operator works on."""
    same = [(shape, shape) for shape in VECTORS]
    if op in scalars.ARITHMETIC:
        same += [(SCALAR, shape) for shape in VECTORS] + [(shape, SCALAR) for shape in VECTORS]
    if op in (scalars.ADD, scalars.SUB):
        same += [(shape, shape) for shape in MATRICES]
    if op == scalars.MUL:
        same += [(SCALAR, shape) for shape in MATRICES] + [(shape, SCALAR) for shape in MATRICES]
        same += [((1, m[1]), m) for m in MATRICES] + [(m, (1, m[0])) for m in MATRICES]
        same += [(a, b) for a in MATRICES for b in MATRICES if a[0] == b[1]]
    return same


def fitting_grid(rng):
    """Every pair of shapes and of types that an operator works on."""
    for op in range(scalars.ADD, scalars.SHR + 1):
        for left, right in fitting_shapes(op):
            pairs = itertools.product(pools.types_for(left), pools.types_for(right))
            for lt, rt in [pair for pair in pairs if pair_takes(op, *pair)]:
                stage, pick = rng.choice(STAGES), rng.choice((tame, tame, mixed))
                yield 2, op, stage, value(rng, lt, left, pick), value(rng, rt, right, pick)


def unary_shapes(rng):
    """Every unary operator with every shape, type and stage."""
    for op, stage, shape in itertools.product(UNARY_OPS, STAGES, SHAPES):
        for ty in pools.types_for(shape):
            yield 1, op, stage, value(rng, ty, shape, wild), None


def unequal(rng):
    """Vectors and matrices of unequal shape, whatever the types' rights."""
    for op, ty in itertools.product(BINARY_OPS, TYPES):
        left, right = rng.sample(VECTORS, 2)
        other = U32 if op in SHIFTS else ty
        yield 2, op, rng.choice(STAGES), value(rng, ty, left, tame), value(rng, other, right, tame)
        count = rng.choice((tame, wild))
        yield 2, op, rng.choice(STAGES), value(rng, ty, left, tame), value(rng, ABSTRACT_INT, right, count)
    for op, ty in itertools.product((scalars.ADD, scalars.SUB, scalars.MUL), FLOAT_TYPES):
        for _ in range(8):
            left, right = rng.sample(MATRICES, 2)
            yield 2, op, rng.choice(STAGES), value(rng, ty, left, tame), value(rng, ty, right, tame)


def with_component(operand, index, bits):
    """The operand with one component replaced."""
    comps = list(operand.comps)
    comps[index] = bits
    return operand._replace(comps=tuple(comps))


def refusal_order(rng):
    """Vectors in which more than one component refuses, or just one."""
    for op, ty, shape in itertools.product(SHIFTS, INTEGERS, VECTORS):
        size = shape[1]
        for first, last in ((32, 40), (64, 33), (5, 99), (77, 0)):
            counts = [rng.randrange(4) for _ in range(size)]
            counts[0], counts[-1] = first, last
            left = value(rng, ty, shape, tame)
            for stage in STAGES:
                yield 2, op, stage, left, Value(U32, 1, size, tuple(counts))
    for op, ty, shape in itertools.product(scalars.ARITHMETIC, (ABSTRACT_INT, I32, F32, F16, ABSTRACT_FLOAT), VECTORS):
        for index in range(shape[1]):
            left = with_component(value(rng, ty, shape, tame), index, rng.choice(extremes(ty)))
            right = with_component(value(rng, ty, shape, tame), index, rng.choice(extremes(ty)))
            yield 2, op, rng.choice(STAGES), left, right


def one_or_two(shape):
    """Each component of a vector alone, and each two of them."""
    return itertools.combinations_with_replacement(range(shape[1]), 2)


def distinct(rng, ty, shape):
    """A vector whose components all differ, none of them 0."""
    return Value(ty, *shape, tuple(rng.sample([bits for bits in EDGES[ty] if bits], shape[1])))


def carried_by_count(rng):
    """Shifts of distinct components whose counts are too great at one of them or at two, and else 0."""
    pairs = [pair for pair in itertools.product(SHIFTS, INTEGERS) if pair != (scalars.SHR, ABSTRACT_INT)]
    for (op, ty), count, shape in itertools.product(pairs, (U32, ABSTRACT_INT), VECTORS):
        width = scalars.WIDTHS[ty]
        for at in one_or_two(shape):
            left, right = distinct(rng, ty, shape), Value(count, *shape, (0,) * shape[1])
            for index in at:
                right = with_component(right, index, rng.choice((width, width + 1, 99, 2 ** 32 - 1)))
            for stage in STAGES:
                yield 2, op, stage, left, right


def great(rng, ty):
    """A number that a left shift by 2 or more takes out of its type."""
    low, high = scalars.RANGES[ty]
    sign = rng.choice((1, -1)) if low else 1
    return scalars.pattern(ty, sign * rng.randrange(high // 2 + 1, high))


def carried_by_product(rng):
    """Left shifts by one count for all components, of which one or two are too great for it."""
    for ty, count, shape in itertools.product(INTEGERS, (U32, ABSTRACT_INT), VECTORS):
        for at in one_or_two(shape):
            left, right = value(rng, ty, shape, pools.plain), Value(count, *shape, (rng.randrange(2, 20),) * shape[1])
            for index in at:
                left = with_component(left, index, great(rng, ty))
            for stage in STAGES:
                yield 2, scalars.SHL, stage, left, right


PRODUCT_BITS = (0x7400, 0x7800, 0xF800, 0x4000, 0x3C00, 0x7BFF, 0x0001, 0xC000, 0x0000, 0x7400)
SMALL_BITS = (0x4000, 0x3C00, 0x7BFF, 0x3C00, 0x0000)


def product_order(rng):
    """Products in which a sum and a product refuse in different places."""
    pairs = [pair for pair in fitting_shapes(scalars.MUL) if SCALAR not in pair]
    for left, right in pairs:
        for _ in range(70 if left in VECTORS else 26):
            a = Value(F16, *left, tuple(rng.choice(PRODUCT_BITS) for _ in range(left[0] * left[1])))
            b = Value(F16, *right, tuple(rng.choice(SMALL_BITS) for _ in range(right[0] * right[1])))
            yield 2, scalars.MUL, rng.choice((0, 1, 0, 2)), a, b


BAD_SHAPES = ((0, 0), (0, 1), (1, 0), (0, 2), (2, 0), (1, 5), (5, 1), (2, 1), (4, 1), (2, 5), (5, 2))
HUGE_SHAPES = ((1, 255), (255, 1), (255, 255))


def malformed_operands(rng):
    """Operands that are malformed in one way each."""
    for ty in (7, 8, 9, 128, 255):
        for shape in (SCALAR, (1, 3), (2, 2)):
            yield Value(ty, *shape, (1,) * (shape[0] * shape[1]))
    for shape, ty in itertools.product(BAD_SHAPES + HUGE_SHAPES, (ABSTRACT_INT, F32, BOOL)):
        yield Value(ty, *shape, (1,) * min(shape[0] * shape[1], 16))
    for shape, ty in itertools.product(MATRICES, (BOOL, ABSTRACT_INT, I32, U32)):
        yield Value(ty, *shape, (1,) * (shape[0] * shape[1]))
    for ty in (BOOL, I32, U32, F32, F16):
        for shape in (SCALAR,) + VECTORS + (MATRICES if ty in FORMATS else ()):
            operand = value(rng, ty, shape, tame)
            for index in {0, operand.count - 1, rng.randrange(operand.count)}:
                for bit in {scalars.WIDTHS[ty], 63}:
                    yield with_component(operand, index, operand.comps[index] | 1 << bit)


def malformed(rng):
    """Malformed operands on either side, both sides, in unary calls."""
    bad = list(malformed_operands(rng))
    for operand in bad:
        good = value(rng, rng.choice((F32, I32)), SCALAR, tame)
        pairs = [(operand, good), (good, operand), (operand, rng.choice(bad))]
        for left, right in pairs:
            yield 2, rng.choice(BINARY_OPS), rng.choice(STAGES), left, right
        yield 1, rng.choice(UNARY_OPS), rng.choice(STAGES), operand, None


def unknown_codes(rng):
    """Unknown operators and stages, over good and malformed operands."""
    bad = list(malformed_operands(rng))
    for op, stage in itertools.product((0, 1, 3, 4, 18, 19, 128, 255), (0, 1, 2, 3, 4, 255)):
        for turn in range(4):
            left = rng.choice(bad) if turn & 1 else value(rng, I32, SCALAR, tame)
            right = rng.choice(bad) if turn & 2 else value(rng, I32, SCALAR, tame)
            yield 2, op, stage, left, right
            yield 1, op, stage, left, None


def garbage_beyond(rng):
    """Components beyond those in use, and components left out, which are 0."""
    for op, stage in itertools.product(BINARY_OPS, STAGES):
        left, right = rng.choice(fitting_shapes(op) or [(SCALAR, SCALAR)])
        pairs = [pair for pair in pools.meeting_pairs(left, right) if pair_takes(op, *pair)]
        lt, rt = rng.choice(pairs or [(BOOL, BOOL)])
        a, b = value(rng, lt, left, tame), value(rng, rt, right, tame)
        yield 2, op, stage, garbage(rng, a), garbage(rng, b)
        yield 2, op, stage, a._replace(comps=a.comps[: a.count // 2]), b
    for op, stage, ty in itertools.product(UNARY_OPS, STAGES, TYPES):
        yield 1, op, stage, garbage(rng, value(rng, ty, rng.choice(VECTORS), tame)), None


def garbage(rng, operand):
    """The operand with 16 components, those beyond its own at random."""
    rest = 16 - operand.count
    return operand._replace(comps=operand.comps + tuple(rng.randrange(2 ** 64) for _ in range(rest)))


def shape_mismatch(rng):
    """Matrix products whose inner sizes differ, with good and bad types."""
    shapes = [(v, m) for v in VECTORS for m in MATRICES] + [(m, v) for v in VECTORS for m in MATRICES]
    shapes += [(a, b) for a in MATRICES for b in MATRICES]
    for left, right in shapes:
        for turn in range(2):
            lt, rt = rng.choice(pools.types_for(left)), rng.choice(pools.types_for(right))
            if turn == 0:
                lt, rt = rng.choice(pools.meeting_pairs(left, right))
            yield 2, scalars.MUL, rng.choice(STAGES), value(rng, lt, left, mixed), value(rng, rt, right, mixed)


def conversion_order(rng):
    """Vectors of which one component has no conversion."""
    targets = (I32, U32, F16, F32)
    for op, target, shape in itertools.product(range(3, 19), targets, VECTORS):
        left = value(rng, target, shape, tame)
        right = value(rng, ABSTRACT_INT, shape, lambda rng, ty: rng.randrange(4))
        right = with_component(right, rng.randrange(shape[1]), 2 ** 63 - 1)
        if rng.randrange(3) == 0:
            right = value(rng, ABSTRACT_INT, rng.choice(VECTORS), wild)
        pair = (left, right) if op in SHIFTS or rng.randrange(2) else (right, left)
        yield (2, op, rng.choice(STAGES)) + pair


def ops_shape(rng):
    """The cases of `ops_shape`."""
    table = [case for case in table_cases() if "scalar" != case[3].kind or "scalar" != case[4].kind]
    parts = (shape_grid, type_grid, fitting_grid, unary_shapes, unequal, refusal_order, product_order, malformed,
             unknown_codes, garbage_beyond, shape_mismatch, conversion_order, carried_by_count, carried_by_product)
    return itertools.chain(table, *(part(rng) for part in parts))
