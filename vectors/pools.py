"""Operands to choose from: edges of each type, tame ones and random ones."""

import floats
import scalars
from list_rounding import nans
from scalars import ABSTRACT_FLOAT, ABSTRACT_INT, BOOL, FORMATS, INTEGERS, RANGES, U32
from shapes import Value

SCALAR = (1, 1)
VECTORS = ((1, 2), (1, 3), (1, 4))
MATRICES = tuple((cols, rows) for cols in (2, 3, 4) for rows in (2, 3, 4))
SHAPES = (SCALAR,) + VECTORS + MATRICES
FLOAT_TYPES = tuple(FORMATS)
COUNTS = (0, 1, 2, 30, 31, 32, 33, 62, 63, 64, 65, 128, 2 ** 31, 2 ** 32 - 1)


def integer_edges(ty):
    """Patterns at the edges of an integer type and of what converts from it."""
    low, high = RANGES[ty]
    numbers = {0, 1, 2, 3, 7, 31, 32, 33, 63, 64, 65, 46340, 46341, 65535, 65536}
    numbers |= {low, low + 1, high, high - 1, high // 2, high // 2 + 1}
    if ty != U32:
        numbers |= {-1, -2, -7, -31, -32, -46341, low // 2, low // 2 - 1}
    if ty == ABSTRACT_INT:
        for power in (24, 31, 32, 53):
            numbers |= {2 ** power + step for step in (-1, 0, 1)}
            numbers |= {-(2 ** power) + step for step in (-1, 0, 1)}
        numbers |= {2049, 65504, 65519, 65520, 65521, -65519, -65520, 3037000499, 3037000500}
    return [scalars.pattern(ty, number) for number in sorted(numbers)]


def float_edges(ty):
    """Zeros, ones, subnormals, the greatest, infinities, NaNs, ties."""
    fmt = FORMATS[ty]
    first, one = 1 << (fmt.digits - 1), fmt.reach << (fmt.digits - 1)
    edges = [0, 1, 2, 3, first - 1, first, first + 1, one - 1, one, one + 1, fmt.infinity - 1, fmt.infinity]
    for number in (2, 3, 7, 10, 15, 16, 2 ** fmt.digits - 1, 2 ** fmt.digits, 2 ** (fmt.digits - 1) + 1):
        edges.append(floats.from_whole(fmt, number))
    middle = fmt.reach // 2
    near, far = (-1, -fmt.digits, 1 - fmt.digits), (fmt.reach, fmt.reach - 1, fmt.reach - fmt.digits)
    for exponent in near + far + (-middle, middle):
        edges.append(floats.round_to(fmt, 0, floats.power(exponent)))
    edges = list(dict.fromkeys(edges))
    odd_nans = list(nans(fmt))[::5]
    return edges + [edge + fmt.sign_bit for edge in edges] + [fmt.nan] + odd_nans


def conversion_edges():
    """F64 patterns at ties and edges of F16 and F32, traps of two roundings."""
    edges = []
    for target in (floats.F16, floats.F32):
        unit, top = floats.power(target.least_unit), floats.power(target.reach + 1)
        half = floats.power(target.reach - target.digits)
        sizes = [unit / 2, unit * 3 / 2, unit / 4, top - half, top - 2 * half, top, 1 + floats.power(-target.digits)]
        for size in sizes:
            bits = floats.round_to(floats.F64, 0, size)
            edges += [bits - 1, bits, bits + 1, bits + (1 << 63)]
    return edges


def edges(ty):
    if ty == BOOL:
        return [0, 1]
    return integer_edges(ty) if ty in INTEGERS else float_edges(ty)


EDGES = {ty: edges(ty) for ty in range(7)}
CONVERSION_EDGES = conversion_edges()


def plain(rng, ty):
    """A number from 1 to 9 in any type but Bool: no operator refuses two."""
    if ty == BOOL:
        return rng.randrange(2)
    return scalars.convert(ABSTRACT_INT, ty, rng.randrange(1, 10))


def tame(rng, ty):
    """A small number with which most operators succeed."""
    if ty == BOOL:
        return rng.randrange(2)
    number = rng.randrange(0 if ty == U32 else -9, 12)
    if ty in INTEGERS:
        return scalars.pattern(ty, number)
    size = abs(number) * floats.power(rng.choice((0, 0, -1, -3)))
    return floats.round_to(FORMATS[ty], 1 if number < 0 else 0, size)


def finite(rng, ty):
    """A finite float with an exponent not far from 0."""
    fmt = FORMATS[ty]
    field = fmt.reach + rng.randrange(-fmt.reach // 3, fmt.reach // 3)
    bits = (field << (fmt.digits - 1)) + rng.randrange(1 << (fmt.digits - 1))
    return bits + rng.choice((0, fmt.sign_bit))


def wild(rng, ty):
    """Any pattern of the type, edges often."""
    kind = rng.randrange(8)
    if kind < 4:
        return rng.choice(EDGES[ty])
    if kind == 4 and ty == ABSTRACT_FLOAT:
        return rng.choice(CONVERSION_EDGES)
    if kind < 6 and ty in FORMATS:
        return finite(rng, ty)
    return rng.randrange(2 ** scalars.WIDTHS[ty]) >> (rng.randrange(scalars.WIDTHS[ty]) if ty in INTEGERS else 0)


def mixed(rng, ty):
    """Tame more often than not."""
    return tame(rng, ty) if rng.randrange(4) else wild(rng, ty)


def value(rng, ty, shape, pick):
    """A value of a type and a shape with picked components."""
    cols, rows = shape
    return Value(ty, cols, rows, tuple(pick(rng, ty) for _ in range(cols * rows)))


def types_for(shape):
    """The types that go with a shape."""
    return FLOAT_TYPES if shape in MATRICES else tuple(range(7))


def shapes_for(ty):
    """The shapes that go with a type."""
    return [shape for shape in SHAPES if ty in types_for(shape)]


def meeting_pairs(left_shape, right_shape):
    """Type pairs of two shapes that have a common type."""
    pairs = [(a, b) for a in types_for(left_shape) for b in types_for(right_shape)]
    return [pair for pair in pairs if scalars.common(*pair) is not None]
