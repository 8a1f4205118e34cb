"""The lists `rounding` and `rounding_back`: conversions between formats.

Each record is (what, input, expected); the numbers of `what` are in FORMAT.md.
"""

import floats
import scalars
from floats import F16, F32, F64, power

NARROW = {1: (F64, F16), 2: (F64, F32), 3: (F32, F16), 4: (F16, F32)}
WHOLE = {5: F16, 6: F32, 7: F64}
KEPT = {8: F32, 9: F64}
FINITE = {10: F32, 11: F64, 12: F16}


def answer(what, source):
    """The expected bits of a record."""
    if what in NARROW:
        return floats.convert(*NARROW[what], source)
    if what in WHOLE:
        return floats.from_whole(WHOLE[what], scalars.whole(scalars.ABSTRACT_INT, source))
    if what in KEPT:
        return floats.kept(KEPT[what], source)
    return 1 if floats.is_finite(FINITE[what], source) else 0


def around(fmt, bits, distances=(0,)):
    """A pattern, its neighbours and those at some distances, with both signs."""
    steps = {0, 1, -1} | set(distances) | {-d for d in distances}
    near = {bits + step for step in steps if 0 <= bits + step <= fmt.infinity}
    return sorted(near | {bits + fmt.sign_bit for bits in near})


def tie_above(target, bits):
    """The number halfway between a finite pattern and the next one up."""
    low = floats.decode(target, bits).size
    unit = max(bits >> (target.digits - 1), 1) - 1 + target.least_unit
    return low + power(unit - 1)


def ties(source, target, patterns, distances):
    """The ties above some patterns of the target, as patterns of the source."""
    for bits in patterns:
        exact = floats.round_to(source, 0, tie_above(target, bits))
        yield from around(source, exact, distances)


def spread(fmt, fractions):
    """Patterns at each exponent field with some fraction fields."""
    for field in range(2 * fmt.reach + 1):
        for fraction in fractions:
            yield (field << (fmt.digits - 1)) + fraction % (1 << (fmt.digits - 1))


def edges_of(source, target):
    """Patterns of the source at the target's own edges."""
    unit, top = target.least_unit, target.reach
    sizes = [power(e) for e in range(unit - 3, unit + target.digits + 3)]
    sizes += [power(unit) * n / 4 for n in range(1, 16)]
    sizes += [power(top + 1) - power(top - target.digits - k) for k in range(-1, 6)]
    sizes += [power(top), power(top + 1), power(top + 2), power(0)]
    for size in sizes:
        yield from around(source, floats.round_to(source, 0, size), (2, 3))


def own_edges(fmt):
    """Zeros, subnormals, the greatest, infinities and NaNs of a format."""
    first = 1 << (fmt.digits - 1)
    for bits in (0, 1, 2, first - 1, first, first + 1, fmt.infinity - 1, fmt.infinity):
        yield from around(fmt, bits)
    yield from nans(fmt)


def nans(fmt):
    """NaN patterns: quiet and signalling, small and full payload, both signs."""
    quiet, last = fmt.nan - fmt.infinity, fmt.sign_bit - 1 - fmt.infinity
    payloads = {1, 2, 3, quiet - 1, quiet, quiet + 1, last - 1, last, quiet // 2, quiet + quiet // 2}
    for payload in sorted(payloads):
        yield fmt.infinity + payload
        yield fmt.infinity + payload + fmt.sign_bit


def whole_edges():
    """Whole numbers at the edges of 64 bits and of each format."""
    numbers = {0, 65504, 65505, 65519, 65520, 65521, 65535, 65536, 65537, -(2 ** 63), 2 ** 63 - 1}
    for exponent in range(64):
        numbers |= {2 ** exponent + step for step in (-3, -2, -1, 0, 1, 2, 3)}
    for digits in (11, 24, 53):
        for exponent in range(digits, 64):
            half = 2 ** (exponent - digits)
            for odd in (1, 3, 2 ** digits - 1, 2 ** digits - 3):
                numbers |= {2 ** exponent + odd * half + step for step in (-1, 0, 1)}
    both = numbers | {-number for number in numbers}
    return [n % 2 ** 64 for n in sorted(both) if -(2 ** 63) <= n < 2 ** 63]


def traps():
    """F64 numbers that reach another F16 when they pass through F32."""
    for bits in spread(F16, (0, 1, 2, 511, 512, 1022, 1023)):
        exact = floats.round_to(F64, 0, tie_above(F16, bits))
        for near in around(F64, exact, [1 << k for k in range(0, 29, 4)]):
            through = floats.convert(F32, F16, floats.convert(F64, F32, near))
            if through != floats.convert(F64, F16, near):
                yield near


def random_patterns(rng, fmt, target, count):
    """Patterns whose exponents lie near the target's range."""
    low, high = target.least_unit - 2, target.reach + 2
    for _ in range(count):
        field = rng.randrange(max(low + fmt.reach, 0), high + fmt.reach)
        fraction = rng.randrange(1 << (fmt.digits - 1))
        yield (field << (fmt.digits - 1)) + fraction + rng.choice((0, fmt.sign_bit))


def sources(rng):
    """The pairs (what, input) of the list `rounding`."""
    inside = (0, 1, 2, 3, 255, 256, 511, 512, 513, 767, 1020, 1021, 1022, 1023)
    outer = (0, 1, 2, 2 ** 22, 2 ** 23 - 2, 2 ** 23 - 1)
    lists = [
        (4, range(1 << 16)), (1, traps()),
        (1, ties(F64, F16, spread(F16, inside), (2, 1 << 20, 1 << 28))),
        (3, ties(F32, F16, spread(F16, inside), (2, 16, 4096))),
        (2, ties(F64, F32, spread(F32, outer), (2,))),
        (1, edges_of(F64, F16)), (2, edges_of(F64, F32)), (3, edges_of(F32, F16)),
        (1, random_patterns(rng, F64, F16, 800)), (2, random_patterns(rng, F64, F32, 800)),
        (3, random_patterns(rng, F32, F16, 800)),
    ]
    for what, fmt in ((1, F64), (2, F64), (3, F32), (8, F32), (9, F64), (10, F32), (11, F64), (12, F16)):
        lists.append((what, own_edges(fmt)))
    lists += [(12, range(0x7800, 0x8000)), (12, range(0xF800, 0x10000))]
    for what, fmt in ((8, F32), (9, F64), (10, F32), (11, F64)):
        lists.append((what, [rng.randrange(1 << fmt.width) for _ in range(200)]))
    lists += [(what, whole_edges()) for what in WHOLE]
    lists += [(what, [rng.randrange(2 ** 64) >> rng.randrange(64) for _ in range(300)]) for what in WHOLE]
    return lists


def rounding(rng):
    """The records of `rounding`, each input once."""
    seen = set()
    for what, inputs in sources(rng):
        for source in inputs:
            if (what, source) not in seen:
                seen.add((what, source))
                yield what, source, answer(what, source)


def rounding_back():
    """All F16 patterns, widened and then rounded back."""
    for bits in range(1 << 16):
        wide = floats.convert(F16, F32, bits)
        yield 3, wide, answer(3, wide)
