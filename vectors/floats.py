"""Floats over whole numbers: three formats, one rounding, exact arithmetic.

A finite float is a sign and a size, the size being a whole number times a
power of two. Every operation works out the exact result as a fraction and
rounds it once. No float of the machine takes part.
"""

from fractions import Fraction
from typing import NamedTuple


class Format(NamedTuple):
    """A binary format: digits of the whole number, greatest exponent."""

    digits: int
    reach: int

    @property
    def width(self):
        """Bits of a pattern: sign, exponent field, fraction field."""
        return self.digits + (2 * self.reach + 1).bit_length()

    @property
    def sign_bit(self):
        return 1 << (self.width - 1)

    @property
    def infinity(self):
        return (2 * self.reach + 1) << (self.digits - 1)

    @property
    def nan(self):
        """The one pattern under which a NaN is kept."""
        return self.infinity + (1 << (self.digits - 2))

    @property
    def least_unit(self):
        """Exponent of the smallest subnormal."""
        return 2 - self.reach - self.digits


F16 = Format(11, 15)
F32 = Format(24, 127)
F64 = Format(53, 1023)


class Float(NamedTuple):
    """What a pattern says: a case ("finite", "infinite", "nan"), sign, size."""

    case: str
    sign: int
    size: Fraction


NAN = Float("nan", 0, Fraction(0))


def power(exponent):
    """Two to a whole power, also a negative one."""
    return Fraction(1 << exponent) if exponent >= 0 else Fraction(1, 1 << -exponent)


def decode(fmt, bits):
    """The float that a pattern stands for."""
    sign, rest = (bits >> (fmt.width - 1)) & 1, bits & (fmt.sign_bit - 1)
    if rest > fmt.infinity:
        return NAN
    if rest == fmt.infinity:
        return Float("infinite", sign, Fraction(0))
    field, fraction = rest >> (fmt.digits - 1), rest & ((1 << (fmt.digits - 1)) - 1)
    if field == 0:
        return Float("finite", sign, fraction * power(fmt.least_unit))
    whole = fraction + (1 << (fmt.digits - 1))
    return Float("finite", sign, whole * power(fmt.least_unit + field - 1))


def floor_log2(size):
    """The exponent e with 2^e <= size < 2^(e+1), for a size above 0."""
    guess = size.numerator.bit_length() - size.denominator.bit_length()
    return guess if power(guess) <= size else guess - 1


def nearest_even(number):
    """The nearest whole number, the even one at a tie."""
    whole, rest = divmod(number.numerator, number.denominator)
    twice = 2 * rest
    if twice > number.denominator or (twice == number.denominator and whole % 2 == 1):
        return whole + 1
    return whole


def round_to(fmt, sign, size):
    """The pattern of sign and size, rounded once; infinity beyond the range."""
    signed = fmt.sign_bit if sign else 0
    if size == 0:
        return signed
    unit = max(floor_log2(size) - (fmt.digits - 1), fmt.least_unit)
    whole = nearest_even(size / power(unit))
    packed = ((unit - fmt.least_unit) << (fmt.digits - 1)) + whole
    return signed + min(packed, fmt.infinity)


def encode(fmt, value):
    """The pattern of a float in a format, rounded once; a NaN as kept."""
    if value.case == "nan":
        return fmt.nan
    if value.case == "infinite":
        return fmt.infinity + (fmt.sign_bit if value.sign else 0)
    return round_to(fmt, value.sign, value.size)


def kept(fmt, bits):
    """The pattern under which a float is kept: itself, but one for all NaNs."""
    return fmt.nan if decode(fmt, bits).case == "nan" else bits


def is_finite(fmt, bits):
    return decode(fmt, bits).case == "finite"


def convert(source, target, bits):
    """A pattern of one format in another: exact value, one rounding."""
    return encode(target, decode(source, bits))


def from_whole(fmt, number):
    """A whole number in a format, rounded once; 0 becomes +0."""
    return round_to(fmt, 1 if number < 0 else 0, Fraction(abs(number)))


def signed(value):
    """The number of a finite float; its zero sign is lost."""
    return -value.size if value.sign else value.size


def add(a, b):
    """The exact sum. Cancellation is +0; two zeros of one sign keep it."""
    if a.case == "infinite" and b.case == "infinite":
        return a if a.sign == b.sign else NAN
    if a.case == "infinite" or b.case == "infinite":
        return a if a.case == "infinite" else b
    total = signed(a) + signed(b)
    if total == 0:
        return Float("finite", a.sign & b.sign, Fraction(0))
    return Float("finite", 1 if total < 0 else 0, abs(total))


def subtract(a, b):
    return add(a, b._replace(sign=1 - b.sign))


def multiply(a, b):
    sign = a.sign ^ b.sign
    if a.case == "infinite" or b.case == "infinite":
        zero = (a.case == "finite" and a.size == 0) or (b.case == "finite" and b.size == 0)
        return NAN if zero else Float("infinite", sign, Fraction(0))
    return Float("finite", sign, a.size * b.size)


def divide(a, b):
    sign = a.sign ^ b.sign
    if a.case == "infinite":
        return NAN if b.case == "infinite" else a._replace(sign=sign)
    if b.case == "infinite":
        return Float("finite", sign, Fraction(0))
    if b.size == 0:
        return NAN if a.size == 0 else Float("infinite", sign, Fraction(0))
    return Float("finite", sign, a.size / b.size)


def remainder(a, b):
    """The exact truncated remainder: the sign of the left, zero included."""
    if a.case == "infinite" or (b.case == "finite" and b.size == 0):
        return NAN
    if b.case == "infinite":
        return a
    return Float("finite", a.sign, a.size % b.size)


EXACT = {"+": add, "-": subtract, "*": multiply, "/": divide, "%": remainder}


def arithmetic(fmt, symbol, left, right):
    """One operation on two patterns. F16 goes through one operation in F32."""
    if fmt == F16:
        wide = arithmetic(F32, symbol, convert(F16, F32, left), convert(F16, F32, right))
        return convert(F32, F16, wide)
    a, b = decode(fmt, left), decode(fmt, right)
    if a.case == "nan" or b.case == "nan":
        return fmt.nan
    return encode(fmt, EXACT[symbol](a, b))


def negate(fmt, bits):
    """The sign turned round; a NaN stays the kept NaN."""
    value = decode(fmt, bits)
    return fmt.nan if value.case == "nan" else bits ^ fmt.sign_bit


def order_key(value):
    """A pair that orders infinities and finite floats as numbers."""
    if value.case == "infinite":
        return (-1 if value.sign else 1, Fraction(0))
    return (0, signed(value))


def compare(fmt, left, right):
    """-1, 0 or 1 as left is below, equal or above; None with a NaN."""
    a, b = decode(fmt, left), decode(fmt, right)
    if a.case == "nan" or b.case == "nan":
        return None
    x, y = order_key(a), order_key(b)
    return (x > y) - (x < y)
