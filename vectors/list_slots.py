"""The list `slots`: 136 bytes each, well formed and not, one rule at a time."""

import itertools

import pools
import scalars
import slots
from list_rounding import nans
from pools import EDGES, SHAPES, wild
from scalars import FORMATS, INTEGERS, SHIFT_OVERFLOWS, WIDTHS
from shapes import Outcome, Value


def raw(status, ty, cols, rows, detail, comps=()):
    """A slot from its fields, whatever they say."""
    return slots.LAYOUT.pack(status, ty, cols, rows, detail, *comps, *[0] * (16 - len(comps)))


def kept_value(rng, ty, shape):
    """A value as a slot keeps it."""
    found = pools.value(rng, ty, shape, wild)
    return found._replace(comps=tuple(scalars.kept(ty, bits) for bits in found.comps))


def good_values(rng):
    """Every type and shape that go together, with kept components."""
    for shape in SHAPES:
        for ty in pools.types_for(shape):
            for _ in range(3):
                yield kept_value(rng, ty, shape)


def good(rng):
    """Slots that are well formed with status 0."""
    found = itertools.chain(good_values(rng), good_values(rng), good_values(rng))
    return [slots.pack(Outcome(0, 0, value)) for value in found]


def headers(rng):
    """Every type, columns and rows near the known ones."""
    for ty, cols, rows in itertools.product((0, 1, 2, 3, 4, 5, 6, 7, 255), range(6), range(6)):
        yield raw(0, ty, cols, rows, 0, (1,) * min(cols * rows, 16))
    for ty, cols, rows in itertools.product((5, 3), (1, 2, 128, 255), (1, 2, 128, 255)):
        yield raw(0, ty, cols, rows, 0)


DETAILS = (0, 1, 31, 32, 127, 128, 129, 255, 256, 2 ** 16, 2 ** 24, 2 ** 31, 2 ** 32 - 1)


def refusals():
    """Every status with details at the edges, and with one field not 0."""
    for status, detail in itertools.product(list(range(13)) + [20, 26, 32, 128, 255], DETAILS):
        yield raw(status, 0, 0, 0, detail)
        yield raw(status, scalars.U32, 1, 1, detail, (7,))
    for status in range(1, 13):
        for fields in ((1, 0, 0), (0, 1, 0), (0, 0, 1), (6, 0, 0), (0, 1, 1), (255, 255, 255)):
            yield raw(status, *fields, 0)
        for index, bits in itertools.product(range(16), (1, 2 ** 63)):
            yield raw(status, 0, 0, 0, 0, (0,) * index + (bits,))


def operands():
    """Status 9 and 10 with an integer: edges of its type, each of 64 bits alone, details at the edges."""
    for status, ty in itertools.product(SHIFT_OVERFLOWS, INTEGERS):
        for bits in EDGES[ty] + [1 << bit for bit in range(64)] + [2 ** 64 - 1]:
            yield raw(status, ty, 1, 1, 32, (bits,))
        for detail in DETAILS:
            yield raw(status, ty, 1, 1, detail, (2 ** WIDTHS[ty] - 1,))


NO_SCALARS = ((0, 0), (0, 1), (1, 0), (1, 2), (1, 3), (1, 4), (2, 1), (2, 2), (4, 4), (1, 255), (255, 1), (255, 255))


def not_operands():
    """Status 9 and 10 with the type, the shape or an unused component alone wrong."""
    for status, ty, bits in itertools.product(SHIFT_OVERFLOWS, (0, 1, 2, 3, 4, 5, 6, 7, 8, 9, 128, 255), (0, 1)):
        yield raw(status, ty, 1, 1, 32, (bits,))
    for status, ty, shape in itertools.product(SHIFT_OVERFLOWS, INTEGERS, NO_SCALARS):
        yield raw(status, ty, *shape, 32, (1,))
        yield raw(status, ty, *shape, 32, (1,) * min(shape[0] * shape[1], 16))
    for status, ty, index, bits in itertools.product(SHIFT_OVERFLOWS, INTEGERS, range(1, 16), (1, 2 ** 63)):
        yield raw(status, ty, 1, 1, 32, (1,) + (0,) * (index - 1) + (bits,))


def details_of_values(rng):
    """Status 0 with a detail that is not 0."""
    for found in good_values(rng):
        detail = rng.choice((1, 127, 256, 2 ** 16, 2 ** 24, 2 ** 31, 2 ** 32 - 1))
        yield raw(0, *found[:3], detail, found.comps)


def unused(rng):
    """A component beyond those in use is not 0."""
    for found in good_values(rng):
        if found.count < 16:
            comps = list(found.comps) + [0] * (16 - found.count)
            comps[rng.choice((found.count, 15, rng.randrange(found.count, 16)))] = 1 << rng.randrange(64)
            yield raw(0, *found[:3], 0, comps)


def too_wide(rng):
    """A component in use has a bit above its type's width."""
    for found in good_values(rng):
        width = WIDTHS[found.ty]
        if width < 64:
            comps = list(found.comps)
            comps[rng.randrange(found.count)] |= 1 << rng.choice((width, 63, rng.randrange(width, 64)))
            yield raw(0, *found[:3], 0, comps)


def other_nans(rng):
    """A NaN under each of many patterns, the kept one among them."""
    for ty, fmt in FORMATS.items():
        for bits in list(nans(fmt)) + [fmt.infinity, fmt.infinity + fmt.sign_bit]:
            for shape in ((1, 1), (1, 4), (3, 2)):
                comps = list(kept_value(rng, ty, shape).comps)
                comps[rng.randrange(len(comps))] = bits
                yield raw(0, ty, *shape, 0, comps)


def flipped(rng):
    """Good slots with each byte changed in turn."""
    base = [slots.pack(Outcome(0, 0, Value(5, 2, 3, (0x3F800000,) * 6))), slots.pack(Outcome(11, 5, None)),
            slots.pack(Outcome(9, 40, Value(3, 1, 1, (0x80000001,)))), slots.pack(Outcome(0, 0, Value(0, 1, 1, (1,))))]
    for slot, at in itertools.product(base, range(slots.SIZE)):
        yield slot[:at] + bytes([slot[at] ^ 1 << rng.randrange(8)]) + slot[at + 1:]


def random_slots(rng):
    """Bytes at random, all zeros and all ones."""
    yield bytes(slots.SIZE)
    yield b"\xff" * slots.SIZE
    for _ in range(40):
        yield bytes(rng.randrange(256) for _ in range(slots.SIZE))


def cases(rng):
    """The slots of the list, each once."""
    parts = (good, headers, details_of_values, unused, too_wide, other_nans, flipped, random_slots)
    fixed = itertools.chain(refusals(), operands(), not_operands())
    return dict.fromkeys(itertools.chain(fixed, *(part(rng) for part in parts)))
