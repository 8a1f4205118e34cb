"""The list `sheets`: sheets accepted and refused, each check with its place.

A case is (sheet, length of the results buffer, fill byte).
"""

import itertools

import pools
import scalars
import sheets
import slots
import trees
from example import SHEET
from scalars import BOOL, F16, F32, I32, U32
from writer import binary, literal, record, reference, scalar, setting, unary

TRUE = scalar(BOOL, 1)
FALSE = scalar(BOOL, 0)
ONE = scalar(U32, 1)


def good_size(data):
    """The results' size that a sheet needs, 0 for a refused one."""
    try:
        return slots.SIZE * len(sheets.read(data))
    except scalars.Refused:
        return 0


def all_kinds():
    """A short sheet with every kind of node, stage and shape."""
    pieces = [
        setting(F16, 0x3C00), record(0, literal(pools.Value(F32, 2, 2, (1, 2, 3, 0x3F800000)))),
        record(1, unary(2, reference(0))), record(2, binary(5, reference(1), literal(pools.Value(F32, 1, 2, (7, 8))))),
        record(2, binary(9, binary(3, reference(2), scalar(1, 5)), reference(0))),
    ]
    return b"".join(pieces)


def truncated():
    """Two sheets cut at every length."""
    for data in (SHEET, all_kinds()):
        for length in range(len(data) + 1):
            yield data[:length]


def flipped(rng):
    """Two sheets with each byte replaced by several others."""
    for data in (SHEET, all_kinds()):
        for at, old in enumerate(data):
            others = {0, 1, 2, 3, 4, 5, 19, 255, old ^ 1, old ^ 128, (old + 1) % 256, (old - 1) % 256} - {old}
            for new in sorted(rng.sample(sorted(others), 5)):
                yield data[:at] + bytes([new]) + data[at + 1:]


def damaged(rng, data):
    """A sheet with a few bytes replaced, left out or put in."""
    for _ in range(rng.randrange(1, 3)):
        at = rng.randrange(len(data))
        byte = bytes([rng.choice((0, 1, 2, 3, 4, 18, 255, rng.randrange(256)))])
        data = rng.choice((data[:at] + byte + data[at + 1:], data[:at] + data[at + 1:], data[:at] + byte + data[at:]))
        data = data or b"\xd5"
    return data


def lengths_off():
    """Length fields that say more or less than there is."""
    bodies = [TRUE, ONE, unary(1, TRUE), binary(3, ONE, ONE), literal(pools.Value(F32, 1, 3, (0, 0, 0)))]
    for body, stage, step in itertools.product(bodies, (0, 3), (-12, -9, -3, -2, -1, 1, 2, 7, 255, 256)):
        for after in (b"", setting(U32, 1)):
            yield record(stage, body, max(len(body) + step, 0)) + after
    for body in bodies:
        yield record(2, body, 65535)
        yield record(2, body + b"\0") + setting(U32, 1)


def chain(depth, leaf=TRUE):
    """A lone chain of `!` so that the leaf lies at a depth."""
    return bytes([3, 1]) * (depth - 1) + leaf


def leaning(depth, right):
    """Binary nodes that lean to one side, down to a depth."""
    node = ONE
    for _ in range(depth - 1):
        node = binary(3, ONE, node) if right else binary(3, node, ONE)
    return node


def deep():
    """Expressions 31 to 34 deep, whole and cut at the deepest node."""
    for depth in (1, 2, 30, 31, 32, 33, 34, 60):
        for leaf in (TRUE, b"", b"\x01", b"\x09", b"\x03", reference(0), b"\x04\x00"):
            yield setting(U32, 3) + record(1, chain(depth, leaf))
        yield record(0, leaning(depth, False))
        yield record(0, leaning(depth, True))
        yield record(0, leaning(depth, True)[:-1])
        yield record(0, chain(depth, b"")) + record(0, TRUE)
        yield record(2, binary(8, chain(depth - 1), TRUE)) if depth > 1 else record(2, TRUE)


def many():
    """127, 128 and 129 entries, with some stray bytes after them."""
    first = setting(U32, 5)
    for count in (127, 128, 129):
        rest = count - 1
        yield first + record(1, reference(0)) * rest
        yield first + b"".join(record(2, reference(n)) for n in range(rest))
    full = record(0, TRUE) + record(0, reference(0)) * 127
    for stray in (b"\0", b"\xd5\x17\x00\x02", b"\0\0\0\0\0", b"\xd5\x17\x09\x00\x00", record(0, TRUE)[:9]):
        yield full + stray
        yield full[:-7] + stray


def lengths():
    """Sheets of the lengths at which a check turns."""
    wide = record(0, literal(pools.Value(F32, 4, 4, (0,) * 16)))
    three = record(0, literal(pools.Value(F32, 1, 3, (0,) * 3)))
    tail = three + record(0, TRUE) * 2 + record(0, reference(0)) * 2
    full = wide * 119 + tail
    stray = [b"", b"\xd5", b"\xd5\x17", b"\0\0\0\0", b"\xd5\x17\x00\x00", b"\xd5\x17\x00\x00\x00", b"\0" * 5]
    long = [full, full + b"\0", full[:-1], b"\0" * 16384, b"\0" * 16385, record(0, TRUE)[:5] * 3276, b"\xd5" * 20000]
    return stray + long


def settings():
    """Settings of each type and shape, with good and bad contents and tags."""
    for ty, shape in itertools.product((0, 1, 2, 3, 4, 5, 6, 7, 255), ((1, 1), (1, 2), (2, 2), (0, 0), (1, 5))):
        value = pools.Value(ty, *shape, (1,) * (shape[0] * shape[1]))
        yield record(3, literal(value))
        yield record(3, literal(value)[:4])
        yield record(3, literal(value)[:3])
    for ty in sheets.SETTING_TYPES:
        for bits in [2 ** scalars.WIDTHS[ty], 2 ** 63, 2 ** scalars.WIDTHS[ty] - 1] + pools.EDGES[ty][-3:]:
            yield setting(ty, bits)
    for body in (b"", b"\0", b"\x02", b"\x03", b"\x04", reference(0), unary(1, TRUE), binary(3, ONE, ONE), b"\x05"):
        yield setting(U32, 1) + record(3, body)


def references():
    """References earlier, to itself and later, with every pair of stages."""
    for low, high in itertools.product(range(4), range(4)):
        body = ONE if high == 3 else binary(3, reference(0), ONE)
        yield record(low, ONE) + record(high, body)
        yield record(low, ONE) + record(high, reference(0))
    for named in (0, 1, 2, 3, 127, 128, 255):
        yield record(0, ONE) + record(1, ONE) + record(1, binary(3, ONE, reference(named))) + record(0, ONE)
    yield record(2, ONE) + record(0, reference(1))


def literals():
    """01 nodes of every type and shape, good and bad, whole and cut."""
    for ty, cols, rows in itertools.product((0, 2, 3, 6, 7), (0, 1, 2, 4, 5), (0, 1, 2, 3, 4, 5)):
        body = literal(pools.Value(ty, cols, rows, (1,) * min(cols * rows, 16)))
        yield record(0, body)
        yield record(1, binary(8, TRUE, body[:-1]))
    for ty in (0, 3, 4, 5, 6):
        for bits in (2 ** scalars.WIDTHS[ty], 2 ** 63 + 1):
            yield record(2, unary(2, literal(pools.Value(ty, 1, 3, (0, 1, bits)))))
    for ty, bits in itertools.product(pools.FLOAT_TYPES, range(6)):
        fmt = scalars.FORMATS[ty]
        yield record(0, literal(pools.Value(ty, 1, 2, (fmt.infinity + bits, fmt.nan + fmt.sign_bit))))


def operators():
    """Nodes 03 and 04 with every operator code and some unknown ones."""
    for op in list(range(20)) + [128, 255]:
        yield record(0, unary(op, TRUE))
        yield record(1, binary(op, ONE, ONE))
        yield record(2, bytes([3, op]))
        yield record(2, bytes([4, op]) + ONE)
    for tag in (0, 5, 6, 16, 255):
        yield record(0, bytes([tag]) + ONE)
        yield record(0, binary(3, ONE, bytes([tag])))
    for body in (b"", b"\x03", b"\x04", b"\x02", ONE + b"\0", binary(3, ONE, ONE) + ONE, unary(1, TRUE) + b"\x01"):
        yield record(0, body)
        yield record(0, body) + record(0, ONE)


def orders():
    """Two faults at once: which is named first."""
    yield b"\xd5\x18\x09\x02\x00\x02\x00"
    yield b"\xd4\x17\x00\xff\xff"
    yield b"\xd5\x17\x04\xff\xff"
    yield b"\xd5\x17\xff\x00\x00"
    yield record(0, binary(3, binary(19, ONE, ONE), b"\x09"))
    yield record(0, binary(3, scalar(9, 0), scalar(0, 2)))
    yield record(0, binary(3, reference(0), scalar(0, 2)))
    yield record(2, ONE) + record(0, binary(3, reference(0), reference(1)))
    yield record(2, ONE) + record(0, binary(3, reference(1), reference(0)))
    yield record(0, ONE + b"\0") + b"\xd5"
    yield record(0, scalar(0, 2) + b"\0")


def refused_values():
    """Entries that refuse, and chains of entries that name them."""
    zero, top = scalar(I32, 0), scalar(1, 2 ** 63 - 1)
    half = scalar(F16, 0x7BFF)
    bodies = [unary(1, ONE), binary(3, TRUE, ONE), binary(3, top, scalar(1, 1)), binary(4, top, scalar(1, 2 ** 64 - 1)),
              binary(5, top, top), binary(6, scalar(I32, 7), zero), binary(7, scalar(I32, 7), zero),
              binary(17, ONE, scalar(U32, 40)), binary(18, ONE, scalar(U32, 2 ** 32 - 1)), binary(3, half, half),
              binary(17, scalar(1, 2 ** 64 - 5), scalar(1, 64)), binary(18, scalar(I32, 2 ** 32 - 5), scalar(1, 32)),
              binary(17, literal(pools.Value(I32, 1, 3, (1, 2 ** 31, 3))), literal(pools.Value(U32, 1, 3, (30, 1, 32)))),
              binary(18, literal(pools.Value(U32, 1, 4, (6, 7, 8, 9))), literal(pools.Value(1, 1, 4, (31, 0, 32, 33)))),
              binary(14, literal(pools.Value(U32, 1, 2, (1, 2))), literal(pools.Value(U32, 1, 3, (1, 2, 3))))]
    for stage, body in itertools.product(range(3), bodies):
        chain_of = record(stage, unary(3, reference(0))) + record(2, binary(3, reference(1), reference(0)))
        yield record(stage, body) + chain_of + record(2, binary(1, TRUE, reference(2)))
        yield record(stage, binary(3, body, unary(1, ONE))) + record(2, binary(3, unary(1, ONE), reference(0)))
        skipped = record(stage, binary(2, FALSE, body)) + record(stage, binary(1, TRUE, body))
        yield skipped + record(2, binary(2, FALSE, reference(0)))
    for op, left, right in itertools.product((1, 2), (TRUE, FALSE), (TRUE, FALSE, ONE)):
        yield record(0, binary(op, left, right)) + record(1, binary(op, right, left))


def wrong_sizes(rng):
    """Results of a wrong size, over good and refused sheets."""
    good = [b"", SHEET, all_kinds(), setting(F32, 0)]
    for data in good + [SHEET[:-1], SHEET + b"\0"]:
        size = good_size(data)
        for wrong in {0, 1, 135, 136, 137, size - 1, size + 1, size - 136, size + 136, 8 * size} - {size}:
            if wrong >= 0:
                yield data, wrong


def every_sheet(rng):
    """All sheets that are evaluated with results of the right size."""
    random = [trees.random_sheet(rng, rng.randrange(1, 8)) for _ in range(1100)]
    fixed = itertools.chain(truncated(), flipped(rng), lengths_off(), deep(), many(), lengths(), settings(),
                            references(), literals(), operators(), orders(), refused_values())
    hurt = [damaged(rng, rng.choice(random)) for _ in range(1100)]
    return itertools.chain([SHEET, all_kinds()], random, fixed, hurt)


def cases(rng):
    """The cases of `sheets`, each sheet once with the right size."""
    for data in dict.fromkeys(every_sheet(rng)):
        yield data, good_size(data) or rng.choice((0, 0, 136, 408)) * (len(data) > 0), rng.choice((0, 255, 165, 17))
    for data, wrong in wrong_sizes(rng):
        yield data, wrong, rng.choice((0, 255, 165))
