"""The list `changes`: changes of settings over good and garbage buffers.

A case is (sheet, buffer before, list of changes (entry, type, bits)).
"""

import itertools

import fold
import list_sheets
import list_slots
import scalars
import sheets
import slots
import trees
from example import SHEET
from list_rounding import nans
from pools import mixed, tame, wild
from scalars import BOOL, F32, FORMATS, I32, INTEGERS, SHIFT_OVERFLOWS, U32
from shapes import Outcome, Value
from writer import binary, literal, record, reference, scalar, setting, unary


def fresh(data):
    """The fresh results of an accepted sheet."""
    results = bytearray(list_sheets.good_size(data))
    fold.evaluate(data, results)
    return results


def setting_numbers(data):
    """The settings of an accepted sheet and their types."""
    entries = sheets.read(data)
    return [(n, entry.tree.value.ty) for n, entry in enumerate(entries) if entry.is_setting]


def weights(data):
    """How likely each setting is chosen: more if others depend on it."""
    entries = sheets.read(data)
    return [1 + 4 * len(fold.dependents(entries, n)) for n, _ in setting_numbers(data)]


def good_change(rng, data):
    """New content of the right type."""
    entry, ty = rng.choices(setting_numbers(data), weights(data))[0]
    if ty in FORMATS and rng.randrange(6) == 0:
        return entry, ty, rng.choice(list(nans(FORMATS[ty])))
    return entry, ty, rng.choice((tame, mixed, wild))(rng, ty)


def bad_change(rng, data):
    """A change that some check refuses, now and then none."""
    entry, ty, bits = good_change(rng, data)
    count = len(sheets.read(data))
    kind = rng.randrange(8)
    if kind == 7:
        return rng.randrange(count + 2), *rng.choice(((255, 0), (7, 1), (0, 2), (5, 2 ** 32), (1, 0)))
    if kind == 0:
        return rng.choice((count, count + 1, 128, 255, 256 + entry, 2 ** 32 - 1)), ty, bits
    if kind == 1:
        return rng.randrange(count), ty, bits
    if kind == 2:
        return entry, rng.choice((7, 8, 9, 255)), rng.choice((0, 1))
    if kind == 3:
        return entry, ty, 1 << rng.choice((scalars.WIDTHS[ty], 63))
    if kind == 4:
        return entry, rng.randrange(7), rng.choice((0, 1))
    if kind == 5:
        return entry, rng.choice((1, 2)), rng.randrange(2 ** 64)
    other = rng.choice((0, 3, 4, 5, 6))
    return entry, other, 2 ** scalars.WIDTHS[other] - rng.choice((0, 1))


def settled_sheet(rng):
    """A random sheet with a setting, on which mostly other entries depend."""
    wanted = 0 if rng.randrange(6) == 0 else 5
    while True:
        data = trees.random_sheet(rng, rng.randrange(2, 8), settings=3)
        if setting_numbers(data) and max(weights(data)) >= wanted:
            return data


def overflow_slot(rng, kept_values):
    """A shift's refusal: with an operand that it may carry, with none, or with any value."""
    ty = rng.choice(INTEGERS)
    value = rng.choice((Value(ty, 1, 1, (wild(rng, ty),)), None, rng.choice(kept_values)))
    return slots.pack(Outcome(rng.choice(SHIFT_OVERFLOWS), rng.randrange(128), value))


def garbage_slot(rng, kept_values):
    """136 bytes: anything, a refusal, well formed or a shift's, or a well-formed value."""
    kind = rng.randrange(6)
    if kind == 0:
        return bytes(rng.randrange(256) for _ in range(slots.SIZE))
    if kind == 1:
        return overflow_slot(rng, kept_values)
    if kind == 2:
        status = rng.choice((1, 2, 3, 4, 5, 6, 7, 8, 11))
        return slots.pack(Outcome(status, rng.randrange(128) if status == 11 else 0, None))
    return slots.pack(Outcome(0, 0, rng.choice(kept_values)))


def hurt_slot(rng, slot):
    """A slot with one bit changed: of the detail, of the last component or any."""
    at = rng.choice((rng.randrange(4, 8), rng.randrange(128, 136), rng.randrange(slots.SIZE)))
    return slot[:at] + bytes([slot[at] ^ 1 << rng.randrange(8)]) + slot[at + 1:]


def with_garbage(rng, results, share):
    """Results of which a share of the slots is garbage."""
    kept_values = list(list_slots.good_values(rng))
    for entry in range(len(results) // slots.SIZE):
        old = fold.slot_at(results, entry)
        if rng.random() < share:
            new = hurt_slot(rng, old) if rng.randrange(4) == 0 else garbage_slot(rng, kept_values)
            results[slots.SIZE * entry: slots.SIZE * (entry + 1)] = new
    return results


def random_cases(rng, count):
    """Sequences of changes over fresh and garbage results."""
    for turn in range(count):
        data = settled_sheet(rng)
        before = fresh(data)
        if turn % 2:
            before = with_garbage(rng, before, rng.choice((0.3, 0.6, 1.0)))
        drawn = [good_change if rng.randrange(4) else bad_change for _ in range(rng.randrange(1, 6))]
        steps = [draw(rng, data) for draw in drawn]
        yield data, before, steps + [steps[-1]] * (rng.randrange(4) == 0)


def wrong_sizes(rng, count):
    """Results of a wrong size, the change itself being good or bad."""
    for _ in range(count):
        data = settled_sheet(rng)
        size = list_sheets.good_size(data)
        wrong = rng.choice((0, 1, size - 1, size + 1, size - 136, size + 136))
        before = bytearray(rng.randrange(256) for _ in range(wrong))
        yield data, before, [good_change(rng, data), bad_change(rng, data)]


def refused_sheets(rng, count):
    """Damaged sheets: the sheet's own refusal comes first."""
    for _ in range(count):
        data = settled_sheet(rng)
        size = list_sheets.good_size(data)
        hurt = list_sheets.damaged(rng, data)
        before = bytearray(rng.randrange(256) for _ in range(rng.choice((size, size, 0))))
        yield hurt, before, [bad_change(rng, data), good_change(rng, data)]
    for hurt in (bytes(16385), list_sheets.SHEET + b"\xd5", list_sheets.record(1, list_sheets.chain(33))):
        yield hurt, bytearray(136), [(0, U32, 1)]
    too_many = setting(U32, 5) + record(1, reference(0)) * 128
    others = [record(0, unary(9, scalar(BOOL, 1))), record(0, reference(0)), record(2, scalar(U32, 1) + b"\0")]
    for hurt in [too_many] + others:
        yield hurt, bytearray(136), [(0, U32, 1)]


def recovering():
    """Dependents that refuse and come back, change after change."""
    yield SHEET, fresh(SHEET), [(0, U32, bits) for bits in (32, 5, 31, 33, 0, 0, 2 ** 32 - 1, 5)]
    divided = setting(I32, 2) + setting(I32, 3) + record(1, binary(6, reference(0), reference(1)))
    divided += record(1, binary(3, reference(2), scalar(I32, 1))) + record(2, binary(6, reference(0), reference(1)))
    steps = [(1, 0), (0, 9), (1, 3), (0, 2 ** 31), (1, 2 ** 32 - 1), (1, 1)]
    yield divided, fresh(divided), [(entry, I32, bits) for entry, bits in steps]
    still = setting(F32, 0) + record(1, binary(5, reference(0), scalar(F32, 0))) + record(1, reference(1))
    yield still, fresh(still), [(0, F32, bits) for bits in (0x3F800000, 0x7F800001, 0xFFFFFFFF, 0, 0x80000000)]


COUNT, OTHER = reference(0), reference(1)


def carrying():
    """Shifts by a setting: they refuse with an operand, recover, and give way to another refusal or operand."""
    powers, ones = literal(Value(U32, 1, 3, (1, 2, 4))), literal(Value(U32, 1, 3, (1, 1, 1)))
    seven, wrong = binary(17, scalar(U32, 7), COUNT), binary(3, scalar(BOOL, 1), scalar(U32, 1))
    bodies = [
        binary(17, powers, binary(5, ones, COUNT)), binary(17, scalar(I32, 2 ** 32 - 3), COUNT),
        binary(17, scalar(1, 2 ** 64 - 3), COUNT), binary(18, scalar(I32, 2 ** 32 - 5), COUNT),
        binary(6, seven, OTHER), binary(7, seven, OTHER), binary(3, seven, wrong), binary(3, seven, reference(6)),
        binary(3, seven, binary(18, scalar(U32, 5), OTHER)), unary(2, unary(3, seven)), binary(3, reference(2), ones),
    ]
    data = setting(U32, 5) + setting(U32, 3) + b"".join(record(1, body) for body in bodies)
    steps = [(0, 32), (0, 31), (0, 30), (0, 0), (1, 0), (0, 32), (0, 5), (1, 32), (0, 62), (0, 29), (1, 3), (0, 1)]
    yield data, fresh(data), [(entry, U32, bits) for entry, bits in steps]
    yield data, bytearray(b"\xee" * len(fresh(data))), [(entry, U32, bits) for entry, bits in reversed(steps)]


def not_operands():
    """References to a slot that is no operand: a shift's refusal, carrying a good operand or not, or a value beside a detail."""
    shift = binary(17, scalar(U32, 1), OTHER)
    data = setting(U32, 5) + setting(U32, 6) + record(1, shift) + record(1, binary(3, COUNT, OTHER))
    data += record(1, binary(3, COUNT, reference(2))) + record(1, binary(1, binary(8, COUNT, COUNT), reference(2)))
    operands = [Value(U32, 1, 1, (1,)), Value(I32, 1, 1, (2 ** 32 - 1,)), Value(1, 1, 1, (7,)), None,
                Value(U32, 1, 2, (1, 1)), Value(F32, 1, 1, (1,)), Value(BOOL, 1, 1, (1,)), Value(U32, 1, 1, (2 ** 32,))]
    for operand, status, entry in itertools.product(operands, (0,) + SHIFT_OVERFLOWS, (1, 2)):
        before = fresh(data)
        fold.put_slot(before, entry, Outcome(status, 32, operand))
        yield data, before, [(0, U32, 6), (0, U32, 7), (1, U32, 32), (0, U32, 8), (1, U32, 4)]


def chains():
    """Long chains and broad sheets: each dependent is counted once."""
    long = setting(U32, 1) + b"".join(record(1, binary(3, reference(n), reference(n))) for n in range(31))
    yield long, fresh(long), [(0, U32, 2), (0, U32, 2), (0, U32, 0)]
    pairs = [record(2, binary(3, reference(n % 2), reference(n % 3))) for n in range(20)]
    broad = setting(U32, 1) + setting(U32, 2) + b"".join(pairs)
    yield broad, fresh(broad), [(0, U32, 7), (1, U32, 7), (1, U32, 8), (2, U32, 8)]
    full = setting(U32, 1) + record(0, scalar(U32, 4)) * 63 + record(1, reference(0)) * 64
    yield full, fresh(full), [(0, U32, 2), (64, U32, 2), (128, U32, 2)]
    guarded = setting(BOOL, 1) + setting(U32, 0)
    guarded += record(1, binary(1, reference(0), binary(8, reference(1), scalar(U32, 0))))
    yield guarded, fresh(guarded), [(1, U32, 5), (0, BOOL, 0), (1, U32, 0), (0, BOOL, 2), (0, BOOL, 1)]


def hidden():
    """Dependence by references alone: a refused operand hides nothing."""
    wrong = binary(3, scalar(BOOL, 1), scalar(U32, 1))
    data = setting(U32, 1) + record(1, binary(3, wrong, reference(0))) + record(1, binary(3, wrong, reference(1)))
    data += record(1, binary(5, scalar(U32, 0), reference(0)))
    for share in (0.0, 1.0):
        before = fresh(data)
        if share:
            before = bytearray(b"\xee" * len(before))
        yield data, before, [(0, U32, 1), (0, U32, 2), (3, U32, 2)]


def cases(rng):
    """The cases of `changes`."""
    drawn = random_cases(rng, 900), wrong_sizes(rng, 60), refused_sheets(rng, 160)
    return itertools.chain(recovering(), carrying(), not_operands(), chains(), hidden(), *drawn)
