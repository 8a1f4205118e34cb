"""The files of fixed answers: how records are written and read back.

FORMAT.md describes the same in words.
"""

import struct

from shapes import NOTHING, Value


def put_operand(value):
    """An operand: type, columns, rows, count of components, components."""
    head = struct.pack("<BBBB", value.ty, value.cols, value.rows, len(value.comps))
    return head + struct.pack("<%dQ" % len(value.comps), *value.comps)


def get_operand(data, at):
    """The operand at a place, with 16 components, and the place after it."""
    ty, cols, rows, count = data[at: at + 4]
    after = at + 4 + 8 * count
    comps = struct.unpack("<%dQ" % count, data[at + 4: after])
    return Value(ty, cols, rows, comps + (0,) * (16 - count)), after


def put_ops(kind, op, stage, left, right, outcome):
    """One record of an `ops` list."""
    rest = struct.pack("<BBB", kind, op, stage) + put_operand(left)
    if kind == 2:
        rest += put_operand(right)
    rest += struct.pack("<BI", outcome.status, outcome.detail)
    rest += put_operand(outcome.value or NOTHING)
    return struct.pack("<H", len(rest)) + rest


def get_ops(data):
    """The records of an `ops` list: (kind, op, stage, left, right, outcome)."""
    at = 0
    while at < len(data):
        size = struct.unpack_from("<H", data, at)[0]
        kind, op, stage = data[at + 2: at + 5]
        left, place = get_operand(data, at + 5)
        right = None
        if kind == 2:
            right, place = get_operand(data, place)
        status, detail = struct.unpack_from("<BI", data, place)
        value, place = get_operand(data, place + 5)
        if place != at + 2 + size:
            raise ValueError("record at byte %d does not end where it says" % at)
        yield kind, op, stage, left, right, (status, detail, value)
        at = place


def put_sheet(sheet, length, fill, number, detail, results):
    """One record of a `sheets` list."""
    rest = struct.pack("<I", len(sheet)) + sheet
    rest += struct.pack("<IBBI", length, fill, number, detail)
    rest += bytes(results) if number == 0 else b""
    return struct.pack("<I", len(rest)) + rest


def get_sheets(data):
    """The records of a `sheets` list: (sheet, length, fill, number, detail, results)."""
    at = 0
    while at < len(data):
        sheet, at = get_lent(data, at + 4)
        length, fill, number, detail = struct.unpack_from("<IBBI", data, at)
        at += 10
        results = bytes([fill]) * length
        if number == 0:
            results, at = data[at: at + length], at + length
        yield sheet, length, fill, number, detail, results


def get_lent(data, at):
    """Bytes under their length in four bytes, and the place after them."""
    after = at + 4 + struct.unpack_from("<I", data, at)[0]
    return data[at + 4: after], after


def put_slot_case(slot, good):
    """One record of a `slots` list."""
    return slot + bytes([1 if good else 0])


def get_slot_cases(data):
    """The records of a `slots` list: (slot, 1 or 0)."""
    for at in range(0, len(data), 137):
        yield data[at: at + 136], data[at + 136]


STEP = struct.Struct("<IBQBIB")


def put_change(entry, ty, bits, number, detail, after):
    """One change within a record of a `changes` list; `after` None: unchanged."""
    head = STEP.pack(entry, ty, bits, number, detail, 0 if after is None else 1)
    return head + (b"" if after is None else bytes(after))


def put_changes(sheet, before, steps):
    """One record of a `changes` list."""
    rest = struct.pack("<I", len(sheet)) + sheet
    rest += struct.pack("<I", len(before)) + bytes(before)
    rest += struct.pack("<H", len(steps)) + b"".join(steps)
    return struct.pack("<I", len(rest)) + rest


def get_changes(data):
    """The records of a `changes` list: (sheet, before, steps).

    A step is (entry, type, bits, number, detail, buffer after).
    """
    at = 0
    while at < len(data):
        sheet, at = get_lent(data, at + 4)
        before, at = get_lent(data, at)
        count, at = struct.unpack_from("<H", data, at)[0], at + 2
        now, steps = before, []
        for _ in range(count):
            *step, follows = STEP.unpack_from(data, at)
            at += STEP.size
            if follows:
                now, at = data[at: at + len(before)], at + len(before)
            steps.append((*step, now))
        yield sheet, before, steps


def put_rounding(what, source, expected):
    """One record of a `rounding` list."""
    return struct.pack("<B7xQQ", what, source, expected)


def get_rounding(data):
    """The records of a `rounding` list: (what, input, expected)."""
    return struct.iter_unpack("<B7xQQ", data)
