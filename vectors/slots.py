"""A slot: a value or a refusal in 136 bytes.

Status, type, columns, rows, detail in 4 bytes low first, 16 components of 8
bytes low first.
"""

import struct

import scalars
import shapes
from shapes import NOTHING, Outcome, Value

SIZE = 136
LAYOUT = struct.Struct("<BBBBI16Q")


def pack(outcome):
    """The 136 bytes of an outcome; what is not in use is 0."""
    value = outcome.value or NOTHING
    comps = list(value.comps) + [0] * (16 - len(value.comps))
    return LAYOUT.pack(outcome.status, value.ty, value.cols, value.rows, outcome.detail, *comps)


def unpack(slot):
    """The fields as they stand: an outcome whose value has all 16 components."""
    status, ty, cols, rows, detail, *comps = LAYOUT.unpack(slot)
    return Outcome(status, detail, Value(ty, cols, rows, tuple(comps)))


def value_ok(value):
    """Type and shape known, components proper and as kept, unused ones 0."""
    if not shapes.well_formed(value):
        return False
    used, unused = value.comps[: value.count], value.comps[value.count:]
    return not any(unused) and all(scalars.kept(value.ty, bits) == bits for bits in used)


def operand_ok(value):
    """The left operand of a shift's refusal: an integer scalar as kept."""
    return value.ty in scalars.INTEGERS and value.kind == "scalar" and value_ok(value)


def detail_ok(status, detail):
    """The details that the slot of a refusal without operand may have."""
    if status == scalars.FROM_ENTRY:
        return detail < 128
    return detail == 0


def well_formed(slot):
    """Whether 136 bytes are a slot that an evaluation might leave."""
    status, detail, value = unpack(slot)
    if status == 0:
        return detail == 0 and value_ok(value)
    if status in scalars.SHIFT_OVERFLOWS:
        return operand_ok(value)
    bare = not any(value[:3]) and not any(value.comps)
    return 1 <= status <= 11 and bare and detail_ok(status, detail)


def value_of(slot):
    """The value of a well-formed slot of status 0, else None."""
    status, _, value = unpack(slot)
    if status != 0 or not well_formed(slot):
        return None
    return value._replace(comps=value.comps[: value.count])
