"""The bytes of a sheet: records, expressions, every check with number and place.

A sheet that passes gives a list of entries, each with its stage byte and its
expression as a tree; one that does not raises Refused.
"""

import struct
from typing import NamedTuple

import scalars
import shapes
from scalars import Refused
from shapes import BAD_NODE, BAD_STAGE, BAD_VALUE, Value

SHEET_TOO_LONG, BAD_MARK, CUT_SHORT, TOO_MANY_ENTRIES = 20, 21, 22, 24
BAD_REF, TOO_DEEP, LEFTOVER = 27, 28, 29
LONGEST, MOST_ENTRIES, DEEPEST, SETTING = 16384, 128, 32, 3
MARK = b"\xd5\x17"
SETTING_TYPES = (scalars.BOOL, scalars.I32, scalars.U32, scalars.F32, scalars.F16)


class Literal(NamedTuple):
    """Node 01: a value, its NaNs as kept."""

    value: Value


class Reference(NamedTuple):
    """Node 02: the answer of an earlier entry."""

    entry: int


class Unary(NamedTuple):
    """Node 03: an operator and its operand."""

    op: int
    operand: object


class Binary(NamedTuple):
    """Node 04: an operator and its two operands."""

    op: int
    left: object
    right: object


class Entry(NamedTuple):
    """A record: its stage byte and its expression."""

    stage: int
    tree: object

    @property
    def is_setting(self):
        return self.stage == SETTING

    @property
    def level(self):
        """The stage as references count it: a setting counts as 1."""
        return scalars.OVERRIDE if self.is_setting else self.stage


class Body(NamedTuple):
    """Where an expression is read: the sheet, the body's end, what is known."""

    data: bytes
    end: int
    stage: int
    entries: list


def read(data):
    """The entries of a sheet, checked from the first byte on."""
    if len(data) > LONGEST:
        raise Refused(SHEET_TOO_LONG)
    entries, at = [], 0
    while at < len(data):
        if len(entries) == MOST_ENTRIES:
            raise Refused(TOO_MANY_ENTRIES, at)
        entry, at = read_record(data, at, entries)
        entries.append(entry)
    return entries


def read_record(data, at, entries):
    """The entry of the record at a place, and the place after it."""
    if len(data) - at < 5:
        raise Refused(CUT_SHORT, len(data))
    if data[at: at + 2] != MARK:
        raise Refused(BAD_MARK, at)
    stage = data[at + 2]
    if stage > SETTING:
        raise Refused(BAD_STAGE, at + 2)
    end = at + 5 + data[at + 3] + 256 * data[at + 4]
    if end > len(data):
        raise Refused(CUT_SHORT, len(data))
    tree, after = read_node(Body(data, end, stage, entries), at + 5, 1)
    if after < end:
        raise Refused(LEFTOVER, after)
    return Entry(stage, tree), end


def need(body, last):
    """The body reaches at least to a place, else CutShort at its end."""
    if last > body.end:
        raise Refused(CUT_SHORT, body.end)


def read_node(body, at, depth):
    """The tree of the node at a place, and the place after it."""
    if depth > DEEPEST:
        raise Refused(TOO_DEEP, at)
    need(body, at + 1)
    tag = body.data[at]
    if not 1 <= tag <= 4 or (body.stage == SETTING and tag != 1):
        raise Refused(BAD_NODE, at)
    if tag == 1:
        return read_literal(body, at)
    if tag == 2:
        return read_reference(body, at)
    return read_operator(body, at, depth, tag)


def read_literal(body, at):
    """Node 01: type and shape are judged before components are looked for."""
    need(body, at + 4)
    ty, cols, rows = body.data[at + 1: at + 4]
    if not shapes.shape_ok(ty, cols, rows):
        raise Refused(BAD_VALUE, at)
    if body.stage == SETTING and (ty not in SETTING_TYPES or cols * rows != 1):
        raise Refused(BAD_VALUE, at)
    after = at + 4 + 8 * cols * rows
    need(body, after)
    comps = struct.unpack("<%dQ" % (cols * rows), body.data[at + 4: after])
    value = Value(ty, cols, rows, comps)
    if not shapes.comps_ok(value):
        raise Refused(BAD_VALUE, at)
    return Literal(shapes.taken(value)), after


def read_reference(body, at):
    """Node 02: an earlier entry whose stage is not above this one's."""
    need(body, at + 2)
    named = body.data[at + 1]
    if named >= len(body.entries):
        raise Refused(BAD_REF, at)
    if body.entries[named].level > body.stage:
        raise Refused(BAD_STAGE, at)
    return Reference(named), at + 2


def read_operator(body, at, depth, tag):
    """Nodes 03 and 04: an operator and its operands, one level deeper."""
    need(body, at + 2)
    op = body.data[at + 1]
    if not 1 <= op <= (3 if tag == 3 else 18):
        raise Refused(BAD_NODE, at)
    first, after = read_node(body, at + 2, depth + 1)
    if tag == 3:
        return Unary(op, first), after
    second, after = read_node(body, after, depth + 1)
    return Binary(op, first, second), after


def references(tree):
    """The entries that an expression names."""
    if isinstance(tree, Literal):
        return set()
    if isinstance(tree, Reference):
        return {tree.entry}
    if isinstance(tree, Unary):
        return references(tree.operand)
    return references(tree.left) | references(tree.right)
