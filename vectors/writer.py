"""Builds the bytes of sheets: nodes, records, settings."""

import struct

from shapes import Value


def literal(value):
    """Node 01."""
    head = bytes([1, value.ty, value.cols, value.rows])
    return head + struct.pack("<%dQ" % len(value.comps), *value.comps)


def scalar(ty, bits):
    """Node 01 with a scalar."""
    return literal(Value(ty, 1, 1, (bits,)))


def reference(entry):
    """Node 02."""
    return bytes([2, entry])


def unary(op, node):
    """Node 03."""
    return bytes([3, op]) + node


def binary(op, left, right):
    """Node 04."""
    return bytes([4, op]) + left + right


def record(stage, body, length=None):
    """A record; the length field may lie."""
    length = len(body) if length is None else length
    return b"\xd5\x17" + bytes([stage]) + struct.pack("<H", length) + body


def setting(ty, bits):
    """The record of a setting."""
    return record(3, scalar(ty, bits))
