"""Scalars, vectors and matrices as one record, and the direct calls.

A Value has a type, columns, rows and components column by column. The direct
calls judge operator, stage and operands first and answer an Outcome.
"""

from typing import NamedTuple

import scalars
from scalars import Refused

BAD_STAGE, BAD_NODE, BAD_VALUE = 23, 25, 26


class Value(NamedTuple):
    """An operand or an answer. In an answer `comps` has just those in use."""

    ty: int
    cols: int
    rows: int
    comps: tuple

    @property
    def count(self):
        """How many components are in use."""
        return self.cols * self.rows

    @property
    def kind(self):
        if self.cols == 1:
            return "scalar" if self.rows == 1 else "vector"
        return "matrix"


NOTHING = Value(0, 0, 0, ())


class Outcome(NamedTuple):
    """Status 0 with a value, or a refusal's number with its detail.

    The value of a shift's refusal is the left operand that it carries; other
    refusals have None.
    """

    status: int
    detail: int
    value: object


def shape_ok(ty, cols, rows):
    """Whether a type and a shape are known and go together."""
    if not 0 <= ty <= 6:
        return False
    if cols == 1:
        return 1 <= rows <= 4
    return 2 <= cols <= 4 and 2 <= rows <= 4 and ty in scalars.FORMATS


def comps_ok(value):
    """Whether each component in use is a pattern of the type."""
    return all(scalars.proper(value.ty, bits) for bits in value.comps[: value.count])


def well_formed(value):
    return shape_ok(value.ty, value.cols, value.rows) and comps_ok(value)


def taken(value):
    """A well-formed operand as it is read: components in use, NaNs as kept.

    Components that are not given are 0.
    """
    comps = (value.comps + (0,) * value.count)[: value.count]
    return value._replace(comps=tuple(scalars.kept(value.ty, bits) for bits in comps))


def converted(value, target):
    """All components in another type; Binary if one has no conversion."""
    comps = tuple(scalars.convert(value.ty, target, bits) for bits in value.comps)
    if None in comps:
        raise Refused(scalars.BINARY)
    return value._replace(ty=target, comps=comps)


def meets(op, left, right):
    """Whether the operator takes a pair of kinds of shape."""
    if left == right == "scalar":
        return True
    if op in scalars.LOGICAL:
        return False
    if left == right == "vector":
        return True
    if left == right == "matrix":
        return op in (scalars.ADD, scalars.SUB, scalars.MUL)
    if "matrix" in (left, right):
        return op == scalars.MUL
    return op in scalars.ARITHMETIC


def same_types(op, left, right):
    """Both operands in the types in which the operator works."""
    if op in scalars.SHIFTS:
        return left, converted(right, scalars.U32)
    target = scalars.common(left.ty, right.ty)
    if target is None:
        raise Refused(scalars.BINARY)
    return converted(left, target), converted(right, target)


def is_product(op, left, right):
    """Whether the pair is a sum of products: a matrix by a vector or a matrix."""
    pair = (left.kind, right.kind)
    return op == scalars.MUL and "matrix" in pair and "scalar" not in pair


def inner_size(left, right):
    """The two sizes that a product needs equal."""
    columns = left.count if left.kind == "vector" else left.cols
    rows = right.count if right.kind == "vector" else right.rows
    return columns, rows


def check_shapes(op, left, right):
    """Equal shapes where components meet one to one; inner sizes in a product."""
    if "scalar" in (left.kind, right.kind):
        return
    if is_product(op, left, right):
        columns, rows = inner_size(left, right)
        if columns != rows:
            raise Refused(scalars.BINARY)
    elif (left.cols, left.rows) != (right.cols, right.rows):
        raise Refused(scalars.COMPWISE_BINARY)


def binary(op, stage, left, right):
    """A known operator in a known stage on two operands as read."""
    if not meets(op, left.kind, right.kind):
        raise Refused(scalars.BINARY)
    left, right = same_types(op, left, right)
    check_shapes(op, left, right)
    if not scalars.takes(op, left.ty):
        raise Refused(scalars.BINARY)
    if is_product(op, left, right):
        return product(stage, left, right)
    return by_component(op, stage, left, right)


def by_component(op, stage, left, right):
    """Components from 0 up; a scalar meets each of the other's."""
    shape = right if left.kind == "scalar" else left
    comps = []
    for index in range(shape.count):
        a = left.comps[0 if left.kind == "scalar" else index]
        b = right.comps[0 if right.kind == "scalar" else index]
        comps.append(scalars.binary(op, stage, left.ty, a, b))
    return Value(scalars.result_type(op, left.ty), shape.cols, shape.rows, tuple(comps))


def product(stage, left, right):
    """The three products that have sums."""
    ty = left.ty
    if left.kind == "vector":
        lanes = [right.comps[right.rows * j: right.rows * (j + 1)] for j in range(right.cols)]
        comps = step_by_step(stage, ty, left.comps, lanes)
        return Value(ty, 1, right.cols, comps)
    rows = [left.comps[i:: left.rows] for i in range(left.rows)]
    size = right.count if right.kind == "vector" else right.rows
    columns = [right.comps[k: k + size] for k in range(0, right.count, size)]
    comps = tuple(sum_of_products(stage, ty, row, column) for column in columns for row in rows)
    return Value(ty, len(columns), left.rows, comps)


def sum_of_products(stage, ty, left, right):
    """p0, p1, p0 + p1, p2 and so on, each step rounded and checked."""
    total = scalars.binary(scalars.MUL, stage, ty, left[0], right[0])
    for a, b in zip(left[1:], right[1:]):
        term = scalars.binary(scalars.MUL, stage, ty, a, b)
        total = scalars.binary(scalars.ADD, stage, ty, total, term)
    return total


def step_by_step(stage, ty, vector, columns):
    """The sums of a vector with each column, each step for all before the next."""
    totals = [scalars.binary(scalars.MUL, stage, ty, vector[0], column[0]) for column in columns]
    for i in range(1, len(vector)):
        terms = [scalars.binary(scalars.MUL, stage, ty, vector[i], column[i]) for column in columns]
        totals = [scalars.binary(scalars.ADD, stage, ty, a, b) for a, b in zip(totals, terms)]
    return tuple(totals)


def unary(op, operand):
    """A known unary operator on an operand as read."""
    if operand.kind == "matrix" or not scalars.unary_takes(op, operand.ty):
        raise Refused(scalars.UNARY)
    comps = tuple(scalars.unary(op, operand.ty, bits) for bits in operand.comps)
    return operand._replace(comps=comps)


def direct(kind, op, stage, left, right=None):
    """A direct call, judged in order: operator, stage, left, right."""
    if not 1 <= op <= (3 if kind == 1 else 18):
        raise Refused(BAD_NODE)
    if not 0 <= stage <= 2:
        raise Refused(BAD_STAGE)
    for operand in (left,) if kind == 1 else (left, right):
        if not well_formed(operand):
            raise Refused(BAD_VALUE)
    if kind == 1:
        return unary(op, taken(left))
    return binary(op, stage, taken(left), taken(right))


def carried(operand):
    """The value of the operand that a refusal carries, a scalar, or None."""
    if operand is None:
        return None
    ty, bits = operand
    return Value(ty, 1, 1, (bits,))


def model_ops(kind, op, stage, left, right=None):
    """The outcome of a direct call: kind 1 is unary, kind 2 binary."""
    try:
        return Outcome(0, 0, direct(kind, op, stage, left, right))
    except Refused as refusal:
        return Outcome(refusal.number, refusal.detail, carried(refusal.operand))
