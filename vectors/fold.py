"""Fresh evaluation, dependence and the change of a setting."""

import scalars
import shapes
import sheets
import slots
from scalars import Refused
from shapes import BAD_VALUE, Outcome, Value

RESULTS_SIZE, NOT_A_SETTING, SETTING_TYPE = 30, 31, 32


def slot_at(results, entry):
    return bytes(results[slots.SIZE * entry: slots.SIZE * (entry + 1)])


def put_slot(results, entry, outcome):
    results[slots.SIZE * entry: slots.SIZE * (entry + 1)] = slots.pack(outcome)


def worked(tree, stage, results):
    """The outcome of an expression over the slots as they stand."""
    if isinstance(tree, sheets.Literal):
        return Outcome(0, 0, tree.value)
    if isinstance(tree, sheets.Reference):
        value = slots.value_of(slot_at(results, tree.entry))
        if value is None:
            return Outcome(scalars.FROM_ENTRY, tree.entry, None)
        return Outcome(0, 0, value)
    if isinstance(tree, sheets.Unary):
        operand = worked(tree.operand, stage, results)
        return operand if operand.status else shapes.model_ops(1, tree.op, stage, operand.value)
    left = worked(tree.left, stage, results)
    right = worked(tree.right, stage, results)
    for operand in (left, right):
        if operand.status:
            return operand
    return shapes.model_ops(2, tree.op, stage, left.value, right.value)


def fill(entries, results, chosen):
    """Works out the chosen entries in rising order, each over the slots then."""
    for number in chosen:
        entry = entries[number]
        put_slot(results, number, worked(entry.tree, entry.stage, results))


def accepted(sheet, results):
    """The entries of a sheet whose results have the right size."""
    entries = sheets.read(sheet)
    if len(results) != slots.SIZE * len(entries):
        raise Refused(RESULTS_SIZE)
    return entries


def evaluate(sheet, results):
    """Fills all slots of a bytearray. Answers a number and a detail."""
    try:
        entries = accepted(sheet, results)
    except Refused as refusal:
        return refusal.number, refusal.detail
    fill(entries, results, range(len(entries)))
    return 0, len(entries)


def dependents(entries, setting):
    """The entries from which a chain of references leads to the setting."""
    reached = {setting}
    for number, entry in enumerate(entries):
        if sheets.references(entry.tree) & reached:
            reached.add(number)
    return sorted(reached - {setting})


def check_change(sheet, results, entry, ty, bits):
    """The entries of the sheet if the change passes every check."""
    entries = accepted(sheet, results)
    if entry >= len(entries) or not entries[entry].is_setting:
        raise Refused(NOT_A_SETTING)
    if ty > 6 or not scalars.proper(ty, bits):
        raise Refused(BAD_VALUE)
    if ty != entries[entry].tree.value.ty:
        raise Refused(SETTING_TYPE)
    return entries


def change(sheet, results, entry, ty, bits):
    """Gives a setting new content and works its dependents out anew.

    The detail of success is the number of dependents.
    """
    try:
        entries = check_change(sheet, results, entry, ty, bits)
    except Refused as refusal:
        return refusal.number, refusal.detail
    put_slot(results, entry, Outcome(0, 0, Value(ty, 1, 1, (scalars.kept(ty, bits),))))
    touched = dependents(entries, entry)
    fill(entries, results, touched)
    return 0, len(touched)
