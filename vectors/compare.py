"""Reads lists of fixed answers and says which records differ from the model.

Usage: compare.py [--all-nans-equal] FILE...

The first letters of a file's name say which list it is: ops, sheets, slots,
changes or rounding. With --all-nans-equal any two NaN patterns of one type
count as equal in an ops list, as runs against another implementation need.
The exit status is 1 if a record differs.
"""

import os
import sys

import fold
import formats
import list_rounding
import scalars
import shapes
import slots


def in_use(outcome, loose):
    """An outcome as it is compared: status, detail and the value in use, or the operand carried."""
    status, detail, value = outcome
    value = value or shapes.NOTHING
    comps = value.comps[: value.count]
    if loose and value.ty in scalars.FORMATS:
        comps = tuple(scalars.kept(value.ty, bits) for bits in comps)
    return status, detail, value.ty, value.cols, value.rows, comps


def show(value):
    """An operand in a few words."""
    if value is None:
        return ""
    comps = " ".join("%x" % bits for bits in value.comps[: value.count])
    return "[type %d, %d by %d: %s]" % (value.ty, value.cols, value.rows, comps)


def told(outcome):
    """An outcome in a few words."""
    status, detail, value = outcome
    words = ["refused %d, detail %d" % (status, detail)] if status else []
    return " ".join(words + ([show(value)] if value and any(value[:3]) else []))


def ops(data, loose):
    """For each record None, or in what it differs."""
    for kind, op, stage, left, right, outcome in formats.get_ops(data):
        model = shapes.model_ops(kind, op, stage, left, right)
        if in_use(outcome, loose) == in_use(model, loose):
            yield None
        else:
            words = ("unary" if kind == 1 else "binary", op, stage, show(left), show(right), told(outcome), told(model))
            yield "%s op %d stage %d %s %s\n    file:  %s\n    model: %s" % words


def sheets(data, loose):
    """For each record None, or in what it differs."""
    for sheet, length, fill, number, detail, results in formats.get_sheets(data):
        buffer = bytearray([fill]) * length
        model = fold.evaluate(sheet, buffer)
        same = model == (number, detail) and buffer == results
        yield None if same else "file %d, %d; model %d, %d" % (number, detail, *model)


def changes(data, loose):
    """For each record None, or in which change it differs."""
    for sheet, before, steps in formats.get_changes(data):
        found, buffer = None, bytearray(before)
        for turn, (entry, ty, bits, number, detail, after) in enumerate(steps):
            model = fold.change(sheet, buffer, entry, ty, bits)
            if found is None and (model != (number, detail) or buffer != after):
                found = "change %d: file %d, %d; model %d, %d" % (turn, number, detail, *model)
        yield found


def slot_cases(data, loose):
    """For each record None, or what the file says."""
    for slot, good in formats.get_slot_cases(data):
        yield None if good == slots.well_formed(slot) else "file says %d" % good


def rounding(data, loose):
    """For each record None, or in what it differs."""
    for what, source, expected in formats.get_rounding(data):
        model = list_rounding.answer(what, source)
        yield None if model == expected else "what %d, %x: file %x, model %x" % (what, source, expected, model)


JUDGES = {"ops": ops, "sheets": sheets, "slots": slot_cases, "changes": changes, "rounding": rounding}


def compare(path, loose):
    """Prints the differences of one file and how many there are."""
    name = os.path.basename(path)
    judge = next(judge for start, judge in JUDGES.items() if name.startswith(start))
    with open(path, "rb") as file:
        found = list(judge(file.read(), loose))
    for number, words in enumerate(found):
        if words is not None:
            print("record %d: %s" % (number, words))
    count = sum(words is not None for words in found)
    print("%s: %d records, %d differ" % (name, len(found), count))
    return count


def main(words):
    loose = "--all-nans-equal" in words
    paths = [word for word in words if not word.startswith("--")]
    if not paths:
        sys.exit(__doc__)
    return 1 if sum([compare(path, loose) for path in paths]) else 0


if __name__ == "__main__":
    sys.exit(main(sys.argv[1:]))
