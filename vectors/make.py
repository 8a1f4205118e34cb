"""Writes the lists of fixed answers into data/ and prints their counts.

The lists are the same at each run. `make.py NAME...` writes some of them.
"""

import os
import random
import sys

import example
import fold
import formats
import list_changes
import list_ops
import list_rounding
import list_sheets
import list_slots
import shapes
import slots as slot_bytes

FOLDER = os.path.join(os.path.dirname(os.path.abspath(__file__)), "data")
SEED = 20240117


def ops_records(cases):
    """Records of an `ops` list, each case once."""
    for kind, op, stage, left, right in dict.fromkeys(cases):
        outcome = shapes.model_ops(kind, op, stage, left, right)
        yield formats.put_ops(kind, op, stage, left, right, outcome)


def rounding(rng):
    return (formats.put_rounding(*record) for record in list_rounding.rounding(rng))


def rounding_back(rng):
    return (formats.put_rounding(*record) for record in list_rounding.rounding_back())


def ops_scalar(rng):
    return ops_records(list_ops.ops_scalar(rng))


def ops_shape(rng):
    return ops_records(list_ops.ops_shape(rng))


def sheets(rng):
    for data, length, fill in list_sheets.cases(rng):
        results = bytearray([fill]) * length
        number, detail = fold.evaluate(data, results)
        yield formats.put_sheet(data, length, fill, number, detail, results)


def slots(rng):
    for slot in list_slots.cases(rng):
        yield formats.put_slot_case(slot, slot_bytes.well_formed(slot))


def change_step(data, results, step):
    """One change, done to the results, as it is written."""
    before = bytes(results)
    number, detail = fold.change(data, results, *step)
    after = None if bytes(results) == before else results
    return formats.put_change(*step, number, detail, after)


def changes(rng):
    for data, results, steps in list_changes.cases(rng):
        before = bytes(results)
        yield formats.put_changes(data, before, [change_step(data, results, step) for step in steps])


MAKERS = (rounding, rounding_back, ops_scalar, ops_shape, sheets, slots, changes)
LISTS = {maker.__name__: maker for maker in MAKERS}
TEXTS = {"example.before": example.BEFORE, "example.after": example.AFTER}


def write(name):
    """Writes one list and prints its name, records and bytes."""
    records = list(LISTS[name](random.Random("%d %s" % (SEED, name))))
    with open(os.path.join(FOLDER, name), "wb") as out:
        out.write(b"".join(records))
    print("%-14s %7d records %9d bytes" % (name, len(records), sum(map(len, records))))


def write_example():
    """Writes 01's example and its two listings."""
    with open(os.path.join(FOLDER, "example.sheet"), "wb") as out:
        out.write(example.SHEET)
    for name, text in TEXTS.items():
        with open(os.path.join(FOLDER, name), "w", newline="") as out:
            out.write(text)


def main(names):
    os.makedirs(FOLDER, exist_ok=True)
    write_example()
    for name in names or LISTS:
        write(name)


if __name__ == "__main__":
    main(sys.argv[1:])
