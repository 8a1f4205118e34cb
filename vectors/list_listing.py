"""What the programs `listing` and `listing_cases` are run on, and what they must print.

Usage: list_listing.py [FOLDER]

Writes FOLDER/listing and FOLDER/listing_cases (FOLDER is data/crates here if it
is not given) as they stand in crates/: args, stdin, stdout and data/. The same
bytes at each run.
"""

import os
import sys

import example
import listing
import writer
from shapes import Value

HERE = os.path.dirname(os.path.abspath(__file__))


def shapes_sheet():
    """A matrix, a vector with a NaN that is not the kept one, and scalars."""
    return b"".join([
        writer.record(0, writer.literal(Value(5, 4, 4, tuple(0x3F800000 + k for k in range(16))))),
        writer.record(0, writer.literal(Value(6, 1, 3, (0x7C01, 0x8000, 0x3C00)))),
        writer.record(0, writer.scalar(1, (1 << 64) - 1)),
        writer.setting(0, 1),
        writer.record(1, writer.unary(1, writer.reference(3))),
    ])


def shifts_sheet():
    """Shifts by a setting that refuse with an operand of each integer type, one of a vector, one that may refuse otherwise."""
    count = writer.reference(0)
    powers, ones = writer.literal(Value(4, 1, 3, (1, 2, 4))), writer.literal(Value(4, 1, 3, (1, 1, 1)))
    bodies = [
        writer.binary(17, writer.scalar(1, (1 << 64) - 3), count),
        writer.binary(18, writer.scalar(3, (1 << 32) - 3), count),
        writer.binary(17, powers, writer.binary(5, ones, count)),
        writer.binary(6, writer.binary(17, writer.scalar(4, 7), count), writer.binary(4, count, writer.scalar(4, 8))),
        writer.binary(3, writer.reference(1), writer.scalar(1, 1)),
    ]
    return writer.setting(4, 5) + b"".join(writer.record(1, body) for body in bodies)


def wide_sheet():
    """128 entries: a setting, a matrix and references to it, so that a listing is long."""
    matrix = writer.literal(Value(5, 4, 4, (0x3F800000,) * 16))
    return writer.setting(4, 5) + writer.record(0, matrix) + writer.record(0, writer.reference(1)) * 126


DATA = {
    "example.sheet": example.SHEET,
    "shapes.sheet": shapes_sheet(),
    "shifts.sheet": shifts_sheet(),
    "wide.sheet": wide_sheet(),
    # the second body's length is 0: its expression has no byte
    "broken.sheet": example.SHEET[:20] + b"\0" + example.SHEET[21:],
    "empty": b"",
    "full": b"\xd5" * 16384,
    "long": b"\xd5" * 16385,
}

ARGS = ["example.sheet", "0", "4", "20"]

CASES = [
    # listings, and changes that are taken
    "example.sheet",
    "example.sheet 0 4 20",
    "-v example.sheet 0 4 20 0 4 5",
    # changes that are refused
    "example.sheet 1 4 20",
    "example.sheet 3 4 20",
    "example.sheet 18446744073709551615 4 20",
    "example.sheet 0 4 100000000",
    "example.sheet 0 0 2",
    "example.sheet 0 3 20",
    "example.sheet 0 1 20",
    "-v example.sheet 0 4 20 2 4 1 0 4 FF",
    # numbers and shapes
    "example.sheet 0 4 00000000000000001f",
    "shapes.sheet 3 0 0",
    "-v shapes.sheet 3 0 0",
    # refused shifts and the operands that they carry
    "shifts.sheet 0 4 20 0 4 1f 0 4 1e 0 4 8 0 4 3e 0 4 0",
    "-v shifts.sheet 0 4 ffffffff",
    # sheets without entries or refused
    "empty",
    "empty 0 4 20",
    "broken.sheet",
    "broken.sheet 0 4 20",
    "full",
    "long",
    "long 0 4 20",
    "-v long 0 4 20 1 4 20",
    # words that are wrong
    "",
    "-v",
    "example.sheet 0",
    "example.sheet 0 4",
    "-v example.sheet 0 4 20 0",
    "example.sheet x 4 20",
    "example.sheet 0 7 20",
    "example.sheet 0 263 20",
    "example.sheet 0 4 2g",
    "example.sheet 0 4 -1",
    "example.sheet 0 4 10000000000000000",
    "example.sheet 18446744073709551616 4 20",
    "example.sheet 0 4 20 0  20",
    "missing x 4 20",
    # files that cannot be read, and a text that is too long
    "missing",
    "missing 0 4 20",
    ".",
    "wide.sheet" + " 0 4 1" * 120,
]


def words_of(case):
    """The words of a line, with one space between two; an empty line has none."""
    return case.split(" ") if case else []


def printed(words):
    """What the program prints, run where the files above are."""
    return listing.text_of(words, DATA.get)


def made():
    """Each file's path and bytes."""
    stdout = "".join("$ listing %s\n" % case + printed(words_of(case)) for case in CASES)
    files = {
        "listing/args": "".join(word + "\n" for word in ARGS).encode(),
        "listing/stdout": printed(ARGS).encode(),
        "listing/data/example.sheet": DATA["example.sheet"],
        "listing_cases/stdin": "".join(case + "\n" for case in CASES).encode(),
        "listing_cases/stdout": stdout.encode(),
    }
    files.update(("listing_cases/data/" + name, data) for name, data in DATA.items())
    return files


def main(folder):
    for path, data in made().items():
        path = os.path.join(folder, path)
        os.makedirs(os.path.dirname(path), exist_ok=True)
        with open(path, "wb") as file:
            file.write(data)
    print("listing_cases: %d commands" % len(CASES))


if __name__ == "__main__":
    main(sys.argv[1] if len(sys.argv) > 1 else os.path.join(HERE, "data", "crates"))
