"""The text that the program `listing` prints, from its words and its file.

Usage: listing.py [-v] SHEET [ENTRY TYPE BITS]...

Prints the listing of the fresh results and the one after each change, with -v
also the entries that each change moved. ENTRY and TYPE are decimal, BITS hex. A
refused sheet or change is one line, and so is what is wrong with the words.
"""

import sys

import fold
import sheets
import slots
from scalars import Refused

USAGE = "usage: listing [-v] SHEET [ENTRY TYPE BITS]...\n"
WORDS = 65536  # bytes of all words, each ended by one byte
ROOM = 4194304  # bytes of a text
TYPES = 7
DIGITS = {10: "0123456789", 16: "0123456789abcdefABCDEF"}


def line(entry, slot):
    """Entry, status, type, columns, rows, detail, components in use if well formed."""
    status, detail, value = slots.unpack(slot)
    words = ["%d %d %d %d %d %d" % (entry, status, value.ty, value.cols, value.rows, detail)]
    used = value.comps[: value.count] if slots.well_formed(slot) else ()
    words += ["%016x" % bits for bits in used]
    return " ".join(words) + "\n"


def listing(results):
    """The text for results, a line for each slot."""
    count = len(results) // slots.SIZE
    lines = [line(entry, fold.slot_at(results, entry)) for entry in range(count)]
    return "sheet %d\n" % count + "".join(lines)


def refused(number):
    """The text for a refused sheet or change."""
    return "refused %d\n" % number


def moved(sheet, entry):
    """The line that says which entries depend on a setting."""
    named = sorted(fold.dependents(sheets.read(sheet), entry))
    return " ".join(["moved", str(len(named))] + [str(one) for one in named]) + "\n"


def listings(sheet, changes, verbose=False):
    """The text for the fresh results and then for each change."""
    try:
        results = bytearray(slots.SIZE * len(sheets.read(sheet)))
    except Refused:
        results = bytearray()
    number, _ = fold.evaluate(sheet, results)
    text = refused(number) if number else listing(results)
    for change in changes:
        number, _ = fold.change(sheet, results, *change)
        if verbose and not number:
            text += moved(sheet, change[0])
        text += refused(number) if number else listing(results)
    return text


def complaint(what, word=""):
    """The line that says what is wrong."""
    return "listing: %s%s\n" % (what, word)


def spelled(word, base):
    """The number that a word spells in 64 bits, or None."""
    if not word or any(digit not in DIGITS[base] for digit in word):
        return None
    number = int(word, base)
    return number if number < 1 << 64 else None


def numbers(words):
    """The change that three words ask for, with None for a bad word."""
    entry, ty, bits = spelled(words[0], 10), spelled(words[1], 10), spelled(words[2], 16)
    return entry, None if ty is None or ty >= TYPES else ty, bits


def asked(words):
    """The changes that words ask for, and the first bad word or None."""
    triples = [words[at:at + 3] for at in range(0, len(words), 3)]
    changes = [numbers(triple) for triple in triples]
    bad = [word for triple, change in zip(triples, changes) for word, number in zip(triple, change) if number is None]
    return changes, bad[0] if bad else None


def text_of(words, read):
    """All that the program prints: `read` gives a file's bytes, or None if it cannot be read."""
    if sum(len(word) + 1 for word in words) > WORDS:
        return complaint("the words are over %d bytes" % WORDS)
    verbose = words[:1] == ["-v"]
    name, rest = words[verbose:][:1], words[verbose:][1:]
    if not name:
        return USAGE
    if len(rest) % 3:
        return complaint("too few words after ", words[-1 - len(rest) % 3])
    changes, bad = asked(rest)
    if bad is not None:
        return complaint("bad word ", bad)
    sheet = read(name[0])
    if sheet is None:
        return complaint("cannot read ", name[0])
    text = listings(sheet, changes, verbose)
    return text if len(text) <= ROOM else complaint("too much for one command")


def read_file(name):
    """A file's bytes, or None if it cannot be read."""
    try:
        with open(name, "rb") as file:
            return file.read()
    except OSError:
        return None


if __name__ == "__main__":
    sys.stdout.write(text_of(sys.argv[1:], read_file))
