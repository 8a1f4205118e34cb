"""01's example: a sheet of 59 bytes and its two listings, as printed there.

The refused shift's line is that of 02 §5: it carries the left operand.
"""

SHEET = bytes.fromhex(
    "D5 17 03 0C 00 01 04 01 01 05 00 00 00 00 00 00 00"
    "D5 17 01 10 00 04 11 01 04 01 01 01 00 00 00 00 00 00 00 02 00"
    "D5 17 01 10 00 04 04 02 01 01 04 01 01 01 00 00 00 00 00 00 00"
)

BEFORE = """\
sheet 3
0 0 4 1 1 0 0000000000000005
1 0 4 1 1 0 0000000000000020
2 0 4 1 1 0 000000000000001f
"""

AFTER = """\
sheet 3
0 0 4 1 1 0 0000000000000020
1 9 4 1 1 32 0000000000000001
2 11 0 0 0 1
"""
