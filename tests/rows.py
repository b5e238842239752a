#!/usr/bin/env python3
"""What the program `rows` must print: the answers of document 01's table, with requests 1 and 3 of document 02, and of our own rows.

    tests/rows.py > crates/rows/stdout

The answers are the document's, written down by hand; our own rows are those of crates/hall/specs/Table.antt. Each row is printed
with its plan room, eight nines of which the least plan fills the first n bytes.
"""

ROWS = [
    # document 01's rows with a star
    ("0 0", 8, "least 0 0 1", []),
    ("0 1 0", 8, "none 1", None),
    ("1 4 2 1 1 1 -1", 8, "none 2", None),
    ("2 0 0 1 1 1", 8, "least 0 1 2", [1]),
    ("2 3 3 1 2 2 1", 8, "least 3 1 3", [2]),
    ("2 1 10 1 2 1 2", 8, "least 1 1 3", [1]),
    ("2 1 10 1 2 1 2", 8, "spent 2", None),
    ("1 4 1 2 -1 1", 8, "least 0 0 1", []),
    ("4 5 2 4 3 3 2 1 2 2 -2 3 2 -1 4", 8, "least 9 3 10", [2, 3, 4]),
    ("5 1000000000 1000000000 1000000000 1000000000 1000000000 5 1 1 1 2 1 3 1 4 1 5", 8, "least 5000000000 5 6", [1, 2, 3, 4, 5]),
    ("4 1000000000 1000000000 1000000000 1000000000 3 2 1 4 2 2 4 2 3 4", 8, "least 1000000000 1 7", [4]),
    # document 01's other rows
    ("", 8, "refused 11 0", None),
    ("201", 8, "refused 12 0", None),
    ("1 1000000000 0", 8, "least 0 0 1", []),
    ("1 1000000001 0", 8, "refused 13 1", None),
    ("1 5 1 1", 8, "refused 11 4", None),
    ("1 5 1 1 2", 8, "refused 14 4", None),
    ("1 5 1 33", 8, "refused 19 3 1", None),
    ("1 5 0 7", 8, "refused 15 3", None),
    ("1 5 0", 0, "refused 16 1", None),
    ("0 0", 8, "spent 0", None),
    # ways astray
    ("3 1 1 0 2 2 1 2 1 3", 8, "least 1 2 5", [2, 3]),
    ("2 1 1 2 2 1 2 1 1", 8, "least 1 1 3", [1]),
    ("1 4 1 2 1 1", 8, "least 4 1 3", [1]),
    ("1 0 2 1 1 0", 8, "none 2", None),
    ("2 3 3 1 2 1 2", 8, "least 3 1 3", [2]),
    ("3 0 0 0 2 2 2 1 2 3 1", 8, "least 0 1 5", [1]),
    ("3 3 1 1 2 2 1 2 2 1 3", 8, "least 2 2 5", [2, 3]),
    ("4 5 2 4 3 3 2 1 2 2 -2 3 2 -1 4", 8, "least 9 3 10", [2, 3, 4]),
    ("4 5 2 4 3 3 2 1 2 2 -2 3 2 -1 4", 8, "spent 9", None),
    ("1 5 0 7", 8, "refused 15 3", None),
    ("1 5 0 7", 0, "refused 15 3", None),
    ("0 2000 1 1", 8, "refused 14 3", None),
    # which count was wrong
    ("-1", 8, "refused 12 0", None),
    ("0 2001", 8, "refused 18 1", None),
    ("1 5 -1", 8, "refused 18 2", None),
    ("1 5 1 -1", 8, "refused 19 3 1", None),
    ("1 5 4 0 2 1 -1 33", 8, "refused 19 7 3", None),
    ("0 2 0 40 7", 8, "refused 19 3 2", None),
    ("1 5 2 0 1 2", 8, "refused 14 5", None),
    ("1 5 2 0", 8, "refused 11 4", None),
    # a rule that names both positions
    ("1 4 1 2 -1 1", 8, "least 0 0 1", []),
    ("2 5 7 1 3 1 2 -1", 8, "least 0 0 1", []),
    ("2 5 7 2 2 1 -1 1 2", 8, "least 7 1 2", [2]),
    ("2 5 7 2 2 1 -1 1 2", 8, "spent 1", None),
    ("2 5 7 2 1 2 4 1 1 -1 -1", 8, "least 7 1 2", [2]),
    ("2 5 7 3 2 1 -1 2 -2 2 3 2 1 -2", 8, "least 0 0 1", []),
    ("3 1 1 1 3 1 3 3 1 -3 -1 1 -2", 8, "least 2 2 3", [-2, 3]),
    ("1 4 2 3 1 -1 1 0", 8, "none 1", None),
    ("2 5 7 3 2 -2 2 1 1 1 -1", 8, "none 2", None),
    ("1 4 2 2 1 1 2 -1 -1", 8, "none 3", None),
    ("2 1 10 1 2 1 -2", 8, "least 1 1 3", [1]),
    ("1 4 1 2 -1 -1", 8, "least 4 1 3", [-1]),
]

for sheet, size, answer, hold in ROWS:
    room = [9] * size
    if hold is not None:
        for v in range(1, int(sheet.split()[0]) + 1):
            room[v - 1] = 1 if v in hold else 2 if -v in hold else 0
    print(answer + ", room" + "".join(" %d" % b for b in room))
