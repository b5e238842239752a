#!/usr/bin/env python3
"""Random DIMACS CNF files, from a seed, in the ways in which such files are written.

    tests/solvers/files.py FOLDER SEED FILES

writes FOLDER/0001.cnf and so on. The clauses are such that the walk of document 01 comes to its end within 1,000,000 trial plans:
where the widest clause has k entries, and d is the smaller of the numbers of variables and clauses, 1 + k + .. + k^d is less. More
than half of the files have a plan. No clause has an entry twice. In almost half of the files some clauses have both entries of a
variable: a solver takes them as true, and every plan meets them (document 02, request 3). Such a file is called FOLDER/0001-both.cnf.

The ways: comments of one or more lines in front, or none; blank lines among them and among the clauses; a clause on a line, over
several lines, or several on a line; blanks or tabs between numbers, and at either end of a line; two blanks between the counts and
one behind them; line ends of byte 10 or of 13 and 10; a line end at the end of the file, or none.

Three ways are left out so that any two solvers are enough. Between `p` and `cnf` stands one blank: minisat and clasp refuse a tab
there, minisat a second blank too. No file begins with byte 13, which clasp refuses. And a line end follows the header: all but
minisat ask for it, in a file without clauses too.
"""

import random
import sys

BUDGET = 1_000_000


def walk_bound(variables, clauses, widest):
    """The most trial plans that the walk opens."""
    return sum(widest**i for i in range(min(variables, clauses) + 1))


# ---- clauses


def clause(draw, variables, width, both):
    """So many entries, or as many as there are; of each variable one, but both of one variable in about so many clauses."""
    if width > 1 and variables > 0 and draw.random() < both:
        v = draw.randint(1, variables)
        others = [e for u in range(1, variables + 1) if u != v for e in (u, -u)]
        entries = [v, -v] + draw.sample(others, min(width - 2, len(others)))
        draw.shuffle(entries)
        return entries
    chosen = draw.sample(range(1, variables + 1), min(width, variables))
    return [v if draw.random() < 0.5 else -v for v in chosen]


def has_both(clauses):
    """Whether a clause has both entries of a variable."""
    return any(-e in c for c in clauses for e in c)


def formula(draw):
    """The number of variables, and clauses, of one of five kinds."""
    both = draw.choice([0, 0.05, 0.1, 0.3])
    kind = draw.choice(["three", "three", "two", "mixed", "mixed", "long", "tiny"])
    if kind == "three":
        variables = draw.randint(4, 10)
        widths = [3] * round(variables * draw.uniform(3, 8))
    elif kind == "two":
        variables = draw.randint(3, 14)
        widths = [2] * round(variables * draw.uniform(0.7, 2.5))
    elif kind == "mixed":
        variables = draw.randint(3, 8)
        widths = [draw.randint(1, 4) for _ in range(round(variables * draw.uniform(1, 4)))]
    elif kind == "long":
        variables = draw.randint(20, 200)
        widths = [draw.randint(1, 4) for _ in range(draw.randint(1, 8))]
    else:
        variables = draw.randint(0, 3)
        widths = [draw.choice([0, 1, 2, 2, 3]) for _ in range(draw.randint(0, 6))]
    clauses = [clause(draw, variables, width, both) for width in widths]
    assert walk_bound(variables, len(clauses), max(map(len, clauses), default=0)) < BUDGET
    return variables, clauses


# ---- ways to write them

COMMENTS = ["c", "c interlocks", "c\tmade by hand", "c p cnf 3 3", "c 1 -2 0", "c  two  blanks", "c % 0"]


def front(draw, variables, clauses, end):
    """The lines to the header."""
    lines = [draw.choice(COMMENTS) for _ in range(draw.choice([0, 1, 1, 2, 5]))]
    if draw.random() < 0.3 and (lines or end == "\n"):
        lines.insert(draw.randint(0 if end == "\n" else 1, len(lines)), "")
    gap, behind = ("  ", " ") if draw.random() < 0.2 else (" ", "")
    return lines + [f"p cnf {variables}{gap}{len(clauses)}{behind}"]


def broken(draw, numbers, most):
    """The numbers in lines of 1 to so many."""
    lines = []
    while numbers:
        here = draw.randint(1, most)
        lines.append(numbers[:here])
        numbers = numbers[here:]
    return lines


def body(draw, clauses):
    """The lines behind the header, each a list of numbers."""
    way = draw.choice(["line", "line", "several lines", "any", "one line"])
    closed = [c + [0] for c in clauses]
    numbers = [number for c in closed for number in c]
    if way == "line":
        return closed
    if way == "several lines":
        return [line for c in closed for line in broken(draw, c, 2)]
    if way == "any":
        return broken(draw, numbers, 12)
    return [numbers]


def typed(draw, numbers, tabs):
    """One line; its ends may have blanks."""
    blank = "\t" if tabs else " "
    line = blank.join(map(str, numbers))
    if draw.random() < 0.1:
        line = blank + line
    if draw.random() < 0.1:
        line = line + blank
    return line


def file(draw, variables, clauses):
    """The bytes of a file."""
    tabs, blank_lines = draw.random() < 0.25, draw.random() < 0.3
    end = "\r\n" if draw.random() < 0.3 else "\n"
    lines = front(draw, variables, clauses, end)
    for numbers in body(draw, clauses):
        lines.append(typed(draw, numbers, tabs))
        if blank_lines and draw.random() < 0.2:
            lines.append("")
    last = "" if clauses and draw.random() < 0.2 else end
    return (end.join(lines) + last).encode()


def main():
    folder, seed, files = sys.argv[1], int(sys.argv[2]), int(sys.argv[3])
    draw = random.Random(seed)
    for i in range(1, files + 1):
        variables, clauses = formula(draw)
        name = f"{i:04}-both" if has_both(clauses) else f"{i:04}"
        with open(f"{folder}/{name}.cnf", "wb") as to:
            to.write(file(draw, variables, clauses))


main()
