"""WCNF text of both editions, read as the format says, and of the edition from 2022 turned into the one before."""

import re

CLAUSE = re.compile(r"(?:h|[1-9][0-9]*)(?: -?[1-9][0-9]*)* 0")
HEADER = re.compile(r"p wcnf ([0-9]+) ([0-9]+) ([1-9][0-9]*)")


class Formula:
    """Hard clauses, and soft clauses each with its weight."""

    def __init__(self, hard, soft):
        self.hard, self.soft = hard, soft

    def __eq__(self, other):
        return (self.hard, self.soft) == (other.hard, other.soft)

    def variables(self):
        """The highest variable."""
        return max((abs(e) for c in self.hard + [c for _, c in self.soft] for e in c), default=0)

    def top(self):
        """The sum of the soft weights plus 1."""
        return sum(weight for weight, _ in self.soft) + 1

    def broken(self, true):
        """The soft weights that a setting breaks, by its true variables; None where it breaks a hard clause."""

        def met(clause):
            return any((abs(e) in true) == (e > 0) for e in clause)

        if not all(met(c) for c in self.hard):
            return None
        return sum(weight for weight, c in self.soft if not met(c))


def formula(text):
    """The clauses of a text; ValueError where it is no WCNF text of either edition, written as ours are."""
    lines = text.split("\n")
    if lines.pop() != "":
        raise ValueError("the last line is not closed")
    header = HEADER.fullmatch(lines[0]) if lines and lines[0].startswith("p") else None
    if header:
        lines.pop(0)
    hard, soft = [], []
    for line in lines:
        if not CLAUSE.fullmatch(line):
            raise ValueError(f"no clause: {line[:80]}")
        start, *entries, _ = line.split(" ")
        if start == (header[3] if header else "h"):
            hard.append([int(e) for e in entries])
        elif start != "h":
            soft.append((int(start), [int(e) for e in entries]))
        else:
            raise ValueError("h in the edition before 2022")
    found = Formula(hard, soft)
    if header and [int(n) for n in header.groups()] != [found.variables(), len(lines), found.top()]:
        raise ValueError(f"the header does not fit the clauses: {header[0]}")
    return found


def turned(text):
    """The text of the edition from 2022 as one of the edition before."""
    read = formula(text)
    lines = re.sub("^h", str(read.top()), text, flags=re.MULTILINE)
    return f"p wcnf {read.variables()} {len(read.hard) + len(read.soft)} {read.top()}\n{lines}"
