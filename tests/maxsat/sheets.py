#!/usr/bin/env python3
"""Hall sheets typed as text, for MaxSAT solvers: those kept below, and random ones from a seed.

    tests/maxsat/sheets.py FOLDER SEED SHEETS

writes FOLDER/known-01-SOLVER.sheet and so on, FOLDER/edge-01.sheet and so on, and SHEETS random ones, FOLDER/0001.sheet and so on.
Costs lie between 0 and 1,000,000,000: all of them 0 or all the highest, small ones, or any. Some sheets have no plan, some have empty
rules, rules that name both positions of a device, and rules in which an entry stands twice. The walk of document 01 comes to its end
within 1,000,000 trial plans: where the widest rule has k entries, and d is the smaller of the numbers of devices and rules,
1 + k + .. + k^d is less.
"""

import random
import sys

BUDGET = 1_000_000
HIGHEST = 1_000_000_000

# What one solver was seen to get wrong, on the smallest sheets that show it: the solver, the costs and the rules.
KNOWN = [
    # z3 4.8.12 takes the top weight in 32 bits, here as 1, so that every soft clause is hard: it says that the first has no plan, and
    # no weight for the second. The third it takes as 764,989,101, so that device 1 cannot be held and the two others are. The fourth
    # is the sheet with the highest top weight, 400,000,000,001, which it takes as 568,041,473.
    ("z3", [HIGHEST, HIGHEST, 147_483_648], [[1]]),
    ("z3", [HIGHEST, HIGHEST, 147_483_648], []),
    ("z3", [HIGHEST, 764_989_099, 764_989_099], [[1, 2], [1, 3]]),
    ("z3", [HIGHEST] * 200, [[1]]),
    # sat4j 2.3.5 does not count an empty hard clause, and says UNKNOWN for want of one clause
    ("sat4j", [], [[]]),
]

# Sheets that stand at an edge: the costs and the rules.
EDGES = [
    # a top weight that just fits 32 bits
    ([HIGHEST, HIGHEST, 147_483_647], [[1]]),
    # nothing to read, no clause to break, no rule, an empty one
    ([], []),
    ([0], []),
    ([0], [[1]]),
    ([4], []),
    ([5], [[]]),
    ([HIGHEST] * 200, []),
    # document 01's
    ([4], [[1], [-1]]),
    ([0, 0], [[1]]),
    ([3, 3], [[2, 1]]),
    ([4], [[-1, 1]]),
    ([5, 2, 4, 3], [[1, 2], [-2, 3], [-1, 4]]),
    ([HIGHEST] * 5, [[1], [2], [3], [4], [5]]),
    ([HIGHEST] * 4, [[1, 4], [2, 4], [3, 4]]),
]


def walk_bound(devices, rules):
    """The most trial plans that the walk opens."""
    widest = max(map(len, rules), default=0)
    return sum(widest**i for i in range(min(devices, len(rules)) + 1))


def rule(draw, devices, width, both, twice):
    """So many entries, or as many as there are devices; of each device one, but both or one twice in about so many rules."""
    chosen = draw.sample(range(1, devices + 1), min(width, devices))
    entries = [v if draw.random() < 0.5 else -v for v in chosen]
    if len(entries) > 1 and draw.random() < both:
        entries[draw.randrange(1, len(entries))] = -entries[0]
    elif len(entries) > 1 and draw.random() < twice:
        entries[draw.randrange(1, len(entries))] = entries[0]
    draw.shuffle(entries)
    return entries


def widths(draw):
    """The number of devices, and the widths of the rules, of one of five kinds."""
    kind = draw.choice(["three", "three", "two", "mixed", "mixed", "long", "long", "tiny"])
    if kind == "three":
        devices = draw.randint(4, 10)
        return devices, [3] * round(devices * draw.uniform(2, 7))
    if kind == "two":
        devices = draw.randint(3, 14)
        return devices, [2] * round(devices * draw.uniform(0.7, 2.5))
    if kind == "mixed":
        devices = draw.randint(3, 8)
        return devices, [draw.randint(1, 4) for _ in range(round(devices * draw.uniform(1, 4)))]
    if kind == "long":
        devices = draw.choice([draw.randint(20, 200), 200])
        return devices, [draw.randint(1, 4) for _ in range(draw.randint(1, 8))]
    return draw.randint(0, 3), [draw.choice([0, 1, 2, 2, 3]) for _ in range(draw.randint(0, 6))]


def costs(draw, devices):
    """Costs of one of six kinds."""
    kind = draw.choice(["none", "one", "small", "highest", "some", "any", "any"])
    one = {
        "none": lambda: 0,
        "one": lambda: 1,
        "small": lambda: draw.randint(0, 3),
        "highest": lambda: HIGHEST,
        "some": lambda: draw.choice([0, draw.randint(1, HIGHEST)]),
        "any": lambda: draw.randint(0, HIGHEST),
    }[kind]
    return [one() for _ in range(devices)]


def sheet(draw):
    """The costs and the rules of a random sheet."""
    both, twice, empty = draw.choice([0, 0.05, 0.3]), draw.choice([0, 0, 0.1]), draw.choice([0] * 15 + [0.1])
    devices, wide = widths(draw)
    rules = [[] if draw.random() < empty else rule(draw, devices, width, both, twice) for width in wide]
    assert walk_bound(devices, rules) < BUDGET
    return costs(draw, devices), rules


def typed(by_device, rules):
    """The sheet of these costs and rules as text, a rule on each line."""
    lines = [[len(by_device)] + by_device, [len(rules)]] + [[len(r)] + r for r in rules]
    return "".join(" ".join(map(str, line)) + "\n" for line in lines)


def main():
    folder, seed, sheets = sys.argv[1], int(sys.argv[2]), int(sys.argv[3])
    draw = random.Random(seed)
    named = [(f"known-{i:02}-{solver}", typed(*known)) for i, (solver, *known) in enumerate(KNOWN, 1)]
    named += [(f"edge-{i:02}", typed(*edge)) for i, edge in enumerate(EDGES, 1)]
    named += [(f"{i:04}", typed(*sheet(draw))) for i in range(1, sheets + 1)]
    for name, text in named:
        with open(f"{folder}/{name}.sheet", "w", encoding="ascii") as to:
            to.write(text)


main()
