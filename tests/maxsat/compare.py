#!/usr/bin/env python3
"""Compares the optimum that MaxSAT solvers find in our WCNF texts with the cost of our least plan.

    tests/maxsat/compare.py FOLDER MAXSAT LEASTPLAN SOLVER..

takes every sheet FOLDER/*.sheet. MAXSAT prints its text of the edition from 2022 and, with the word old, of the edition before;
LEASTPLAN its least plan. The texts that solvers got stay in FOLDER.

Of a sheet: both texts have the same clauses; our plan, as a setting of their variables, meets the hard ones and breaks its cost; and
each solver finds that cost, with a setting of its own that breaks as much, or says that the hard clauses cannot all be met where we
say that there is no plan. A solver gets the text of each edition that it reads, which is found out by trying; one that reads only the
edition before 2022 also gets the other text turned into that one.

A solver that gives another answer is wrong, and told with the smallest sheet that shows it, where two other solvers agree with us;
else the sheet has failed. A solver that gives no answer is skipped, and told too.
"""

import re
import subprocess
import sys
from concurrent.futures import ThreadPoolExecutor
from pathlib import Path

import solvers
import wcnf

LEAST_SHEETS = 300

# To find out what a solver reads: two variables of which one has to be true, at the weights 3 and 2.
PROBES = {"new": "h 1 2 0\n3 -1 0\n2 -2 0\n", "old": "p wcnf 2 3 6\n6 1 2 0\n3 -1 0\n2 -2 0\n"}

# ---- our side


def printed(words, typed):
    """What one of our programs prints for a typed sheet."""
    return subprocess.run(words, input=typed.encode(), capture_output=True, check=False).stdout.decode("ascii", "replace")


class Sheet:
    """A sheet, its texts as `feeds`, and the cost of its least plan, None where there is none. ValueError where ours do not fit."""

    def __init__(self, file, maxsat, leastplan):
        typed = file.read_text("ascii")
        self.file, self.name = file, file.stem
        self.words = [int(word) for word in typed.split()]
        new, old = printed([maxsat], typed), printed([maxsat, "old"], typed)
        self.formula = wcnf.formula(new)
        self.feeds = {"new": new, "old": old, "turned": wcnf.turned(new)}
        if self.formula != wcnf.formula(old):
            raise ValueError("the two editions have other clauses")
        self.cost = self.cost_of(printed([leastplan], typed))

    def cost_of(self, answer):
        """The cost that leastplan prints; the plan beside it, as a setting, has to break it."""
        if re.fullmatch(r"none [0-9]+\n", answer):
            return None
        least = re.fullmatch(r"least ([0-9]+) [0-9]+ [0-9]+\nhold((?: -?[0-9]+)*)\n", answer)
        if not least:
            raise ValueError(f"leastplan prints {answer[:60]!r}")
        true = {2 * v - 1 if v > 0 else -2 * v for v in map(int, least[2].split())}
        if self.formula.broken(true) != int(least[1]):
            raise ValueError(f"our plan does not break its cost of {least[1]}")
        return int(least[1])

    def costs(self):
        """The costs of the devices."""
        return self.words[1 : self.words[0] + 1]

    def rules(self):
        """The rules, each as its entries."""
        found, at = [], self.words[0] + 2
        while at < len(self.words):
            found.append(self.words[at + 1 : at + 1 + self.words[at]])
            at += 1 + self.words[at]
        return found

    def shown(self):
        """The sheet, where it is short, and its name."""
        whole = " ".join(map(str, self.words))
        return f"{whole} ({self.name})" if len(whole) < 200 else f"{self.name}, {len(self.words)} words"


# ---- the solvers' side


def in_words(cost):
    """The cost of a least plan."""
    return "none" if cost is None else str(cost)


def judged(solver, sheet, feed):
    """What a solver makes of one text: 'agrees', 'wrong' or 'skipped', and its words."""
    file = sheet.file.with_suffix(f".{feed}.wcnf")
    file.write_text(sheet.feeds[feed], "ascii")
    try:
        optimum, true = solvers.ask(solver, str(file), bool(sheet.formula.soft))
    except solvers.NoAnswer as why:
        return "skipped", str(why)
    if optimum is not None and sheet.formula.broken(true) != optimum:
        return "wrong", f"says {optimum}, and prints a setting that does not break as much"
    if optimum != sheet.cost:
        return "wrong", f"says {in_words(optimum)} where it is {in_words(sheet.cost)}"
    return "agrees", ""


def reads(solver, folder, edition):
    """Whether a solver reads an edition."""
    file = Path(folder) / f"probe.{edition}.wcnf"
    file.write_text(PROBES[edition], "ascii")
    try:
        return solvers.ask(solver, str(file), True) == (2, {2})
    except solvers.NoAnswer:
        return False


def feeds_of(solver, folder):
    """The texts that a solver is to get."""
    editions = [edition for edition in PROBES if reads(solver, folder, edition)]
    return editions + ["turned"] if editions == ["old"] else editions


def verdict(solver, sheet, feeds):
    """What a solver makes of a sheet: wrong where it is of any of its texts, else skipped where it is of any, else agrees."""
    found = [judged(solver, sheet, feed) for feed in feeds]
    return next((f for kind in ("wrong", "skipped") for f in found if f[0] == kind), ("agrees", ""))


# ---- all of it


class Report:
    """What is counted and told."""

    def __init__(self, versions):
        self.versions = versions
        self.passed = self.failed = 0
        self.sheets = []  # those that passed
        self.compared = dict.fromkeys(versions, 0)
        self.seen = {}  # by solver, 'wrong' or 'skipped', and its words without their numbers: the sheets, each with the words
        self.known = []  # sheets kept for what one solver was seen to do, with what it does

    def ok(self):
        """One more passed."""
        self.passed += 1

    def bad(self, why):
        """One more failed."""
        self.failed += 1
        print(f"FAILED: {why}")

    def judge(self, sheet, verdicts):
        """A sheet, with the verdict of each solver."""
        agree = sum(kind == "agrees" for kind, _ in verdicts.values())
        differ = [f"{solver} {words}" for solver, (kind, words) in verdicts.items() if kind == "wrong"]
        for solver, (kind, words) in verdicts.items():
            self.compared[solver] += kind != "skipped"
            if kind != "agrees":
                self.seen.setdefault((solver, kind, re.sub("[0-9]+", "N", words)), []).append((sheet, words))
            if sheet.name.endswith(f"-{solver}"):
                self.known.append((sheet, solver, words))
        if agree == 0 or (differ and agree < 2):
            self.bad(f"{sheet.name}: we say {in_words(sheet.cost)}, and {agree} solvers do; {'; '.join(differ)}")
        else:
            self.ok()
            self.sheets.append(sheet)

    def demand(self, count, least, what):
        """So many at least."""
        print(f"{count:6}  {what}")
        if count >= least:
            self.ok()
        else:
            self.bad(f"fewer than {least}")

    def demand_sheets(self):
        """What the sheets that passed have to have."""

        def those(has):
            return sum(1 for sheet in self.sheets if has(sheet))

        self.demand(those(lambda s: s.name.isdigit()), LEAST_SHEETS, "random sheets compared")
        print(f"{those(lambda s: not s.name.isdigit()):6}  kept ones")
        self.demand(those(lambda s: s.cost is not None), 60, "with a plan")
        self.demand(those(lambda s: s.cost is None), 60, "with none")
        self.demand(those(lambda s: 0 in s.costs()), 60, "with a cost of 0")
        self.demand(those(lambda s: s.formula.top() >= 2**32), 60, "with a top weight beyond 32 bits")
        self.demand(those(lambda s: [] in s.rules()), 15, "with an empty rule")
        self.demand(those(lambda s: any(-e in r for r in s.rules() for e in r)), 60, "with both positions of a device in a rule")
        self.demand(those(lambda s: any(len(set(r)) < len(r) for r in s.rules())), 30, "with a repeated entry")
        for solver, count in self.compared.items():
            self.demand(count, LEAST_SHEETS, f"compared by {solver}")

    def tell(self):
        """What solvers got wrong or did not read, each kind with the smallest sheet that shows it; then the known ones."""
        for (solver, kind, _), found in sorted(self.seen.items()):
            sheet, words = min(found, key=lambda f: (len(f[0].words), f[0].words))
            print(f"{kind}: {solver} {self.versions[solver]}, {len(found)} sheets; the smallest: {sheet.shown()}: {words}")
        for sheet, solver, words in self.known:
            says = words or "answers right, unlike the version seen before"
            print(f"known: {solver} {self.versions[solver]} on {sheet.shown()}: {says}")


def compare(report, files, programs, feeds):
    """Every sheet, several at a time."""

    def one(file):
        try:
            sheet = Sheet(file, *programs)
        except (OSError, ValueError) as why:
            return file, str(why)
        return sheet, {solver: verdict(solver, sheet, feeds[solver]) for solver in feeds}

    with ThreadPoolExecutor() as pool:
        for sheet, verdicts in pool.map(one, files):
            if isinstance(verdicts, str):
                report.bad(f"{sheet.stem}: {verdicts}")
            else:
                report.judge(sheet, verdicts)


def main():
    folder, maxsat, leastplan, *names = sys.argv[1:]
    report = Report({name: solvers.version(name) for name in names})
    feeds = {name: feeds_of(name, folder) for name in names}
    for name in names:
        print(f"{name} {report.versions[name]} gets: {', '.join(feeds[name]) or 'nothing, since it reads neither edition'}")
    compare(report, sorted(Path(folder).glob("*.sheet")), (maxsat, leastplan), {name: feeds[name] for name in names if feeds[name]})
    report.tell()
    report.demand_sheets()
    print(f"{report.passed} passed, {report.failed} failed")
    sys.exit(report.failed != 0)


main()
