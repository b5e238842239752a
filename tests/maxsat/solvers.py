"""How each MaxSAT solver is called, and how its output is read: strictly, so that what is not understood is no answer.

An answer is the optimum, a number, or None where the solver says that the hard clauses cannot all be met. With an optimum comes the
setting that the solver prints, as the set of its true variables.
"""

import re
import subprocess

SECONDS = 30
SAT4J = "/usr/share/java/org.ow2.sat4j.maxsat.jar"


class NoAnswer(Exception):
    """The solver did not read the text, or gave up, or printed what is not understood."""


def only(found, what):
    """The only one of a list."""
    if len(found) != 1:
        raise NoAnswer(f"prints {len(found)} times {what}")
    return found[0]


def true_of(numbers):
    """The true variables of a setting, which names each variable once, and may end in 0."""
    named = [abs(n) for n in numbers]
    if len(set(named)) < len(named):
        raise NoAnswer("prints a setting that names a variable twice")
    return {n for n in numbers if n > 0}


def read_competition(lines, has_soft):
    """The lines of the MaxSAT evaluations: s with the status, o with a weight, v with a setting; comments start with c."""
    lines = [line for line in lines if line and not line.startswith("c")]
    other = [line for line in lines if not re.fullmatch(r"s [A-Z ]+|o [0-9]+|v( +-?[0-9]+)*", line)]
    status = only([line[2:] for line in lines if line.startswith("s ")], "a line s")
    weights = [int(line[2:]) for line in lines if line.startswith("o ")]
    if other:
        raise NoAnswer(f"says {other[0]}")
    if status == "UNSATISFIABLE":
        return None, None
    if status == "OPTIMUM FOUND" and weights:
        optimum = weights[-1]
    elif status == "SATISFIABLE" and not has_soft and not weights:
        optimum = 0
    else:
        raise NoAnswer(f"says {status}")
    return optimum, true_of([int(n) for line in lines if line.startswith("v") for n in line[1:].split()])


def read_toulbar2(lines, _):
    """The line Optimum, and before it the last solution behind its line; or a line that says that there is none."""
    ends = [i for i, line in enumerate(lines) if re.match(r"Optimum: |No solution ", line)]
    last = only(ends, "its last word")
    if re.match(r"No solution (in|found by) ", lines[last]):
        return None, None
    optimum = re.match(r"Optimum: ([0-9]+) in ", lines[last])
    at = max((i for i in range(last) if re.match(r"New solution: [0-9]+ ", lines[i])), default=None)
    if not optimum or at is None or not re.fullmatch(r"( [01])*", lines[at + 1]):
        raise NoAnswer(f"says {lines[last]}")
    marks = lines[at + 1].split()
    return int(optimum[1]), {v for v, mark in enumerate(marks, 1) if mark == "1"}


def read_z3(lines, has_soft):
    """sat or unsat; then the setting, variable by variable; then the weight, where there are soft clauses."""
    lines = [line for line in lines if line.strip()]
    first = lines.pop(0) if lines else "nothing"
    if first == "unsat":
        return None, None
    if first != "sat":
        raise NoAnswer(f"says {first}")
    optimum = 0
    if has_soft:
        last = lines.pop() if lines else ""
        if not re.fullmatch(r" *[0-9]+", last):
            raise NoAnswer("says sat, and no weight")
        optimum = int(last)
    text = "\n".join(lines)
    marks = re.findall(r"\(define-fun k!([0-9]+) \(\) Bool\s+(true|false)\)", text)
    if len(marks) != text.count("(define-fun"):
        raise NoAnswer("prints a setting that is not understood")
    return optimum, {int(v) for v, mark in marks if mark == "true"}


SOLVERS = {
    "clasp": (["clasp", "--verbose=0", "--quiet=1"], read_competition),
    "toulbar2": (["toulbar2", "-s"], read_toulbar2),
    "sat4j": (["java", "-XX:+UseSerialGC", "-XX:TieredStopAtLevel=1", "-jar", SAT4J], read_competition),
    "z3": (["z3", "-wcnf", "-model"], read_z3),
}


def ask(name, file, has_soft):
    """The answer of a solver to a file, and its setting; NoAnswer where it gives none."""
    words, read = SOLVERS[name]
    try:
        done = subprocess.run(words + [file], stdin=subprocess.DEVNULL, capture_output=True, timeout=SECONDS, check=False)
    except subprocess.TimeoutExpired:
        raise NoAnswer(f"takes more than {SECONDS} seconds") from None
    output = done.stdout.decode("ascii", "replace")
    try:
        return read([line.rstrip("\r") for line in output.split("\n")], has_soft)
    except NoAnswer as why:
        errors = re.findall(r"^.*(?:ERROR|Error|error|Wrong|FATAL).*$", output + done.stderr.decode("ascii", "replace"), re.MULTILINE)
        raise NoAnswer(errors[0] if errors else str(why)) from None


def version(name):
    """The version that a solver tells."""
    words = {"clasp": ["clasp", "--version"], "z3": ["z3", "--version"]}.get(name, SOLVERS[name][0] + ["/dev/null"])
    done = subprocess.run(words, stdin=subprocess.DEVNULL, capture_output=True, timeout=SECONDS, check=False)
    found = re.search(r"version *:? *([0-9][^\s]*)", done.stdout.decode("ascii", "replace"))
    return found[1] if found else "of unknown version"
