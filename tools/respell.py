#!/usr/bin/env python3
"""Brings this repository's own definitions and laws to snake case, once, after the kit's port.py and before any edit by hand.

usage: tools/respell.py        at the top of the repository

A name that a file of specs/ or proofs/ declares is spelled in snake case: `meetsRule` is `meets_rule`, `tie-opened` is `tie_opened`. Where
two names fall together, the law takes the ending `_lem` (LEM). Functions, fields and constants of src/, exported names, texts in quotation
marks, inputs and outputs keep theirs. The pages and the must-fail edits follow, the latter also in what port.py respells (PORTED).
"""
import collections
import os
import re
import sys

SIGNATURE = re.compile(r"^(\s*)(?:abbrev |unfoldable )?(?:pub )?(?:abbrev |unfoldable )?([^\s(){}:;]+) : ")
SEVERAL = re.compile(r"^\s+([^\s(){}:;]+(?: [^\s(){}:;]+)+) : ")
TOKEN = re.compile(r"[^\s(){}\[\];,.:`\"|\\]+")
# names of variables that stand in the lines of declarations
VARIABLES = "bestPlan bestPlan' hardWeight".split()
# laws that would have the name of a definition, or of another law: by their spelling before this script
LEM = "behind-p best-found clause-line comment-line devices-on end-of from-lead held-from in-clause in-front judged-by keep_all lead-length line-end no-p not-both number-in number-of one_more other-p refused-line room-for rule-count rule-true same_bytes sheet-of small-room soft-by stands-in ties-found tokens-behind too_long too_many too_short".split()


def files(root, endings):
    for folder, dirs, names in os.walk(root):
        dirs[:] = sorted(d for d in dirs if d != "out")
        for name in sorted(names):
            if name.endswith(endings):
                yield os.path.join(folder, name)


def read(path):
    with open(path, encoding="utf-8") as f:
        return f.read()


def snake(name):
    to = name
    if to[0].islower():
        to = re.sub(r"(?<=[a-z0-9])([A-Z])", lambda m: "_" + m.group(1).lower(), to)
    if len(to) > 1:
        to = re.sub(r"(?<=[A-Za-z0-9_'])-(?=[A-Za-z0-9_])", "_", to)
    return to


def own_names():
    names = set()
    for path in files("crates", ".antt"):
        parts = path.split(os.sep)
        if "proofs" in parts and len(parts) - parts.index("proofs") > 2:
            continue  # the proof of one function: its names are the kit's
        for line in read(path).split("\n"):
            m = SIGNATURE.match(line)
            if m:
                names.add(m.group(2))
            m = SEVERAL.match(line)
            if m and not line.lstrip().startswith("let "):
                names.update(m.group(1).split())
    return names


def turned(text, table, comment):
    """A file's text: outside quotation marks everywhere; a name with a dash in a comment only between backticks."""
    out = []
    for line in text.split("\n"):
        at = line.find(comment)
        code, said = (line, "") if at < 0 or line[:at].count('"') % 2 else (line[:at], line[at:])
        pieces = re.split(r'("(?:[^"\\]|\\.)*")', code)
        pieces = [p if i % 2 else TOKEN.sub(lambda m: table.get(m.group(0), m.group(0)), p) for i, p in enumerate(pieces)]
        out.append("".join(pieces) + commented(said, table))
    return "\n".join(out)


def commented(text, table):
    quoted = re.split(r"(`[^`]*`)", text)
    for i, p in enumerate(quoted):
        if i % 2:
            quoted[i] = TOKEN.sub(lambda m: table.get(m.group(0), m.group(0)), p)
        else:
            quoted[i] = TOKEN.sub(lambda m: m.group(0) if "-" in m.group(0) else table.get(m.group(0), m.group(0)), p)
    return "".join(quoted)


def main():
    names = own_names()
    table = {n: snake(n) for n in [*names, *VARIABLES]}
    table.update({n: snake(n) + "_lem" for n in LEM if n in names})
    table = {a: b for a, b in table.items() if a != b}
    meets = collections.defaultdict(list)
    for n in names:
        meets[table.get(n, n)].append(n)
    together = {b: sorted(a) for b, a in meets.items() if len(a) > 1}
    if together:
        sys.exit(f"respell: these fall together: {together}")
    for path in files("crates", (".antt", ".rt")):
        old = read(path)
        declared = set(re.findall(r"\bfn (\w+)", old)) if path.endswith(".rt") else set()
        own = {a: b for a, b in table.items() if a not in declared}
        new = turned(old, own, "--" if path.endswith(".antt") else "//")
        if new != old:
            with open(path, "w", encoding="utf-8") as f:
                f.write(new)
    pages = dict(table)
    for a, b in PORTED.items():
        pages[a] = table.get(b, b)
    for path in files("crates", ".edit"):
        old = read(path)
        new = "\n".join(TOKEN.sub(lambda m: pages.get(m.group(0), m.group(0)), re.sub(r"(?<=\w) \.(?=\w)", ".", l)) if l.startswith(("old: ", "new: ")) else commented(l, pages) for l in old.split("\n"))
        if new != old:
            with open(path, "w", encoding="utf-8") as f:
                f.write(new)
    for path in ["README.md", *files("docs", ".md")]:
        old = read(path)
        new = re.sub(r"`[^`\n]*`", lambda q: TOKEN.sub(lambda m: pages.get(m.group(0), m.group(0)), q.group(0)), old)
        if new != old:
            with open(path, "w", encoding="utf-8") as f:
                f.write(new)
    print(f"respell: {len(table)} names")


# what the kit's port.py respells
PORTED = {
    "_>>=_": "◌>>=◌", "alike-same": "alike_same", "all-closed": "all_closed", "all-digits": "all_digits", "all-done": "all_done",
    "all-held": "all_held", "all-moved": "all_moved", "all-seen": "all_seen", "all-there": "all_there", "among-in": "among_in",
    "and-both": "and_both", "answerOf": "answer_of", "as-long": "as_long", "at-most-one": "at_most_one", "back-long": "back_long",
    "best-none": "best_none", "by-name": "by_name", "by-sign": "by_sign", "call-none": "call_none", "closed-is": "closed_is",
    "closed-same": "closed_same", "code-is": "code_is", "codeAt": "code_at", "codeIn": "code_in", "copy-more": "copy_more",
    "copy-start": "copy_start", "count-next": "count_next", "count-none": "count_none", "count-small": "count_small", "countOf":
    "count_of", "counted-none": "counted_none", "counting-more": "counting_more", "digits-3": "digits_3", "digits-4": "digits_4",
    "drop-head": "drop_head", "drop-more": "drop_more", "each-all": "each_all", "each-append": "each_append", "each-in": "each_in",
    "each-map": "each_map", "each-of": "each_of", "each-take": "each_take", "either-true": "either_true", "endOf": "end_of",
    "ended-some": "ended_some", "ends-by": "ends_by", "entry-gives": "entry_gives", "entry-in": "entry_in", "entry-more":
    "entry_more", "entry-named": "entry_named", "entry-zero": "entry_zero", "entryOf": "entry_of", "first-back": "first_back",
    "first-of": "first_of", "firstOf": "first_of", "fits-one": "fits_one", "fitsBy": "fits_by", "found-first": "found_first",
    "found-from": "found_from", "found-none": "found_none", "from-end": "from_end", "from-first": "from_first", "from-one":
    "from_one", "from-place": "from_place", "from-start": "from_start", "from-step": "from_step", "from-zero": "from_zero",
    "front-fits": "front_fits", "front-length": "front_length", "front-long": "front_long", "gap-ends": "gap_ends", "goes-on":
    "goes_on", "held-all": "held_all", "held-below": "held_below", "held-more": "held_more", "held-one": "held_one", "heldOf":
    "held_of", "hold-holds": "hold_holds", "in-either": "in_either", "is-down": "is_down", "is-up": "is_up", "isNumber": "is_number",
    "itemOf": "item_of", "joined-length": "joined_length", "keep-all": "keep_all", "keep-append": "keep_append", "kindOf": "kind_of",
    "left-end": "left_end", "left-one": "left_one", "less-one": "less_one", "lineOf": "line_of", "lines-end": "lines_end",
    "lines-fit": "lines_fit", "lines-more": "lines_more", "linesOf": "lines_of", "list-over": "list_over", "listOf": "list_of",
    "lists-ties": "lists_ties", "mark-of": "mark_of", "markOf": "mark_of", "minus-one": "minus_one", "mul-mono": "mul_mono",
    "namedBy": "named_by", "namedOf": "named_of", "next-start": "next_start", "nextOf": "next_of", "no-end": "no_end", "no-more":
    "no_more", "no-move": "no_move", "no-room": "no_room", "no-value": "no_value", "no-word": "no_word", "node-counts": "node_counts",
    "nodeBy": "node_by", "none-done": "none_done", "none-left": "none_left", "none-open": "none_open", "none-seen": "none_seen",
    "none-true": "none_true", "not-after": "not_after", "not-low": "not_low", "not-negative": "not_negative", "not-three":
    "not_three", "nothing-right": "nothing_right", "numberIn": "number_in", "numberOf": "number_of", "numbers-more": "numbers_more",
    "numbers-on": "numbers_on", "one-byte": "one_byte", "one-further": "one_further", "one-more": "one_more", "one-right":
    "one_right", "one-size": "one_size", "one-way": "one_way", "onlyIf": "only_if", "opens-one": "opens_one", "or-right": "or_right",
    "other-length": "other_length", "out-of-order": "out_of_order", "out-of-range": "out_of_range", "pair-puts": "pair_puts",
    "pairs-end": "pairs_end", "part-end": "part_end", "passed-none": "passed_none", "piece-cut": "piece_cut", "place-here":
    "place_here", "place-short": "place_short", "planOf": "plan_of", "put-last": "put_last", "put-only": "put_only", "put-then":
    "put_then", "putAt": "put_at", "puts-none": "puts_none", "puts-then": "puts_then", "read-whole": "read_whole", "readOn":
    "read_on", "readingOf": "reading_of", "reads-on": "reads_on", "reads-only": "reads_only", "reads-so": "reads_so", "roomFor":
    "room_for", "rows-right": "rows_right", "run-end": "run_end", "run-length": "run_length", "run-more": "run_more", "run-none":
    "run_none", "run-on": "run_on", "same-bytes": "same_bytes", "same-case": "same_case", "same-code": "same_code", "same-end":
    "same_end", "same-first": "same_first", "same-lines": "same_lines", "same-more": "same_more", "same-numbers": "same_numbers",
    "same-parts": "same_parts", "same-self": "same_self", "same-start": "same_start", "same-stop": "same_stop", "same-test":
    "same_test", "says-none": "says_none", "says-same": "says_same", "seen-one": "seen_one", "set-at": "set_at", "set-free":
    "set_free", "sets-behind": "sets_behind", "sets-same": "sets_same", "shut-none": "shut_none", "size-is": "size_is", "so-far":
    "so_far", "soFar": "so_far", "span-none": "span_none", "spanOf": "span_of", "spotOf": "spot_of", "stands-here": "stands_here",
    "stands-on": "stands_on", "start-of": "start_of", "startAt": "start_at", "starts-more": "starts_more", "step-gives": "step_gives",
    "stepOf": "step_of", "still-open": "still_open", "sum-fits": "sum_fits", "sumOf": "sum_of", "sums-on": "sums_on", "take-more":
    "take_more", "textOf": "text_of", "the-word": "the_word", "through-same": "through_same", "tied-is": "tied_is", "token-begins":
    "token_begins", "told-is": "told_is", "told-text": "told_text", "too-long": "too_long", "too-many": "too_many", "too-short":
    "too_short", "two-size": "two_size", "upTo": "up_to", "valueAt": "value_at", "valueOf": "value_of", "walked-all": "walked_all",
    "went-on": "went_on", "whole-run": "whole_run", "word-at": "word_at", "word-none": "word_none", "word-on": "word_on", "word-same":
    "word_same", "word-split": "word_split", "wordOf": "word_of", "words-append": "words_append", "words-of": "words_of", "wordsOf":
    "words_of", "written-back": "written_back", "writtenOf": "written_of", "zero-is": "zero_is",
}

if __name__ == "__main__":
    main()
