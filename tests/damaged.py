#!/usr/bin/env python3
"""What the program `damaged` must print, worked out from documents 01 and 02 (request 1) alone.

    tests/damaged.py > crates/damaged/stdout

Document 01, "The hall sheet", "The answer sheet of the search" and "Sheets typed as text". Nothing here is taken from the Rattle
sources or from a run of them. Request 3 changes what meets a rule and not which rules are good: among the sheets below is one with
the rule 1 -1.
"""

FOUR = [4, 5, 2, 4, 3, 3, 2, 1, 2, 2, -2, 3, 2, -1, 4]


class Refused(Exception):
    pass


def read_sheet(words, room):
    """The numbers of devices and rules, or Refused(code, place), of a width Refused(19, place, rule)."""
    if len(words) > 16384:
        raise Refused(17, 16384)
    place = 0

    def word():
        nonlocal place
        if place == len(words):
            raise Refused(11, len(words))
        place += 1
        return words[place - 1]

    def number(code, most, *rule):
        w = word()
        if not 0 <= w <= most:
            raise Refused(code, place - 1, *rule)
        return w

    n = number(12, 200)
    for _ in range(n):
        number(13, 1_000_000_000)
    m = number(18, 2000)
    for rule in range(1, m + 1):
        for _ in range(number(19, 32, rule)):
            if not 1 <= abs(word()) <= n:
                raise Refused(14, place - 1)
    if place < len(words):
        raise Refused(15, place)
    if room < n:
        raise Refused(16, n)
    return n, m


def sheet(words, room=200):
    try:
        print("hall %d %d" % read_sheet(words, room))
    except Refused as refused:
        print("refused", *refused.args)


for k in range(len(FOUR) + 1):
    sheet(FOUR[:k])
for i in range(len(FOUR)):
    for w in (-2147483648, -1, 0, 33, 201, 2001, 1000000001, 2147483647):
        sheet(FOUR[:i] + [w] + FOUR[i + 1:])

many = FOUR + [0, -7, 2147483647, 5, 5]
sheet(many[:16])
sheet(many)
sheet(many[:16], 3)
sheet(many, 0)
sheet(FOUR, 4)
sheet(FOUR, 3)
sheet([0, 1, 1, 1])

full = [14] + [1] * 14 + [528] + ([30] + [p % 14 + 1 for p in range(30)]) * 528
sheet(full)
sheet(full + [30])
sheet([-1] + full[1:] + [30])


def read_text(text, room):
    """The tokens' values, or Refused(code, place)."""
    if len(text) > 60000:
        raise Refused(23, 60000)
    words = []
    at = 0
    while at < len(text):
        if text[at] in (9, 10, 13, 32):
            at += 1
            continue
        first = at
        minus = text[at] == ord("-")
        if minus:
            at += 1
        digits = at
        while at < len(text) and ord("0") <= text[at] <= ord("9"):
            at += 1
        if at == digits or at < len(text) and text[at] not in (9, 10, 13, 32):
            raise Refused(21, at)
        if at - digits > 10:
            raise Refused(22, first)
        value = int(text[digits:at]) * (-1 if minus else 1)
        if not -2147483648 <= value <= 2147483647:
            raise Refused(22, first)
        if len(words) == room:
            raise Refused(24, first)
        words.append(value)
    return words


def text(text, room=2):
    words = []
    try:
        words = read_text(text, room)
        told = "words %d" % len(words)
    except Refused as refused:
        told = "refused %d %d" % refused.args
    print(told + ", room" + "".join(" %d" % w for w in words + [7] * (room - len(words))))


for t in (b"", b"   ", b"\t\n\r ", b"\t1\r2\t", b"\r1\t\t2\r", b"\n 1\n2 \n"):
    text(t)
for b in (0, 11, 12, 43, 128, 255):
    text(bytes([b]))
    text(bytes([52, b, 50]))
for t in (b"-", b"4 -", b"--1", b"1-", b"1-1", b"- 1", b"-0", b"007", b"1234567890", b"0000000001", b"12345678901", b"00000000001",
          b"2147483647", b"2147483648", b"-2147483648", b"-2147483649", b"4 -2147483649"):
    text(t)
for t in (b"", b"1", b"12345678901", b"12345678901x"):
    text(t, 0)
text(b"5 6")
text(b"5 6 -8", 3)
for t in (b"5 6 -8", b"5 6 x", b"5 6 12345678901", b"5 6 8 x", b"5 x 8"):
    text(t)
text(b"9" + b" " * 59999)
text(b"9" + b" " * 60000)
text(b"\0" + b" " * 60000)
