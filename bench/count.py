"""count.py LOG NODES < DISASSEMBLY: the instructions that the walk ran, by the emulator's log of the blocks that it ran.

A block of the log begins at an address and goes to the next jump, call or return. Where the program was loaded is found by the walk's
most used block: its place within a page tells it apart."""
import re
import sys

log, nodes = sys.argv[1], int(sys.argv[2])

code, name = [], ""
for line in sys.stdin:
    label = re.match(r"^[0-9a-f]+ <(.*)>:$", line)
    if label:
        name = label.group(1)
    place = re.match(r"^ +([0-9a-f]+):\t(\S+)", line)
    if place and "walk_plan" in name:
        code.append((int(place.group(1), 16), place.group(2)))
index = {address: i for i, (address, _) in enumerate(code)}

runs = {}
with open(log, errors="ignore") as lines:
    for line in lines:
        block = re.search(r"\[[0-9a-f]+/([0-9a-f]+)/", line)
        if block:
            address = int(block.group(1), 16)
            runs[address] = runs.get(address, 0) + 1


def within(load):
    return sum(count for address, count in runs.items() if address - load in index)


pages = {address & ~0xFFF for address in runs}
load = max((page - (code[0][0] & ~0xFFF) for page in pages), key=within)


def length(i):
    size = 1
    while not code[i][1].startswith(("j", "call", "ret")) and i + 1 < len(code):
        i, size = i + 1, size + 1
    return size


instructions = sum(count * length(index[address - load]) for address, count in runs.items() if address - load in index)
print(f"{instructions} instructions in {within(load)} blocks, {instructions / nodes:.1f} instructions for each of {nodes} nodes")
