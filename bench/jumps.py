"""Jumps, calls and returns of an object for x86-64 that end at a multiple of 32 bytes or reach over one: some of
Intel's processors decode these anew each time they come by, with all other code of those 32 bytes. A compare and the
jump after it count as one instruction. `jumps.py NAME OBJECT` prints `NAME, FUNCTION | jumps | how many are such where
the function begins at a multiple of 32, 16 after one` for each function with 50 jumps or more, then for all together.
"""
import re
import subprocess
import sys

name, path = sys.argv[1:]
JUMP = re.compile(r"(j|call|ret)")
FUSED = re.compile(r"(cmp|test|add|sub|and|inc|dec)[bwlq]? ")


def functions(listing):
    """The functions of a listing, each with its instructions: place, length, text."""
    found = {}
    for line in listing.splitlines():
        head = re.match(r"[0-9a-f]+ <(.*)>:$", line)
        if head:
            code = found.setdefault(head[1], [])
            continue
        parts = line.split("\t")
        if len(parts) < 2:
            continue
        place, length = int(parts[0].rstrip(": "), 16), len(parts[1].split())
        if len(parts) > 2:
            code.append([place, length, parts[2].strip()])
        else:
            code[-1][1] += length
    return found


def across(code, begin):
    """How many of the jumps end at a multiple of 32 or reach over one, where the function begins at `begin`."""
    count = 0
    for before, (place, length, text) in zip([None] + code, code):
        if not JUMP.match(text):
            continue
        first, end = begin + place, begin + place + length
        if before and text[0] == "j" and not text.startswith("jmp") and FUSED.match(before[2]):
            first -= before[1]
        count += first // 32 != end // 32
    return count


listing = subprocess.run(["objdump", "-d", path], check=True, capture_output=True, text=True).stdout
total = [0, 0, 0]
for function, code in functions(listing).items():
    start = code[0][0]
    code = [(place - start, length, text) for place, length, text in code]
    row = [sum(1 for _, _, text in code if JUMP.match(text)), across(code, 0), across(code, 16)]
    total = [a + b for a, b in zip(total, row)]
    if row[0] >= 50:
        print(f"{name}, {function} | {row[0]} | {row[1]}, {row[2]}")
print(f"{name}, all of {path.rsplit('/', 1)[-1].split('.', 1)[-1]} | {total[0]} | {total[1]}, {total[2]}")
