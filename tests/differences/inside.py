#!/usr/bin/env python3
"""Inside the domain the Rust and RULES must agree: `inside.py PROGRAM [COUNT [SEED]]` asks both about
random files. PROGRAM is rust.rs, built; RULES is tests/vectors/lookup_model.py. Files are made of well-formed
parts with odd numbers, then cut or changed in some bytes. A case outside the domain is counted and not compared."""
import random
import sys

from compare import by_model, by_rust, lookup_model
from shape import TABLE, FILES, at, gsym, info, item, node, u32, uleb

OUTSIDE = []


class Watched(lookup_model.Bytes):
    """Marks a case in which a number is met that the domain leaves out, by its kind: too wide, in a header or a node or
    as an operand, or signed and of ten bytes."""

    def leb(self, signed=False):
        part = self.data[self.at : self.at + 10]
        if len(part) == 10 and all(b >= 128 for b in part[:9]):
            if part[9] not in ((0, 127) if signed else (0, 1)):
                OUTSIDE.append("too wide" if self.wide == 15 else "operand too wide")
            elif signed:
                OUTSIDE.append("signed")
        return super().leb(signed)


lookup_model.Bytes = Watched


def sleb(value):
    out = b""
    while not -64 <= value < 64:
        out += bytes([value & 127 | 128])
        value >>= 7
    return out + bytes([value & 127])


def number(r):
    odd = [r.randrange(64), r.randrange(2**16), 2**32 - 1, 2**32, r.randrange(2**64), 2**64 - 1]
    return r.choice([0, 1, 1, 2, 3, *odd])


def program(r):
    signed = lambda: r.choice([0, 1, -1, -3, 10, r.randrange(-(2**33), 2**33), r.randrange(-(2**62), 2**62)])
    out = sleb(signed()) + sleb(signed()) + uleb(number(r))
    for _ in range(r.randrange(8)):
        op = r.choice([0, 1, 1, 2, 2, 2, 3, 3, r.randrange(4, 256), r.randrange(4, 256)])
        out += bytes([op])
        if op == 1:
            out += uleb(r.choice([0, 1, 2, 3, 2**32 + 1, number(r)]))
        if op == 2:
            out += uleb(r.choice([0, 1, 4, 16, number(r)]), r.randrange(10))
        if op == 3:
            out += sleb(signed())
    return out


def some_tree(r, level=1):
    start, size = lambda: r.choice([0, 0, 0, 1, 16, number(r)]), lambda: r.choice([64, 64, 32, 8, 0, number(r)])
    ranges = [(start(), size()) for _ in range(r.choice([1, 1, 2]))]
    kids = None
    if r.random() < 0.7 / level**0.5:
        kids = [some_tree(r, level + 1) for _ in range(r.randrange(4))]
    names = ["main", "leaf", "inner", "outer", "", 0x1000, len(TABLE)] if r.random() < 0.2 else ["main", "leaf", ""]
    name = r.choice(names)
    return node(ranges, name, (r.choice([0, 1, 2, 1, 2, 1, 3, number(r)]), number(r)), kids)


def some_items(r):
    made = []
    for _ in range(r.randrange(5)):
        kind = r.choice([1, 1, 2, 2, 0, 3, r.randrange(2**32)])
        block = program(r) if kind == 1 else some_tree(r) if kind == 2 else bytes(r.randrange(4))
        if r.random() < 0.15:
            block = block[: r.randrange(len(block) + 1)]
        made.append(item(kind, block))
    return made


def some_file(r):
    width = r.choice([1, 1, 2, 4, 8])
    base = r.choice([0, 0x1000, 2**64 - 256, r.randrange(2**64)])
    if r.random() < 0.7:
        offsets = sorted(r.sample(range(0, 250, 10), r.randrange(1, 4)))
    elif r.random() < 0.7:  # with equal entries in a row
        first = [0] * r.choice([0, 1, 1, 1])
        offsets = first + sorted(r.choices(range(r.choice([0, 10, 10]), 250, 80), k=r.randrange(2, 6)))
    else:  # the same with so many that the search takes two turns at once
        step = r.choice([1, 2, 4, 30])
        offsets = [r.choice([0, 10]), *sorted(r.choices(range(10, 250, step), k=r.randrange(20, 60)))]
    names = ["main", "inner", 0, at("b.c"), len(TABLE), 0x1000] if r.random() < 0.2 else ["main"]
    entries = [(o, info(r.choice([0, 1, 16, 64, 2**32 - 1]), r.choice(names), *some_items(r))) for o in offsets]
    strings = TABLE + r.choice([b"", b"\xff\0", b"\xc3\xa9\0", b"open"])
    files = FILES + [(len(TABLE), len(TABLE))]
    file = bytearray(gsym(entries, base=base, width=width, strings=strings, files=files))
    if r.random() < 0.1:
        del file[r.randrange(len(file)) :]
    if r.random() < 0.2 and file:
        for _ in range(r.randrange(1, 4)):
            file[r.randrange(len(file))] = r.choice([0, 1, 2, 0x7F, 0x80, 0xFF, r.randrange(256)])
    near = base + r.choice(offsets) + r.choice([0, 0, 1, 3, 8, 15, 16, 40, 63, 64, r.randrange(300)])
    return bytes(file), near % 2**64


def addresses(file):
    """The address table, where it can be read."""
    width, count = (int.from_bytes(file[place : place + size], "little") for place, size in ((6, 1), (16, 4)))
    if len(file) < 48 + count * width or width not in (1, 2, 4, 8):
        return []
    return [int.from_bytes(file[48 + width * i : 48 + width * (i + 1)], "little") for i in range(count)]


def inside(file, address):
    """Whether the address table never falls, the address isn't past equal entries that the table begins with, and no
    symbol ends above 2^64-1, as far as the tables can be read."""
    word = lambda place, size: int.from_bytes(file[place : place + size], "little")
    table, base = addresses(file), word(8, 8)
    offsets = (48 + len(table) * word(6, 1) + 3) // 4 * 4
    ends = [base + entry + word(word(offsets + 4 * i, 4), 4) for i, entry in enumerate(table)]
    never_falls = all(a <= b for a, b in zip(table, table[1:]))
    return never_falls and not past_first_run(table, address - base) and all(end < 2**64 for end in ends)


def past_first_run(table, wanted):
    """Whether what is wanted is above equal entries that the table begins with, and below the next that differs."""
    if len(table) < 2 or table[0] != table[1]:
        return False
    later = [entry for entry in table if entry != table[0]]
    return table[0] < wanted and (not later or wanted < later[0])


def main():
    count, seed = (int(w) for w in (sys.argv[2:] + ["20000", "1"][len(sys.argv) - 2 :]))
    r, cases, expected, outside, runs, first_runs, long = random.Random(seed), [], [], 0, 0, 0, 0
    for _ in range(count):
        file, address = some_file(r)
        opts = r.choice([0, 1, 2, 3, 3, 3, 3])
        OUTSIDE.clear()
        said = by_model(file, address, opts, 64, True)
        # such a number is the last that is read
        assert said != "?15" or OUTSIDE[-1:] == ["too wide"], "15, and no number of a header or a node is too wide"
        if OUTSIDE or said in (None, "?13", "?14") or not inside(file, address):
            outside += 1
            continue
        table = addresses(file)
        runs += any(a == b for a, b in zip(table, table[1:]))
        first_runs += len(table) > 1 and table[0] == table[1]
        long += len(table) > 16
        cases.append(("", file, address, opts, 64, 0))
        expected.append(said)
    differ = [(c, w, g) for c, w, g in zip(cases, expected, by_rust(sys.argv[1], cases, True)) if w != g]
    for (_, file, address, opts, *_), want, got in differ[:5]:
        print(f"inside: {file.hex()} at {address:#x}, options {opts}: RULES {want}, the Rust {got}")
    refused = {w for w in expected if w.startswith("?")}
    print(
        f"inside: {len(cases)} random files inside the domain, {runs} of them with equal entries in a row, "
        f"{first_runs} that begin with such, {long} of more than 16 entries, "
        f"{sum(w in refused for w in expected)} refused with {len(refused)} numbers ({outside} more were outside): "
        f"the Rust differs from RULES on {len(differ)}"
    )
    return 1 if differ else 0


if __name__ == "__main__":
    sys.exit(main())
