#!/usr/bin/env python3
"""Every small address table, and long ones with equal entries, by the shared library: `every.py LIBRARY [RUST]`.

Held are the answers to docs/RULES.md, "Finding the entry", written down here a third time, word by word, and to the
model (tests/vectors/lookup_model.py). RUST is tests/differences/rust.rs, built: the unchanged Rust, which must part
from RULES in tables that never fall exactly where docs/DIFFERENCES.md, F8, says so. Each entry has a name of its own,
so that an answer tells which entry was asked. Prints one line of what was done, and before it what differs, of each
kind the first.
"""
import collections
import itertools
import pathlib
import random
import subprocess
import sys

TOP_FOLDER = pathlib.Path(__file__).resolve().parents[2]
sys.path[:0] = [str(TOP_FOLDER / "tests/vectors"), str(TOP_FOLDER / "tests/check")]
import judge  # noqa: E402
import lookup_model as model  # noqa: E402

TOP = 2**64
WIDTHS = (1, 2, 4, 8)
LONG = 100_000
SEEN = collections.Counter()
WRONG = {}


def is_allowed(table, i, wanted):
    """The words of the page: not above what is wanted; the entry before it, if there is one, differs from it; the next
    one that differs from it, if there is one, is above."""
    if table[i] > wanted or (i > 0 and table[i - 1] == table[i]):
        return False
    for later in itertools.islice(table, i + 1, None):
        if later != table[i]:
            return later > wanted
    return True


def first_of_the_greatest(table, wanted):
    """In a table that never falls: of the entries that are not above the greatest, and of its equals the first."""
    return table.index(max(entry for entry in table if entry <= wanted))


def searched(table, wanted):
    """The search of `find_in`, which settles which where several are allowed: by halving, then to the front."""
    at, count = 0, len(table)
    while count > 1:
        half = count // 2
        if table[at + half] <= wanted:
            at += half
        count -= half
    while at > 0 and table[at - 1] == table[at]:
        at -= 1
    return at


NAMES = [b"%x" % i for i in range(LONG + 8)]
OFFSETS = [0, *itertools.accumulate(len(name) + 1 for name in NAMES)]


class Shape:
    """What files of so many entries and these sizes have behind their address tables, for each width."""

    def __init__(self, count, size):
        self.count, self.sizes, self.rest = count, [size(i) for i in range(count)], {}
        strings = b"".join(name + b"\0" for name in NAMES[:count])
        infos = b"".join(self.sizes[i].to_bytes(4, "little") + OFFSETS[i].to_bytes(4, "little") for i in range(count))
        for width in WIDTHS:
            padding = bytes(-(count * width) % 4)
            at = 48 + count * width + len(padding) + 4 * count + 4
            places = range(at + len(strings), at + len(strings) + len(infos), 8)
            offsets = b"".join(place.to_bytes(4, "little") for place in places)
            head = at.to_bytes(4, "little") + len(strings).to_bytes(4, "little") + bytes(20)
            self.rest[width] = head, padding + offsets + bytes(4) + strings + infos, at

    def file(self, table, width, base):
        head, rest, _ = self.rest[width]
        start = (0x4753594D).to_bytes(4, "little") + b"\1\0" + bytes([width, 20]) + base.to_bytes(8, "little")
        entries = b"".join(entry.to_bytes(width, "little") for entry in table)
        return start + self.count.to_bytes(4, "little") + head + entries + rest


def differs(kind, table, width, base, addr, what):
    SEEN["differ"] += 1
    WRONG.setdefault(kind, f"{kind}: {what} at {addr:#x} of {short(table)}, {width} bytes, base {base:#x}")


def short(table):
    return str(table) if len(table) < 20 else f"{str(table[:20])[:-1]}, .. ({len(table)} entries)"


class Judge:
    def __init__(self, library, rust):
        self.library, self.rust, self.asked = library, rust, []

    def table(self, table, width, base, shape, addresses):
        """One table at these addresses."""
        data = shape.file(table, width, base)
        never_falls = all(a <= b for a, b in zip(table, table[1:]))
        kind = "falls" if not never_falls else "rises" if len({*table}) == len(table) else "has runs"
        SEEN[kind] += 1
        to_rust = self.rust and len(table) < LONG and base == 0x1000
        for addr in addresses:
            if not 0 <= addr < TOP:
                continue
            SEEN["lookups"] += 1
            got = self.library.lookup(data, addr, 0, 0)
            want = self.by_words(table, width, base, addr, shape, never_falls, got)
            if want is None:
                continue
            try:
                number, answer, _ = model.answer(data, addr, 0, 0)
            except AssertionError:  # several are allowed
                SEEN["several"] += 1
                if never_falls or len(model.allowed(table, addr - base)) < 2:
                    differs("the model", table, width, base, addr, "no answer where one entry alone is allowed")
            else:
                SEEN["by the model"] += 1
                if (got.number, got.numbers()) != (number, answer):
                    differs("the model", table, width, base, addr, f"{number} {answer}, the library {got.numbers()}")
            if to_rust:
                self.asked.append((data, addr, table, width, want, kind))

    def by_words(self, table, width, base, addr, shape, never_falls, got):
        """The answer of the page's words: the entry, -1 where the address is unknown; None where that differs."""
        wanted = addr - base
        want = -1
        if addr >= base and table and table[0] <= wanted:
            want = first_of_the_greatest(table, wanted) if never_falls else searched(table, wanted)
            allowed = [i for i in range(len(table)) if is_allowed(table, i, wanted)]
            if want not in allowed or (never_falls and len(allowed) != 1):
                return differs("the words", table, width, base, addr, f"allowed {allowed}, chosen {want}")
            by_model = model.allowed(table, wanted)
            if by_model != allowed:
                return differs("the model", table, width, base, addr, f"{by_model} allowed, by the words {allowed}")
            if shape.sizes[want] and wanted - table[want] >= shape.sizes[want]:
                SEEN["not covered"] += 1
                want = -1
        if want < 0:
            SEEN["unknown"] += 1
            told = [0] * 11
        else:
            at = shape.rest[width][2] + OFFSETS[want]
            told = [base + table[want], shape.sizes[want], at, len(NAMES[want])] + [0] * 7
        if (got.number, got.numbers()) != (int(want < 0), told):
            what = f"entry {want}, and the library {got.number} {got.numbers()}"
            return differs("RULES", table, width, base, addr, what)
        return want

    def by_rust(self):
        """The unchanged Rust's answers to what was asked with base 0x1000."""
        lines = "".join(f"{data.hex()} {addr} 0 0\n" for data, addr, *_ in self.asked)
        said = subprocess.run([self.rust], input=lines, capture_output=True, encoding="ascii", check=True).stdout
        for line, (data, addr, table, width, want, kind) in zip(said.splitlines(), self.asked, strict=True):
            got = -1 if line == "?1" else int(line.split("\t")[0], 16)
            wanted = addr - 0x1000
            SEEN["asked of the Rust"] += 1
            parts = got != want
            if kind == "falls":
                SEEN["Rust parts, falls"] += parts
                continue
            run = table.count(table[0]) if table else 0
            past = run > 1 and wanted > table[0] and (run == len(table) or wanted < table[run])
            SEEN["Rust parts"] += parts
            if past:
                # of a run at the front its last entry; sizes are 0 here
                if got != run - 1:
                    differs("the Rust", table, width, 0x1000, addr, f"{got}, and F8 has {run - 1}")
            elif parts:
                differs("the Rust", table, width, 0x1000, addr, f"{got}, and RULES {want}")


def small_tables(judged):
    """All tables of 0 to 3 of up to six entries, in each width, at 0 to 4 and one below the base."""
    for count in range(7):
        plain, sized = Shape(count, lambda i: 0), Shape(count, lambda i: (2, 1, 3, 0)[i % 4])
        for table in itertools.product(range(4), repeat=count):
            SEEN["small tables"] += 1
            table = [*table]
            for width in WIDTHS:
                for base in (0, 0x1000, TOP - 4):
                    judged.table(table, width, base, plain, range(base - 1, base + 5))
            saved, judged.rust = judged.rust, None
            judged.table(table, WIDTHS[SEEN["small tables"] % 4], 0x1000, sized, range(0xFFF, 0x1005))
            judged.rust = saved


def run_lengths(r, most):
    while True:
        yield r.choice([1, 1, 1, 2, 3, 4, 7, r.randrange(1, 100), r.randrange(1, most)])


def long_tables(judged, r):
    """Tables of up to 300 entries with runs of 1 to 100; half of them fall somewhere."""
    for turn in range(240):
        width = WIDTHS[turn % 4]
        top = 256**width - 1
        table, count, step = [], r.randrange(2, 301), r.choice([1, 1, 2, 5, top // 400 + 1])
        at = r.choice([0, 1, r.randrange(20)])
        for run in run_lengths(r, 100):
            table += [at] * run
            at = min(top, at + r.randrange(1, step + 1))
            if turn % 8 >= 4 and r.random() < 0.2:
                at = r.randrange(at + 1)
            if len(table) >= count:
                break
        table = table[:count]
        edges = {*r.sample([*{*table}], min(len({*table}), 12)), table[0], table[-1]}
        wanted = {edge + more for edge in edges for more in (-1, 0, 1)} | {0, top, r.randrange(top + 1)}
        judged.table(table, width, 0x1000, Shape(len(table), lambda i: 0), [0x1000 + w for w in sorted(wanted)])
        SEEN["long tables"] += 1


def equal_tables(judged):
    """So many equal entries, in each width, alone and with some before and behind them."""
    shapes = {LONG + n: Shape(LONG + n, lambda i: 0) for n in (0, 2, 4)}
    for width in WIDTHS:
        low, run, high = 3, 5, 256**width - 1
        for before, behind in ([], []), ([low], [high]), ([low, low], [high, high]):
            table = before + [run] * LONG + behind
            wanted = (low - 1, low, run - 1, run, run + 1, high - 1, high)
            judged.table(table, width, 0x1000, shapes[len(table)], [0x1000 + w for w in wanted])
            SEEN["tables of equals"] += 1


def main():
    judged = Judge(judge.Lookups(sys.argv[1]), sys.argv[2] if len(sys.argv) > 2 else None)
    small_tables(judged)
    long_tables(judged, random.Random(11))
    equal_tables(judged)
    s = SEEN
    said = f"{s['small tables']:,} tables of up to six entries, {s['long tables']} longer ones and"
    said += f" {s['tables of equals']} with {LONG:,} equal entries ({s['rises']:,} files rise, {s['has runs']:,} have"
    said += f" runs, {s['falls']:,} fall): {s['lookups']:,} lookups ({s['by the model']:,} by the model too,"
    said += f" {s['several']:,} where several entries are allowed, {s['unknown']:,} unknown)"
    if judged.rust:
        judged.by_rust()
        said += f"; of {s['asked of the Rust']:,} the Rust parts at {s['Rust parts']:,}, each past a run that the table"
        said += f" begins with, and at {s['Rust parts, falls']:,} in tables that fall"
        if not s["Rust parts"]:
            WRONG["the Rust"] = "the Rust parts nowhere"
    for what in WRONG.values():
        print(f"tests/runs: {what}", file=sys.stderr)
    print(f"tests/runs: {said}: {s['differ']:,} differ")
    return 1 if WRONG else 0


if __name__ == "__main__":
    sys.exit(main())
