#!/usr/bin/env python3
"""RULES written down once more: `lookup` is a lookup, `check` the check of a file. As a program it holds the vectors of
whole lookups to the page: reads them on standard input, answers each case by the rules as the page words them, and says
how many differ. `lookup_model.py parts` does so with those of line headers, line tables and inline blocks."""
import sys


class Refused(Exception):
    pass


def need(ok, number):
    if not ok:
        raise Refused(number)


def le(data, at, n, number):
    need(at + n <= len(data), number)
    return int.from_bytes(data[at : at + n], "little")


class Bytes:
    """A block with a cursor: `number` refuses what the bytes end before, `wide` a number of more than 64 bits."""

    def __init__(self, data, number, wide=15):
        self.data, self.at, self.number, self.wide = data, 0, number, wide

    def fixed(self, n):
        value = le(self.data, self.at, n, self.number)
        self.at += n
        return value

    def leb(self, signed=False):
        value = 0
        for i in range(10):
            byte = self.fixed(1)
            value |= (byte & 0x7F) << 7 * i
            if byte < 0x80:
                if signed and byte & 0x40:
                    value -= 1 << 7 * (i + 1)
                need(-(2**63) <= value < 2**63 if signed else value < 2**64, self.wide)
                return value
        raise Refused(self.wide)


def text(file, strings, offset, number, utf8=False):
    place, size = strings
    need(offset < size, number)
    stop = file.find(b"\0", place + offset, place + size)
    need(stop >= 0, number)
    if utf8:
        try:
            file[place + offset : stop].decode("utf-8")
        except UnicodeDecodeError:
            raise Refused(number)
    return [place + offset, stop - place - offset]


def quotient(a, b):
    q = abs(a) // abs(b)
    return q if (a < 0) == (b < 0) else -q


def header(b):
    """The least line change, the greatest, and the first line."""
    return b.leb(True), b.leb(True), b.leb() % 2**32


def line_table(block):
    """The header: the least line change, the range and the first line; and the steps of the program."""
    b = Bytes(block, 9)
    low, high, line = header(b)
    span = (high - low + 1 + 2**63) % 2**64 - 2**63
    return low, span, line, steps(b, span)


def steps(b, span):
    """Each opcode with its operand, of a special opcode a, up to opcode 0 or the end of the bytes. A stop is 23, and so
    is an operand that is too wide."""
    b.number = b.wide = 23
    while b.at < len(b.data):
        op = b.fixed(1)
        if op == 0:
            return
        need(op < 4 or span, 23)
        yield op, b.leb(op == 3) if op < 4 else op - 4


def row_of(block, symbol, addr):
    low, span, line, program = line_table(block)
    at, file, made, before = symbol, 1, 0, None
    try:
        for op, operand in program:
            if op == 1:
                file = operand % 2**32
                continue
            if op == 3:
                line = (line + operand) % 2**32
                continue
            if op == 2:
                at = (at + operand) % 2**64
            else:
                q = quotient(operand, span)
                line = (line + low + (operand - q * span)) % 2**32
                at = (at + q) % 2**64
            made += 1
            if addr < at:
                return before
            before = (file, line)
    except Refused:
        pass
    return (file, line) if made else None


def frames_of(block, symbol, addr, room):
    """The frames at an address. Where that is None every node is open, so that all of them are judged."""
    b = Bytes(block, 10)
    frames = []

    def node(base, level, judged):
        count = b.leb()
        if count == 0:
            return False
        need(level <= 64, 13)
        first, opened = None, False
        for _ in range(count):
            start = base + b.leb()
            size = b.leb()
            if judged:
                need(start < 2**64 and start + size < 2**64, 11)
                first = start if first is None else first
                opened = opened or addr is None or start <= addr < start + size
        kids, name, file = b.fixed(1), b.fixed(4), b.leb()
        need(not judged or file < 2**32, 12)
        line = min(b.leb(), 2**32 - 1)
        if opened and name:
            need(len(frames) < room, 14)
            frames.append((name, file, line))
        if kids:
            while node(first if opened else 0, level + 1, opened):
                pass
        return True

    node(symbol, 1, True)
    return frames


class Opened:
    """A file that opens: what its header says, and where its tables stand."""

    def __init__(self, file):
        need(len(file) >= 4, 2)
        need(le(file, 0, 4, 2) == 0x4753594D, 3)
        need(le(file, 4, 2, 2) == 1, 4)
        self.file, self.width, self.base, self.count = file, le(file, 6, 1, 2), le(file, 8, 8, 2), le(file, 16, 4, 2)
        self.strings = le(file, 20, 4, 2), le(file, 24, 4, 2)
        need(len(file) >= 48, 2)
        self.offsets = (48 + self.count * self.width + 3) // 4 * 4
        self.files = self.offsets + 4 * self.count + 4
        self.rows = le(file, self.files - 4, 4, 2)
        need(self.files + 8 * self.rows <= len(file) and sum(self.strings) <= len(file), 2)

    def entry(self, i):
        return le(self.file, 48 + self.width * i, self.width, 2)

    def info(self, i):
        """An entry's size, its name, and where its list starts."""
        at = le(self.file, self.offsets + 4 * i, 4, 2)
        return le(self.file, at, 4, 5), le(self.file, at + 4, 4, 5), at + 8

    def text(self, offset, number, utf8=False):
        return text(self.file, self.strings, offset, number, utf8)

    def items(self, at):
        """A list's items in order, each its type and its bytes. Type 0 is among them where the list ends in it."""
        while at + 4 <= len(self.file):
            kind = le(self.file, at, 4, 2)
            if kind == 0:
                yield 0, b""
                return
            if at + 8 > len(self.file):
                return
            stop = at + 8 + le(self.file, at + 4, 4, 2)
            if stop > len(self.file):
                return
            yield kind, self.file[at + 8 : stop]
            at = stop


def allowed(entries, wanted):
    """The entries that may be chosen: not above what is wanted; the entry before it, if there is one, differs from it;
    the next one that differs from it, if there is one, is above."""
    firsts = [i for i, entry in enumerate(entries) if i == 0 or entries[i - 1] != entry]
    # of two of these in a row the second is the next entry that differs from the first
    above = [wanted < entries[i] for i in firsts[1:]] + [True]
    return [i for i, is_above in zip(firsts, above) if entries[i] <= wanted and is_above]


def lookup(file, addr, opts, room):
    f = Opened(file)
    need(addr >= f.base and f.width in (1, 2, 4, 8) and f.count, 1)
    entries = [f.entry(i) for i in range(f.count)]
    wanted = addr - f.base
    need(entries[0] <= wanted, 1)
    chosen = allowed(entries, wanted)
    assert len(chosen) == 1, "several entries are allowed"
    symbol = f.base + entries[chosen[0]]
    size, name, at = f.info(chosen[0])
    need(size == 0 or addr - symbol < size, 1)
    name = f.text(name, 6, True)
    bare = [symbol, size, *name] + [0] * 7, []
    if not opts & 1:
        return bare
    row, frames = None, []
    for kind, block in f.items(at):
        if kind == 1 and row is None:
            row = row_of(block, symbol, addr)
        if kind == 2 and opts & 2 and not frames:
            frames = frames_of(block, symbol, addr, min(64, room))
    if row is None:
        return bare

    def site(index, line):
        need(index < f.rows, 7)
        at = f.files + 8 * index
        return [*f.text(le(file, at, 4, 2), 8), *f.text(le(file, at + 4, 4, 2), 8), line]

    sites, names = [site(*row)], []
    for i, (offset, index, line) in enumerate(frames):
        names.append(f.text(offset, 6, True))
        if i:
            sites.insert(-1, site(index, line))
    if names:
        name = names[0]
    records = [n + s for n, s in zip(names[1:], sites[1:])]
    return [symbol, size, *name, 1, *sites[0], len(records)], records


def check(file):
    """The number that a check tells, 0 where the file passes, and the entry, 0 where it is none's."""
    i = 0
    try:
        f = Opened(file)
        need(f.width in (1, 2, 4, 8), 20)
        for i in range(f.count):
            check_entry(f, i)
    except Refused as r:
        return r.args[0], i
    return 0, 0


def check_entry(f, i):
    need(i == 0 or f.entry(i) >= f.entry(i - 1), 21)
    symbol = f.base + f.entry(i)
    size, name, at = f.info(i)
    need(symbol + size < 2**64, 22)
    f.text(name, 6, True)
    kind = None
    for kind, block in f.items(at):
        if kind == 1:
            check_line_table(block)
        if kind == 2:
            check_tree(block, symbol)
    need(kind == 0, 24)


def check_line_table(block):
    *_, program = line_table(block)
    for _ in program:
        pass


def check_tree(block, symbol):
    frames_of(block, symbol, None, len(block))  # which has fewer nodes than bytes: there is room for all


def answer(*case):
    try:
        return (0, *lookup(*case))
    except Refused as r:
        return r.args[0], [0] * 11, []


def digest(numbers):
    d = 0
    for x in numbers:
        d = (d * 1000003 + x + 1) % 2**64
    return d


def part(kind, data, p, q, r):
    """A case of crates/reader_cases: its tag and its numbers. Nothing is said of the address of a row."""
    b = Bytes(data, 9)
    try:
        if kind == "H":
            low, high, line = header(b)
            return "v", [low % 2**64, high % 2**64, line, b.at]
        if kind == "L":
            row = row_of(data, p, q)
            return ("v", [None, *row, 0]) if row else ("-", [0] * 4)
        frames = frames_of(data, p, q, min(64, r) if kind == "B" else 64)
        return "v", [len(frames), 0, 0, 0] if kind == "B" else [*frames[r], 0]
    except Refused as refused:
        number = refused.args[0]
        return ("r", [number, 0, 0, 0]) if kind in "BF" else ({9: "s", 15: "w"}[number], [0] * 4)


def parts():
    judged = differ = without = 0
    for line in sys.stdin:
        if line.startswith("#"):
            continue
        kind, data, *words = line.split()
        if kind not in ("B", "F", "H", "L"):
            without += 1
            continue
        p, q, r = (int(w, 16) for w in words[:3])
        tag, numbers = part(kind, b"" if data == "." else bytes.fromhex(data), p, q, r)
        want = [int(w, 16) for w in words[4:]]
        judged += 1
        if tag != words[3] or any(n not in (None, w) for n, w in zip(numbers, want, strict=True)):
            differ += 1
            print(f"{line}  RULES: {tag}", numbers)
    print(f"parts by RULES: {judged} cases, {differ} differ, no answer to {without}")
    return 1 if differ or not judged else 0


def main():
    sys.setrecursionlimit(10000)
    if sys.argv[1:] == ["parts"]:
        return parts()
    file, cases, differ, records = b"", 0, 0, []
    for line in sys.stdin.read().split("\n"):
        kind, words = line[:1], line[2:].split(" ")
        if kind == "@":
            file = b"" if words == ["."] else bytes.fromhex(words[0])
        elif kind == "R":
            same = records and records.pop(0) == [int(w, 16) for w in words]
            differ += not same
        elif kind in ("A", "D"):
            differ += bool(records)
            addr, opts, room, number, *rest = (int(w, 16) for w in words)
            got, numbers, records = answer(file, addr, opts, room)
            cases += 1
            want = rest if kind == "A" else rest[0]
            if kind == "D":
                numbers, records = digest(numbers + sum(records, [])), []
            if (number, want) != (got, numbers):
                differ += 1
                print(f"{line}\n  RULES: {got:x}", numbers)
    print(f"lookups by RULES: {cases} cases, {differ} differ")
    return 1 if differ or records or not cases else 0


if __name__ == "__main__":
    sys.exit(main())
