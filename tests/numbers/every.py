#!/usr/bin/env python3
"""Numbers of ten bytes in every place where one stands, by the shared library: `every.py LIBRARY`.

In each number of a node, of a line header and of a line program stand numbers that fit, that are too wide and that are
cut after 0 to 9 bytes. What has to come of it is said here from what the number is (docs/RULES.md, "LEB128", "Line
table", "Inline tree", "Checking a file"): nothing here takes a number apart. So each answer has three opinions: by this
page, by the model (tests/vectors/lookup_model.py), and the library's. Prints one line of what was done, and before it
what differs, of each kind the first.
"""
import collections
import ctypes
import pathlib
import sys

TOP_FOLDER = pathlib.Path(__file__).resolve().parents[2]
sys.path[:0] = [str(TOP_FOLDER / "tests" / folder) for folder in ("vectors", "check", "differences")]
import judge  # noqa: E402
import lookup_model as model  # noqa: E402
import shape  # noqa: E402

TOP = 2**64
SYMBOL = 0x1000
SHORT, WIDE = "short", "too wide"
SEEN = collections.Counter()
WRONG = {}


class InlineFrame(ctypes.Structure):
    _fields_ = [("name", ctypes.c_uint32), ("call_file", ctypes.c_uint32), ("call_line", ctypes.c_uint32)]


class Listed(ctypes.Structure):
    _fields_ = [("count", ctypes.c_uint64), ("number", ctypes.c_uint32)]


class Library(judge.Library):
    """The same, asked for the frames of single blocks too."""

    def __init__(self, path):
        super().__init__(path)
        self.listed = self.all.gsym_block_frames_2
        self.listed.restype = Listed
        self.listed.argtypes = [ctypes.c_char_p, ctypes.c_size_t, ctypes.c_uint64, ctypes.c_uint64]
        self.listed.argtypes += [ctypes.c_void_p, ctypes.c_size_t]
        self.inline_frames = (InlineFrame * 64)()

    def block(self, data, symbol, addr, room, length=None):
        """The refusal's number and the frames."""
        told = self.listed(data, len(data) if length is None else length, symbol, addr, self.inline_frames, room)
        frames = self.inline_frames[: told.count]
        return told.number, [(f.name, f.call_file, f.call_line) for f in frames]


def differs(kind, what, data):
    SEEN["differ"] += 1
    WRONG.setdefault(kind, f"{kind}: {what}: {data.hex()}")


# ---- numbers: their bytes, and what they are: SHORT, WIDE or a value


def tenth(low, last):
    """Nine bytes that ask for another, and one."""
    return bytes([low]) * 9 + bytes([last])


def padded(value):
    """A number from 0 to 63 in ten bytes."""
    return bytes([0x80 | value]) + b"\x80" * 8 + b"\0"


def asking():
    """Ten bytes that all ask for another, ten zero digits among them."""
    yield from ((tenth(low, last), WIDE) for low in (0x80, 0xFF) for last in (0x80, 0x81, 0xC0, 0xFF))


def unsigned():
    yield from [(tenth(0x80, 0), 0), (tenth(0x80, 1), 2**63), (tenth(0xFF, 0), 2**63 - 1), (tenth(0xFF, 1), TOP - 1)]
    yield from ((tenth(low, last), WIDE) for low in (0x80, 0xFF) for last in (2, 3, 4, 0x3F, 0x40, 0x7E, 0x7F))
    yield from asking()


def signed():
    yield from [(tenth(0x80, 0), 0), (tenth(0xFF, 0), 2**63 - 1)]
    yield from [(tenth(0x80, 0x7F), -(2**63)), (tenth(0xFF, 0x7F), -1)]
    yield from ((tenth(low, last), WIDE) for low in (0x80, 0xFF) for last in (1, 2, 0x3F, 0x40, 0x7D, 0x7E))
    yield from asking()


def of_nine_and_one(last, is_signed):
    """Whether nine bytes that ask for another and this one are a number."""
    return last in (0, 0x7F) if is_signed else last in (0, 1)


# ---- a node of two ranges with one number in other bytes

FIELDS = ("range count", "offset", "size", "second offset", "second size", "call file", "call line")
USUAL = (2, 3, 5, 0x40, 8, 1, 9)
NAME = shape.at("leaf")


def node_bytes(place, number):
    """What stands before that number, and what stands behind it."""
    parts = [bytes([n]) for n in USUAL]
    parts.insert(5, b"\0" + shape.u32(NAME))  # the children byte and the name
    at = place + (place > 4)
    return b"".join(parts[:at]) + number, b"".join(parts[at + 1 :])


def above(first, kids):
    """A node without a name that begins at `first`, and has children."""
    return shape.node([(first, 0x60)], 0, (0, 0), kids)[:-1]


class Position:
    """Where the node stands: the bytes before it; its level, and so the ends of lists behind it; from where its offsets
    count; the address that is asked for; whether it is judged there, else it is passed over."""

    def __init__(self, name, before, level, base=0, addr=4, judged=True):
        self.name, self.before, self.behind, self.level = name, before, b"\0" * (level - 1), level
        self.base, self.addr, self.judged = base, addr, judged


ROOT, FAR = above(0, []), above(0x80, [])
POSITIONS = [
    Position("the root", b"", 1),
    Position("the root, closed", b"", 1, addr=0x20),
    Position("a child", ROOT, 2),
    Position("a closed child", ROOT, 2, addr=0x20),
    Position("a second child", ROOT + shape.node([(0, 1)], 0, (0, 0)), 2),
    Position("below a closed root", FAR, 2, base=0x80, judged=False),
    Position("two below a closed root", FAR + above(1, []), 3, base=0x81, judged=False),
    Position("on level 64", ROOT * 63, 64),
    Position("on level 65", ROOT * 64, 65),
    Position("below a closed root, on level 65", FAR + ROOT * 63, 65, base=0x80, judged=False),
]


def of_node(p, place, is_now, is_whole, addr, room):
    """The refusal's number, or the frames, by "Inline tree"; without an address as in a check. All is there, or only
    what stands up to the number."""
    judged, level = p.judged or addr is None, p.level
    if level == 65 and place > 0:
        return 13
    if is_now in (SHORT, WIDE):
        return 10 if is_now == SHORT else 15
    values = [*USUAL]
    values[place] = is_now
    count, *numbers, file, line = values
    if count == 0:  # an empty tree, or the end of a list; below level 2 the ends of others are behind it
        return [] if level < 3 or is_whole else 10
    if level == 65:
        return 13
    if count > 2:  # more ranges than bytes
        return 10
    there = 6 if is_whole else place
    base, opened = SYMBOL + p.base, False
    for at in (1, 3):
        if there < at + 1:
            return 10
        start = base + numbers[at - 1]
        end = start + numbers[at]
        if judged and end >= TOP:
            return 11
        opened = opened or (p.judged and addr is not None and start <= addr < end)
    if there < 5:
        return 10
    if judged and file >= 2**32:
        return 12
    if there < 6:
        return 10
    if opened and room == 0:
        return 14
    if not is_whole and level > 1:  # the lists above don't end
        return 10
    return [(NAME, file, min(line, 2**32 - 1))] if opened else []


class Judge:
    def __init__(self, library):
        self.library = library

    def block(self, data, p, want, room, what, length=None):
        """A single block; its answer."""
        SEEN["blocks"] += 1
        addr = SYMBOL + p.addr
        got = self.library.block(data, SYMBOL, addr, room, length)
        try:
            by_model = 0, model.frames_of(data if length is None else data[:length], SYMBOL, addr, room)
        except model.Refused as refused:
            by_model = refused.args[0], []
        stated = (0, want) if isinstance(want, list) else (want, [])
        if got != by_model or want is not None and got != stated:
            said = "" if want is None else f", by RULES {stated}"
            differs("a block", f"{what}, room {room}: model {by_model}, library {got}{said}", data[:length])
        return got

    def lookup(self, data, addr, opts, room, want, what):
        """A lookup: `want` is a refusal's number, or of the answer whether there is a position, its line, the name and
        the number of records."""
        SEEN["lookups"] += 1
        got = self.library.lookup(data, addr, opts, room)
        number, numbers, _ = model.answer(data, addr, opts, room)
        told = got.number
        if got.number == 0:
            place, length = got.texts[0], got.texts[1]
            told = got.has_code, got.line, data[place : place + length], got.count
        if (got.number, got.numbers()) != (number, numbers) or want is not None and told != want:
            said = "" if want is None else f", by RULES {want}"
            differs("a lookup", f"{what}, options {opts}: model {number} {numbers}, library {told}{said}", data)
        SEEN[f"{got.number} by a lookup"] += 1
        return got.number

    def check(self, data, want, what):
        SEEN["checks"] += 1
        got, by_model = self.library.check(data), model.check(data)
        if got != by_model or want is not None and got != (want, 0):
            said = "" if want is None else f", by RULES {want}"
            differs("a check", f"{what}: model {by_model}, library {got}{said}", data)
        return got[0]


# ---- nodes


def tree(judged, p, place, number, is_now, is_whole, what):
    front, rest = node_bytes(place, number)
    block = p.before + front + (rest + p.behind if is_whole else b"")
    addr = SYMBOL + p.addr
    for room in (64, 0):
        want = of_node(p, place, is_now, is_whole, addr, room)
        got = judged.block(block, p, want, room, what)
        if is_whole and room:
            prefixes(judged, block, p, got, what)
    data = shape.one(shape.ROW, shape.item(2, block), shape.END)
    for opts in range(4):
        if opts == 3:
            want = of_node(p, place, is_now, is_whole, addr, 64)
            want = (1, 5, b"leaf" if want else b"main", 0) if isinstance(want, list) else want
        else:
            want = (1, 5, b"main", 0) if opts == 1 else (0, 0, b"main", 0)
        judged.lookup(data, addr, opts, 64, want, what)
    want = of_node(p, place, is_now, is_whole, None, 64)
    judged.check(data, 0 if isinstance(want, list) else want, what)


def prefixes(judged, block, p, whole, what):
    """A block that is cut is refused with 10, or has what the whole one has: 15 only where that has it."""
    for length in range(len(block)):
        SEEN["prefixes"] += 1
        got = judged.library.block(block, SYMBOL, SYMBOL + p.addr, 64, length)
        if got not in ((10, []), whole):
            differs("a prefix", f"{length} bytes, {what}: {got}, and the whole has {whole}", block)


def nodes(judged):
    for p in POSITIONS:
        for place, field in enumerate(FIELDS):
            usual = [(padded(USUAL[place]), USUAL[place]), (bytes([USUAL[place]]), USUAL[place])]
            for number, is_now in (*unsigned(), *usual):
                what = f"the {field} of {p.name}, {number.hex()}, {is_now}"
                SEEN["numbers"] += 1
                # where the end of a list is more than the end of the tree, what follows it is another node
                is_end = place == 0 and is_now == 0 and p.level > 1
                for is_whole in (False, True):
                    if is_whole and is_end:
                        front, _ = node_bytes(place, number)
                        judged.block(p.before + front + p.behind[1:], p, [], 64, what)
                    else:
                        tree(judged, p, place, number, is_now, is_whole, what)
                if len(number) < 10:
                    continue
                for left in range(10):
                    told = f"{what}, cut to {left} bytes"
                    tree(judged, p, place, number[:left], SHORT, False, told)
                    spliced(judged, p, place, number[:left], told)


def spliced(judged, p, place, start, what):
    """What follows a cut number, bytes that each end a number, belongs to it: behind nine bytes the first of them is
    the tenth, and behind fewer no number is too wide."""
    front, rest = node_bytes(place, start)
    behind = rest + p.behind
    if not behind:
        return
    got, _ = judged.block(p.before + front + behind, p, None, 64, what)
    is_wide = len(start) == 9 and not of_nine_and_one(behind[0], False) and not (p.level == 65 and place > 0)
    if (got == 15) != is_wide:
        differs("a spliced number", f"{what} and the rest: {got}", p.before + front + behind)


# ---- line headers and operands

PROGRAM = b"\x02\0\0"  # a row at the symbol's start, and the end
HEADER = (("min", 1), ("max", 9), ("first line", 5))


def table(judged, block, want, check, what, numbers=()):
    """A lookup with code info and with both; without code info nothing of it is read."""
    data = shape.one(shape.lines(block, b""), shape.END)
    got = judged.lookup(data, SYMBOL, 1, 0, want, what)
    judged.lookup(data, SYMBOL, 3, 64, want, what)
    for opts in (0, 2):
        judged.lookup(data, SYMBOL, opts, 64, (0, 0, b"main", 0), what)
    judged.check(data, check, what)
    if numbers and got not in numbers:
        differs("a line table", f"{what}: {got}, not of {numbers}", block)
    return got


def of_header(place, is_now, is_whole):
    """The answer or the refusal of a lookup, by "Line table", and what a check finds."""
    if is_now == SHORT or (not is_whole and place < 2 and is_now != WIDE):
        return 9, 9
    if is_now == WIDE:
        return 15, 15
    line = (is_now if place == 2 else 5) % 2**32
    return ((1, line, b"main", 0) if is_whole else (0, 0, b"main", 0)), 0


def headers(judged):
    for place, (field, value) in enumerate(HEADER):
        before, rest = bytes([1, 9, 5])[:place], bytes([1, 9, 5])[place + 1 :] + PROGRAM
        numbers = signed() if place < 2 else unsigned()
        for number, is_now in (*numbers, (padded(value), value), (bytes([value]), value)):
            what = f"the {field}, {number.hex()}, {is_now}"
            SEEN["numbers"] += 1
            for is_whole in (False, True):
                block = before + number + (rest if is_whole else b"")
                whole = table(judged, block, *of_header(place, is_now, is_whole), what)
            for length in range(len(block)):  # no cut is too wide where the whole isn't
                table(judged, block[:length], None, None, f"{what}, {length} bytes", {9, 0, whole})
            for left in range(10 if len(number) == 10 else 0):
                told = f"{what}, cut to {left} bytes"
                table(judged, before + number[:left], 9, 9, told)
                got = table(judged, before + number[:left] + rest, None, None, told)
                is_wide = left == 9 and not of_nine_and_one(rest[0], place < 2)
                if (got == 15) != is_wide:
                    differs("a spliced number", f"{told} and the rest: {got}", block)


def of_operand(op, is_now):
    """The answer of a lookup at the symbol's start, behind a row of file 1 and line 5 there, and what a check finds: a
    number that doesn't read ends the program, short or too wide."""
    if is_now in (SHORT, WIDE):
        return (1, 5, b"main", 0), 23
    if op == 1 and is_now % 2**32 >= len(shape.FILES):
        return 7, 0
    return (1, (5 + is_now) % 2**32 if op == 3 else 5, b"main", 0), 0


def operands(judged):
    for op in (1, 2, 3):
        for number, is_now in (*(signed() if op == 3 else unsigned()), (padded(1), 1), (b"\1", 1)):
            before = bytes([1, 9, 5, 2, 0, op])
            what = f"the operand of {op}, {number.hex()}, {is_now}"
            SEEN["numbers"] += 1
            for rest in (b"", b"\0", b"\0" + b"\x80" * 10):
                table(judged, before + number + rest, *of_operand(op, is_now), what)
            for left in range(10 if len(number) == 10 else 0):
                table(judged, before + number[:left], *of_operand(op, SHORT), f"{what}, cut to {left} bytes")


def main():
    sys.setrecursionlimit(10000)
    judged = Judge(Library(sys.argv[1]))
    nodes(judged)
    headers(judged)
    operands(judged)
    s = SEEN
    never = [number for number in (0, 7, 9, 10, 11, 12, 13, 15) if not s[f"{number} by a lookup"]]
    if never:
        WRONG["numbers"] = f"never given by a lookup: {never}"
    for what in WRONG.values():
        print(f"tests/numbers: {what}", file=sys.stderr)
    places = len(POSITIONS) * len(FIELDS) + len(HEADER) + 3
    said = f"{s['numbers']:,} numbers in {places} places, whole and cut: {s['blocks']:,} blocks, {s['prefixes']:,} of"
    said += f" their prefixes, {s['lookups']:,} lookups ({s['15 by a lookup']:,} refused with 15) and"
    print(f"tests/numbers: {said} {s['checks']:,} checks: {s['differ']:,} differ")
    return 1 if WRONG else 0


if __name__ == "__main__":
    sys.exit(main())
