"""Files for the check of a whole file, each with what docs/RULES.md, "Checking a file", says of it.

A file is described (File, Entry), faults are put into the description, each with a mark of its number, and `told` says
from the marks alone, by the order of that section, what the check has to tell. Nothing here reads a file. The same seed
makes the same files.
"""
import random

TOP = 2**64
HIGH = TOP - 0x10000  # a base from which a symbol's size reaches the end of the addresses
WIDE_U = [b"\x80" * 9 + b"\x02", b"\xff" * 9 + b"\x7f", b"\x80" * 10 + b"\x00"]
WIDE_S = [b"\x80" * 9 + b"\x01", b"\xff" * 9 + b"\x7e", b"\x80" * 9 + b"\x02", b"\xff" * 10 + b"\x7f"]
GOOD_NAMES = [b"", b"main", b"\xc2\x80", b"\xed\x9f\xbf", b"\xf4\x8f\xbf\xbf", b"a b\n\x01"]
NOT_UTF8 = "c080 c1bf e09f80 eda080 f08f8080 f4908080 f5808080 c2 c27f c2c0 e0a0 80"
BAD_NAMES = [bytes.fromhex(x) for x in NOT_UTF8.split()]
BAD_NAMES += [b"main\xff", b"\xe2\x82", b"\xf0\x9f\x98", b"\xfe"]
OPEN_END = b"unended"
STRINGS = b"\0".join([*GOOD_NAMES, *BAD_NAMES, OPEN_END])


def place_of(name):
    return (b"\0" + STRINGS + b"\0").index(b"\0" + name + b"\0")


def u32(n):
    return n.to_bytes(4, "little")


def uleb(n, pad=0):
    out = b""
    while n >= 128 or len(out) < pad:
        out += bytes([n & 127 | 128])
        n >>= 7
    return out + bytes([n])


def sleb(n):
    out = b""
    while not -64 <= n < 64:
        out += bytes([n & 127 | 128])
        n >>= 7
    return out + bytes([n & 127])


def node(*ranges, kids=None, name=1, file=0, line=0):
    """A node with these ranges (offset, size) and kids; a range's and a call's numbers may be given as bytes."""

    def number(n):
        return n if isinstance(n, bytes) else uleb(n)

    body = uleb(len(ranges)) + b"".join(number(n) for one in ranges for n in one)
    body += bytes([kids is not None]) + u32(name) + number(file) + number(line)
    return body if kids is None else body + b"".join(kids) + b"\0"


def chain(levels, last=None, **more):
    """A tree of so many levels, each the one node of the level above; `last` stands below them all."""
    tree = last
    for _ in range(levels):
        tree = node((0, 8), kids=None if tree is None else [tree], **more)
    return tree


def lines(low=-4, high=10, first=100, program=b""):
    return sleb(low) + sleb(high) + uleb(first) + program


PROGRAM = b"\x05\xff\x01\x02\x03\x7f\x02\x05\x40\x03\x80\x7f\x02\xa0\x01\x00"
LINES = lines(program=PROGRAM)
TREE = node(
    (0, 0x20),
    (0x200, 8),
    kids=[
        node((4, 8), name=5, file=1, line=300, kids=[node((0, 4), name=7, file=2, line=20)]),
        node((0x300, 0x81), (1, 2), name=0, file=200, line=5),
    ],
)


class Item:
    """Its type and its bytes, which a function may make of the symbol's address; and its fault, 0 for none."""

    def __init__(self, kind, block, fault=0):
        self.kind, self.block, self.fault = kind, block, fault


class Entry:
    """`addr` is the address less the base, and `end` what follows the items. With `left`, so many bytes of the
    information are left in the file; with `offset`, it is named at that place; with `shares`, it is another entry's."""

    def __init__(self, addr):
        self.addr, self.size, self.name, self.end = addr, 16, place_of(b"main"), bytes(8)
        self.left, self.offset, self.shares = None, None, None
        self.items = [Item(1, LINES), Item(2, TREE)]
        self.faults = set()


class File:
    """`last` is the entry whose list stands behind the others; `cut` says how many bytes of the file are kept, by where
    its tables end; `over` has numbers of the header that are not what they should be."""

    def __init__(self, r, entries=3):
        self.base = r.choice([0, 0x1000, 0xFFFFFFFF81000000, HIGH])
        self.width = r.choice([1, 2, 4, 8])
        self.entries = [Entry(0x10 + 0x20 * i) for i in range(entries)]
        self.magic, self.version, self.strings = 0x4753594D, 1, STRINGS
        self.files = [(0, 0), (0, place_of(b"main")), (1, 2**32 - 1), (len(STRINGS), 3)]
        self.over = {}
        self.last, self.cut, self.strings_last = None, None, r.random() < 0.5
        self.padding, self.uuid, self.gap = r.randbytes(3), r.randbytes(21), r.randbytes(r.choice([0, 0, 1, 7]))
        self.faults = set()
        self.shuffled = r.sample(range(entries), entries)

    def bytes(self):
        count = len(self.entries)
        table = b"".join((e.addr % 256**self.width).to_bytes(self.width, "little") for e in self.entries)
        table += self.padding[: -len(table) % 4]
        files = u32(self.over.get("files", len(self.files))) + b"".join(u32(d) + u32(f) for d, f in self.files)
        at = 48 + len(table) + 4 * count + len(files)
        places, parts = [0] * count, [self.gap]
        strings_at = at + len(self.gap)
        if not self.strings_last:
            parts.append(self.strings)
        at = sum(map(len, parts)) + at
        infos = {}
        for i in sorted(self.shuffled, key=lambda i: (i == self.last, self.entries[i].left is not None)):
            e = self.entries[i]
            symbol = self.base + e.addr
            info = u32(e.size(symbol) if callable(e.size) else e.size) + u32(e.name)
            if e.left is not None:
                infos[i] = info[: e.left]
                continue
            for item in e.items:
                block = item.block(symbol) if callable(item.block) else item.block
                info += u32(item.kind) + u32(len(block)) + block
            info += e.end
            places[i] = at
            parts.append(info)
            at += len(info)
        if self.strings_last:
            strings_at = at
            parts.append(self.strings)
            at += len(self.strings)
        for i, info in infos.items():  # only one can have its own bytes at the end: the lowest
            if i == min(infos):
                parts.append(info)
                at += len(info)
        for i in infos:
            places[i] = at - self.entries[i].left
        for i, e in enumerate(self.entries):
            if e.offset is not None:
                places[i] = e.offset(at)
            if e.shares is not None:
                places[i] = places[e.shares]
        over = self.over.get
        header = self.magic.to_bytes(4, "little") + self.version.to_bytes(2, "little")
        header += bytes([self.width, self.uuid[20]]) + self.base.to_bytes(8, "little") + u32(over("count", count))
        header += u32(over("strings", strings_at)) + u32(over("strings_size", len(self.strings))) + self.uuid[:20]
        whole = header + table + b"".join(map(u32, places)) + files + b"".join(parts)
        self.tables_end = max(strings_at + len(self.strings), 48 + len(table) + 4 * count + len(files))
        return whole if self.cut is None else whole[: self.cut(self.tables_end)]


def told(f, length):
    """What the check has to tell of a described file of this length: its faults by the order of the section."""
    if 3 in f.faults and length >= 4:
        return 3, 0
    if 4 in f.faults and length >= 6:
        return 4, 0
    for number in (2, 20):
        if number in f.faults:
            return number, 0
    for i, e in enumerate(f.entries):
        for number in (21, 5, 22, 6):
            if number in e.faults:
                return number, i
        for item in e.items:
            if item.fault:
                return item.fault, i
        if 24 in e.faults:
            return 24, i
    return 0, 0


# Faults of the tables, by number: what each does to a description. Where it has a second argument, that is the source
# of chance.
def cut_at(f, r):
    f.cut = lambda end: r.randrange(end)


def over(**numbers):
    return lambda f, r: f.over.update(numbers)


def field(name, value):
    return lambda f, r: setattr(f, name, value)


TABLE_FAULTS = {
    2: [cut_at] * 8
    + [over(count=2**32 - 1), over(count=2**20), over(files=2**32 - 1), over(files=2**20), over(strings=2**32 - 1)]
    + [over(strings=2**20), over(strings_size=2**32 - 1), over(strings_size=2**20)]
    + [over(strings=1, strings_size=2**32 - 1)],
    3: [field("magic", 0x4753594D ^ 1 << bit) for bit in range(32)]
    + [field("magic", n) for n in (0, 0x4D595347, 2**32 - 1)],
    4: [field("version", n) for n in (0, 2, 3, 0x100, 0x101, 0xFFFF)],
    20: [field("width", n) for n in (0, 3, *range(5, 8), *range(9, 256))],
}


# Faults of an entry that are no item's, by number: a function of the file, the entry's index and chance.
def falls(f, i, r):
    f.entries[i].addr = f.entries[i - 1].addr - 1


def falls_to_0(f, i, r):
    f.entries[i].addr = 0


def falls_some(f, i, r):
    f.entries[i].addr = r.randrange(f.entries[i - 1].addr) if f.entries[i - 1].addr > 0 else -1


def left(n):
    def put(f, i, r):
        f.entries[i].left = n

    return put


def offset(at):
    def put(f, i, r):
        f.entries[i].offset = at

    return put


def size(above):
    def put(f, i, r):
        f.base, f.entries[i].size = HIGH, lambda symbol: min(TOP + above - symbol, 2**32 - 1)

    return put


def name(place):
    def put(f, i, r):
        f.entries[i].name = place

    return put


def end(tail):
    def put(f, i, r):
        f.entries[i].end = tail

    return put


ENTRY_FAULTS = {
    21: [falls, falls_to_0, falls_some],
    5: [left(n) for n in range(8)]
    + [offset(lambda end: end + 1), offset(lambda end: 2**32 - 1), offset(lambda end: 2**31)],
    22: [size(n) for n in (0, 1, 2, 0x100, 2**32)],
    6: [name(len(STRINGS) + n) for n in (0, 1, 2**31)]
    + [name(2**32 - 1)]
    + [name(len(STRINGS) - n) for n in range(1, len(OPEN_END) + 1)]
    + [name(place_of(n)) for n in BAD_NAMES],
    24: [end(u32(kind) + u32(n)) for kind in (1, 2, 3, 2**32 - 1) for n in (2**32 - 1, 2**20)]
    + [end(u32(kind) + u32(n) + bytes(8)) for kind in (1, 2, 3, 2**32 - 1) for n in (2**32 - 1, 2**20)]
    + [end(u32(2) + u32(2**32 - 1) + node((0, WIDE_U[0])) + bytes(8))],  # what doesn't fit is not judged
}


# Faults of items: their numbers and bytes.
def line_faults():
    header = [b"\x80\x7f", b"\xff\x80\x01", b"\x90\x80\x04"]
    whole = b"".join(header)
    yield from ((9, whole[:n]) for n in range(len(whole)))
    for i in range(3):
        for wide in WIDE_U if i == 2 else WIDE_S:
            yield 15, b"".join([*header[:i], wide, *header[i + 1 :]]) + PROGRAM
        yield 9, b"".join(header[:i]) + b"\x80" * 9
    # a range of 0: plain and wrapped; special opcodes first, after a row, last
    for low, high in ((0, -1), (1, 0), (-5, -6), (-(2**63), 2**63 - 1)):
        for before in (b"", b"\x02\x01", b"\x01\x01\x03\x01"):
            for op in (4, 5, 255):
                yield 23, lines(low, high, 1, before + bytes([op]))
                yield 23, lines(low, high, 1, before + bytes([op, 0]))
    for before in (b"", PROGRAM[:-1]):
        for op in (1, 2, 3):
            for n in range(11):  # cut after n bytes; of eleven the tenth asks for one more than there may be
                yield 23, lines(program=before + bytes([op]) + b"\x80" * n)
            for wide in WIDE_S if op == 3 else WIDE_U:
                yield 23, lines(program=before + bytes([op]) + wide)
                yield 23, lines(program=before + bytes([op]) + wide + b"\0")


def tree_faults():
    """Numbers and trees; a tree may be a function of the symbol's address."""
    yield from ((10, TREE[:n]) for n in range(len(TREE)))
    padded = node((uleb(0, 9), uleb(8, 5)), name=3, file=uleb(5, 9), line=uleb(9, 3), kids=[node((300, 300), file=300)])
    yield from ((10, padded[:n]) for n in range(len(padded)))
    deep = chain(64)
    yield from ((10, deep[:-n]) for n in (1, 2, 3, 62, 63, 64, 65, 70, 100, 300))
    for wide in WIDE_U:
        for bad in (wide, node((wide, 1)), node((1, wide)), node((1, 1), (wide, 1)), node((1, 1), file=wide)):
            for tree in (bad, node((0, 8), kids=[bad]), node((0, 8), kids=[TREE, bad]), chain(5, bad)):
                yield 15, tree + bytes(8)
        yield 15, node((1, 1), line=wide)
        yield 15, chain(64, wide)  # a range count that doesn't read comes before the level
    yield from ((10, chain(64, b"\x80" * n)[:-64]) for n in (0, 1, 9))
    yield 10, uleb(2**63) + bytes(40)
    yield 10, b"\x03\0\1\0\1"

    # sums: `up(x)` is what reaches 2^64 from symbol + x
    def up(x, to=TOP):
        return lambda s: to - s - x

    def under(shape, start):
        """Places for a node whose ranges count from symbol + x: at the root, below it, below a second sibling, ..."""
        yield lambda s: shape(s, 0)
        for first, *others in ([(8, 0)], [(8, 4), (0x100, 4)], [(0x100, 4), (8, 4)], [(0, 0), (9, 9)]):
            x = first[0]
            yield lambda s, f=first, o=others, x=x: node(f, *o, name=0, kids=[shape(s, x)])
            yield lambda s, f=first, o=others, x=x: node(f, *o, kids=[node((3, 1)), TREE, shape(s, x)])
            yield lambda s, f=first, o=others, x=x: node((4, 1), (1, 1), kids=[node(f, *o, kids=[shape(s, x + 4)])])

    starts = [
        lambda s, x: node((up(x)(s), 0)),
        lambda s, x: node((up(x)(s), 0), name=0),
        lambda s, x: node((min(up(x)(s) + 1, TOP - 1), 0)),
        lambda s, x: node((TOP - 1, 1)),
        lambda s, x: node((0, 8), (up(x)(s), 0), (1, 1)),
        lambda s, x: node((0, up(x)(s))),
        lambda s, x: node((0, up(x)(s)), name=0, kids=[]),
        lambda s, x: node((7, up(x)(s) - 7), line=3),
        lambda s, x: node((up(x)(s) - 1, 1)),
        lambda s, x: node((0, TOP - 1)),
        lambda s, x: node((0, 1), (5, up(x)(s) - 5)),
    ]
    for shape in starts:
        yield from ((11, tree) for tree in under(shape, 0))
    for file in (2**32, 2**32 + 1, 2**63, TOP - 1):
        for more in ({"file": file}, {"file": file, "name": 0, "kids": []}, {"file": uleb(file, 9)}):
            bad = node((0, 8), **more)
            for tree in (bad, node((0, 8), kids=[bad]), node((0, 8), kids=[TREE, bad]), chain(63, bad)):
                yield 12, tree
    yield 13, chain(65)
    yield 13, chain(65, name=0)
    yield 13, chain(64, node((100, 1)))
    yield 13, chain(64, b"\x01")  # the level comes before all but the range count
    yield 13, chain(80)
    yield 13, chain(62, node((0, 8)) + chain(3))
    yield 13, node((0, 8), kids=[chain(63), chain(64), node((0, 8), file=2**32)])
    # several in one tree: what comes first in the order inside a node
    yield 13, lambda s: chain(64, node((TOP - 1, TOP - 1), file=2**32))
    yield 10, lambda s: uleb(1) + uleb(up(0)(s))  # the size is read before the start is judged
    yield 15, lambda s: node((up(0)(s), WIDE_U[0]))
    yield 11, lambda s: uleb(2) + uleb(up(0)(s)) + b"\0"
    yield 11, lambda s: uleb(2) + uleb(0) + uleb(up(0)(s)) + WIDE_U[1]
    yield 11, lambda s: uleb(1) + uleb(0) + uleb(up(0)(s))
    yield 11, lambda s: node((0, up(0)(s)), file=WIDE_U[0])
    yield 11, lambda s: node((0, up(0)(s)), file=2**32)
    yield 11, lambda s: node((0, 1), kids=[node((up(0)(s), 0)), node((0, 1), file=2**32)])
    yield 11, lambda s: node((0, 1), kids=[node((0, 1), kids=[node((up(0)(s), 0))]), node((0, 1), file=2**32)])
    yield 12, node((0, 8), file=2**32)[:-1]
    yield 12, node((0, 8), file=2**32, line=WIDE_U[0])
    yield 12, lambda s: node((0, 8), file=2**32, kids=[node((up(0)(s), 0))])
    yield 12, lambda s: node((0, 8), kids=[node((0, 8), file=2**32), node((up(0)(s), 0)), chain(70)])
    yield 12, node((0, 8), kids=[node((0, 8), file=2**32)])[:-1]
    yield 12, node((0, 8), file=2**32, kids=[chain(64)])


# By number: of each item its type, its bytes and its fault. Where a number of a header or a node is too wide that is
# 15, and stands among those whose bytes end too early, 9 and 10.
ITEM_FAULTS = {}
for kind, faults, torn in ((1, line_faults, 9), (2, tree_faults, 10)):
    for number, block in faults():
        ITEM_FAULTS.setdefault(torn if number == 15 else number, []).append((kind, block, number))


# What passes: items, and functions of the file, the entry's index and chance.
def up(x, less=1):
    return lambda s: TOP - less - s - x


GOOD_ITEMS = [
    *((1, lines(program=p)) for p in (b"", b"\0", b"\0\x01\x80", b"\0" + b"\xff" * 9, b"\x01\x05", b"\x03\x7f")),
    (1, lines(program=b"\xff" * 300)),
    (1, lines(0, -1)),  # a range of 0, and no special opcode
    (1, lines(0, -1, 1, b"\x01\x01\x02\x01\x03\x01\x00\x04")),
    (1, lines(0, -3, 1, b"\x07\xff")),
    (1, lines(-(2**63), 2**63 - 2, 1, b"\x07\xff")),
    (1, lines(-(2**63), 0, TOP - 1, b"\x07\xff\x02" + uleb(TOP - 1) + b"\x04")),
    (1, b"\x80" * 9 + b"\x7f" + b"\xff" * 9 + b"\x00" + b"\xff" * 9 + b"\x01"),
    (1, lines(program=b"\x01" + uleb(TOP - 1) + b"\x02" + uleb(TOP - 1) + b"\x02" + uleb(0, 9))),
    (1, lines(program=b"\x03" + b"\x80" * 9 + b"\x7f\x03" + b"\xff" * 9 + b"\0")),
    *((2, tree) for tree in (b"\0", b"\0\xff\xff", uleb(0, 9), TREE + b"\xff\x80", node((0, 0)))),
    (2, node((0, 0), kids=[])),
    (2, chain(64)),
    (2, chain(64, b"\0")),  # ranges of 0 on level 65: the end of a list, and no node
    (2, chain(64, uleb(0, 9))),
    (2, node((0, 8), kids=[chain(63), chain(63, name=0)])),
    (2, node((0, 8), kids=[node((0, 8), name=1 + n) for n in range(200)])),
    (2, node((0, 8), name=2**32 - 1, file=2**32 - 1, line=TOP - 1)),
    (2, node((0, 8), name=len(STRINGS), file=uleb(2**32 - 1, 9), line=2**32)),
    (2, node((0, 8), name=place_of(BAD_NAMES[0]), file=3, kids=[node((0, 8), name=len(STRINGS) - 1)])),
    (2, node(*[(n, 1) for n in range(200)])),
    (2, lambda s: node((up(0)(s), 0))),
    (2, lambda s: node((0, up(0)(s)))),
    (2, lambda s: node((0, 1), (up(3)(s), 3))),
    (2, lambda s: node((8, 4), (0x100, 4), kids=[node((up(8)(s), 0), kids=[node((0, 0))]), node((0, up(8)(s)))])),
    (2, lambda s: node((0x100, 4), (8, 4), kids=[node((up(0x100)(s), 0)), node((1, up(0x101)(s)))])),
    (2, lambda s: node((8, 4), kids=[node((8, 4), (1, 1), kids=[node((up(16)(s), 0)), node((5, up(21)(s)))])])),
    *((kind, garbage) for kind in (3, 4, 5, 256, 257, 2**31, 2**32 - 1) for garbage in (b"", b"\xff" * 9, TREE[:5])),
]


def equal(f, i, r):
    """Equal neighbours pass: an entry as the one before it, or all of them from there on."""
    for e in f.entries[i : r.choice([i + 1, len(f.entries)])]:
        e.addr = f.entries[max(i - 1, 0)].addr
    apart(f)


def apart(f):
    """Entries with sizes and names of their own, as far as the names go round, so that equal ones are told apart."""
    for i, e in enumerate(f.entries):
        e.size, e.name = 16 + i, place_of(GOOD_NAMES[(i + 1) % len(GOOD_NAMES)])


GOOD_ENTRIES = [
    equal,
    *(size(n) for n in (-1, -2, -16)),
    *(name(place_of(n)) for n in GOOD_NAMES),
    name(2),
    *(end(u32(0) + tail) for tail in (u32(2**32 - 1), u32(1), u32(4) + b"\xff" * 4, u32(0) + u32(1) + u32(0))),
    lambda f, i, r: setattr(f.entries[i], "items", []),
    lambda f, i, r: setattr(f.entries[i], "size", 0),
]
GOOD_FILES = [
    *(field("files", [(2**32 - 1, 0)] * n) for n in (0, 1, 5)),
    *(field("width", n) for n in (1, 2, 4, 8)),
    *(field("base", n) for n in (0, 1, 2**32, 2**63, HIGH)),
]


def put_item(f, i, r, kind, block, fault=0):
    e = f.entries[i]
    e.items.insert(r.randint(0, len(e.items)), Item(kind, block, fault))
    return fault


def put(f, i, r, number):
    """A fault of this number by chance, of the file or of its entry i; the number it has (15 among 9 and 10)."""
    if number in TABLE_FAULTS:
        r.choice(TABLE_FAULTS[number])(f, r)
        f.faults.add(number)
    elif number in ENTRY_FAULTS:
        r.choice(ENTRY_FAULTS[number])(f, i, r)
        f.entries[i].faults.add(number)
    else:
        return put_item(f, i, r, *r.choice(ITEM_FAULTS[number]))
    return number


def done(f, what):
    data = f.bytes()
    return data, told(f, len(data)), what


def good(r):
    """Files that pass."""
    for entries in (0, 1, 2, 3, 7):
        for _ in range(20):
            yield done(File(r, entries), f"{entries} entries")
    for change in GOOD_FILES:
        for entries in (0, 3):
            f = File(r, entries)
            change(f, r)
            yield done(f, "tables that pass")
    for i in range(3):
        for change in GOOD_ENTRIES:
            f = File(r)
            change(f, i, r)
            yield done(f, f"entry {i} passes")
        for kind, block in GOOD_ITEMS:
            for at in range(3):
                f = File(r)
                f.entries[i].items.insert(at, Item(kind, block))
                yield done(f, f"an item of type {kind} passes at {i}, {at}")
        # type 0 without its length, at the very end of the file
        f = File(r)
        f.strings_last, f.last, f.entries[i].end = False, i, u32(0)
        yield done(f, f"type 0 ends the file, entry {i}")
    lone = [(0, TOP - 1, 8), (1, TOP - 2, 8), (HIGH, 0xFFFF, 2), (TOP - 1, 0, 1), (0, 0, 1), (TOP - 256, 255, 1)]
    for base, addr, width in lone:
        f = File(r, 1)
        f.base, f.width, f.entries[0].addr, f.entries[0].size, f.entries[0].items = base, width, addr, 0, []
        yield done(f, "base and entry are 2^64-1, or 0")
    yield slow(40, 10), (0, 0), "a shared list"
    yield from runs(r)
    # what no entry names, and what stands behind type 0, may be anything
    for number, blocks in ITEM_FAULTS.items():
        f = File(r)
        t, block, _ = r.choice(blocks)
        block = block(0x1000) if callable(block) else block
        f.entries[1].end = u32(0) + u32(4) + u32(t) + u32(len(block)) + block
        yield done(f, f"{number} behind type 0")


def with_addresses(r, addresses, **fields):
    f = File(r, len(addresses))
    for e, addr in zip(f.entries, addresses):
        e.addr = addr
    apart(f)
    for key, value in fields.items():
        setattr(f, key, value)
    return f


def runs(r):
    """Tables that never fall, with equal entries in a row: they pass."""
    some = [(5, 5), (0, 0), (5, 5, 9), (3, 5, 5), (3, 5, 5, 9), (5, 5, 5), (5, 5, 9, 9)]
    some.append((3, 5, 5, 5, 9, 9, 9, 255, 255))
    for addresses in some:
        for width in (1, 2, 4, 8):
            yield done(with_addresses(r, addresses, width=width), f"equal entries pass: {addresses}, {width} bytes")
    for addr in (0, 1, 0xFF):
        for entries in (2, 3, 40):
            yield done(with_addresses(r, [addr] * entries), f"{entries} entries of {addr} pass")
    last = [(0, TOP - 1, 8), (1, TOP - 2, 8), (HIGH, 0xFFFF, 2), (TOP - 1, 0, 1), (TOP - 256, 255, 1)]
    for base, addr, width in last:
        f = with_addresses(r, [0, addr, addr, addr], base=base, width=width)
        for e in f.entries:
            e.size, e.items = 0, []  # names alone are apart
        yield done(f, f"equal entries at 2^64-1 pass, base {base:#x}")
    for _ in range(200):
        count, few = r.randrange(2, 40), r.choice([1, 2, 3, 10, 200])
        yield done(with_addresses(r, sorted(r.randrange(few) for _ in range(count))), "runs by chance pass")


def shared_child(n):
    return node((8, 1), kids=[node((n, 0))])


def singles(r):
    """Each fault alone, everywhere where it can stand."""
    for number, faults in TABLE_FAULTS.items():
        for change in faults:
            for entries in (0, 1, 3):
                f = File(r, entries)
                change(f, r)
                f.faults.add(number)
                yield done(f, f"{number}, {entries} entries")
    for strings_last in (False, True):  # every cut of header and tables
        f = File(r)
        f.strings_last = strings_last
        whole = f.bytes()
        for n in range(f.tables_end):
            yield whole[:n], (2, 0), "2, cut"
    for number, faults in ENTRY_FAULTS.items():
        for change in faults:
            for entries in (1, 2, 3, 4):
                for i in range(1 if number == 21 else 0, entries):
                    f = File(r, entries)
                    change(f, i, r)
                    f.entries[i].faults.add(number)
                    yield done(f, f"{number} at {i} of {entries}")
    for i in range(3):
        for at in range(3):
            for faults in ITEM_FAULTS.values():
                for kind, block, number in faults:
                    f = File(r)
                    f.entries[i].items.insert(at, Item(kind, block, number))
                    yield done(f, f"{number} at {i}, item {at}")
    for i in range(3):
        # an entry that by itself is above 2^64-1 less the base
        for base, addr in ((1, TOP - 1), (HIGH, 0x10000), (HIGH, TOP - 1), (TOP - 1, 1), (0x1000, TOP - 0x1000)):
            if base + i > TOP:
                continue  # the entry before it would be above, too
            f = File(r, i + 1)
            f.base, f.width = base, 8
            for n, e in enumerate(f.entries):
                e.addr, e.size, e.items = n, 0, []
            f.entries[i].addr = addr
            f.entries[i].faults.add(22)
            yield done(f, f"22 by the entry alone, at {i}")
        f = File(r, i + 1)
        f.base, f.width, f.entries[i].addr, f.entries[i].size = 0, 8, TOP - 1, 1
        f.entries[i].faults.add(22)
        yield done(f, f"22 from base 0, at {i}")
        # information and a list that the end of the file tears, at each byte
        f = File(r)
        f.strings_last, f.last = False, i
        f.entries[i].end = u32(0)
        whole = f.bytes()
        f.entries[i].items, f.entries[i].end = [], b""
        start = len(f.bytes())
        for n in range(start - 8, len(whole)):
            yield whole[:n], (5 if n < start else 24, i), f"list of entry {i} torn"
        for kind, block in ((3, b"xyz"), (1, LINES), (2, TREE), (2, TREE[:3]), (1, b"")):
            for short in (1, 2, 3, 2**20):
                f = File(r)
                f.strings_last, f.last = False, i
                f.entries[i].end = u32(kind) + u32(len(block) + short) + block
                f.entries[i].faults.add(24)
                yield done(f, f"an item of entry {i} is {short} bytes longer than the file")
        # a list that both share and that is faulty for the later one alone
        for fits, block in ((up(0), lambda n: node((n, 0))), (up(7), lambda n: node((7, n))), (up(8), shared_child)):
            f = File(r, 4)
            a, b = f.entries[i], f.entries[i + 1]
            a.items.append(Item(2, lambda s, fits=fits, block=block: block(fits(s))))
            b.shares, b.items = i, [Item(2, b"", 11)]
            yield done(f, f"11 at {i + 1} in a list of {i}")
    # an entry is judged against the one before it; the first that falls is told
    falling = [((1, 0), 1), ((5, 3, 5), 1), ((5, 3, 3), 1), ((5, 3, 4), 1), ((5, 5, 3), 2), ((5, 5, 4), 2)]
    falling += [((3, 5, 3), 2), ((5, 5, 3, 3, 5), 2), ((255, 255, 254), 2), ((3, 5, 5, 3), 3), ((0, 0, 1, 0), 3)]
    falling += [((5, 5, 5, 4, 9, 8), 3), ((3, 3, 3, 2, 2, 2, 3), 3), ((0, 1, 1, 2, 2, 1, 1), 5)]
    for addresses, i in falling:
        for width in (1, 2, 4, 8):
            f = with_addresses(r, addresses, width=width)
            f.entries[i].faults.add(21)
            yield done(f, f"entries fall: {addresses}, {width} bytes")
    # the other faults in an entry that is equal to the one before it
    for number in (*ENTRY_FAULTS, *ITEM_FAULTS):
        for i in (1, 2):
            for _ in range(3 if number != 21 else 0):
                f = File(r)
                f.entries[i].addr = f.entries[i - 1].addr
                apart(f)
                told_as = put(f, i, r, number)
                yield done(f, f"{told_as} at {i}, which is equal to the one before it")
    # falls in long tables with runs: the first is told, and entries rise again behind it
    for _ in range(300):
        f = File(r, r.randrange(2, 40))
        f.width = r.choice([2, 4, 8])
        for e in f.entries:
            e.items = []
        falls_at = []
        while not falls_at:
            for _ in range(r.randrange(1, 4)):
                i = r.randrange(1, len(f.entries))
                f.entries[i].addr = max(0, f.entries[i - 1].addr - r.choice([0, 0, 1, 0x20, 0x40, 2**20]))
            falls_at = [n for n in range(1, len(f.entries)) if f.entries[n].addr < f.entries[n - 1].addr]
        for n in falls_at:
            f.entries[n].faults.add(21)
        yield done(f, "falls in a long table")


# 15 is met among 9 and 10, and by `wide` in each place
NUMBERS = [*TABLE_FAULTS, *ENTRY_FAULTS, *ITEM_FAULTS]


def pairs(r, times=3):
    """Each two faults in one file: in one entry, and in two, either way round. Of the header every cut."""
    for faults in ([3], [4], [20], [3, 4], [3, 20], [4, 20], [3, 4, 20]):
        for n in range(56):
            f = File(r)
            for number in faults:
                put(f, 0, r, number)
            f.cut = lambda end, n=n: n
            f.faults.add(2)
            yield done(f, f"{faults}, {n} bytes")
    for a in NUMBERS:
        for b in NUMBERS:
            places = [(i, j) for i in range(3) for j in range(3)]
            if a in TABLE_FAULTS and b in TABLE_FAULTS:
                places = [(0, 0)] * 3
            elif a in TABLE_FAULTS or b in TABLE_FAULTS:
                places = [(i, i) for i in range(3)]
            for i, j in places:
                if (a == 21 and i == 0) or (b == 21 and j == 0):
                    continue
                for _ in range(times):
                    f = File(r)
                    first, second = put(f, i, r, a), put(f, j, r, b)
                    yield done(f, f"{first} at {i} and {second} at {j}")


# A number's places: what it is called, the bytes before it, the bytes behind it, whether it is signed.
def line_places():
    low, high, first, rest = sleb(-4), sleb(10), uleb(100), PROGRAM
    yield "min", b"", high + first + rest, True
    yield "max", low, first + rest, True
    yield "first line", low + high, rest, False


def node_places():
    parts = [uleb(2), uleb(3), uleb(5), uleb(0x40), uleb(8), b"\0" + u32(1), uleb(2), uleb(300)]
    names = ["range count", "offset", "size", "second offset", "second size", None, "call file", "call line"]
    for i, name in enumerate(names):
        if name:
            yield name, b"".join(parts[:i]), b"".join(parts[i + 1 :]), False


# What a node may stand in, as what is before it and what is behind it: nothing; an open root; a root far from any
# address, which a check judges as well, and below it; 62 levels, and a sibling.
ABOVE = {
    "a root": (b"", b""),
    "a child": (node((0, 8), kids=[])[:-1], b"\0"),
    "a child of a far node": (node((0x1000, 8), kids=[])[:-1], b"\0"),
    "a grandchild of a far node": (node((0x1000, 8), kids=[])[:-1] + node((9, 1), kids=[])[:-1], b"\0\0"),
    "a second child": (node((0, 8), kids=[])[:-1] + TREE, b"\0"),
    "level 64": (node((0, 8), kids=[])[:-1] * 63, b"\0" * 63),
}


def all_places():
    """Items' numbers: the item's type, what the number is called, the bytes before it and behind it, its sign."""
    for name, before, behind, signed in line_places():
        yield 1, f"the {name}", before, behind, signed
    for above, (start, end) in ABOVE.items():
        for name, before, behind, signed in node_places():
            yield 2, f"the {name} of {above}", start + before, behind + end, signed


def wide_numbers(signed):
    """Ten bytes that are too wide: at the edges of what fits, above, and where the tenth asks for another."""
    lasts = (0x01, 0x02, 0x3F, 0x40, 0x7D, 0x7E) if signed else (0x02, 0x03, 0x3F, 0x40, 0x7E, 0x7F)
    for fill in (b"\x80", b"\xff"):
        yield from (fill * 9 + bytes([last]) for last in lasts)
        yield from (fill * 9 + bytes([last]) for last in (0x80, 0x81, 0xFF))


def fitting_numbers(signed):
    """Ten bytes that fit: what is padding alone, and the largest and the lowest numbers."""
    for fill in (b"\x80", b"\xff"):
        yield from (fill * 9 + bytes([last]) for last in ((0x00, 0x7F) if signed else (0x00, 0x01)))


def item_in(r, i, kind, block, fault):
    f = File(r)
    put_item(f, i, r, kind, block, fault)
    return f


def wide(r):
    """A number of ten bytes in each place of a header and of a node: too wide, which is 15, with its rest and without;
    cut, which is short; one that fits. And what comes first: beside other numbers of a node, and each other fault."""
    for kind, name, before, behind, signed in all_places():
        for i in range(3):
            for number in wide_numbers(signed):
                yield done(item_in(r, i, kind, before + number + behind, 15), f"15: {name}")
                yield done(item_in(r, i, kind, before + number, 15), f"15: {name}, which ends the item")
            for fill in (b"\x80", b"\xff"):
                for n in range(10):
                    short = item_in(r, i, kind, before + fill * n, 9 if kind == 1 else 10)
                    yield done(short, f"{'nine' if n == 9 else 'fewer'} bytes and the end: {name}")
    for name, before, behind, signed in line_places():
        for number in fitting_numbers(signed):
            yield done(item_in(r, 1, 1, before + number + b"".join([behind[:-len(PROGRAM)], b"\0"]), 0), f"{name} fits")
    for above, (start, end) in ABOVE.items():
        for name, before, behind, _ in node_places():
            value = {"range count": 2, "offset": 3, "size": 5}.get(name, 0)
            number = bytes([0x80 | value]) + b"\x80" * 8 + b"\0"
            yield done(item_in(r, 1, 2, start + before + number + behind + end, 0), f"the {name} of {above} fits")
    ten = b"\x80" * 10
    past = lambda s: uleb(TOP - s)
    for what, number, block in (
        ("the range count of level 65", 15, chain(64, ten)),
        ("the offset on level 65", 13, chain(64, b"\1" + ten)),
        ("the size, and the start is above", 15, lambda s: b"\1" + past(s) + ten),
        ("the second offset, and the first start is above", 11, lambda s: b"\2" + past(s) + b"\0" + ten),
        ("the second offset, and the first end is above", 11, lambda s: b"\2\0" + past(s) + ten),
        ("the second size, and the second start is above", 15, lambda s: b"\2\0\1" + past(s) + ten),
        ("the call file, and an end is above", 11, lambda s: node((0, TOP - s), file=ten)),
        ("the call line, and the call file is above the limit", 12, node((0, 8), file=2**32, line=ten)),
        ("the call line, and the call file is the limit", 15, node((0, 8), file=2**32 - 1, line=ten)),
        ("the call file, and the call line too", 15, node((0, 8), file=ten, line=ten)),
        ("the range count of a child, and the call file of the next is above", 15,
         node((0, 8), kids=[ten, node((0, 8), file=2**32)])),
        ("the call file of a child, and that of the one before is above", 12,
         node((0, 8), kids=[node((0, 8), file=2**32), node((0, 8), file=ten)])),
        ("the call file, and the end of the bytes before it", 10, node((0, 8), file=ten)[:7]),
        ("behind the end of the root", 0, node((0, 8)) + ten),
        ("behind an empty root", 0, b"\0" + ten),
    ):
        for i in range(3):
            yield done(item_in(r, i, 2, block, number), f"{number}: too wide {what}")
    for what, number, block in (
        ("max, and min is cut", 9, b"\x80"),
        ("min, and the end", 15, ten),
        ("max, and the first line is cut", 15, b"\0" + ten + b"\x80"),
        ("the first operand", 23, lines(program=b"\1" + ten)),
        ("behind opcode 0", 0, lines(program=b"\0" + ten)),
    ):
        for i in range(3):
            yield done(item_in(r, i, 1, block, number), f"{number}: too wide {what}")
    yield from wide_pairs(r)


def wide_pairs(r):
    """15 and each other fault in one file, either way round."""
    faults = {number: blocks for number, blocks in ITEM_FAULTS.items() if number not in (9, 10)}
    for number in (9, 10, 15):
        faults[number] = [fault for torn in (9, 10) for fault in ITEM_FAULTS[torn] if fault[2] == number]
    for number in (*NUMBERS, 15):
        for i in range(3):
            for j in range(1 if number == 21 else 0, 3):
                for is_first in (False, True):
                    f = File(r)
                    if is_first:
                        put_item(f, i, r, *r.choice(faults[15]))
                    if number in faults:
                        put_item(f, j, r, *r.choice(faults[number]))
                    else:
                        put(f, j, r, number)
                    if not is_first:
                        put_item(f, i, r, *r.choice(faults[15]))
                    pair = [f"15 at {i}", f"{number} at {j}"]
                    yield done(f, " and ".join(pair if is_first else pair[::-1]))


def mixed(r):
    """A file with any number of faults and of things that pass."""
    f = File(r, r.choice([1, 2, 3, 3, 5]))
    for _ in range(r.randrange(4)):
        i = r.randrange(len(f.entries))
        r.choice(GOOD_ENTRIES)(f, i, r)
    for _ in range(r.randrange(4)):
        put_item(f, r.randrange(len(f.entries)), r, *r.choice(GOOD_ITEMS))
    for _ in range(r.choice([0, 0, 1, 2, 3])):
        number = r.choice(NUMBERS)
        if number in TABLE_FAULTS and r.random() < 0.8:
            continue
        i = r.randrange(number == 21, max(len(f.entries), 2))
        if i < len(f.entries):
            put(f, i, r, number)
    return f.bytes()


def mutated(r, data):
    """A file with some of its bytes changed, taken out, doubled, or cut off."""
    data = bytearray(data)
    for _ in range(r.choice([1, 1, 2, 3, 8])):
        if not data:
            break
        at, way = r.randrange(len(data)), r.randrange(8)
        if way < 5:
            data[at] = r.choice([0, 1, 2, 0x7F, 0x80, 0xFF, data[at] ^ 1 << r.randrange(8), r.randrange(256)])
        elif way == 5:
            del data[at : at + r.choice([1, 1, 4, 8])]
        elif way == 6:
            data[at:at] = data[at : at + r.choice([1, 4, 8])]
        elif r.random() < 0.3:
            del data[at:]
    return bytes(data)


def slow(entries, room):
    """A file that passes, of entries that all name one list of about `room` bytes."""
    f = File(random.Random(0), 1)
    f.base, f.width, f.strings_last = 0, 4, False
    f.entries[0].items = [Item(1, lines(program=b"\x05" * room))]
    f.entries += [Entry(0x100 + i) for i in range(entries - 1)]
    for e in f.entries[1:]:
        e.shares = 0
    return f.bytes()
