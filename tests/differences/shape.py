"""Small GSYM files from readable descriptions: one string table and one file table for all but a few cases."""

WORDS = ["", "main", "outer", "inner", "leaf", "/src", "a.c", "/lib", "b.c"]
TABLE = b"".join(word.encode() + b"\0" for word in WORDS)


def at(word):
    """The offset of a string in the table."""
    return TABLE.index(b"\0" + word.encode() + b"\0") + 1 if word else 0


# file 0 is empty, as LLVM writes it; 3 has a directory outside the string table
FILES = [(0, 0), (at("/src"), at("a.c")), (at("/lib"), at("b.c")), (0x1000, at("a.c"))]


def uleb(value, pad=0):
    out = b""
    while value >= 128 or len(out) < pad - 1:
        out += bytes([value & 127 | 128])
        value >>= 7
    return out + bytes([value])


def u32(value, order="little"):
    return value.to_bytes(4, order)


def item(kind, block, order="little"):
    return u32(kind, order) + u32(len(block), order) + block


END = item(0, b"")


def info(size, name, *items, order="little"):
    """What stands at a data offset: size, name, and items as they are."""
    return u32(size, order) + u32(name if isinstance(name, int) else at(name), order) + b"".join(items)


def gsym(
    entries,
    base=0x1000,
    width=1,
    count=None,
    files=FILES,
    strings=TABLE,
    uuid=20,
    magic=0x4753594D,
    version=1,
    order="little",
):
    """A whole file. An entry is its offset from the base and what stands at its data offset."""
    n = len(entries)
    start = (48 + n * width + 3) // 4 * 4
    places, data = [], b""
    strings_at = start + 4 * n + 4 + 8 * len(files)
    for _, block in entries:
        data += bytes(-(strings_at + len(strings) + len(data)) % 4)
        places.append(strings_at + len(strings) + len(data))
        data += block
    head = u32(magic, order) + version.to_bytes(2, order) + bytes([width, uuid]) + base.to_bytes(8, order)
    head += u32(n if count is None else count, order) + u32(strings_at, order) + u32(len(strings), order) + bytes(20)
    table = b"".join(offset.to_bytes(width, order) for offset, _ in entries)
    out = head + table + bytes(-len(table) % 4) + b"".join(u32(p, order) for p in places)
    out += u32(len(files), order) + b"".join(u32(d, order) + u32(f, order) for d, f in files)
    return out + strings + data


def one(*items, size=0x40, name="main", **rest):
    """One symbol at 0x1000, with these items."""
    return gsym([(0, info(size, name, *items))], **rest)


def lines(program, header=b"\0\0\5"):
    """A line table: min, max and first line as bytes (0, 0 and line 5), then the program."""
    return item(1, header + program)


# one row, at the symbol: file 1, line 5
ROW = lines(b"\2\0\0")


def node(ranges, name, call=(0, 0), kids=None):
    """A node of the inline tree as bytes. Numbers may be given as bytes, where the encoding matters."""
    number = lambda v: v if isinstance(v, bytes) else uleb(v)
    out = uleb(len(ranges)) + b"".join(number(start) + number(size) for start, size in ranges)
    out += bytes([kids is not None]) + u32(at(name) if isinstance(name, str) else name)
    out += number(call[0]) + number(call[1])
    return out + b"".join(kids or []) + (b"\0" if kids is not None else b"")


ALL = [(0, 0x40)]


def tree(*kids, ranges=ALL, name="main", call=(0, 0)):
    """An inline block: a root of the symbol's name and range with these children."""
    return item(2, node(ranges, name, call, list(kids)))


def call(name, line, file=1, kids=None):
    """A child of its parent's whole range, called from this line."""
    return node(ALL, name, (file, line), kids)
