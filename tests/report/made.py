"""Inputs of a report, each with a few words on what it is. The same call makes the same inputs.

Those that RULES writes out, and some more, have their output beside them, so that the model is held to the page too.
The inputs that are `kept` are the vectors of crates/report_cases (vectors.py), and need nothing but this repository.
"""
import collections
import glob
import importlib.util
import os
import pathlib
import random
import sys

import model

TOP_FOLDER = pathlib.Path(__file__).resolve().parents[2]
sys.path.append(str(TOP_FOLDER / "tests/differences"))
import shape  # noqa: E402
from shape import ALL, END, ROW, item, u32  # noqa: E402

TOP = model.TOP
MOST = model.MOST

# `want` is the output where it is written out, `kept` says that it is a vector
Case = collections.namedtuple("Case", "part what data want kept")


def case(part, what, data, want=None, kept=False):
    return Case(part, what, data, want, kept)


def beside_this(name, path):
    """A file of another folder of tests, whose own name is also that of one that stands here."""
    spec = importlib.util.spec_from_file_location(name, TOP_FOLDER / "tests" / path)
    module = importlib.util.module_from_spec(spec)
    spec.loader.exec_module(module)
    return module


check_made = beside_this("check_made", "check/made.py")


def asked(file, addresses):
    """The input of a report."""
    return u32(len(file)) + file + b"".join((address % TOP).to_bytes(8, "little") for address in addresses)


class Strings:
    """A string table: that of shape.py, and further names behind it."""

    def __init__(self):
        self.table = shape.TABLE

    def at(self, name):
        """The offset of a name, never 0: an empty one stands elsewhere."""
        place = self.table.find(b"\0" + name + b"\0") + 1 if name else 5
        if place == 0:
            place = len(self.table)
            self.table += name + b"\0"
        return place


def symbol(name, size=0x20, items=(), strings=None, **rest):
    """A file of one symbol at the base, without code info where there are no items."""
    strings = strings or Strings()
    place = strings.at(name)
    return shape.gsym([(0, shape.info(size, place, *items, END))], strings=strings.table, **rest)


def symbols(*entries, **rest):
    """A file of symbols: of each its offset, size and name."""
    strings = Strings()
    infos = [(offset, shape.info(size, strings.at(name), END)) for offset, size, name in entries]
    return shape.gsym(infos, strings=strings.table, **rest)


def nested(places, ranges=ALL):
    """A tree of a node below another, by the places of their names."""
    block = None
    for place in reversed(places):
        block = shape.node(ranges, place, (1, 7), None if block is None else [block])
    return item(2, block)


def beside(root, places, ranges=ALL):
    """A tree of a root and its children."""
    return item(2, shape.node(ranges, root, (0, 0), [shape.node(ranges, place, (1, 7)) for place in places]))


def with_frames(names, as_siblings=False, name=b"main", size=0x40, **rest):
    """A file of one symbol with these frames."""
    strings = Strings()
    places = [strings.at(one) for one in names]
    block = beside(places[0], places[1:]) if as_siblings else nested(places)
    return symbol(name, size, (ROW, block), strings, **rest)


SYNC = symbol(b"sync")
SAMPLE = (TOP_FOLDER / "host/sample/connector.gsym").read_bytes()
SAMPLE_AT = [0x1155, 0x1156, 0x10D1, 0x1066, 0x1001, 0, 0x11D6, 0x1000, 0x10A0]
NOTHING_READ = b"?\n"


def whole_lookups():
    """The file of RULES' "Whole lookups"."""
    strings = b"\0m\0f\0g\0h\0d\0x\0y\0z\0"
    tree = "01002001030000000000" "010408010500000000 0a" "010004000700000002 14" "0000"
    table = bytes.fromhex("7c0a6402 0000")
    items = item(9, b"abc"), item(2, bytes.fromhex(tree)), item(1, table), END
    files = [(9, place) for place in (11, 13, 15)]
    return shape.gsym([(0, shape.info(0x20, 1, *items))], files=files, strings=strings)


def page():
    """What RULES writes out."""
    rows = (
        ("the crash address, and a return address at the symbol's start", SYNC, [0x1005, 0x1000], b"0 sync\n1 ?1\n"),
        ("no address", SYNC, [], b""),
        ("the end of the symbol, as both", SYNC, [0x1020, 0x1020], b"0 ?1\n1 sync\n"),
        ("no bytes of a file", b"", [0, 0], b"0 ?2\n1 ?1\n"),
        ("control bytes", symbol(b"a\x7f\xc2\x9b\nb"), [0x1000], b"0 a?\xc2\x9b?b\n"),
    )
    for what, file, addresses, want in rows:
        yield case("what RULES writes out", what, asked(file, addresses), want, True)
    for n in (3, 5):
        yield case("what RULES writes out", f"{n} zeros", bytes(n), NOTHING_READ, True)
    at = [0x1005, 0x1006, 0x100A, 0x1011, 0x1020, 0x1021, 0x1000, 0, 0x1005]
    want = b"0 h\n0 g\n0 f\n1 h\n1 g\n1 f\n2 g\n2 f\n3 f\n4 f\n5 ?1\n6 ?1\n7 ?1\n8 h\n8 g\n8 f\n"
    yield case("what RULES writes out", "the file of whole lookups", asked(whole_lookups(), at), want, True)
    for address, want in ((0x1009, b"0 g\n0 f\n"), (0x1010, b"0 f\n"), (0x1020, b"0 ?1\n"), (0xFFF, b"0 ?1\n")):
        data = asked(whole_lookups(), [address])
        yield case("what RULES writes out", f"the file of whole lookups, {address:#x}", data, want, True)


def edges():
    """Addresses at the edges, and what they are looked up as."""
    part = "addresses"
    low = symbols((0, 1, b"zero"), (1, 1, b"one"), (2, 0, b"rest"), base=0)
    rows = [
        ("a symbol at 0", low, [0, 0, 1, 2, 3], b"0 zero\n1 ?1\n2 zero\n3 one\n4 rest\n"),
        ("the largest, in the last symbol", low, [TOP - 1, TOP - 1, 0], b"0 rest\n1 rest\n2 ?1\n"),
        ("1 as the crash address", low, [1, 1], b"0 one\n1 zero\n"),
    ]
    top = symbols((0, 0, b"top"), base=TOP - 16)
    rows += [
        ("a symbol to the end of the addresses", top, [TOP - 1, TOP - 1, 0, 1, TOP - 15, TOP - 16],
         b"0 top\n1 top\n2 ?1\n3 ?1\n4 top\n5 ?1\n"),
        ("0 as the crash address, below all", top, [0], b"0 ?1\n"),
        ("0 twice, below all", top, [0, 0], b"0 ?1\n1 ?1\n"),
    ]
    last = symbols((0, 1, b"first"), (TOP - 1, 0, b"last"), base=0, width=8)
    rows += [
        ("symbols at 0 and at 2^64-1", last, [0, 0, 1, TOP - 1], b"0 first\n1 ?1\n2 first\n3 ?1\n"),
        ("2^64-1 is the last symbol's start", last, [TOP - 1, 0], b"0 last\n1 ?1\n"),
    ]
    apart = symbols((0, 8, b"eighth"), base=0x0807060504030201)
    rows += [
        ("eight bytes that differ", apart, [0x0807060504030201, 0x0807060504030202, 0x0102030405060708],
         b"0 eighth\n1 eighth\n2 ?1\n"),
        ("above 2^63", symbols((0, 16, b"high"), base=2**63), [2**63, 2**63, 2**63 + 1], b"0 high\n1 ?1\n2 high\n"),
        ("above 2^32", symbols((0, 16, b"far"), base=2**40 + 1), [2**40 + 1, 2, 2**40 + 2], b"0 far\n1 ?1\n2 far\n"),
        ("an offset of four bytes", symbols((0, 0, b"near"), (2**32 - 1, 0, b"far"), width=4),
         [0x1000 + 2**32 - 1, 0x1000 + 2**32 - 1, 0x1000 + 2**32], b"0 far\n1 near\n2 far\n"),
    ]
    two = symbols((0, 0x10, b"caller"), (0x10, 0x10, b"next"), (0x30, 0x10, b"apart"))
    rows += [
        ("a call that ends its symbol", two, [0x1010, 0x1010], b"0 next\n1 caller\n"),
        ("behind a gap", two, [0x1030, 0x1030, 0x1020], b"0 apart\n1 ?1\n2 next\n"),
        ("falling, and some twice", two, [0x103F, 0x103F, 0x1020, 0x1020, 0x1011, 0x1010, 0x103F],
         b"0 apart\n1 apart\n2 next\n3 next\n4 next\n5 caller\n6 apart\n"),
    ]
    for what, file, addresses, want in rows:
        yield case(part, what, asked(file, addresses), want, True)
    for name, file in (("low", low), ("top", top), ("last", last), ("two", two)):
        for address in (0, 1, 2, 0xFFF, 0x1000, 0x1001, 2**32, 2**63 - 1, 2**63, TOP - 2, TOP - 1):
            yield case(part, f"{name}: {address:#x} as all", asked(file, [address] * 3))
    # a return address of 0 in files that don't open
    for what, file in not_opening():
        data = asked(file, [0, 0, 1, TOP - 1])
        yield case(part, f"0 in a file that doesn't open: {what}", data, None, True)


def not_opening():
    yield "no bytes", b""
    yield "a byte", SYNC[:1]
    yield "three bytes", SYNC[:3]
    yield "47 bytes", SYNC[:47]
    yield "a torn table", SYNC[:50]
    yield "another magic", b"\x7fELF" + SYNC[4:]
    yield "the other byte order", SYNC[:4][::-1] + SYNC[4:]
    yield "version 2", SYNC[:4] + b"\2\0" + SYNC[6:]
    yield "an offset size of 3, which opens", SYNC[:6] + b"\3" + SYNC[7:]
    yield "zeros", bytes(64)


def counts():
    """So many addresses, and so many digits of their numbers."""
    part = "numbers of addresses"
    kept = (0, 1, 2, 9, 10, 11, 100, 101, 255, 256, 257, 300)
    for n in (0, 1, 2, 3, 9, 10, 11, 12, 99, 100, 101, 102, 128, 254, 255, 256, 257, 258, 300, 512, 513, 1000):
        within = [0x1001 + i % 0x20 for i in range(n)]
        want = NOTHING_READ if n > 256 else b"".join(b"%d s\n" % i for i in range(n))
        yield case(part, f"{n} that are found", asked(symbol(b"s"), within), want, n in kept)
        mixed = [0x1000 + i % 0x40 for i in range(n)]
        yield case(part, f"{n}, found and not", asked(SYNC, mixed))
        yield case(part, f"{n} and no bytes of a file", asked(b"", [0] * n), None, n in (1, 2, 256, 257))
        yield case(part, f"{n} of the sample", asked(SAMPLE, [0x1000 + 7 * i % 0x1E0 for i in range(n)]))
        three = with_frames([b"out", b"mid", b"in"])
        yield case(part, f"{n} in three frames", asked(three, [0x1000 + i % 64 for i in range(n)]))


def filled(size):
    """A file of so many bytes whose last one counts: the tree is its last item, and nothing ends the list."""
    strings = Strings()
    block = nested([strings.at(name) for name in (b"outer", b"inner", b"leaf")])
    around = lambda n: shape.gsym([(0, shape.info(0x40, 1, item(9, b"\xa5" * n), ROW, block))], strings=strings.table)
    file = around(size - len(around(0)))
    assert len(file) == size
    return file


def sizes():
    """Files about as large as they may be, and lengths that aren't the file's."""
    part = "sizes of the file"
    at = [0x1000, 0x1001, 0x1041, 0x1040]
    for n in (1000, 4096, 8192, 32768, 49151, 49152, 49153, 49154, 49160, 51204, 65535, 65536, 65537, 100000):
        file = filled(n)
        want = b"".join(b"%d %s\n" % (i, name) for i in (0, 1, 3) for name in (b"leaf", b"inner", b"outer"))
        want = want.replace(b"3 leaf", b"2 ?1\n3 leaf") if n <= MOST else NOTHING_READ
        yield case(part, f"{n} bytes", asked(file, at), want, n in (49152, 49153))
        yield case(part, f"{n} bytes and no address", asked(file, []))
        for extra in (1, 7, 8):
            yield case(part, f"{n} bytes and {extra} more", asked(file, at[:1]) + bytes(extra))
        yield case(part, f"{n} bytes of which one is missing", asked(file, [])[:-1])
        yield case(part, f"{n} bytes and 256 addresses", asked(file, [0x1000 + i % 64 for i in range(256)]))
        yield case(part, f"{n} bytes and 257 addresses", asked(file, [0x1000] * 257))
        yield case(part, f"{n} zeros", asked(bytes(n), at))
        yield case(part, f"the sample and zeros, {n} bytes", asked(SAMPLE + bytes(n - len(SAMPLE)), SAMPLE_AT))
    whole = asked(SYNC, [0x1005, 0x1005])
    for length in (2**32 - 1, 2**31, 2**31 - 1, 2**31 + len(SYNC), 2**16, 2**16 + len(SYNC), 2**24 + len(SYNC), MOST,
                   MOST + 1, len(SYNC) << 24, len(SYNC) << 8, len(whole) - 4, len(whole) - 3, len(whole),
                   len(SYNC) + 1, len(SYNC) - 1, len(SYNC) + 8, len(SYNC) - 8, len(SYNC) + 16, len(SYNC) + 17, 0, 1, 8):
        yield case(part, f"a length of {length}", u32(length) + whole[4:], None, True)
    for length in (2**32 - 1, 2**32 - 4, 2**32 - 8, 2**31, 2**16, MOST, MOST + 1, 1, 4, 8, 9):
        yield case(part, f"a length of {length} alone", u32(length), NOTHING_READ, True)
        yield case(part, f"a length of {length} and an address", u32(length) + bytes(8), None, True)
        yield case(part, f"a length of {length} and 60,000 bytes", u32(length) + bytes(60000))
    yield case(part, "the length in the other byte order", len(SYNC).to_bytes(4, "big") + whole[4:], NOTHING_READ, True)
    yield case(part, "no length", whole[4:], None, True)
    yield case(part, "an address of four bytes", whole[:-4], NOTHING_READ, True)
    yield case(part, "something before the length", b"\0" + whole, NOTHING_READ, True)


def rests():
    """Bytes that don't come out at whole addresses."""
    part = "rests"
    for n in (0, 1, 2, 255, 256):
        for extra in range(1, 8):
            whole = asked(SYNC, [0x1001] * n)
            kept = n in (0, 1) or n == 256 and extra in (1, 7)
            for fill in (0, 10, 255):
                data = whole + bytes([fill]) * extra
                yield case(part, f"{n} addresses and {extra} bytes of {fill}", data, NOTHING_READ, kept and fill == 0)
            if n:
                yield case(part, f"{n} addresses, the last {extra} bytes short", whole[:-extra], NOTHING_READ)
    yield case(part, "a newline at the end", asked(SYNC, [0x1001]) + b"\n", NOTHING_READ, True)


# characters that are no control bytes, some of which steer a terminal or turn the direction of writing
CODES = [0xA0, 0xAD, 0xE9, 0xFF, 0x20AC, 0x2028, 0x2029, 0x202A, 0x202E, 0x2066, 0xFEFF, 0xFFFD, 0xD7FF, 0xE000]
CODES += [0x1F600, 0x10FFFF]


def odd_names():
    """What it is, the name, and whether it is kept."""
    for name in (b"?", b"?1", b"?15", b"??", b" ", b"  a", b"a ", b"0 x", b"\\", b'"', b"%s%n", b"\\n", b"a\nb",
                 b"a\n1 ?1", b"\n0 forged", b"\r\n", b"a\r", b"\t", b"\x1b[2J", b"\x1b", b"", b"0", b"?\n", b"\n"):
        yield f"the name {name}", name, True
    for byte in [127, 31, *range(1, 31)]:
        yield f"byte {byte}", b"a" + bytes([byte]) + b"z", True
        yield f"byte {byte} alone", bytes([byte]), False
        yield f"byte {byte} at both ends, and in a row", bytes([byte]) * 2 + b"mid" + bytes([byte]) * 3, False
    for code in range(0x80, 0xA0):
        yield f"U+{code:04X}", b"a" + chr(code).encode() + b"z", True
        yield f"U+{code:04X} alone", chr(code).encode(), False
    for code in CODES:
        yield f"U+{code:04X}", b"a" + chr(code).encode() + b"z", code in (0xA0, 0x202E, 0x10FFFF)
    every = bytes([*range(1, 32), 127])
    yield "every control byte", every, True
    yield "every control byte, and between them what is none", b"".join(bytes([b]) + b" ~" for b in every), True
    yield "all else of a byte", bytes(range(32, 127)), True
    yield "every character of two bytes up to U+00FF", "".join(map(chr, range(0x80, 0x100))).encode(), True
    yield "bytes 128 to 191 as second, third and fourth", "".join(map(chr, range(0x1000, 0x1080))).encode(), False
    yield "control bytes among characters of four bytes", "\U0001f600\n\U0001f600\x7f\x1f\U0001f600".encode(), True


def long_names():
    """The same."""
    for n in (1, 2, 7, 8, 9, 15, 16, 17, 31, 32, 33, 63, 64, 65, 127, 128, 129, 255, 256, 257, 511, 512, 513, 1023,
              1024, 1025, 2047, 2048, 2049, 4095, 4096, 4097, 8191, 8192, 8193, 16385, 32768, 48000):
        yield f"{n} bytes", (b"0123456789abcdef" * (n // 16 + 1))[:n], n in (64, 65, 255, 256, 257, 4096, 4097)
        yield f"{n} bytes, the last of them a control byte", b"n" * (n - 1) + b"\x1f", n in (512, 1024)
        odd = b"long\nname\x7f\xc2\x85" * (n // 12)
        yield f"{n} bytes, some of them control bytes", odd, n == 257
        yield f"{n} newlines", b"\n" * n, n == 65


def named(part, names):
    """Each name as that of a symbol, and of frames."""
    for what, name, kept in names:
        want = b"0 " + bytes(63 if b < 32 or b == 127 else b for b in name) + b"\n"
        yield case(part, f"{what}, of a symbol", asked(symbol(name), [0x1000]), want, kept)
        if len(name) > 4097:
            continue
        file = with_frames([b"outer", name, b"leaf"])
        want = b"0 leaf\n" + want + b"0 outer\n1 ?1\n"
        steers = kept and name in (b"a\nz", b"a\x7fz", b"\n0 forged", b"", b"?1", b"\x1b[2J", b"\n" * 65)
        yield case(part, f"{what}, of a frame", asked(file, [0x1000, 0]), want, steers)
        if kept:
            file = with_frames([name, b"leaf"])
            yield case(part, f"{what}, of the first frame", asked(file, [0x103F, 0x1040, 0x1000]))
            file = with_frames([b"outer", name])
            yield case(part, f"{what}, of the last frame", asked(file, [0xFFF, 0x1040, 0x1000]))


def names():
    yield from named("names", odd_names())
    yield from names_of_no_text("names")


def lengths_of_names():
    yield from named("long names", long_names())


def names_of_no_text(part):
    """What is not UTF-8, and where a name ends."""
    for number, name in enumerate(check_made.BAD_NAMES):
        want = b"0 ?6\n1 ?6\n2 ?1\n"
        file = symbol(b"x" + name, 0x20)
        yield case(part, f"not UTF-8: {name.hex()}", asked(file, [0x1000, 0x1001, 0x1000]), want, number % 4 == 0)
        file = with_frames([b"outer", b"x" + name])
        yield case(part, f"not UTF-8, of a frame: {name.hex()}", asked(file, [0x1000, 0x1001, 0x1000]), want)
    for byte in [*range(128, 161), 191, 192, 193, 194, 223, 224, 239, 240, 244, 245, 255]:
        file = symbol(b"a" + bytes([byte]) + b"z")
        yield case(part, f"byte {byte} by itself", asked(file, [0x1000, 0x1020]), b"0 ?6\n1 ?6\n", byte in (128, 155))
    # a name that is the end of another, and one that ends with the table
    strings = Strings()
    place = strings.at(b"one\ntwo") + 4
    infos = shape.info(0x20, place, END)
    file = shape.gsym([(0, infos)], strings=strings.table)
    yield case(part, "the end of another name", asked(file, [0x1000]), b"0 two\n", True)
    file = shape.gsym([(0, infos)], strings=strings.table[:-1])
    yield case(part, "a name without its zero byte", asked(file, [0x1000, 0x1001]), b"0 ?6\n1 ?6\n", True)
    both = symbols((0, 0x10, b"first\n"), (0x10, 0x10, b"\x01second"))
    want = b"0 first?\n1 ?second\n2 first?\n3 ?1\n"
    at = [0x1000, 0x1020, 0x1010, 0x1000]
    yield case(part, "names of control bytes in several lines", asked(both, at), want, True)


def frames():
    part = "frames"
    at = [0x1000, 0x1000, 0x1001, 0x103F, 0x1040, 0x1041]
    for n in (1, 2, 3, 8, 9, 10, 16, 17, 32, 62, 63, 64, 65, 66, 100):
        for as_siblings in (False, True):
            for numbered in (True, False):
                some = [b"f%d" % i if numbered else b"\x02f\n" for i in range(n)]
                told = [b"f%d" % i if numbered else b"?f?" for i in reversed(range(n))]
                if n > 64:
                    told = [b"?14" if as_siblings else b"?13"]
                lines = lambda i: b"".join(b"%d %s\n" % (i, line) for line in told)
                want = lines(0) + b"1 ?1\n" + lines(2) + lines(3) + lines(4) + b"5 ?1\n"
                kept = numbered and n in (1, 2, 3, 63, 64, 65)
                how = "beside one another" if as_siblings else "one in the other"
                what = f"{n} {how}{'' if numbered else ', with control bytes'}"
                yield case(part, what, asked(with_frames(some, as_siblings), at), want, kept)
    for n in (64, 65):
        strings = Strings()
        block = beside(0, [strings.at(b"g%d" % i) for i in range(n)])
        lines = b"".join(b"0 g%d\n" % i for i in reversed(range(n))) if n == 64 else b"0 ?14\n"
        file = symbol(b"own", 0x40, (ROW, block), strings)
        yield case(part, f"{n} below a root without a name", asked(file, [0x1000]), lines, n == 64)
    named = lambda *names: [Strings().at(name) for name in names]
    leaf = beside(0, named(b"leaf"))
    kinds = [
        ("a root with another name than the symbol", (ROW, nested(named(b"outer", b"leaf"))), b"0 leaf\n0 outer\n"),
        ("a root alone", (ROW, nested(named(b"outer"))), b"0 outer\n"),
        ("a root without a name", (ROW, leaf), b"0 leaf\n"),
        ("no tree", (ROW,), b"0 main\n"),
        ("a tree and no row", (leaf,), b"0 main\n"),
        ("a tree before the row", (leaf, ROW), b"0 leaf\n"),
        ("a row above the address", (leaf, shape.lines(b"\2\4\0")), b"0 main\n"),
        ("two trees", (ROW, leaf, nested(named(b"outer", b"inner"))), b"0 leaf\n"),
        ("two trees, the first without frames", (ROW, item(2, b"\0"), nested(named(b"outer", b"inner"))),
         b"0 inner\n0 outer\n"),
        ("a tree of nodes without names", (ROW, nested([0, 0, 0])), b"0 main\n"),
        ("names in the first and the last alone", (ROW, nested([*named(b"outer"), 0, 0, *named(b"leaf")])),
         b"0 leaf\n0 outer\n"),
        ("a frame of the symbol's name", (ROW, nested(named(b"main", b"main"))), b"0 main\n0 main\n"),
        ("empty names of frames", (ROW, nested(named(b"", b"", b"leaf"))), b"0 leaf\n0 \n0 \n"),
        ("behind the list's end", (ROW, END, leaf), b"0 main\n"),
    ]
    for what, items, want in kinds:
        yield case(part, what, asked(symbol(b"main", 0x40, items), [0x1000]), want, True)
    strings = Strings()
    inner = [shape.node([(8 * i, 8)], strings.at(b"part%d" % i), (1, 7)) for i in range(4)]
    file = symbol(b"main", 0x40, (ROW, item(2, shape.node(ALL, strings.at(b"root"), (0, 0), inner))), strings)
    at = [0x1000, 0x1008, 0x1009, 0x1020, 0x1021, 0x1040, 0x1041, 0x1001]
    want = b"0 part0\n0 root\n1 part0\n1 root\n2 part1\n2 root\n3 part3\n3 root\n4 root\n5 root\n6 ?1\n"
    want += b"7 part0\n7 root\n"
    yield case(part, "frames that change from address to address", asked(file, at), want, True)


def differences():
    """Each refusal at a crash address and at a return address, and all else that docs/DIFFERENCES.md has inputs for."""
    first, seen = set(), {"crash": set(), "return": set()}
    for name, file, address, *_ in beside_this("differences_make", "differences/make.py").CASES:
        data = asked(file, [address, address + 1, address, max(address - 1, 0), address])
        try:
            told = model.output_of(MOST, data)
        except model.Unsettled:
            continue
        lines = told.split(b"\n")
        for place, number in (("crash", b"0 ?"), ("return", b"1 ?")):
            seen[place] |= {int(line[3:]) for line in lines if line.startswith(number)}
        yield case("inputs of DIFFERENCES", name, data, None, told not in first)
        first.add(told)
    for place, numbers in seen.items():
        assert numbers == set(range(1, 16)), f"no refusal {set(range(1, 16)) - numbers} at a {place} address"


def lengths():
    """Every length up to 60 bytes."""
    part = "short inputs"
    whole = asked(SYNC, [0x1005, 0x1005])
    for n in range(61):
        yield case(part, f"{n} zeros", bytes(n), None, n in (0, 1, 2, 4, 11, 12, 20))
        yield case(part, f"{n} bytes of 255", b"\xff" * n, NOTHING_READ, n in (1, 4, 12))
        yield case(part, f"{n} bytes, the front of an input", whole[:n], NOTHING_READ, n % 5 == 0)
        yield case(part, f"{n} bytes, the front of a file", SYNC[:n])
        for number in range(max(n - 4, 0) // 8 + 1):
            size = n - 4 - 8 * number
            if size < 0:
                continue
            file = SYNC[:size]
            at = [0x1005] * number
            kept = number == 1 or n < 12
            yield case(part, f"{n} bytes, {number} addresses and a torn file", asked(file, at), None, kept)
            if number < 3:
                yield case(part, f"{n} bytes, {number} addresses and a file of zeros", asked(bytes(size), at))
                yield case(part, f"{n} bytes, {number} addresses of 0", asked(file, [0] * number))
            if size:
                yield case(part, f"{n} bytes, the length one less", u32(size - 1) + asked(file, at)[4:], NOTHING_READ)
            if number < 2:
                more = u32(size + 1) + asked(file, at)[4:]
                yield case(part, f"{n} bytes, the length one more", more, NOTHING_READ)


def around(file, most=None):
    """Addresses at and around the symbols of a file, below 2^64."""
    try:
        f = model.lookup_model.Opened(file)
    except model.lookup_model.Refused:
        return [0x1000, 0x1001, 0]
    out = []
    for i in range(f.count):
        try:
            start = f.base + f.entry(i)
            size = f.info(i)[0]
        except model.lookup_model.Refused:
            continue
        out += [start, start + 1, start - 1, start + size, start + size - 1, start + size + 1, start + size // 2]
    return [address for address in dict.fromkeys(out) if 0 <= address < TOP][:most] or [0, 0x1000]


def checked():
    """Files of the check of a whole file (tests/check/made.py), with faults and without."""
    r = random.Random(11)
    kinds = ("passes", check_made.good, 0.08), ("fault", check_made.singles, 0.03), ("wide", check_made.wide, 0.01)
    for kind, makes, some in kinds:
        for number, (file, _, what) in enumerate(makes(random.Random(5))):
            if r.random() < some and len(file) < MOST:
                at = around(file, 40)
                r.shuffle(at)
                kept = kind == "fault" and number % 7 == 0 and len(file) < 600
                data = asked(file, at[: 8 if kept else 40])
                yield case("files of the check", f"{kind} {number}: {what}", data, None, kept)


def corpus():
    return os.environ.get("GSYM_CORPUS") or str(TOP_FOLDER / "../shared/corpus")


def real_files():
    """Those that `report_main` takes."""
    for path in sorted(glob.glob(f"{corpus()}/*.gsym")):
        file = pathlib.Path(path).read_bytes()
        if len(file) <= MOST:
            yield pathlib.Path(path).stem, file


def chunks(addresses):
    return [addresses[i : i + 256] for i in range(0, len(addresses), 256)]


def real():
    """Each entry of real files and its neighbours, as crash address and as return address; their code in steps."""
    for name, file in [*real_files(), ("connector", SAMPLE)]:
        f = model.lookup_model.Opened(file)
        at = around(file)
        for number, some in enumerate(chunks(at)):
            kept = name == "connector"
            yield case("real files", f"{name}, all around its entries, {number}", asked(file, some), None, kept)
        for i in range(f.count):
            start = f.base + f.entry(i)
            for address in {max(start - 1, 0), start, start + 1}:
                yield case("real files", f"{name}, entry {i}: {address:#x}", asked(file, [address, address, start]))
        code = []
        for i in range(f.count):
            start, size = f.base + f.entry(i), f.info(i)[0]
            code += range(start, start + size + 1, max(1, size // 60))
        for number, some in enumerate(chunks(code)):
            yield case("real files", f"{name}, in steps, {number}", asked(file, some))


def torn():
    """Fronts of files, whole inputs each; and fronts of inputs."""
    for name, file in [("connector", SAMPLE), *real_files()]:
        at = around(file, 12)
        step = 3 if name == "connector" else max(1, len(file) // 40)
        for n in range(0, len(file), step):
            kept = name == "connector" and n in (48, 57, 60, 84, 117, 219, 300, 453)
            yield case("torn files", f"{name}, {n} bytes", asked(file[:n], at), None, kept)
        whole = asked(file, at)
        for n in [*range(0, len(file), 4 * step), *range(len(file), len(whole), 5)]:
            yield case("torn inputs", f"{name}, {n} bytes", whole[:n])


def changed():
    """Inputs with some of their bytes changed, and others made by chance."""
    r = random.Random(7)
    seeds = [one.data for one in (*page(), *edges(), *frames()) if len(one.data) < 2000]
    seeds += [asked(SAMPLE, SAMPLE_AT)] * 20 + [asked(whole_lookups(), [0x1005, 0x100A])] * 20
    for number in range(300):
        yield case("changed inputs", f"{number}", check_made.mutated(r, r.choice(seeds)))
    for number in range(100):
        data = check_made.mixed(r)
        yield case("changed inputs", f"a random file, {number}", asked(data, r.sample(around(data), 2)))


PARTS = [page, edges, counts, sizes, rests, names, lengths_of_names, frames, differences, lengths, checked, real, torn]
PARTS += [changed]


def vectors():
    """Those that are kept."""
    yield from (one for one in cases() if one.kept)


def cases(parts=PARTS):
    """Inputs, none twice."""
    seen = set()
    for part in parts:
        for one in part():
            if one.data not in seen:
                seen.add(one.data)
                yield one
