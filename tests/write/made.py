"""Files and texts that tool.py asks `gsym dump` and `gsym make` for. The same call makes the same ones."""
import os
import pathlib
import random

import model
import vectors
from model import Content, Entry, little

TOP_FOLDER = pathlib.Path(__file__).resolve().parents[2]
SAMPLE = (TOP_FOLDER / "host/sample/connector.gsym").read_bytes()
STRINGS = b"\0main\0/src\0a.c\0\xff\xfe\0\xc3\xa9\0tail"
BAD = b"\xff\0\xc3\xa9\0\xed\xa0\x80\0\xc3\0"
END = bytes(8)


def info(size, name, *items, end=END):
    out = little(size, 4) + little(name, 4)
    return out + b"".join(little(kind, 4) + little(len(block), 4) + block for kind, block in items) + end


def gsym(entries, strings=STRINGS, files=((0, 0), (6, 11)), **over):
    """A file; an entry is an address less the base and the bytes of its data, or the place where it has them. `over`
    says what else: `width`, `base`, `magic`, `version`, `uuid`, `count`, `files_count`, `pad` (the byte of the zeros),
    `strings_at` and `strings_size`, `gap` before the data, `strings_last`."""
    has = {"width": 4, "base": 0x1000, "magic": model.MAGIC, "version": 1, "uuid": b"", "pad": b"\0", "gap": b""}
    has.update(over)
    width, count = has["width"], len(entries)
    table = b"".join(little(less_base, width) for less_base, _ in entries)
    table += has["pad"] * (-len(table) % 4)
    at = 48 + len(table) + 4 * count + 4 + 8 * len(files)
    places, data = [], b""
    data_at = at + (0 if has.get("strings_last") else len(strings)) + len(has["gap"])
    for _, own in entries:
        places.append(own if isinstance(own, int) else data_at + len(data))
        data += b"" if isinstance(own, int) else own
    strings_at = data_at + len(data) if has.get("strings_last") else at
    out = little(has["magic"], 4) + little(has["version"], 2) + bytes([width, len(has["uuid"])])
    out += little(has["base"], 8) + little(has.get("count", count), 4) + little(has.get("strings_at", strings_at), 4)
    out += little(has.get("strings_size", len(strings)), 4) + has["uuid"].ljust(20, b"\0")
    out += table + b"".join(little(place, 4) for place in places) + little(has.get("files_count", len(files)), 4)
    out += b"".join(little(directory, 4) + little(name, 4) for directory, name in files)
    behind = has["gap"] + data
    return out + (behind + strings if has.get("strings_last") else strings + behind)


def two(*, first=(), **over):
    return gsym([(0, info(16, 1, *first)), (0x20, info(16, 1, (9, b"abc")))], **over)


def odd_strings():
    """String tables, and offsets in them."""
    tables = [b"", b"\0", b"a", b"a\0", b"\0\0\0", b"a\0b", b"\0a", STRINGS, b"\xff", BAD, b"x" * 300]
    for number, strings in enumerate(tables):
        places = range(min(len(strings) + 2, 12))
        files = [(place, 0) for place in places] + [(0, place) for place in places] + [(2**32 - 1, 2**31)]
        entries = [(i, info(i, place)) for i, place in enumerate(places)]
        yield f"strings {number}", gsym(entries, strings, files)
        yield f"strings {number} last", gsym(entries, strings, files[::-1], strings_last=True, gap=b"\x11" * number)
    every = b"".join(bytes([byte]) + b"\0" for byte in range(1, 256)) + bytes(range(1, 256)) + b"\0"
    yield "every byte", gsym([(0, info(0, 2)), (1, info(0, 64))], every, [(510, 512), (66, 182), (254, 256)])
    yield "every byte, unended", gsym([], every[:-1] + b'\\"', [(510, 512)])
    texts = [b'"', b"\\", b'\\"', b'a"b\\c', b"# no remark", b" ", b"a b", b"\\x41", b"\\\\"]
    for text in (*texts, b"\t", b"\r", b"\n", b"?5"):
        yield f"text {text}", gsym([(0, info(1, 1))], b"\0" + text + b"\0", [(1, 1)])


def odd_lists():
    """Lists that end in various ways, and information that doesn't read."""
    lists = {
        "no end": info(16, 1, (1, b"ab"), end=b""),
        "type 0 alone": info(16, 1, (1, b"ab"), end=bytes(4)),
        "three bytes of type 0": info(16, 1, end=bytes(3)),
        "type 0 and three": info(16, 1, (2, b""), end=bytes(7)),
        "type 0 with a length": info(16, 1, (2, b"x"), end=little(0, 4) + little(5, 4)),
        "an item a byte short": info(16, 1, (7, b"abc"))[: 8 + 8 + 2],
        "an item of no bytes that fits": info(16, 1, (7, b""), end=b""),
        "a type alone": info(16, 1, end=little(7, 4)),
        "a length cut": info(16, 1, end=little(7, 4) + bytes(3)),
        "a length of 2^32-1": info(16, 1, (1, b"a"), end=little(7, 4) + little(2**32 - 1, 4)),
        "type 2^32-1": info(16, 1, (2**32 - 1, bytes(range(256)))),
        "many": info(16, 1, *((i, bytes(i % 5)) for i in range(1, 60))),
        "no items": info(2**32 - 1, 5),
        "seven bytes": info(16, 1)[:7],
        "eight bytes": info(16, 1)[:8],
        "nothing": b"",
    }
    for name, data in lists.items():
        yield name, gsym([(0, info(1, 1)), (0x20, data)])
        yield f"{name}, entry 0", gsym([(0, data)])
    yield "data behind the file", gsym([(0, 2**32 - 1), (1, info(1, 1)), (2, 10**6)])
    yield "data behind the file, entry 0", gsym([(0, 2**32 - 1), (1, info(1, 1)), (2, info(2, 1))])
    yield "data that others share", gsym([(0, info(1, 1, (1, b"ab"))), (1, 113), (2, 113), (3, 117)])
    yield "data in the header", gsym([(0, 0), (1, 8), (2, 44), (3, info(1, 0))])


def odd_tables():
    for width in (1, 2, 4, 8):
        yield f"width {width}", two(width=width)
        yield f"width {width}, no entries", gsym([], width=width)
        odd = [(i * 7, info(i, 1, (i, b"x"))) for i in range(1, 6)]
        for count in range(6):
            yield f"width {width}, {count} entries", gsym(odd[:count], width=width, pad=b"\xee", uuid=bytes(range(20)))
    for base in (0, 1, 2**32, 2**63, 2**64 - 1 - 0x20):
        yield f"base {base}", two(base=base)
    yield "first entry above the base", gsym([(5, info(1, 1)), (9, info(1, 1))])
    yield "equal", gsym([(5, info(1, 1)), (5, info(2, 1)), (7, info(1, 1))])
    yield "falls", gsym([(9, info(1, 1)), (5, info(2, 1)), (7, info(1, 1))])
    yield "falls below the first", gsym([(9, info(1, 1)), (10, info(2, 1)), (7, info(1, 1))], width=1)
    yield "a sum of 2^64", gsym([(0, info(1, 1))], base=2**64 - 1)
    yield "a sum of 2^64-1", gsym([(0, info(1, 1))], base=2**64 - 2)
    yield "a far entry", gsym([(0, info(1, 1)), (2**64 - 1, info(0, 1))], width=8, base=0)
    yield "strings over the header", two(strings_at=0, strings_size=48)
    yield "strings over all", two(strings_at=0, strings_size=150)
    yield "strings without size behind the end", two(strings_at=len(two()), strings_size=0)
    yield "no files", two(files=())
    yield "many files", two(files=[(i % 40, i % 30) for i in range(700)])
    yield "bytes behind", two() + b"behind"


def not_opening():
    whole = two()
    for length in (0, 1, 3, 4, 5, 6, 7, 20, 47, 48, 55, 60, 68, 80, 90):
        yield f"first {length} bytes", whole[:length]
    yield "the strings cut", two(strings_last=True)[:-1]
    yield "another magic", two(magic=0x4D595347)
    yield "the magic of the other byte order", two(magic=int.from_bytes(b"GSYM", "little"))
    yield "version 0", two(version=0)
    yield "version 2", two(version=2)
    yield "magic and version", two(version=2, magic=1)
    yield "text", b"gsym 1\n"
    yield "elf", b"\x7fELF" + bytes(100)
    for width in (0, 3, 5, 7, 9, 255):
        yield f"width {width}, no entries", gsym([], width=width)
        if width in (3, 9):
            yield f"width {width}", two(width=width)
    yield "a file more", gsym([], b"", files_count=3)
    yield "2^32-1 files", two(files_count=2**32 - 1)
    yield "2^32-1 entries", two(count=2**32 - 1)
    yield "strings behind the end", two(strings_at=len(two()), strings_size=1)
    yield "strings of 2^32-1", two(strings_size=2**32 - 1)


def of_vectors(step):
    """Files of vectors.py."""
    for number, (name, content, _) in enumerate(vectors.cases()):
        status, *told = model.written(content, model.TOP)
        if status == 0 and number % step == 0:
            yield f"vector {name}", told[0]


def corpus_folder():
    return pathlib.Path(os.environ.get("GSYM_CORPUS") or TOP_FOLDER / "../shared/corpus")


def corpus():
    """Real files, by name: the sample of this repository, and those of the folder."""
    files = {"sample": SAMPLE}
    files.update((path.name, path.read_bytes()) for path in sorted(corpus_folder().glob("*.gsym")))
    return files


def changed(file, r):
    """Some bytes of a file become others, or its end is cut off."""
    out = bytearray(file)
    for _ in range(r.choice([1, 1, 2, 3])):
        if len(out) < 2:
            break
        most = min(len(out), r.choice([48, 200, 800, len(out)]))
        at = r.randrange(most)
        kind = r.randrange(8)
        if kind == 0:
            out = out[: r.randrange(len(out))]
        elif kind == 1:
            out[at : at + 4] = little(r.choice([0, 1, 2, 7, len(file), 2**31, 2**32 - 1]), 4)
        elif kind == 2:
            out[at] ^= 1 << r.randrange(8)
        else:
            out[at] = r.choice([0, 1, 2, 10, 34, 92, 127, 128, 255, r.randrange(256)])
    return bytes(out)


# Contents for lookups, whose names are not at offset 0: LLVM takes none there

SOME_NAMES = [b"main", b"send_request", b"a", b"operator<<", b"x" * 70, b"\xc3\xa9\xe2\x82\xac", b"b c"]


def rows(line):
    """A line table of one row: file 1 and a line below 128."""
    return b"\x7c\x0a" + bytes([line]) + b"\x02\x00\x00"


def tree(name, other):
    """A root on 32 bytes, and in it, on bytes 4 to 11, a call at line 10 of file 1."""
    within = b"\x01\x04\x08\x00" + little(other, 4) + b"\x01\x0a"
    return b"\x01\x00\x20\x01" + little(name, 4) + b"\x00\x00" + within + b"\x00"


def some_content(r):
    strings, places = b"\0", []
    for name in r.sample(SOME_NAMES, r.randrange(2, 6)):
        places.append(len(strings))
        strings += name + b"\0"
    place = lambda: r.choice(places)
    files = [(0, 0)] + [(place(), place()) for _ in range(r.randrange(1, 5))]
    entries, address = [], r.choice([0, 5, 0x1000, 2**32, 2**63])
    for _ in range(r.randrange(1, 9)):
        name, items = place(), []
        if r.random() < 0.7:
            items.append((1, rows(r.randrange(1, 64))))
        if r.random() < 0.5:
            items.insert(r.randrange(2), (2, tree(name, place())))
        entries.append(Entry(address, 32, name, items))
        address += r.choice([32, 33, 255, 256, 2**15, 2**16, 2**17, 2**32 - 1, 2**32, 2**40])
    return Content(strings + r.choice([b"", b"", b"tail"]), files, entries)


def edge_contents():
    """Each offset size at its edges, and every number of zeros."""
    for far in (254, 255, 256, 257, 65534, 65535, 65536, 65537, 2**32 - 1, 2**32, 2**32 + 1, 2**48):
        for base in (0, 0x400000):
            for more in range(4):
                strings = b"\0" + b"n" * (more + 1) + b"\0"
                middle = [Entry(base + 32 + 32 * i, 16, 1, [(1, rows(9))]) for i in range(more)]
                ends = Entry(base, 32, 1, [(1, rows(7)), (2, tree(1, 1))]), Entry(base + far, 3, 1)
                yield Content(strings, [(0, 0), (1, 1)], [ends[0], *middle, ends[1]])
                yield Content(strings, [(0, 0)] * (more + 1), [Entry(far, 3, 1)])


def contents_for_lookups():
    r = random.Random(19)
    return [*edge_contents(), *(some_content(r) for _ in range(120))]


# Texts

SYNC = b'gsym 1\nentry 0x1000 32 "sync"\n'
FULL = b"""gsym 1
string ""
string "main"
string "/src"
string "a.c"
file 0 "" 0 ""
file 6 "/src" 11 "a.c"
entry 0x1000 16 1 "main"
  1 7c0a64ff00
  2 00
entry 0x1020 16 1 "main"
  9
"""


def lines(*some, end=b"\n"):
    return b"\n".join(some) + end


def on(*some):
    return lines(b"gsym 1", *some)


def right_texts():
    """Texts of which a file is made, each with what it is."""
    yield "page: one file", b'gsym 1\nfile "" ""\n'
    yield "page: no last newline", b'gsym 1\nfile "" ""'
    yield "page: an added name", SYNC
    yield "page: a named string", b'gsym 1\nstring "sync"\nentry 0x1000 32 0 "sync"\n'
    yield "nothing", b"gsym 1"
    yield "no strings", on(b'bytes ""')
    yield "full", FULL
    yield "CRLF", FULL.replace(b"\n", b"\r\n")
    yield "returns and tabs", FULL.replace(b" ", b"\t\r ")
    yield "remarks", FULL.replace(b"\n", b" # \"a remark\x00\xff\x01 '\\\n#one more\n \t\r# and another\n\n")
    yield "remark before the first line", b"# \x00\n\n \n#gsym 2\n" + FULL + b"#"
    yield "blanks at the ends", FULL.replace(b"\n", b" \t \n")
    yield "texts alone", on(b'file "/src" "a.c"', b'file "/src" "b.c"', b'entry 1 2 "a.c"', b'entry 2 2 "b.c"')
    offsets = b"file 0 5", b"file 1 6", b"entry 0 0 8", b"entry 1 0 5"
    yield "offsets alone", on(b'string "/src"', b'string "a.c"', *offsets)
    yield "offset and text", on(b'string "abc"', b'file 0 "abc" 1 "bc"', b'file 2 "c" 3 ""', b'entry 0 0 2 "c"')
    yield "text and offset", on(b'string "abc"', b'file "abc" 1', b'file "x" 5 ""', b'file 1 0 "abc"', b'file 1 "bc" 2')
    yield "suffix is no first", on(b'string "abc"', b'entry 1 1 "c"', b'entry 2 1 "bc"', b'entry 3 1 "abc"')
    yield "offset and text add none", on(b'string "abc"', b'file 1 "bc" "bc"', b'file "bc" "bc"')
    yield "first of equal strings", on(b'string "a"', b'string ""', b'string "a"', b'string ""', b'file "" "a"')
    yield "later of equal strings", on(b'string "a"', b'string "a"', b'entry 1 1 2 "a"', b'entry 2 1 "a"')
    yield "first of equal added", on(b'file "a" "a"', b'file "b" "a"', b'entry 1 1 "b"')
    yield "the empty text is at 0", on(b'file "a" ""', b'entry 1 1 ""')
    yield "the empty text is added", on(b'string "a"', b'file "a" ""', b'entry 1 1 ""', b'file "" "b"')
    yield "added to no strings", on(b'bytes ""', b'file "a" ""', b'entry 1 1 "b"')
    yield "added behind a zero", on(b'bytes "a"', b'string "b"', b'file "b" "ab"', b'file 0 "ab" "c"')
    yield "added behind what bytes begin", on(b'bytes "a"', b'string ""', b'file "" "a"', b'file 0 "a" 1 ""')
    yield "bytes before, between and behind", on(b'bytes "a"', b'string "b"', b'bytes "c"', b'bytes ""', b'bytes "d"')
    yield "bytes of no string are no text", on(b'string "a"', b'bytes "b"', b'string ""', b'file "b" ""', b"file 2 3")
    yield "strings not ended", on(b'string "a"', b'bytes "b"', b'file "a" 0 "a"', b'entry 1 1 "a"')
    yield "offsets of what is added later", on(b"entry 1 1 1", b'entry 2 1 "late"', b"file 2 6", b'file "x" "y"')
    yield "added in one line", on(b'file "b" 1 "b"', b'file "c" 3 "c"')
    yield "files behind entries", on(b'entry 1 1 "a"', b"  1 00", b'file "b" "a"', b'entry 2 1 "b"', b"  2 01")
    escapes = rb'string "\"\\\x01\x0a\x7f\xff\x41"', rb'file "\\" "\""', rb'entry 0 0 "\x5c"'
    yield "escapes", on(*escapes, rb'file 7 2 "\x01\x0a\x7f\xffA"')
    yield "escapes of the same text", on(rb'string "A\x42"', rb'file "\x41B" "AB"', rb'entry 1 1 "\x41\x42"')
    yield "raw bytes", on('string "é߿€😀"'.encode(), b'string "\x80\xff\xc3"', b'file "\xff" "\xc3\xa9"')
    yield "blank and # in a text", on(b'string "a # b"', b'string "#"', b'file "# x" " #"', b'entry 1 1 "a # b"')
    yield "quotes near", on(rb'string "\\"', rb'string "\""', rb'string "\\\""', rb'string " \" "')
    numbers = b"entry 0 0 0", b"entry 0x1 0x0 0x0", b"entry 255 0xffffffff 0", b"entry 0x100 4294967295 0"
    yield "numbers", on(b'string ""', *numbers)
    yield "last address", on(b"entry 18446744073709551615 0 0")
    yield "last address, hexadecimal", on(b"entry 0xffffffffffffffff 0x0 0x0")
    yield "last sum", on(b"entry 0xfffffffffffffffe 1 0")
    types = b"  1 00", b"\t2 ff", b" \t 0xffffffff 0123456789abcdef", b" 4294967294", b"\t9\t00"
    yield "types", on(b"entry 1 1 0", *types)
    yield "items by a blank, a tab", on(b"entry 1 1 0", b" 1 00", b"\t1 00", b"\r 1 00", b"  \r\t1 00")
    yield "no bytes", on(b"entry 1 1 0", b"  1", b"  2 ", b"  3 # none", b"  4\r")
    several = b"entry 1 1 0", b"  1 00", b"  1 01", b"entry 2 1 0", b"entry 3 1 0", b"  7 0203"
    yield "items of several entries", on(*several)
    yield "a long item", on(b"entry 1 1 0", b"  1 " + b"5a" * 500000, b"  2 " + b"00" * 3)
    long = b'file "' + rb"\xff" * 70000 + b'" ""'
    yield "a long text", on(b'string "' + b"x" * 300000 + b'"', b'entry 1 1 299999 "x"', long)
    yield "a long remark", on(b"#" * 1000000, b"entry 1 1 0", b" " * 100000 + b"1 " + b" " * 100000 + b"00")
    yield "many lines", on(*(b"entry %d 1 0\n  1 %02x" % (i, i % 256) for i in range(3000)))
    yield "many strings", on(*(b'entry %d 1 "f%d"' % (i * 3, i % 700) for i in range(2000)))
    yield "many files", on(*(b'file "d%d" "f%d"' % (i % 9, i % 50) for i in range(2000)))
    for far in (255, 256, 65535, 65536, 2**32 - 1, 2**32):
        yield f"width, {far}", on(b"entry 7 1 0", b"entry %d 1 0" % (7 + far))


# of each a text, whole as it stands, and the line that is wrong, or None where it is right
ENDS = [
    (b"gsym 1\nend\n", None),
    (b"gsym 1\nend", None),
    (b"gsym 1\nend # x\n\n# y\n \t\r\n", None),
    (b"gsym 1\n \tend\r\n", None),
    (b"gsym 1\n", 2),
    (b"gsym 1", 2),
    (b"gsym 1\n# end\n", 3),
    (b"gsym 1\nend end\n", 2),
    (b'gsym 1\nend ""\n', 2),
    (b'gsym 1\n"end"\n', 2),
    (b"gsym 1\nEnd\n", 2),
    (b"gsym 1\nends\n", 2),
    (b"gsym 1\nen\n", 2),
    (b"gsym 1\nend\nend\n", 3),
    (b"gsym 1\nend\nentry 1 1 0\n", 3),
    (b"gsym 1\nentry 1 1 0\nend\n  1 00\n", 4),
    (b'gsym 1\nend\nstring "a"\n', 3),
    (b"gsym 1\nend\nfile 0 0\n", 3),
    (b"gsym 1\nend\ngsym 1\n", 3),
    (b"gsym 1\nend\nx\n", 3),
    (b"end\n", 1),
    (b"", 1),
    (b"\n\n", 3),
    (b"gsym 1\nentry 1 1 0\nentry 1 1 0\nend\n", 3),
    (b"gsym 1\nentry 1 1 0\nentry 1 1 0\n", 4),
]


# of each a text, and the line that is wrong
WRONG = [
    (b"entry 1 1 0\n", 1),
    (b"\n\n# x\nfile 0 0\ngsym 1\n", 4),
    (b"gsym\n", 1),
    (b"gsym 2\n", 1),
    (b"gsym 11\n", 1),
    (b"gsym 1 1\n", 1),
    (b'gsym 1 ""\n', 1),
    (b'gsym "1"\n', 1),
    (b'"gsym" 1\n', 1),
    (b"gsym1\n", 1),
    (b"Gsym 1\n", 1),
    (b"\xef\xbb\xbfgsym 1\n", 1),
    (b"1 gsym\n", 1),
    (b"MYSG\x01\x00\x01\x00", 1),
    (b"gsym 1\x00\n", 1),
    (b"gsym\x0b1\n", 1),
    (b"gsym 1#\n", 1),
    (b"# gsym 1\nfile 0 0", 2),
]
WRONG_LINES = [  # behind `gsym 1` and an entry
    b"1 00", b"x", b"?", b"entry", b"entry 1", b"entry 1 1", b"entry 9 1 0 0", b'entry 9 1 0 "" 0',
    b'entry 9 1 0 "" ""', b'entry 9 1 "" ""', b'entry 9 1 "" 0', b"entry 0x10000000000000000 1 0",
    b"entry 18446744073709551616 1 0", b"entry 9 4294967296 0", b"entry 9 0x100000000 0", b"entry 9 1 4294967296",
    b"entry 9 1 0x100000000", b"entry -1 1 0", b"entry +9 1 0", b"entry 9 1 -1", b"entry 0x 1 0", b"entry 9h 1 0",
    b"entry ff 1 0", b"entry 9 ff 0", b"entry 0xfg 1 0", b"entry 9 1 0xfg", b"entry 0x0x9 1 0", b"entry 1_0 1 0",
    b"entry 9. 1 0", b"entry 9,1,0", b"entry 0b1 1 0", b"entry x9 1 0", b'entry "9" 1 0', b'entry 9 "1" 0',
    b"entry 0x1000 ?5", b"entry 9 ?5", b"entry 9 1 ?5", b"entry 9 1 sync", b"entry 9 1 'sync'", b'entry 9 1 "a',
    b'entry 9 1 a"', b'entry 9 1 "', b'entry 9 1 """', b'entry 9 1 "a""', b'entry 9 1 "a"b', b'entry 9 1 0"a"',
    b'entry 9 1 "a\\"', b'entry 9 1 "a\\n"', b'entry 9 1 "\\x4"', b'entry 9 1 "\\x4g"', b'entry 9 1 "\\xg4"',
    b'entry 9 1 "\\x"', b'entry 9 1 "\\a"', b'entry 9 1 "\\0"', b'entry 9 1 "\\u0041"', b'entry 9 1 "\\ "',
    b'entry 9 1 "a\tb"', b'entry 9 1 "a\rb"', b'entry 9 1 "a\x00b"', b'entry 9 1 "a\x01b"', b'entry 9 1 "a\x1fb"',
    b'entry 9 1 "a\x7fb"', b'entry 9 1 "a\x0bb"', b'entry 9 1 1 ""', b'entry 9 1 0 "x"', b'entry 9 1 4 "x"',
    b'entry 9 1 5 ""', b'entry 9 1 4294967295 ""', b"ENTRY 9 1 0", b"Entry 9 1 0", b"entries 9 1 0",
    b"\xffentry 9 1 0", b"entry\x0b9 1 0", b"entry\x009 1 0", b"entry\xc2\xa09 1 0", b"file", b"file 0", b'file ""',
    b"file 0 0 0", b'file "" "" ""', b'file 0 "" 0 "" 0', b'file 0 "" 0 "" ""', b'file "" 0 "" 0', b"file x y",
    b"file 4294967296 0", b"file 0 4294967296", b"file -1 0", b'file "" x', b'file 0 "x" 0 ""', b'file 0 "" 0 "x"',
    b'file 0 "" 9 ""', b'file 9 "" 0 ""', b'file "a""b"', b'file "a"0', b'file "a', b"file a b", b"files 0 0",
    b"FILE 0 0", b"file# 0 0", b'string "x"', b'bytes "x"', b'bytes ""', b'string ""', b"string", b"string x",
    b"gsym 2", b"gsym", b"strings \"x\"", b"item 1 00", b"  0x100000000 00", b"  4294967296", b"  -1 00", b"  x 00",
    b"  1 0", b"  1 000", b"  1 0g", b"  1 00 00", b"  1 0x00", b'  1 ""', b'  1 "00"', b'  "1" 00', b"  1 00\x00",
    b"  1 00\x0b", b"  1 00#", b"  1, 00", b"  1 00 x", b"  1 -", b"  1 g0", b"  1 0_0", b"  1 \xff", b"  ?",
    b"  ff 00", b"  0x 00", b"\x0b1 00", b"\x0c 1 00", b"\xa01 00", b"  1\x0b00", b"0x1 00", b"2",
]
WRONG_STRINGS = [  # behind `gsym 1`
    b"string", b"bytes", b"string 0", b"string x", b"string 'x'", b'string "a" "b"', b'string 0 "a"', b'string "a" 0',
    b'bytes "a" "b"', b'bytes 00', b'string "a', b'string a"', b'string "a"b', b'string "a"#', b'string ""a"',
    b'string "\\"', b'string "\x00"', b'string "\x1f"', b'string "\x7f"', b'string "\t"', b'string "\\n"',
    b'string "\\x1"', b'bytes "\\x0"', b'bytes "\\t"', b'bytes "\x01"', b"  1 00", b"  1", b"\t0xffffffff 00",
    b'String "a"', b"bytes",
]


def wrong_texts():
    yield from WRONG
    for number, line in enumerate(WRONG_LINES):
        before = [b"# %d" % i for i in range(number % 4)]
        yield on(b"entry 1 1 0", *before, line), 3 + len(before)
        if number % 3 == 0:  # the first wrong line of several
            yield on(b"entry 1 1 0", *before, line, b"x", line), 3 + len(before)
        if number % 3 == 1:  # and the last line of the text
            yield on(b"entry 1 1 0", *before, line)[:-1], 3 + len(before)
    for line in WRONG_STRINGS:
        yield on(line), 2
        if not line.startswith(b" "):
            yield on(b'string "a"', b"", line), 4
    for kind in (b"string", b"bytes"):
        yield on(kind + b' "a"', b"file 0 0", kind + b' "b"'), 4
        yield on(kind + b' "a"', b"entry 1 1 0", kind + b' "b"'), 4
        yield on(b"file 0 0", kind + b' "b"'), 3
    yield on(b'bytes "a"', b'file "b" 0'), 3
    yield on(b'bytes "a"', b'file "a" 0'), 3
    yield on(b'string "a"', b'bytes "b"', b'entry 1 1 "a"', b'entry 2 1 "b"'), 5
    yield on(b'string "a"', b'bytes "b"', b'entry 1 1 ""'), 4
    yield on(b'string "a"', b'bytes "b"', b'entry 1 1 2 "b"'), 4
    yield on(b'string "a"', b'entry 1 1 1 "a"'), 3
    yield on(b'string "ab"', b'entry 1 1 0 "a"'), 3
    yield on(b'string "ab"', b'entry 1 1 0 "b"'), 3
    yield on(b'string "ab"', b'entry 1 1 0 ""'), 3
    yield on(b'string "ab"', b'file 0 "ab" 0 "a"'), 3
    yield on(b"file 0 0", b"  1 00"), 3
    yield on(b"# entry 1 1 0", b"  1 00"), 3
    yield FULL.replace(b"\n", b"\r\n").replace(b"  9", b"  9 0"), 12
    yield FULL + b"\n" * 1000 + b"x", 1013
    yield FULL + b"# y\r\n" * 70000 + b"x y\n", 70013
    yield on(b"entry 1 1 0", b"  1 " + b"5a" * 500000 + b"5"), 3


# of each a text behind `gsym 1`, and the line of what refuses it
REFUSED = [
    ([b"entry 1 1 0", b"entry 1 1 0"], 3),
    ([b"entry 2 1 0", b"  1 00", b"", b"# x", b"entry 1 1 0", b"entry 0 1 0"], 6),
    ([b"entry 1 1 0", b"entry 3 1 0", b"entry 2 1 0", b"  1 00"], 4),
    ([b"entry 0xffffffffffffffff 1 0"], 2),
    ([b"file 0 0", b"entry 0xffffffff00000000 0xffffffff 0", b"entry 0xffffffff00000001 0xffffffff 0"], 4),
    ([b"entry 0x1000 32 1"], 2),
    ([b"entry 1 1 0", b"entry 2 1 1", b"entry 3 1 1"], 3),
    ([b'bytes "a"', b"entry 1 1 0"], 3),
    ([b'bytes ""', b"file 0 0"], 3),
    ([b"file 0 0", b"file 0 1", b"file 1 0"], 3),
    ([b"file 1 0"], 2),
    ([b"file 0 4294967295"], 2),
    ([b"file 1 0", b"entry 1 1 1"], 3),
    ([b"entry 1 1 1", b"file 1 0"], 2),
    ([rb'entry 1 1 "\xff"'], 2),
    ([b'entry 1 1 "\xc3"'], 2),
    ([rb'file "\xff" ""', rb"entry 1 1 0", rb'entry 2 1 1 "\xff"'], 4),
    ([b"entry 1 1 0", b"  0"], 3),
    ([b"entry 1 1 0", b"  1 00", b"entry 2 1 0", b"  1 00", b"  0 00", b"  1", b"  0"], 6),
    ([b"entry 1 1 0", b"  0", b"entry 1 1 0"], 4),
    ([b"entry 1 1 0", b"  0", b"entry 0xffffffffffffffff 1 0"], 4),
    ([b"entry 1 1 0", b"  0", b"entry 2 1 9"], 4),
    ([b"entry 1 1 0", b"  0", b"file 9 9"], 4),
    ([b"entry 1 1 9", b"entry 1 1 0"], 3),
    ([b"entry 1 1 9", b"entry 0xffffffffffffffff 1 0"], 3),
    ([b"entry 0xffffffffffffffff 1 0", b"entry 1 1 0"], 3),
    ([b"entry 0xffffffffffffffff 1 9", b"  0"], 2),
]


# what RULES doesn't settle, with what is expected here; a line, or None where a file is made
LEFT_OPEN = [
    ("no line that says anything", b"", 1),
    ("no line that says anything", b"\n# x\n", 3),
    ("blanks before other lines", b" gsym 1\n\tfile 0 0\n  entry 1 1 0\n", None),
    ("blanks before strings", b'gsym 1\n string "a"\n bytes "b"\n', None),
    ("only a return before an item", b"gsym 1\nentry 1 1 0\n\r1 00\n", 3),
    ("file OFFSET TEXT: a string is missing", b'gsym 1\nfile 0 ""\n', 2),
    ("file OFFSET TEXT: another string", b'gsym 1\nfile 0 "x"\n', 2),
    ("capital digits of a number", b"gsym 1\nentry 0xAB 0xF 0\n  0xA\n", None),
    ("capital digits of bytes", b"gsym 1\nentry 1 1 0\n  1 AbCD\n", None),
    ("capital digits of an escape", b'gsym 1\nstring "\\xC3\\xa9"\n', None),
    ("0X", b"gsym 1\nentry 0X1 1 0\n", 2),
    ("a capital escape", b'gsym 1\nstring "\\X41"\n', 2),
    ("zeros before a number", b"gsym 1\nentry 007 0x0000000001 000\n  01\n", None),
    ("more zeros than 64 bits", b"gsym 1\nentry 0x00000000000000000001 00000000000000000000000001 0\n", None),
    ("the version in another spelling", b"gsym 01\n", 1),
    ("the version in another spelling", b"gsym 0x1\n", 1),
    ("the first line again", b"gsym 1\ngsym 1\n", 2),
    ("an item below a file below an entry", b"gsym 1\nentry 1 1 0\nfile 0 0\n  1 00\n", None),
    ("a text that a later line adds", b'gsym 1\nentry 1 1 1 "b"\nentry 2 1 "b"\n', 2),
    ("a text that a later word adds", b'gsym 1\nfile 1 "b" "b"\n', 2),
    ("texts that nothing parts", b'gsym 1\nfile """"\n', 2),
    ("a remark behind a text", b'gsym 1\nstring "a"#\n', 2),
    ("a zero byte by its number", b'gsym 1\nstring "\\x00"\n', 2),
    ("a zero byte by its number", b'gsym 1\nbytes "\\x00"\n', 2),
    ("a wrong line behind what refuses", b"gsym 1\nentry 1 1 0\nentry 1 1 0\nx\n", 4),
    ("a wrong line before what refuses", b"gsym 1\nx\nentry 1 1 0\nentry 1 1 0\n", 2),
]


def some_text(r):
    """A text by chance, mostly right."""
    part = lambda: r.choice([b" ", b" ", b" ", b"  ", b"\t", b" \r", b" \t "])
    out, texts = [b"gsym 1"], [b"", b"a", b"ab", b"b", rb"\"", rb"\xc3\xa9", b"\xc3\xa9", b"# x", b"long " * 9]
    number = lambda n: b"%d" % n if r.random() < 0.5 else b"0x%x" % n
    text = lambda: b'"' + r.choice(texts) + b'"'
    for _ in range(r.choice([0, 0, 0, 1, 2, 4])):
        out.append(r.choice([b"string", b"string", b"string", b"bytes"]) + part() + text())
    address = r.choice([0, 0x1000, 2**40, 2**63])
    for _ in range(r.randrange(8)):
        kind = r.randrange(4)
        one = lambda: text() if r.random() < 0.8 else number(r.choice([0, 0, 1, 2]))
        if kind == 0:
            out.append(b"file" + part() + text() + part() + one())
        elif kind == 1 and address > 2**40:
            out.append(b"#" + r.randbytes(9).replace(b"\n", b""))
        else:
            address += r.choice([1, 1, 16, 255, 2**16, 2**32])
            out.append(b"entry" + part() + part().join([number(address), number(r.choice([0, 1, 2**32 - 1])), one()]))
            for _ in range(r.choice([0, 1, 1, 2])):
                out.append(part().replace(b"\r", b" ") + number(r.randrange(1, 2**r.choice([2, 8, 32]))))
                out[-1] += part() + r.randbytes(r.randrange(1, 6)).hex().encode() if r.random() < 0.8 else b""
    end = r.choice([b"\n", b"\n", b"\r\n", b" # remark\n", b"\n\n"])
    return end.join(out) + (end if r.random() < 0.8 else b"")


def harmed(text, r):
    """A text of which something is another."""
    words = [b" ", b"\t", b"\r", b"\n", b'"', b"\\", b"#", b"0", b"1", b"9", b"f", b"x", b"\x00", b"\x80", b"\\x41"]
    words.append(b"\n  1 00\n")
    at = r.randrange(len(text) + 1)
    kind = r.randrange(4)
    if kind == 0:
        return text[:at] + text[at + 1 :]
    if kind == 1:
        return text[:at] + r.choice(words) + text[at:]
    if kind == 2:
        return text[:at] + r.choice(words) + text[at + 1 :]
    some = text.split(b"\n")
    one, other = r.randrange(len(some)), r.randrange(len(some))
    some[one], some[other] = some[other], some[one]
    return b"\n".join(some)


def texts_by_chance(count):
    r = random.Random(7)
    for i in range(count):
        text = some_text(r)
        for _ in range(r.choice([0, 1, 1, 2])):
            text = harmed(text, r)
        yield text
