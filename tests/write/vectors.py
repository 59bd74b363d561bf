#!/usr/bin/env python3
"""Writes the vectors that crates/write_cases replays, to standard output: `vectors.py > crates/write_cases/stdin`.

`vectors.py replay [FILE]` answers the lines of that file by the model and says how many differ; and holds each written
file to what RULES says of it ("What a written file says"), by tests/vectors/lookup_model.py. A line is

    NAME room R strings HEX [file D N].. [entry A S N [item T HEX]..].. = ANSWER

with `-` for no bytes, and the answer is `0 HEX`, the file, or what refuses it: `21 E`, `22 E`, `29 name E`, `29 file
F`, `30 E` or `32 LENGTH`. Numbers are decimal.
"""
import itertools
import os
import random
import sys

import model
from model import Content, Entry

TOP_FOLDER = os.path.realpath(__file__).rsplit("/", 3)[0]
sys.path.append(f"{TOP_FOLDER}/tests/vectors")
import lookup_model  # noqa: E402

STORED = f"{TOP_FOLDER}/crates/write_cases/stdin"
UNREAD = 9, 10, 11, 12, 13, 15, 23  # what a check tells of an item
TOP = model.TOP
MOST = model.MOST
PLENTY = 2**13
LETTERS = "abcdefghijklmnopqrstuvwxyz0123456789-"
SYNC = b"\0sync\0"
# texts that are UTF-8, and texts that are not
NAMES = [b"", b"main", b"", b"a", b"\xc2\x80", b"\xe2\x82\xac", b"\xed\x9f\xbf", b"\xf4\x8f\xbf\xbf", b"z\n\x01\x7f"]
NO_NAMES = [b"\xff", b"\x80", b"\xc0\x80", b"\xe0\x9f\x80", b"\xed\xa0\x80", b"\xf4\x90\x80\x80", b"ab\xc3", b"\xc2A"]


def spelled(data):
    return data.hex() or "-"


def line_of(name, content, room):
    words = [name, "room", room, "strings", spelled(content.strings)]
    for directory, file in content.files:
        words += ["file", directory, file]
    for entry in content.entries:
        words += ["entry", entry.address, entry.size, entry.name]
        for kind, block in entry.items:
            words += ["item", kind, spelled(block)]
    return " ".join(str(word) for word in words) + " = " + answer(content, room)


def answer(content, room):
    told = model.written(content, room)
    return " ".join(spelled(one) if isinstance(one, bytes) else str(one) for one in told)


def content_of(words):
    """The room and the content of a line, from the word `room` on."""
    data = lambda word: b"" if word == "-" else bytes.fromhex(word)
    words, content, room = list(words), Content(), 0
    while words:
        kind = words.pop(0)
        if kind == "strings":
            content.strings = data(words.pop(0))
            continue
        numbers = [int(words.pop(0)) for _ in range({"room": 1, "file": 2, "entry": 3, "item": 1}[kind])]
        if kind == "room":
            room = numbers[0]
        elif kind == "file":
            content.files.append(tuple(numbers))
        elif kind == "entry":
            content.entries.append(Entry(*numbers))
        else:
            content.entries[-1].items.append((numbers[0], data(words.pop(0))))
    return content, room


def replay(lines):
    """How many lines there are, and the names of those that the model answers otherwise."""
    count, differ = 0, []
    for line in lines:
        asked, told = line.rstrip("\n").split(" = ")
        name, *words = asked.split(" ")
        if words[0] != "room":  # of texts.py
            continue
        count += 1
        content, room = content_of(words)
        if answer(content, room) != told or told[:2] == "0 " and not says(bytes.fromhex(told[2:]), content):
            differ.append(name)
    return count, differ


def said(file):
    """The strings, files and entries of a file, by the model of lookups."""
    opened = lookup_model.Opened(file)
    place, size = opened.strings
    number = lambda at: int.from_bytes(file[at : at + 4], "little")
    files = [(number(opened.files + 8 * i), number(opened.files + 8 * i + 4)) for i in range(opened.rows)]
    entries = []
    for i in range(opened.count):
        size_of, name, list_at = opened.info(i)
        entries.append((opened.base + opened.entry(i), size_of, name, [*opened.items(list_at)]))
    return file[place : place + size], files, entries


def says(file, content):
    """The file says what was given (RULES, "Writing a file"), by the models of lookups and of the check."""
    entries = [(entry.address, entry.size, entry.name, [*entry.items, (0, b"")]) for entry in content.entries]
    if said(file) != (content.strings, content.files, entries):
        return False
    place = model.Layout(content).strings
    for entry in content.entries:
        name = model.name_at(content.strings, entry.name)
        found = lookup_model.answer(file, entry.address, 0, 64)[:2]
        if found != (0, [entry.address, entry.size, place + entry.name, len(name)] + [0] * 7):
            return False
    checked = lookup_model.check(file)[0]
    has_no_block = not any(kind in (1, 2) for entry in content.entries for kind, _ in entry.items)
    return checked == 0 or checked in UNREAD and not has_no_block


def at(*addresses, size=0, name=0, items=()):
    return [Entry(address, size, name, items) for address in addresses]


def small():
    """Contents of few bytes, by name, and how many bytes their files have."""
    yield "one-file", Content(b"\0", [(0, 0)]), 61
    yield "nothing", Content(), 52
    yield "one-zero", Content(b"\0"), 53
    yield "sync", Content(SYNC, [], at(0x1000, size=32, name=1)), 84
    yield "item", Content(b"f\0", [(0, 1)], at(5, size=3, items=[(1, b"abc")])), 48 + 4 + 4 + 4 + 8 + 2 + 2 + 16 + 11


# the two files that RULES writes out
PAGE_61 = bytes.fromhex("4d59534701000100" + "00" * 12 + "3c00000001000000" + "00" * 20 + "01000000" + "00" * 8 + "00")
PAGE_52 = bytes.fromhex("4d59534701000100" + "00" * 12 + "3400000000000000" + "00" * 20 + "00000000")


def page():
    """What RULES writes out, in "Writing a file"."""
    assert model.written(Content(b"\0", [(0, 0)]), 61) == (0, PAGE_61)
    assert model.written(Content(), 52) == (0, PAGE_52)
    for name, content, length in small():
        yield name, content, length
    told = {"equal": (21, 1), "ends-above-before-its-name": (22, 0), "name-at-the-end": (29, "name", 0)}
    entries = at(0x1000, 0x1000), at(TOP - 1, size=1, name=5), at(TOP - 1, name=5)
    for name, some in zip(told, entries):
        content = Content(b"\0abc\0", [], some)
        assert model.written(content, PLENTY) == told[name]
        yield name, content, PLENTY


def rooms():
    """Every room up to one byte more than the file has."""
    for name, content, length in small():
        step = 1 if name in ("one-file", "nothing", "item") else 7
        some = {*range(0, length + 2, step), length - 1, length, length + 1}
        for room in sorted(some):
            yield f"{name}-room-{room}", content, room
    for room in (2**13 + 1, 2**16 + 3):
        yield f"one-file-room-{room}", Content(b"\0", [(0, 0)]), room


def widths():
    """The offset size, at its edges, of various bases; and the last address alone decides."""
    edges = [256**width + more for width in (1, 2, 4) for more in (-2, -1, 0, 1)]
    for far in [1, 2**15, 2**31, 2**63 - 1, 2**63, TOP - 1, *edges]:
        for base in sorted({0, 1, 0x1000, 2**63, TOP - 1 - far}):
            if base + far < TOP and (base in (0, TOP - 1 - far) or far in edges):
                yield f"far-{far}-base-{base}", Content(b"\0", [], at(base, base + far)), PLENTY
    for far in (255, 256, 65535, 65536, MOST, MOST + 1):
        yield f"near-and-far-{far}", Content(b"\0", [], at(7, 8, 7 + far)), PLENTY
        yield f"far-and-farther-{far}", Content(b"\0", [], at(7, 6 + far, 7 + far)), PLENTY
    for base in (0, 1, 255, 256, 65536, MOST, MOST + 1, 2**63, TOP - 1):
        yield f"alone-{base}", Content(b"\0", [], at(base)), PLENTY


def counts():
    """The address table's zeros, of each offset size; and many entries of few bytes and few of many."""
    for width in model.WIDTHS:
        for count in range(1, 10 if width < 4 else 4):
            step = 256 ** (width // 2) if width > 1 else 1
            entries = at(*(9 + i * step for i in range(count - 1)), 9 + (count - 1) * step)
            if count > 1 and width > 1:
                entries[-1].address = 9 + 256**width - 1
            yield f"width-{width}-of-{count}", Content(b"\0", [(0, 0)] * (count % 3), entries), PLENTY
    yield "entries-256", Content(b"\0", [], at(*range(256))), PLENTY
    yield "files-257", Content(b"\0", [(0, 0)] * 257), PLENTY
    for count in range(5):
        files = [(i % 3, 2 - i % 3) for i in range(count)]
        yield f"files-{count}", Content(b"a\0\0", files), PLENTY
        yield f"files-{count}-and-an-entry", Content(b"a\0\0", files, at(3)), PLENTY


def paddings():
    """The zeros before data: strings and items of every length."""
    for length in range(1, 9):
        strings = b"s" * (length - 1) + b"\0"
        yield f"strings-of-{length}", Content(strings, [], at(1, size=2)), PLENTY
        for more in range(4):
            items = [(1, b"\xff" * more)]
            yield f"strings-of-{length}-item-of-{more}", Content(strings, [], at(1, 2, 3, items=items)), PLENTY
    for first, second in itertools.product(range(5), repeat=2):
        items = [(3, b"\x11" * first), (4, b"\x22" * second)]
        yield f"items-of-{first}-and-{second}", Content(b"\0", [(0, 0)], at(0, 4, size=4, items=items)), PLENTY


def items():
    """Types, empty items, items that look like the end of a list, lists of various lengths."""
    for kind in (1, 2, 3, 4, 9, 255, 256, 2**16, 2**24, 2**31, MOST - 1, MOST):
        content = Content(b"\0", [], at(0, size=1, items=[(kind, b"")]) + at(1, items=[(kind, b"\x01\x02\x03")]))
        yield f"type-{kind}", content, PLENTY
    blocks = [b"", bytes(1), bytes(8), bytes(16), b"\xa5" * 9, model.little(1, 4) * 2, bytes(range(256))]
    for block in blocks:
        content = Content(SYNC, [], at(9, 10, name=1, items=[(2, block), (1, b"\x05"), (2, block)]))
        yield f"block-of-{len(block)}-{block[:1].hex()}", content, PLENTY
    for count in (0, 1, 2, 3, 4, 5, 20):
        content = Content(b"\0", [], at(1, 2, items=[(i + 1, bytes([i]) * (i % 4)) for i in range(count)]))
        yield f"list-of-{count}", content, PLENTY
    uneven = at(1, items=[(1, b"a")]) + at(2) + at(3, items=[(1, b""), (1, b"bcd")]) + at(4)
    yield "lists-of-various-lengths", Content(b"\0", [], uneven), PLENTY
    for size in (0, 1, 255, 256, 65536, 2**31, MOST):
        yield f"size-{size}", Content(b"\0", [], at(size, size=size)), PLENTY
    yield "symbols-over-one-another", Content(b"\0", [], at(0, 1, 2, size=100)), PLENTY


def names():
    """Names that read: shared, at the end, the end of another, in strings without a last zero byte."""
    strings = b"\0".join(NAMES) + b"\0"
    places = list(itertools.accumulate([len(name) + 1 for name in NAMES], initial=0))
    for i, place in enumerate(places[:-1]):
        yield f"name-{i}", Content(strings, [], at(1, name=place)), PLENTY
    yield "two-of-a-name", Content(SYNC, [], at(1, 2, name=1)), PLENTY
    for offset in range(6):
        yield f"suffix-{offset}", Content(SYNC, [(offset, 5 - offset)], at(1, name=offset)), PLENTY
    for offset in range(6):
        yield f"no-last-zero-{offset}", Content(b"ab\0cd", [], at(1, name=offset)), PLENTY
        yield f"no-last-zero-directory-{offset}", Content(b"ab\0cd", [(offset, 0)]), PLENTY
        yield f"no-last-zero-file-{offset}", Content(b"ab\0cd", [(0, offset)]), PLENTY
    for strings in (b"", b"a", b"\0", b"\xff\0"):
        for offset in (0, 1, 2, MOST):
            about = f"of-{strings.hex() or 'none'}-at-{offset}"
            yield f"name-{about}", Content(strings, [], at(1, name=offset)), PLENTY
            yield f"directory-{about}", Content(strings, [(offset, 0)]), PLENTY
            yield f"file-{about}", Content(strings, [(0, offset)]), PLENTY
    long = b"n" * 299 + b"\0"
    within = at(1) + at(2, name=256) + at(3, name=299)
    yield "names-in-a-long-string", Content(long, [(256, 299), (299, 255)], within), PLENTY
    yield "name-behind-a-long-string", Content(long, [(256, 299)], at(1) + at(2, name=300)), PLENTY
    yield "no-strings-are-named", Content(b"no end"), PLENTY
    yield "not-named-not-utf8", Content(b"\0\xff\0"), PLENTY
    for text in NO_NAMES:
        strings = b"ok\0" + text + b"\0"
        about = f"not-utf8-{text.hex()}"
        yield about, Content(strings, [], at(1, 2) + at(3, name=3)), PLENTY
        yield f"{about}-suffix", Content(strings, [], at(1, name=2 + len(text))), PLENTY
        yield f"{about}-directory", Content(strings, [(3, 0), (0, 3)], at(1)), PLENTY


def edges():
    """Each refusal at its edge, at the first entry, in between and at the last."""
    for first, second in ((0, 0), (1, 0), (0, 1), (5, 4), (5, 5), (5, 6), (TOP - 1, 0), (TOP - 1, TOP - 1)):
        yield f"addresses-{first}-{second}", Content(b"\0", [], at(first, second)), PLENTY
        yield f"addresses-{first}-{second}-later", Content(b"\0", [], at(first, second, second + 1)), PLENTY
    for addresses in ((1, 2, 2, 3, 3), (1, 2, 3, 1), (5, 6, 4, 3), (2**32, 2**32 + 1, 1), (1, 2**32, 2**32), (9, 1, 5)):
        yield f"addresses-{'-'.join(map(str, addresses))}", Content(b"\0", [], at(*addresses)), PLENTY
    for sizes in ((1,), (0,), (2,), (MOST,)):
        for below in (0, 1, 2, 3, MOST, MOST + 1):
            entries = at(0, size=7) + at(TOP - 1 - below, size=sizes[0])
            yield f"sum-{below}-{sizes[0]}", Content(b"\0", [], entries), PLENTY
            yield f"sum-{below}-{sizes[0]}-alone", Content(b"\0", [], entries[1:]), PLENTY
    ends = at(TOP - 9, size=9) + at(TOP - 8, size=7) + at(TOP - 7, size=7)
    yield "sums-the-first-and-the-last", Content(b"\0", [], ends), PLENTY
    yield "sums-the-last", Content(b"\0", [], at(TOP - 9, size=8) + ends[1:]), PLENTY
    good, bad = (1, b"a"), (0, b"")
    lists = {"last": [good, bad], "first": [bad, good], "alone": [bad], "long": [(0, b"abc")], "twice": [bad, bad]}
    lists["between"] = [good, bad, good]
    for name, some in lists.items():
        for where in range(3):
            entries = at(1, 2, 3, items=[good])
            entries[where].items = some
            yield f"type-0-{name}-{where}", Content(b"\0", [], entries), PLENTY
    twice = at(1, items=[good]) + at(2, items=[bad]) + at(3, items=[bad])
    yield "type-0-in-two", Content(b"\0", [], twice), PLENTY
    for bad_at in ((1, 2), (2,), (0, 2)):
        files = [(0, 0), (0, 0), (0, 0)]
        entries = at(1, 2, 3)
        for i in bad_at:
            files[i] = (0, 1)
            entries[i].name = 1
        about = "-".join(map(str, bad_at))
        yield f"files-that-don-t-read-{about}", Content(b"\0", files, at(1)), PLENTY
        yield f"names-that-don-t-read-{about}", Content(b"\0", [], entries), PLENTY
        yield f"names-and-files-{about}", Content(b"\0", files, entries), PLENTY
    yield "directory-then-file", Content(b"\0", [(0, 0), (1, 0), (0, 1)]), PLENTY
    yield "file-then-directory", Content(b"\0", [(0, 1), (1, 0)]), PLENTY


FAULTS = ("21", "22", "name", "file", "30", "32")


def put_fault(content, kind, place):
    """Puts a fault into an entry of four, or into a file."""
    entry = content.entries[place]
    if kind == "21":
        entry.address = content.entries[place - 1].address
    elif kind == "22":
        entry.size = TOP - entry.address
    elif kind == "name":
        entry.name = len(content.strings)
    elif kind == "file":
        content.files[place - 1] = (0, len(content.strings))
    elif kind == "30":
        entry.items = [(1, b"x"), (0, b"")]


def pairs():
    """Each two of the refusals in one content, in both orders of place and in one place; and all but the first ones."""
    for kinds in itertools.combinations(FAULTS, 2):
        for places in ((1, 3), (3, 1), (2, 2)):
            content = Content(SYNC, [(1, 0)] * 3, at(*(TOP - 100 + 10 * i for i in range(4)), size=2, name=1))
            for kind, place in zip(kinds, places):
                put_fault(content, kind, place)
            yield f"both-{'-'.join(kinds)}-at-{'-'.join(map(str, places))}", content, 10 if "32" in kinds else PLENTY
    for left in range(len(FAULTS)):
        content = Content(SYNC, [(1, 0)] * 4, at(*(TOP - 100 + 10 * i for i in range(8)), size=2, name=1))
        for i, kind in enumerate(FAULTS[left:-1], left):
            put_fault(content, kind, min(5 - i, 4))
        yield f"all-from-{FAULTS[left]}", content, 0


def some_content(r):
    """A content of which everything reads, by chance."""
    strings = b"".join(r.choice(NAMES + NO_NAMES[:1]) + b"\0" for _ in range(r.randrange(1, 5)))
    good = [i for i in range(len(strings)) if model.name_at(strings, i) is not None]
    any_place = lambda: r.randrange(len(strings))
    entries, address = [], r.choice([0, 5, 0x1000, 2**32, 2**63, TOP - 2**33])
    for _ in range(r.randrange(0, 6) if good else 0):
        size = r.choice([0, 1, 16, 2**16, r.randrange(2**31)])
        kinds = [r.choice([1, 2, 2, 7, r.randrange(1, 2**32)]) for _ in range(r.choice([0, 0, 1, 2, 3]))]
        blocks = [(kind, r.randbytes(r.choice([0, 1, 2, 3, 4, 5, 8, 13]))) for kind in kinds]
        entries.append(Entry(address, size, r.choice(good), blocks))
        address += r.choice([1, 1, 16, 254, 255, 2**8, 2**15, 2**16, r.randrange(1, 2**32)])
    strings += r.choice([b"", b"", b"", b"tail"])
    return Content(strings, [(any_place(), any_place()) for _ in range(r.choice([0, 0, 1, 2, 3, 7]))], entries)


def harm(r, content):
    """Something of a content becomes another."""
    entry = r.choice(content.entries) if content.entries else Entry(0, 0, 0)
    kind = r.randrange(7)
    if kind == 0:
        entry.address = r.choice([0, TOP - 1, r.randrange(TOP), *(other.address for other in content.entries)])
    elif kind == 1:
        entry.size = min(MOST, r.choice([0, 1, TOP - entry.address, TOP - entry.address - 1]))
    elif kind == 2:
        entry.name = r.choice([r.randrange(len(content.strings) + 3), MOST])
    elif kind == 3:
        entry.items.insert(r.randrange(len(entry.items) + 1), (0, b""))
    elif kind == 4 and content.files:
        content.files[r.randrange(len(content.files))] = (r.randrange(len(content.strings) + 2), 0)
    elif kind == 5:
        content.strings = content.strings[: r.randrange(len(content.strings) + 1)]
    elif kind == 6:
        content.entries.reverse()


def by_chance():
    r = random.Random(2026)
    for i in range(70):
        yield f"chance-{i}", some_content(r), PLENTY
    for i in range(130):
        content = some_content(r)
        for _ in range(r.randrange(1, 4)):
            harm(r, content)
        yield f"changed-{i}", content, PLENTY
    for i in range(50):
        yield f"short-{i}", some_content(r), r.randrange(400)


PARTS = [page, rooms, widths, counts, paddings, items, names, edges, pairs, by_chance]


def cases():
    """All cases, none of a name twice, and each address of 64 bits."""
    seen = set()
    for part in PARTS:
        for name, content, room in part():
            if any(entry.address >= TOP for entry in content.entries):
                continue
            assert name not in seen and not name.strip(LETTERS), name
            seen.add(name)
            yield name, content, room


def main():
    if sys.argv[1:2] == ["replay"]:
        with open(sys.argv[2] if len(sys.argv) > 2 else STORED, encoding="ascii") as file:
            count, differ = replay(file)
        print(f"{count:,} vectors, {len(differ)} differ", *differ[:5])
        return 1 if differ or not count else 0
    for case in cases():
        print(line_of(*case))
    return 0


if __name__ == "__main__":
    sys.exit(main())
