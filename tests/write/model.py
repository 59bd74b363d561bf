"""RULES (docs/RULES.md), "Writing a file" and "A file as text", written down once more.

`written` is the file that is made of a content, or what refuses it; `dumped` is a file as text, `made` what comes of a
text, `content_of` what a file says. Where the page doesn't settle what a text is, LEFT_OPEN of tool.py has it.
"""
import re

TOP = 2**64
MOST = 2**32 - 1
WIDTHS = 1, 2, 4, 8
HEADER = 48
MAGIC, VERSION = 0x4753594D, 1
REMARK = b"# the list doesn't end in type 0"  # the page doesn't have its words


class Entry:
    """An address, a size, a name (an offset in the strings), and items: each a type and bytes."""

    def __init__(self, address, size, name, items=()):
        self.address, self.size, self.name, self.items = address, size, name, list(items)


class Content:
    """What a file says. A file is a directory and a file name, offsets in the strings."""

    def __init__(self, strings=b"", files=(), entries=()):
        self.strings, self.files, self.entries = strings, list(files), list(entries)


class Refused(Exception):
    """A number, and what is told with it: the entry, the file or the needed length."""


class Wrong(Exception):
    """The number of a line of text that is wrong, from 1."""


def little(number, size):
    return number.to_bytes(size, "little")


def number_at(file, place, size):
    """None where fewer bytes are left (RULES, "Numbers")."""
    return int.from_bytes(file[place : place + size], "little") if place + size <= len(file) else None


def next_fourth(place):
    return (place + 3) // 4 * 4


def string_at(strings, offset):
    """RULES, "Strings"; None where it doesn't read."""
    stop = strings.find(b"\0", offset) if offset < len(strings) else -1
    return None if stop < 0 else strings[offset:stop]


def name_at(strings, offset):
    """A string that is UTF-8."""
    name = string_at(strings, offset)
    try:
        name is None or name.decode("utf-8")
    except UnicodeDecodeError:
        return None
    return name


# Writing a file


def base_of(content):
    return content.entries[0].address if content.entries else 0


def offset_size(content):
    furthest = max((entry.address - base_of(content) for entry in content.entries), default=0)
    return min(width for width in WIDTHS if furthest < 256**width)


class Layout:
    """The places of the data offsets, the strings and each entry's data, and the length of the file."""

    def __init__(self, content):
        count = len(content.entries)
        self.offsets = next_fourth(HEADER + count * offset_size(content))
        self.strings = self.offsets + 4 * count + 4 + 8 * len(content.files)
        self.data = []
        self.length = self.strings + len(content.strings)
        for entry in content.entries:
            self.data.append(next_fourth(self.length))
            self.length = self.data[-1] + 16 + sum(8 + len(block) for _, block in entry.items)


def judge_addresses(content):
    for i, entry in enumerate(content.entries[1:], 1):
        if entry.address <= content.entries[i - 1].address:
            raise Refused(21, i)


def judge_sums(content):
    for i, entry in enumerate(content.entries):
        if entry.address + entry.size >= TOP:
            raise Refused(22, i)


def judge_names(content):
    for i, entry in enumerate(content.entries):
        if name_at(content.strings, entry.name) is None:
            raise Refused(29, "name", i)
    for i, file in enumerate(content.files):
        if None in [string_at(content.strings, offset) for offset in file]:
            raise Refused(29, "file", i)


def judge_types(content):
    for i, entry in enumerate(content.entries):
        if 0 in [kind for kind, _ in entry.items]:
            raise Refused(30, i)


def judge_widths(content):
    layout = Layout(content)
    lengths = [len(block) for entry in content.entries for _, block in entry.items]
    numbers = [len(content.entries), len(content.files), layout.strings, len(content.strings), *layout.data, *lengths]
    if max(numbers) > MOST:
        raise Refused(31)


def judge_room(content, room):
    length = Layout(content).length
    if length > room:
        raise Refused(32, min(length, TOP - 1))


def judge(content, room):
    """The first that holds refuses, each judged over all that is given before the next."""
    judge_addresses(content)
    judge_sums(content)
    judge_names(content)
    judge_types(content)
    judge_widths(content)
    judge_room(content, room)


def header(content):
    out = little(MAGIC, 4) + little(VERSION, 2) + little(offset_size(content), 1) + little(0, 1)
    out += little(base_of(content), 8) + little(len(content.entries), 4)
    return out + little(Layout(content).strings, 4) + little(len(content.strings), 4) + bytes(20)


def data_of(entry):
    out = [little(entry.size, 4), little(entry.name, 4)]
    for kind, block in entry.items:
        out += [little(kind, 4), little(len(block), 4), block]
    return b"".join(out) + little(0, 4) + little(0, 4)


def put(out, place, part):
    """Zeros up to a place, and then a part."""
    out += bytes(place - len(out))
    out += part


def file_of(content):
    layout, base, width = Layout(content), base_of(content), offset_size(content)
    out = bytearray(header(content))
    out += b"".join(little(entry.address - base, width) for entry in content.entries)
    put(out, layout.offsets, b"".join(little(place, 4) for place in layout.data))
    out += little(len(content.files), 4)
    out += b"".join(little(directory, 4) + little(name, 4) for directory, name in content.files)
    put(out, layout.strings, content.strings)
    for entry, place in zip(content.entries, layout.data):
        put(out, place, data_of(entry))
    return bytes(out)


def written(content, room):
    """0 and the file, or what refuses it."""
    try:
        judge(content, room)
    except Refused as refused:
        return refused.args
    return 0, file_of(content)


# What a file says


class Opened:
    """A file's header and tables (RULES, "Header and tables"): `entries` are addresses less the base."""

    def __init__(self, file):
        self.file = file
        self.judge_header()
        self.width, self.base, self.count = (self.number(*at) for at in ((6, 1), (8, 8), (16, 4)))
        self.strings = self.part(self.number(20, 4), self.number(24, 4))
        self.part(0, HEADER)
        offsets = next_fourth(HEADER + self.count * self.width)
        table = self.part(HEADER, self.count * self.width)
        self.places = self.fours(offsets, self.count)
        files = self.fours(offsets + 4 * self.count + 4, 2 * self.number(offsets + 4 * self.count, 4))
        self.files = list(zip(files[::2], files[1::2]))
        steps = range(0, len(table), self.width or 1)
        self.entries = [int.from_bytes(table[at : at + self.width], "little") for at in steps]

    def judge_header(self):
        if self.number(0, 4) != MAGIC:
            raise Refused(3)
        if self.number(4, 2) != VERSION:
            raise Refused(4)

    def number(self, place, size):
        return int.from_bytes(self.part(place, size), "little")

    def part(self, place, size):
        if place + size > len(self.file):
            raise Refused(2)
        return self.file[place : place + size]

    def fours(self, place, count):
        table = self.part(place, 4 * count)
        return [int.from_bytes(table[at : at + 4], "little") for at in range(0, len(table), 4)]


def items_at(file, at):
    """The items of a list (RULES, "Address data list"), and whether it ends in type 0."""
    items = []
    while True:
        kind, length = number_at(file, at, 4), number_at(file, at + 4, 4)
        if kind == 0:
            return items, True
        if length is None or at + 8 + length > len(file):
            return items, False
        items.append((kind, file[at + 8 : at + 8 + length]))
        at += 8 + length


def entries_of(opened):
    """Of each entry the address, and its size, name, items and whether their list ends; None where its information
    doesn't read."""
    for less_base, place in zip(opened.entries, opened.places):
        size, name = number_at(opened.file, place, 4), number_at(opened.file, place + 4, 4)
        yield opened.base + less_base, None if name is None else (size, name, *items_at(opened.file, place + 8))


def content_of(file):
    """What a file says of which each entry reads."""
    opened = Opened(file)
    entries = [Entry(address, *info[:3]) for address, info in entries_of(opened)]
    return Content(opened.strings, opened.files, entries)


# A file as text


def quoted(text):
    out = b""
    for byte in text:
        if byte < 32 or byte >= 127:
            out += b"\\x%02x" % byte
        else:
            out += b"\\" * (byte in b'"\\') + bytes([byte])
    return b'"' + out + b'"'


def string_lines(strings):
    *whole, rest = strings.split(b"\0")
    yield from (b"string " + quoted(text) for text in whole)
    if rest or not whole:
        yield b"bytes " + quoted(rest)


def shown(offset, text):
    """A string of a file or an entry: the offset, and behind it the text where it reads."""
    return b"%d" % offset if text is None else b"%d %s" % (offset, quoted(text))


def entry_lines(strings, address, info):
    if info is None:
        yield b"entry 0x%x ?5" % address
        return
    size, name, items, ends = info
    yield b"entry 0x%x %d %s" % (address, size, shown(name, name_at(strings, name)))
    for kind, block in items:
        yield b"  %d" % kind + (b" " + block.hex().encode() if block else b"")
    if not ends:
        yield b"  " + REMARK


def dumped(file):
    """`gsym dump`: the exit status, and the text."""
    try:
        opened = Opened(file)
    except Refused:
        return 2, b""
    if opened.width not in WIDTHS:
        return 2, b""
    lines, status = [b"gsym 1", *string_lines(opened.strings)], 0
    for both in opened.files:
        lines.append(b"file " + b" ".join(shown(offset, string_at(opened.strings, offset)) for offset in both))
    for address, info in entries_of(opened):
        lines += entry_lines(opened.strings, address, info)
        status = 1 if info is None else status
    return status, b"\n".join(lines) + b"\nend\n"


def closed(text):
    """A text with its last line, where that isn't there."""
    if text.endswith(b"\nend\n"):
        return text
    return text + b"\n" * (not text.endswith(b"\n")) * bool(text) + b"end\n"


class Text(bytes):
    """A word in quotes."""


def is_text(word):
    return isinstance(word, Text)


WORD = re.compile(
    rb"""[ \t\r]*(?:
    (?P<remark>\#.*)
    | "(?P<text>(?:[^"\\\x00-\x1f\x7f] | \\["\\] | \\x[0-9A-Fa-f]{2})*)"(?=[ \t\r]|\Z)
    | (?P<word>[^ \t\r"\#][^ \t\r]*)
    | \Z)""",
    re.VERBOSE | re.DOTALL,
)
ESCAPE = re.compile(rb'\\(?:x(..)|(.))', re.DOTALL)
NUMBER = re.compile(rb"[0-9]+|0x[0-9A-Fa-f]+")
HEX = re.compile(rb"(?:[0-9A-Fa-f]{2})+")


def unquoted(inside):
    text = Text(ESCAPE.sub(lambda found: found[2] or bytes([int(found[1], 16)]), inside))
    return None if 0 in text else text


def words_of(line):
    """The words of a line; None where it has a text that is none."""
    words, at = [], 0
    while at < len(line):
        found = WORD.match(line, at)
        if not found:
            return None
        at = found.end()
        if found["text"] is not None:
            words.append(unquoted(found["text"]))
        elif found["word"] is not None:
            words.append(found["word"])
    return None if None in words else words


def number_of(word, bits):
    """None where a word is no number of so many bits."""
    if is_text(word) or not NUMBER.fullmatch(word):
        return None
    number = int(word[2:], 16) if word[:2] == b"0x" else int(word)
    return number if number < 2**bits else None


def parted(words, count):
    """The words as so many STRINGs, each an offset, a text or both, of which one is None; None where they are not. A
    text behind an offset belongs to it."""
    if not words or not count:
        return None if words or count else []
    first = number_of(words[0], 32)
    if is_text(words[0]):
        one, behind = (None, words[0]), words[1:]
    elif first is None:
        return None
    elif words[1:] and is_text(words[1]):
        one, behind = (first, words[1]), words[2:]
    else:
        one, behind = (first, None), words[1:]
    others = parted(behind, count - 1)
    return None if others is None else [one, *others]


def is_set_in(line):
    """It has at least one blank or tab before its first word."""
    return not {b" ", b"\t"}.isdisjoint(line[at : at + 1] for at in range(len(line) - len(line.lstrip(b" \t\r"))))


class Reading:
    """Takes lines one after another. `take` says whether a line is right; then the content has it."""

    def __init__(self):
        self.content, self.begun, self.ended = Content(bytearray()), False, False
        self.offsets = {}  # of the texts that `string` lines have or that were added: of equal ones the first
        self.has_strings = self.strings_end = False
        self.lines = {"name": [], "file": [], "item": []}  # of entries, of files, and of each entry's items

    def take(self, line, number):
        words = words_of(line)
        if not words:
            return words is not None
        if not self.begun:
            self.begun = True
            return words == [b"gsym", b"1"] and not any(is_text(word) for word in words)
        if self.ended:
            return False
        if number_of(words[0], 32) is not None:
            return is_set_in(line) and self.item(words, number)
        kinds = {b"string": self.string, b"bytes": self.bytes, b"file": self.file, b"entry": self.entry}
        kinds[b"end"] = self.end
        if is_text(words[0]) or words[0] not in kinds:
            return False
        return kinds[words[0]](words[1:], number)

    def end(self, words, _):
        self.ended = True
        return not words

    def string(self, words, _, end=b"\0"):
        if self.strings_end or len(words) != 1 or not is_text(words[0]):
            return False
        self.has_strings = True
        if end:
            self.offsets.setdefault(bytes(words[0]), len(self.content.strings))
        self.content.strings += words[0] + end
        return True

    def bytes(self, words, number):
        return self.string(words, number, b"")

    def end_strings(self):
        if not self.strings_end and not self.has_strings:
            self.string([Text(b"")], None)
        self.strings_end = True

    def offset(self, offset, text):
        """Where a STRING stands; None where it is wrong."""
        if text is None:
            return offset
        if offset is not None:
            return offset if string_at(self.content.strings, offset) == text else None
        if text not in self.offsets:
            if self.content.strings and self.content.strings[-1]:
                return None
            self.offsets[bytes(text)] = len(self.content.strings)
            self.content.strings += text + b"\0"
        return self.offsets[text]

    def file(self, words, number):
        both = parted(words, 2)
        if both is None:
            return False
        self.end_strings()
        offsets = [self.offset(*one) for one in both]
        self.content.files.append(tuple(offsets))
        self.lines["file"].append(number)
        return None not in offsets

    def entry(self, words, number):
        if len(words) < 3:
            return False
        address, size, name = number_of(words[0], 64), number_of(words[1], 32), parted(words[2:], 1)
        if None in (address, size, name):
            return False
        self.end_strings()
        offset = self.offset(*name[0])
        self.content.entries.append(Entry(address, size, offset))
        self.lines["name"].append(number)
        self.lines["item"].append([])
        return offset is not None

    def item(self, words, number):
        if not self.content.entries or len(words) > 2 or any(is_text(word) for word in words):
            return False
        if words[1:] and not HEX.fullmatch(words[1]):
            return False
        block = bytes.fromhex(words[1].decode()) if words[1:] else b""
        self.content.entries[-1].items.append((number_of(words[0], 32), block))
        self.lines["item"][-1].append(number)
        return True


def lines_of(text):
    *whole, rest = text.split(b"\n")
    return whole + [rest] * bool(rest)


def read(text):
    """The content that a text has, and the lines of its entries and files."""
    reading, lines = Reading(), lines_of(text)
    for number, line in enumerate(lines, 1):
        if not reading.take(line, number):
            raise Wrong(number)
    if not reading.ended:
        raise Wrong(len(lines) + 1)
    reading.end_strings()
    reading.content.strings = bytes(reading.content.strings)
    return reading.content, reading.lines


def made(text):
    """`gsym make`: the exit status, and the file or the line that is told, None where none is."""
    try:
        content, lines = read(text)
    except Wrong as wrong:
        return 1, wrong.args[0]
    told = written(content, TOP)
    if told[0] == 0:
        return told
    if told[0] == 31:
        return 1, None
    return 1, line_told(content, lines, told)


def line_told(content, lines, told):
    """The line that a refusal is about."""
    if told[0] == 29:
        return lines[told[1]][told[2]]
    if told[0] == 30:
        kinds = [kind for kind, _ in content.entries[told[1]].items]
        return lines["item"][told[1]][kinds.index(0)]
    return lines["name"][told[1]]
