"""RULES (docs/RULES.md), "A report", written down once more over the model of a lookup, tests/vectors/lookup_model.py.

`report` is the text of a report, `objects` the same in JSON, `asked_by` what an input of a report asks for, and
`output_of` what is answered to any input. Where a table falls so that several entries are allowed, the page leaves the
choice to a definition: `Unsettled`.
"""
import os
import sys

TOP_FOLDER = os.path.realpath(__file__).rsplit("/", 3)[0]
sys.path.append(f"{TOP_FOLDER}/tests/vectors")
import lookup_model  # noqa: E402

MOST = 49152  # the bytes of a file that `report_main` takes
MOST_OF_TOOL = 2**32 - 1  # and `gsym report --binary`: as many as four bytes can say
ADDRESSES = 256  # the most that an input has
ROOM = 64
TOP = 2**64
WORDS = {}
SHOWN = bytes(ord("?") if byte < 32 or byte == 127 else byte for byte in range(256))


class Unsettled(Exception):
    pass


def answered(file, address, is_crash):
    """The refusal's number, or 0; and what is found, from the innermost out: each a name and its position, directory,
    file and line, which is None where there is none."""
    if not is_crash and address == 0:
        return 1, []
    try:
        number, numbers, records = lookup_model.answer(file, address - (not is_crash), 3, ROOM)
    except AssertionError:
        raise Unsettled
    if number:
        return number, []
    symbol, size, *name, has_position = numbers[:5]
    told = [*records, [*name, *numbers[5:10]]]
    part = lambda place, length: file[place : place + length]
    calls = []
    for name_at, name_len, directory_at, directory_len, file_at, file_len, line in told[:-1][::-1] + told[-1:]:
        position = part(directory_at, directory_len), part(file_at, file_len), line
        calls.append((part(name_at, name_len), position if has_position else None))
    return 0, [symbol, size, calls]


def shown(name):
    """A question mark for each control byte."""
    return name.translate(SHOWN)


def told_of(file, address, is_crash):
    """What stands in each line of an address, behind its number and the blank."""
    number, told = answered(file, address, is_crash)
    return [b"?%d" % number] if number else [shown(name) for name, _ in told[2]]


def report(file, addresses):
    seen, out = {}, []
    for index, address in enumerate(addresses):
        key = address, index == 0
        if key not in seen:
            seen[key] = told_of(file, *key)
        out += [b"%d %s\n" % (index, line) for line in seen[key]]
    return b"".join(out)


def escaped(text):
    """The inside of a string of JSON."""
    out = ""
    for character in text.decode("utf-8", "surrogateescape"):
        code = ord(character)
        if 0xDC80 <= code <= 0xDCFF:  # a single byte
            out += "\\ufffd"
        elif code < 32 or 127 <= code <= 0x9F or 0x202A <= code <= 0x202E or 0x2066 <= code <= 0x2069:
            out += f"\\u{code:04x}"
        else:
            out += "\\" + character if character in '"\\' else character
    return out.encode()


def words_of_refusals():
    """By number, as the page has them."""
    if not WORDS:
        with open(f"{TOP_FOLDER}/docs/RULES.md", encoding="utf-8") as page:
            section = page.read().split("\n## Refusal numbers\n")[1].split("\n## ")[0]
        rows = [line.split(" | ") for line in section.split("\n") if line.startswith("| ")][1:]
        WORDS.update((int(number[2:]), words) for number, words, _ in rows)
    return WORDS


def json_object(file, index, address, is_crash):
    """An object of a report; without its number, of `gsym addr2line --json`."""
    out = b"{" if index is None else b'{"index":%d,' % index
    number, told = answered(file, address, is_crash)
    out += b'"address":"0x%x","number":%d' % (address, number)
    if number:
        return out + b',"refusal":"%s"}\n' % words_of_refusals()[number].encode()
    frames = []
    for name, position in told[2]:
        frame = b'"name":"%s"' % escaped(name)
        if position:
            directory, file_name, line = position
            frame += b',"directory":"%s","file":"%s","line":%d' % (escaped(directory), escaped(file_name), line)
        frames.append(b"{%s}" % frame)
    return out + b',"start":"0x%x","size":%d,"frames":[%s]}\n' % (told[0], told[1], b",".join(frames))


def objects(file, addresses):
    return b"".join(json_object(file, i, address, i == 0) for i, address in enumerate(addresses))


def addresses_of(data):
    """The addresses in binary; None where the bytes don't come out at whole ones."""
    if len(data) % 8:
        return None
    return [int.from_bytes(data[at : at + 8], "little") for at in range(0, len(data), 8)]


def asked_by(most, data):
    """What an input of a report asks for: a file and addresses; None where it is no such input."""
    if len(data) < 4:
        return None
    size = int.from_bytes(data[:4], "little")
    if size > most or len(data) < 4 + size or len(data) - 4 - size > 8 * ADDRESSES:
        return None
    addresses = addresses_of(data[4 + size :])
    return None if addresses is None else (data[4 : 4 + size], addresses)


def output_of(most, data):
    asked = asked_by(most, data)
    return b"?\n" if asked is None else report(*asked)
