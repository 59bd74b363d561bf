#!/usr/bin/env python3
"""The model (model.py) as a program, in place of `gsym report` and of `gsym addr2line --json`; with a fault of FAULTS
where the environment's STAND_IN_FAULT names it, so that harms.sh shows that tool.py sees each. `tool_stand_in.py
--faults` lists them.
"""
import os
import signal
import sys

import model
import stand_in
from stand_in import FAULT, TOP, tell

# Faults, by the part of tool.py that shows them.
FAULTS = {
    "answers": """text-number-from-1 json-number-from-1 json-first-as-return-address json-others-as-they-stand
        json-address-lowered json-return-0-left-out json-without-frames json-is-text json-steers json-number-last
        words-of-input-ignored 49152-alone status-0 status-1-always empty-list-status-1""",
    "bad_words": """bad-word-skipped bad-word-answered bad-word-silent bad-word-status-1 first-word-of-input-alone
        empty-word-skipped lines-before-the-bad-word partial-address-ignored partial-address-silent wide-address-cut
        form-feed-parts zero-byte-ends-the-input file-before-words""",
    "closed_files": """closed-file-no-lines closed-file-status-2 closed-file-silent closed-file-return-0-as-the-file
        missing-file-is-empty elf-told-as-2""",
    "whole_inputs": """whole-input-status-0 whole-input-silent whole-input-told-in-json 256-not-counted
        length-of-31-bits""",
    "usage": """binary-with-words-taken no-file-taken base-taken functions-taken binary-for-addr2line
        help-without-report""",
    "spellings": """capitals-refused 0X-refused zeros-at-the-front-refused return-doesn-t-part no-newline-no-word
        256-with-file 999-with-file words-and-input""",
    "streams": "prints-as-it-reads ignores-write-errors reads-once",
}
ALL = {name for names in FAULTS.values() for name in names.split()}


def is_fault(name):
    assert name in ALL, name
    return FAULT == name


class Trouble(Exception):
    """A message, and whether the usage follows it."""


def files_words(word):
    """The words of an @FILE, in its place."""
    if word[:1] == b"@" and os.path.isfile(word[1:]):
        with open(word[1:], "rb") as file:
            return file.read().replace(b"'", b"").split()
    return [word]


def parsed(words):
    """Options and their values, and what is none."""
    options, rest, words = {}, [], [w for word in words for w in files_words(os.fsencode(word))]
    while words:
        word = words.pop(0)
        if b"--" in options or word[:1] != b"-" or len(word) < 2:
            rest.append(word)
        elif word in (b"-e", b"--exe"):
            if not words:
                raise Trouble("an option without its argument: '-e'", True)
            options[b"-e"] = words.pop(0)
        elif word[:2] == b"-e" or word[:6] == b"--exe=":
            options[b"-e"] = word[2:] if word[:2] == b"-e" else word[6:]
        elif word in (b"--json", b"--binary", b"--return-addresses", b"--", b"--help", b"-h", b"-H"):
            options[word] = True
        elif word == b"--base=0" and is_fault("base-taken") or word == b"-f" and is_fault("functions-taken"):
            pass
        else:
            raise Trouble(f"no such option: '{os.fsdecode(model.shown(word))}'", True)
    return options, rest


def words_of(text):
    between = b" \t\n" if is_fault("return-doesn-t-part") else b" \t\n\r"
    between += b"\x0c" if is_fault("form-feed-parts") else b""
    if is_fault("zero-byte-ends-the-input"):
        text = text.split(b"\0")[0]
    if is_fault("no-newline-no-word"):
        text = text[: text.rfind(b"\n") + 1]
    return "".join(chr(b) if b not in between else " " for b in text).encode("latin-1").split(b" ")


def address_of(word):
    digits = word[2:] if word[:2] in (b"0x", b"0X") else word
    if is_fault("0X-refused") and word[:2] == b"0X" or is_fault("capitals-refused") and digits != digits.lower():
        return None
    if is_fault("zeros-at-the-front-refused") and len(digits) > 16:
        return None
    if not digits or digits.strip(b"0123456789abcdefABCDEF"):
        return None
    address = int(digits, 16)
    return address % TOP if is_fault("wide-address-cut") else address if address < TOP else None


def addresses_of_words(words):
    addresses = []
    for word in words:
        address = address_of(word)
        if address is not None:
            addresses.append(address)
        elif is_fault("bad-word-answered"):
            addresses.append(0)
        elif not is_fault("bad-word-skipped") and not (is_fault("empty-word-skipped") and not word):
            if is_fault("lines-before-the-bad-word"):
                os.write(1, b"".join(b"%d ?1\n" % i for i in range(len(addresses))))
            characters = word.decode("utf-8", "surrogateescape")
            characters = "".join("?" if model.escaped(c.encode("utf-8", "surrogateescape"))[:2] == b"\\u"
                                 and not 0xDCA0 <= ord(c) <= 0xDCFF else c for c in characters)
            raise Trouble(f"'{characters}' is no address", False)
    return addresses


def read_input():
    try:
        return os.read(0, 2**16) if is_fault("reads-once") else stand_in.has_read(0)
    except OSError as error:
        raise Trouble(f"standard input: {error.strerror}", False)


def read_file(name):
    try:
        with open(name, "rb") as file:
            start = file.read(6)
            return start if start[:4] != b"MYSG" else start + file.read()
    except (OSError, ValueError) as error:
        if is_fault("missing-file-is-empty"):
            return b""
        raise Trouble(f"{os.fsdecode(model.shown(name))}: {error}", False)


def opens(file):
    try:
        model.lookup_model.Opened(file)
    except model.lookup_model.Refused:
        return False
    return True


def asked_of_tool(options, rest):
    """The file, the addresses and whether a message says that the file doesn't open; None for a bad input."""
    if b"--binary" in options and b"-e" not in options:
        most = model.MOST if is_fault("49152-alone") else model.MOST_OF_TOOL
        data = has_whole_input(4 + most + 8 * 257)
        if is_fault("length-of-31-bits") and len(data) > 3:
            data = data[:3] + bytes([data[3] & 127]) + data[4:]
        model.ADDRESSES = 1000 if is_fault("256-not-counted") else 256
        return model.asked_by(most, data)
    if is_fault("prints-as-it-reads"):
        os.write(1, b"0 ")
    file = None
    if is_fault("file-before-words"):
        file = read_file(options[b"-e"])
        if not opens(file):
            return file, []
    if b"--binary" in options:
        data = read_input()
        if is_fault("partial-address-ignored"):
            data = data[: len(data) // 8 * 8]
        addresses = model.addresses_of(data)
        if addresses is None:
            raise Trouble("" if is_fault("partial-address-silent") else "standard input: no whole addresses", False)
    elif rest:
        addresses = addresses_of_words(rest)
        if is_fault("words-and-input"):
            addresses += addresses_of_words(word for word in words_of(read_input()) if word)
    else:
        words = [word for word in words_of(read_input()) if word]
        words = words[:1] if is_fault("first-word-of-input-alone") else words
        addresses = [] if is_fault("words-of-input-ignored") else addresses_of_words(words)
    most = {"256-with-file": 256, "999-with-file": 999}.get(FAULT, len(addresses))
    return (read_file(options[b"-e"]) if file is None else file), addresses[:most]


def has_whole_input(most):
    """What `report --binary` needs of its input to say what it is."""
    try:
        head = stand_in.has_read(0, 3)
        size = int.from_bytes(head[:4], "little")
        return head if len(head) < 4 or size > model.MOST_OF_TOOL else head + stand_in.has_read(0, size + 8 * 257)
    except OSError as error:
        raise Trouble(f"standard input: {error.strerror}", False)


def objects(file, addresses):
    if is_fault("json-address-lowered"):
        return model.objects(file, addresses).replace(b'"0x1066"', b'"0x1065"')
    out = []
    for i, address in enumerate(addresses):
        is_crash = (i > 0) if is_fault("json-first-as-return-address") else i == 0
        is_crash = is_crash or is_fault("json-others-as-they-stand")
        if is_fault("json-return-0-left-out") and i and not address:
            continue
        one = model.json_object(file, i + is_fault("json-number-from-1"), address, is_crash)
        if is_fault("json-number-last"):
            one = b"{" + one.split(b",", 1)[1][:-2] + b',"index":%d}\n' % i
        if is_fault("json-without-frames") and b'"frames"' in one:
            one = one[: one.index(b',"frames"')] + b"}\n"
        out.append(one.replace(b"\\u009b", "\u009b".encode()) if is_fault("json-steers") else one)
    return b"".join(out)


def report_by_tool(options, rest):
    if b"-e" not in options and b"--binary" not in options and not is_fault("no-file-taken"):
        raise Trouble("-e FILE is missing", True)
    if rest and b"--binary" in options and not is_fault("binary-with-words-taken"):
        raise Trouble("--binary reads addresses from standard input", True)
    if b"--return-addresses" in options:
        raise Trouble("no such option: '--return-addresses'", True)
    as_json = b"--json" in options and not is_fault("json-is-text")
    asked = asked_of_tool({b"-e": b"/dev/null", **options} if is_fault("no-file-taken") else options, rest)
    if asked is None:
        if is_fault("whole-input-silent"):
            return b"", 2
        if is_fault("whole-input-told-in-json") and as_json:
            return b'{"error":"?"}\n', 2
        return b"?\n", 0 if is_fault("whole-input-status-0") else 2
    file, addresses = asked
    if is_fault("elf-told-as-2") and file[:4] == b"\x7fELF":
        file = b""
    is_open = opens(file)
    if not is_open and not is_fault("closed-file-silent"):
        tell(f"gsym: {os.fsdecode(model.shown(options.get(b'-e', b'standard input')))}: it doesn't open")
    if not is_open and is_fault("closed-file-return-0-as-the-file"):
        addresses = [address or 1 for address in addresses]
    if not is_open and is_fault("closed-file-no-lines"):
        return b"", 1
    out = objects(file, addresses) if as_json else model.report(file, addresses)
    if is_fault("text-number-from-1") and not as_json:
        lines = [(i + 1, line) for i, a in enumerate(addresses) for line in model.told_of(file, a, i == 0)]
        out = b"".join(b"%d %s\n" % line for line in lines)
    refused = any(model.answered(file, address, i == 0)[0] for i, address in enumerate(addresses))
    status = 0 if is_fault("status-0") else int(refused or is_fault("status-1-always"))
    if is_fault("empty-list-status-1") and not addresses:
        status = 1
    return out, 2 if not is_open and is_fault("closed-file-status-2") else status


def tool(words):
    try:
        options, rest = parsed(words)
        command = rest.pop(0) if rest else b""
        if options.keys() & {b"--help", b"-h", b"-H"}:
            out, status = b"usage: gsym addr2line" + (b"" if is_fault("help-without-report") else b" gsym report"), 0
        elif command == b"report":
            out, status = report_by_tool(options, rest)
        elif command == b"addr2line" and (b"--binary" not in options or is_fault("binary-for-addr2line")):
            file, out, status = read_file(options[b"-e"]), b"", 0
            for word in rest:
                out += model.json_object(file, None, int(word, 16), b"--return-addresses" not in options)
        else:
            raise Trouble("no such command or option", True)
    except Trouble as trouble:
        message, is_usage = trouble.args
        if message and not (is_fault("bad-word-silent") and not is_usage):
            tell(f"gsym: {message}" + "\nusage: gsym" * is_usage)
        return 1 if is_fault("bad-word-status-1") and message.endswith("no address") else 2
    signal.signal(signal.SIGPIPE, signal.SIG_IGN)
    try:
        stand_in.write_all(out)
    except BrokenPipeError:
        return 2
    except OSError as error:
        if is_fault("ignores-write-errors"):
            return status
        tell(f"gsym: standard output: {error.strerror}")
        return 2
    return status


if __name__ == "__main__":
    if sys.argv[1:] == ["--faults"]:
        print(*(f"{name} {part}" for part, names in FAULTS.items() for name in names.split()), sep="\n")
    else:
        stand_in.take_input()
        sys.exit(tool(sys.argv[1:]))
