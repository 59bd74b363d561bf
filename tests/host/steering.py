#!/usr/bin/env python3
"""Whether a tool prints a byte or a character that steers a terminal: `steering.py SAMPLE WORD..`, the words call it.

Each byte, each C1 control, each mark that turns the direction of writing, their neighbours, and sequences that are no
character stand as directory, file, function, inlined function, word and name of a file that isn't there; functions only
where they are UTF-8. The whole output has to be what docs/RULES.md, "What the tools print", says, written down here
once more, and what is printed is judged by itself too: no byte below 32 but newlines, no 127, no C1 control in either
form, no mark, and as many lines as there are without them. What the system says of an error has its number behind it in
`gsym`, which is written in Rattle, and a file name that is not UTF-8 can't be opened by it, since its paths are text.
"""
import json
import os
import pathlib
import re
import subprocess
import sys
import tempfile

SINGLE = [bytes([b]) for b in range(1, 256)]
C1 = [chr(c).encode() for c in range(0x80, 0xA0)]
MARKS = [chr(c).encode() for c in [*range(0x202A, 0x202F), *range(0x2066, 0x206A)]]
NEIGHBOURS = [chr(c).encode() for c in (0xA0, 0x2029, 0x202F, 0x2065, 0x206A, 0x10FFFF)]
# cut short, over a mark, longer than need be, a surrogate, above U+10FFFF
BROKEN = [b"\xc2", b"\xe2\x80", b"\xe2\x81", b"\xe2\xe2\x80\xae", b"\xc0\x9b", b"\xe0\x80\x9b", b"\xf0\x80\x80\x9b"]
BROKEN += [b"\xed\xa0\x80", b"\xf4\x90\x80\x80", b"\xf0\x9f\x98", b"\xc2\xc2\x9b", b"\x9b\xc2\x9b", b"\xe2\x80\x1b"]
CASES = SINGLE + C1 + MARKS + NEIGHBOURS + BROKEN


def is_steering(code):
    return code < 32 or 127 <= code <= 0x9F or 0x202A <= code <= 0x202E or 0x2066 <= code <= 0x2069


def characters(text):
    """The characters of UTF-8 in a text, and single bytes where there is none: code, bytes, whether it is one."""
    for c in text.decode("utf-8", "surrogateescape"):
        single = 0xDC80 <= ord(c) <= 0xDCFF
        yield ord(c) - 0xDC00 if single else ord(c), c.encode("utf-8", "surrogateescape"), not single


def shown(text):
    return b"".join(b"?" if is_steering(code) else whole for code, whole, _ in characters(text))


def quoted(text):
    out = b""
    for code, whole, is_character in characters(text):
        if not is_character or is_steering(code):
            out += b"\\u%04x" % (code if is_character else 0xFFFD)
        else:
            out += b"\\" + whole if whole in (b'"', b"\\") else whole
    return b'"' + out + b'"'


class Judge:
    def __init__(self, tool):
        self.tool = tool
        self.name = os.path.basename(tool[0]).encode()
        self.runs = 0
        self.wrong = 0

    def run(self, arguments, words=b""):
        self.runs += 1
        return subprocess.run([*self.tool, *arguments], input=words, capture_output=True, check=False)

    def judge(self, what, want, got, lines):
        steering = [code for code, whole, _ in characters(got) if is_steering(code) and whole != b"\n"]
        if want == got and not steering and got.count(b"\n") == lines:
            return
        self.wrong += 1
        if self.wrong < 10:
            print(f"tests/host: {what}: expected {want!r} and got {got!r}")


def with_texts(sample, texts):
    for old, new in texts.items():
        assert len(old) == len(new) and sample.count(b"\0" + old + b"\0") == 1
        sample = sample.replace(b"\0" + old + b"\0", b"\0" + new + b"\0")
    return sample


def files(judge, sample, case, path):
    """The case as directory, as file and, where it is UTF-8, as function and inlined function."""
    is_name = all(is_character for _, _, is_character in characters(case))
    texts = {
        b"/src/connector": (b"/src/" + case + b"connector")[:14],
        b"main.c": (case + b"main.c")[:6],
        b"post.c": (b"x" + case + b"post.c")[:6],
    }
    if is_name:
        texts |= {b"main": (case + b"main")[:4], b"post_order": (b"post" + case + b"_order")[:10]}
    path.write_bytes(with_texts(sample, texts))
    directory, first, second = texts[b"/src/connector"], texts[b"main.c"], texts[b"post.c"]
    main, order = texts.get(b"main", b"main"), texts.get(b"post_order", b"post_order")
    frames = [(main, first, 10), (order, second, 12), (b"sync_orders", b"sync.c", 44)]

    def place(file, line, bare=False):
        where = file.rpartition(b"/")[2] if bare else directory + b"/" + file
        return shown(where) + b":%d" % line

    def json_of(address, start, size, of):
        parts = [
            b'{"name":%s,"directory":%s,"file":%s,"line":%d}' % (quoted(n), quoted(directory), quoted(f), line)
            for n, f, line in of
        ]
        return b'{"address":"0x%x","number":0,"start":"0x%x","size":%d,"frames":[%s]}\n' % (
            address,
            start,
            size,
            b",".join(parts),
        )

    lines = [shown(n) + b"\n" + place(f, line) + b"\n" for n, f, line in frames]
    plain = b"0x%016x\n" % 0x1000 + lines[0] + b"0x%016x\n" % 0x10D0 + lines[1] + lines[2]
    pretty = [shown(n) + b" at " + place(f, line, True) + b"\n" for n, f, line in frames]
    pretty = b"0x%016x: " % 0x1000 + pretty[0] + b"0x%016x: " % 0x10D0 + pretty[1] + b" (inlined by) " + pretty[2]
    objects = json_of(0x1000, 0x1000, 96, frames[:1]) + json_of(0x10D0, 0x10A0, 256, frames[1:])
    for view, want, count in (("-afi", plain, 8), ("-afips", pretty, 3), ("--json", objects, 2)):
        got = judge.run(["-e", path, view, "1000", "10d0"]).stdout
        judge.judge(f"{case!r} in a file, {view}", want, got, count)
    for line in objects.splitlines():
        json.loads(line)


def words(judge, sample):
    """The cases in words, each on a line, and a zero byte."""
    text = b"\n".join(b"z" + case + b"z" for case in [b"\0", *CASES])
    parted = [word for word in re.split(rb"[ \t\r\n]+", text) if word]
    said = [b"'" + shown(word) + b"' is no address\n" for word in parted]
    complaints = b"".join(judge.name + b": " + line for line in said)
    refusals = b"".join(b"?? " + line for line in said)
    objects = b"".join(b'{"address":null,"word":' + quoted(word) + b',"error":"no address"}\n' for word in parted)
    for view, want in (("--refusals", refusals), ("--json", objects)):
        ran = judge.run(["-e", sample, view], text)
        judge.judge(f"words, {view}", want, ran.stdout, len(parted))
        judge.judge(f"complaints, {view}", complaints, ran.stderr, len(parted))


def names(judge, folder):
    """The cases in the name of a file that isn't there."""
    for case in CASES:
        name = os.fsencode(folder) + b"/none/" + case
        why = b"No such file or directory"
        if judge.name == b"gsym":
            is_text = all(is_character for _, _, is_character in characters(case))
            why = why + b" (os error 2)" if is_text else b"a file name that is not UTF-8 can't be opened"
        want = judge.name + b": " + shown(name) + b": " + why + b"\n"
        judge.judge(f"{case!r} as the name of a file", want, judge.run(["-e", name, "1000"]).stderr, 1)


def main():
    sample = pathlib.Path(sys.argv[1])
    judge = Judge(sys.argv[2:])
    with tempfile.TemporaryDirectory() as folder:
        for case in CASES:
            files(judge, sample.read_bytes(), case, pathlib.Path(folder) / "steering.gsym")
        words(judge, sample)
        names(judge, folder)
    print(f"tests/host: {len(CASES)} bytes, characters and sequences in {judge.runs} outputs, {judge.wrong} wrong")
    return 1 if judge.wrong else 0


sys.exit(main())
