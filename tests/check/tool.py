#!/usr/bin/env python3
"""Holds `gsym check` to docs/RULES.md, "What the tools print": `tool.py GSYM`. The lines, as text and in JSON, of every
number, in files of odd names and several in one call; the exit status; files that can't be read, and endless ones;
what is no option of its own; and on a terminal how far a slow check is. Prints how many checks that were."""
import json
import os
import pathlib
import pty
import random
import re
import subprocess
import sys
import tempfile
import time

import made

TOP_FOLDER = pathlib.Path(__file__).resolve().parents[2]
PAGE = dict(part.split("\n", 1) for part in ("\n" + (TOP_FOLDER / "docs/RULES.md").read_text()).split("\n## ")[1:])
ROWS = re.findall(r"^\| (\d+) \| ([^|]+) \|", PAGE["Refusal numbers"] + PAGE["Checking a file"], re.M)
WORDS = {int(n): words for n, words in ROWS if words != "as a refusal's"}
OF_TABLES = (2, 3, 4, 20)
NAMES = [b"a b.gsym", b'quo"te', b"it's", b"back\\slash", b"new\nline", b"tab\tand\rreturn", b"\x1b[31m", b"\x01\x7f"]
NAMES += [n.encode() for n in ("é€😀", "\u0080\u009f\u00a0", "\u202a\u202e", "\u2066\u2069", "\u2029\u202f\u2065")]
NAMES += [b"a: passed", b" ", b"\\u0041", b"%s", b"-", b"--json", b"@x", b"x" * 255]
NOT_TEXT = b"odd\xff\x9b"


def steers(character):
    code = ord(character)
    code -= 0xDC00 if 0xDC80 <= code <= 0xDCFF else 0  # a single byte
    return code < 32 or 127 <= code <= 0x9F or 0x202A <= code <= 0x202E or 0x2066 <= code <= 0x2069


def shown(name):
    """A name as text, with a question mark for each character that steers a terminal."""
    return os.fsencode("".join("?" if steers(c) else c for c in os.fsdecode(name)))


def escaped(character):
    if 0xDC80 <= ord(character) <= 0xDCFF:  # a single byte
        return "\\ufffd"
    if steers(character):
        return f"\\u{ord(character):04x}"
    return "\\" + character if character in '"\\' else character


def quoted(name):
    """A name in JSON."""
    return f'"{"".join(map(escaped, os.fsdecode(name)))}"'.encode()


def line(name, number, entry, as_json):
    words, of_entry = WORDS[number].encode(), number and number not in OF_TABLES
    if as_json:
        told = (b',"entry":%d' % entry if of_entry else b"") + (b',"finding":' + quoted(words) if number else b"")
        return b'{"file":%s,"number":%d%s}\n' % (quoted(name), number, told)
    told = b"?%d %s" % (number, words) if number else b"passed"
    return shown(name) + b": " + (b"entry %d: " % entry if of_entry else b"") + told + b"\n"


class Judge:
    def __init__(self, gsym, folder):
        self.gsym, self.folder, self.checks, self.failed = gsym, folder, 0, 0

    def run(self, *arguments):
        whole, null = [self.gsym, *arguments], subprocess.DEVNULL
        return subprocess.run(whole, capture_output=True, check=False, cwd=self.folder, timeout=60, stdin=null)

    def that(self, is_so, what):
        self.checks += 1
        if not is_so:
            self.failed += 1
            print(f"tests/check: gsym {what}"[:1500], file=sys.stderr)

    def check(self, arguments, out, status, errors=b""):
        ran = self.run("check", *arguments)
        got = ran.stdout, ran.returncode, ran.stderr
        self.that(got == (out, status, errors), f"check {arguments}: expected {(out, status, errors)}, got {got}")

    def misused(self, words, *arguments):
        ran = self.run(*arguments)
        is_so = ran.returncode == 2 and not ran.stdout and words in ran.stderr and b"usage: " in ran.stderr
        self.that(is_so, f"{arguments}: no {words!r} with the usage and status 2, but {ran}")


def lines_and_statuses(judge, r):
    told = {}
    for data, (number, entry), _ in [*made.good(r), *made.singles(r)]:
        if (number, entry > 0) not in told or r.random() < 0.1:
            told[number, entry > 0] = data, number, entry
    files = [told[key] for key in sorted(told)]
    passing = files[0][0]
    cases = []
    for i in range(max(len(files), len(NAMES))):
        name = NAMES[i % len(NAMES)] if i < len(NAMES) else b"file%d" % i
        data, number, entry = files[i % len(files)]
        (judge.folder / os.fsdecode(name)).write_bytes(data)
        cases.append((name, number, entry))
    for name, number, entry in cases:
        for as_json in (False, True):
            out = line(b"./" + name, number, entry, as_json)
            judge.check([*[b"--json"] * as_json, b"./" + name], out, 1 if number else 0)
            is_read = not as_json or json.loads(out)["file"] == os.fsdecode(b"./" + name)
            judge.that(out.count(b"\n") == 1 and is_read, f"check: {out} is no line")
    # all in one call, in the order given, and the other way round
    names = [name for name, *_ in cases if name[:1] not in b"-@"]
    for order in (1, -1):
        for as_json in (False, True):
            some = [case for case in cases if case[0] in names][::order]
            out = b"".join(line(*case, as_json) for case in some)
            judge.check([*[b"--json"] * as_json, *(name for name, *_ in some)], out, 1)
    (judge.folder / "good").write_bytes(passing)
    good = line(b"good", 0, 0, False)
    judge.check([b"good"], good, 0)
    judge.check([b"good"] * 3, good * 3, 0)
    judge.check([b"--json", b"good", b"good"], line(b"good", 0, 0, True) * 2, 0)
    judge.check([b"good", b"--json"], line(b"good", 0, 0, True), 0)
    (judge.folder / "-f").write_bytes(passing)
    judge.check([b"--", b"-f"], line(b"-f", 0, 0, False), 0)
    # an empty file, and endless ones
    (judge.folder / "empty").write_bytes(b"")
    judge.check([b"empty", b"good"], line(b"empty", 2, 0, False) + good, 1)
    judge.check([b"/dev/zero", b"good"], line(b"/dev/zero", 3, 0, False) + good, 1)
    (judge.folder / "two").write_bytes(passing[:4] + b"\2\0")
    judge.check([b"two"], line(b"two", 4, 0, False), 1)


def trouble(judge):
    """Files that can't be read have no line but in JSON; the others have theirs."""
    good, bad = line(b"good", 0, 0, False), line(b"empty", 2, 0, False)
    none, folder = b"gsym: none: No such file or directory (os error 2)\n", b"gsym: .: Is a directory (os error 21)\n"
    not_text = b"gsym: " + shown(NOT_TEXT) + b": a file name that is not UTF-8 can't be opened\n"
    (judge.folder / os.fsdecode(NOT_TEXT)).write_bytes(b"")
    for names, out, errors in (
        ([b"none"], b"", none),
        ([b"."], b"", folder),
        ([b"good", b"none", b"good"], good * 2, none),
        ([b"none", b"good", b"."], good, none + folder),
        ([b"empty", b"none", b"good"], bad + good, none),
        ([b"none", b"empty"], bad, none),
        ([NOT_TEXT, b"good"], good, not_text),
    ):
        judge.check(names, out, 2, errors)
    told = lambda name, error: b'{"file":' + quoted(name) + b',"error":"' + error + b'"}\n'
    missing, is_folder = b"No such file or directory (os error 2)", b"Is a directory (os error 21)"
    judge.check([b"good", b"none", b"--json"], line(b"good", 0, 0, True) + told(b"none", missing), 2, none)
    judge.check([b"--json", b".", b"empty"], told(b".", is_folder) + line(b"empty", 2, 0, True), 2, folder)
    text = told(NOT_TEXT, b"a file name that is not UTF-8 can't be opened")
    judge.check([b"--json", NOT_TEXT], text, 2, not_text)
    with open("/dev/full", "wb") as device:
        whole = [judge.gsym, "check", "good"]
        full = subprocess.run(whole, cwd=judge.folder, stdout=device, stderr=subprocess.PIPE, check=False)
    judge.that(full.returncode == 2 and b"standard output" in full.stderr, f"check into a full device: {full}")


def options(judge):
    judge.misused(b"FILE is missing", "check")
    judge.misused(b"FILE is missing", "check", "--json")
    none_of_its_own = "-a -f -i -p -s -C --addresses --functions --inlines --pretty --pretty-print --basenames"
    none_of_its_own += " --demangle --demangle=gnu --return-addresses --refusals --base=0 --exe=good"
    for option in none_of_its_own.split():
        words = f"gsym check has no such option: '{option}'".encode()
        judge.misused(words, "check", option, "good")
        judge.misused(words, "check", "good", option)
        judge.misused(words, option, "check", "--json", "good")
    judge.misused(b"gsym check has no such option: '-e'", "check", "-e", "good")
    judge.misused(b"gsym check has no such option: '--base'", "check", "--base", "1000", "good")
    judge.misused(b"no such option: '--frob'", "check", "--frob", "good")
    # a file's name that begins as help and version do is not taken for them
    for word in ("-v1.gsym", "-hello.gsym", "-hv", "-vv", "-H1"):
        judge.misused(b"-h and -v stand alone in a word: '" + word.encode() + b"'", "check", "good", word)
        judge.misused(b"-h and -v stand alone in a word: '" + word.encode() + b"'", "check", word, "good")
    for option in ("--help", "-h", "-H"):
        for arguments in (["check", option], [option, "check"], ["check", "good", option]):
            ran = judge.run(*arguments)
            is_so = ran.returncode == 0 and ran.stdout.startswith(b"usage: ") and b"gsym check" in ran.stdout
            judge.that(is_so and not ran.stderr, f"{arguments}: {ran}")


def on_a_terminal(judge, *arguments):
    """What stands on a terminal that is standard error, and when it came; standard output; the status."""
    ours, theirs = pty.openpty()
    started, parts = time.monotonic(), []
    ran = subprocess.Popen([judge.gsym, "check", *arguments], cwd=judge.folder, stdout=subprocess.PIPE, stderr=theirs)
    os.close(theirs)
    while True:
        try:
            part = os.read(ours, 4096)
        except OSError:  # nobody holds the other end
            break
        if not part:
            break
        parts.append((time.monotonic() - started, part))
    out, _ = ran.communicate()
    os.close(ours)
    return parts, out, ran.returncode


def progress(judge):
    def seconds(entries):
        (judge.folder / "slow").write_bytes(made.slow(entries, 2**18))
        started = time.monotonic()
        judge.check([b"slow"], line(b"slow", 0, 0, False), 0)  # standard error is no terminal: nothing stands there
        return time.monotonic() - started

    entries = 100
    while (took := seconds(entries)) < 2.2:
        entries = int(entries * max(1.2, min(20, 2.7 / took)))
    parts, out, status = on_a_terminal(judge, "slow")
    text = b"".join(part for _, part in parts)
    told = re.fullmatch(rb"((?:\rgsym: file 1 of 1, entry \d+ of %d)+)\r\x1b\[K" % entries, text)
    judge.that(out == line(b"slow", 0, 0, False) and status == 0, f"check of a slow file on a terminal: {out}")
    judge.that(told, f"check of a slow file ({took:.1f} seconds) on a terminal wrote {text}")
    if told:
        steps = [int(n) for n in re.findall(rb"entry (\d+) of", text)]
        judge.that(parts[0][0] >= 0.9 and steps == sorted(set(steps)) and steps[-1] < entries, f"progress: {parts}")
    parts, out, _ = on_a_terminal(judge, "good", "slow", "good")
    text = b"".join(part for _, part in parts)
    lines = [line(name, 0, 0, False) for name in (b"good", b"slow", b"good")]
    told = re.fullmatch(rb"(\rgsym: file 2 of 3, entry \d+ of %d)+\r\x1b\[K" % entries, text)
    judge.that(told and out == b"".join(lines), f"check of three files on a terminal wrote {text}")
    for arguments in (["good"], ["--json", "good", "empty"], ["good"] * 50):
        parts, out, _ = on_a_terminal(judge, *arguments)
        judge.that(not parts and out, f"check of quick files on a terminal wrote {parts}")


def main():
    with tempfile.TemporaryDirectory() as folder:
        judge = Judge(os.path.abspath(sys.argv[1]), pathlib.Path(folder))
        lines_and_statuses(judge, random.Random(7))
        trouble(judge)
        options(judge)
        progress(judge)
    print(f"{judge.checks} checks of the tool")
    return 1 if judge.failed else 0


if __name__ == "__main__":
    sys.exit(main())
