#!/usr/bin/env python3
"""Holds `gsym dump` and `gsym make` to docs/RULES.md, "A file as text" and "Writing a file": `tool.py GSYM [--first]
[PART..]`.

What a file is as text, what file comes of a text and which line is told are the model's (model.py). Then where NEW is
put and what stays of a file that had its name, input that comes slowly and output that can't be written, and that in
real files each lookup answers as in what is made of their text. Real files are those of the folder GSYM_CORPUS, else
../shared/corpus. Prints how many checks that were. With --first it stops at the first that fails; with the names of
parts, functions here, it tries these alone.
"""
import concurrent.futures
import contextlib
import lzma
import os
import pathlib
import random
import re
import shutil
import stat
import subprocess
import sys
import tempfile
import threading
import time

import made
import model
import vectors

SOON = 120
PIPE = subprocess.PIPE
BEFORE = b"what NEW was before"
ROUNDS = 40  # changed files of which lookups are compared


class Done(Exception):
    """--first, and a check failed."""


class Judge:
    def __init__(self, gsym, folder, only_first):
        self.gsym, self.folder, self.only_first = gsym, folder, only_first
        self.checks = self.failed = self.runs = self.folders = 0
        self.pool, self.asked = concurrent.futures.ThreadPoolExecutor(4), []

    def run(self, *arguments, data=b"", folder=None, **streams):
        self.runs += 1
        whole, given = [self.gsym, *arguments], {} if "stdin" in streams else {"input": data}
        streams = {"stdout": PIPE, "stderr": PIPE, **given, **streams}
        try:
            return subprocess.run(whole, check=False, cwd=folder or self.folder, timeout=SOON, **streams)
        except subprocess.TimeoutExpired:
            return subprocess.CompletedProcess(whole, "no end", b"", b"")

    def by_shell(self, text, *arguments, folder=None):
        """What a shell does, with the program as $0."""
        self.runs += 1
        command = ["sh", "-c", text, self.gsym, *arguments]
        return subprocess.run(command, cwd=folder or self.folder, capture_output=True, check=False, timeout=SOON)

    def that(self, is_so, what):
        self.checks += 1
        if not is_so:
            self.failed += 1
            if self.failed <= 20:
                print(f"tests/write: gsym {what}"[:1500], file=sys.stderr)
            if self.only_first:
                raise Done

    def judge_all(self, but=0):
        """Judges what was asked, but for the last ones."""
        while len(self.asked) > but:
            judged, what, ran = self.asked.pop(0)
            for is_so, told in judged(ran.result()):
                self.that(is_so, f"{what}: {told}")

    def later(self, asked, judged, what):
        """Four at a time; `judged` yields of what `asked` gives whether it is as it should be."""
        self.asked.append((judged, what, self.pool.submit(asked)))
        self.judge_all(8)

    def new_folder(self):
        self.folders += 1
        folder = self.folder / f"folder {self.folders}"
        folder.mkdir()
        return folder

    def dumps(self, what, file):
        """The text is the model's, and the exit status."""
        folder = self.new_folder()
        (folder / "file").write_bytes(file)
        wanted = model.dumped(file)

        def judged(ran):
            shutil.rmtree(folder)
            yield without_remarks(ran.stdout) == without_remarks(wanted[1]), differing(ran.stdout, wanted[1])
            yield ran.returncode == wanted[0], f"status {ran.returncode}, not {wanted[0]}; {ran.stderr[:200]}"
            if wanted[0] != 1:
                yield bool(ran.stderr) == (wanted[0] == 2), f"status {wanted[0]}, standard error {ran.stderr[:200]}"
            yield is_plain(ran.stderr), f"standard error {ran.stderr[:200]}"

        self.later(lambda: self.run("dump", "file", folder=folder), judged, f"dump of {what}")

    def makes(self, what, text, wanted=None, before=None, by_file=False, is_whole=False):
        """NEW is the model's file; or a line is told, and NEW is as it was. `before` is the mode of a file that has its
        name. A text that isn't whole gets its last line."""
        folder = self.new_folder()
        text = text if is_whole else model.closed(text)
        (folder / "text").write_bytes(text)
        if before is not None:
            (folder / "new").write_bytes(BEFORE)
            (folder / "new").chmod(before)
        wanted = model.made(text) if wanted is None else wanted
        arguments, data = (["text"], b"") if by_file else ([], text)

        def judged(ran):
            left = {path.name: path.read_bytes() for path in folder.iterdir()}
            mode = stat.S_IMODE((folder / "new").stat().st_mode) if "new" in left else None
            shutil.rmtree(folder)
            yield from as_made(ran, wanted)
            new, others = left.pop("new", None), left
            kept = BEFORE if before is not None else None
            yield others == {"text": text}, f"other files: {list(others)}"
            if wanted[0] == 0:
                yield new == wanted[1], f"NEW {'isn?t there' if new is None else differing(new, wanted[1])}"
            else:
                yield new == kept, f"status {wanted[0]}, but NEW is {new if new is None else new[:60]}"
            yield before in (None, mode), f"mode {mode and oct(mode)}, not {before and oct(before)}"

        asked = lambda: self.run("make", "-o", "new", *arguments, data=data, folder=folder)
        self.later(asked, judged, f"make of {what}")


def as_made(ran, wanted):
    """The status and standard error."""
    status, told = wanted
    yield ran.returncode == status, f"status {ran.returncode}, not {status}; {ran.stderr[:200]}"
    yield ran.stdout == b"", f"prints {ran.stdout[:100]}"
    yield bool(ran.stderr) == (status != 0), f"status {status}, standard error {ran.stderr[:200]}"
    yield is_plain(ran.stderr), f"standard error {ran.stderr[:200]}"
    if status == 1 and told is not None:
        lines = re.findall(rb"\bline ([0-9]+)\b", ran.stderr)
        yield lines[:1] == [b"%d" % told], f"line {told} isn't told: {ran.stderr[:200]}"


def is_plain(message):
    return not re.search(rb"[\x00-\x09\x0b-\x1f\x7f]", message)


def without_remarks(text):
    """What stands in a remark is left to the program."""
    return re.sub(rb"(?m)^[ \t]*#.*$", b"#", text)


def differing(one, other):
    at = next((i for i, (a, b) in enumerate(zip(one, other)) if a != b), min(len(one), len(other)))
    part = lambda data: data[max(at - 30, 0) : at + 50]
    return f"at {at} of {len(one)} and {len(other)} bytes {part(one)}, not {part(other)}"


def page(judge):
    """What RULES writes out, by bytes that stand here."""
    one_file = b"MYSG\1\0\1" + bytes(13) + b"\x3c\0\0\0\1\0\0\0" + bytes(20) + b"\1\0\0\0" + bytes(8) + b"\0"
    nothing = b"MYSG\1\0\1" + bytes(13) + b"\x34\0\0\0\0\0\0\0" + bytes(20) + bytes(4)
    head = b"MYSG\1\0\1\0\0\x10\0\0\0\0\0\0\1\0\0\0\x3c\0\0\0%c\0\0\0" + bytes(20) + bytes(4)
    added = head % 6 + b"\x44\0\0\0" + bytes(4) + b"\0sync\0" + bytes(2) + b"\x20\0\0\0\1\0\0\0" + bytes(8)
    named = head % 5 + b"\x44\0\0\0" + bytes(4) + b"sync\0" + bytes(3) + b"\x20\0\0\0\0\0\0\0" + bytes(8)
    files = {
        b'gsym 1\nfile "" ""\nend\n': (one_file, b'gsym 1\nstring ""\nfile 0 "" 0 ""\nend\n'),
        b'gsym 1\nbytes ""\nend\n': (nothing, b'gsym 1\nbytes ""\nend\n'),
        made.SYNC + b"end\n": (added, b'gsym 1\nstring ""\nstring "sync"\nentry 0x1000 32 1 "sync"\nend\n'),
        b'gsym 1\nstring "sync"\nentry 0x1000 32 0 "sync"\nend\n': (
            named,
            b'gsym 1\nstring "sync"\nentry 0x1000 32 0 "sync"\nend\n',
        ),
    }
    for text, (file, dumped) in files.items():
        judge.makes(f"the page's {text}", text, (0, file))
        judge.makes(f"the page's {text}", text, (0, file), by_file=True)
        judge.that(model.dumped(file) == (0, dumped), f"model: {text}")
        judge.dumps(f"the page's {text}", file)
    judge.makes("the page's name at 1", b"gsym 1\nentry 0x1000 32 1\n", (1, 2))
    judge.makes("the page's item", b"gsym 1\n  1 00\n", (1, 2))
    judge.makes("the page's torn text", made.SYNC, (1, 3), is_whole=True)


def ends(judge):
    """The line `end`: where it stands, and that no front of a text is one."""
    for text, line in made.ENDS:
        judge.makes(f"the end of {text}", text, None if line is None else (1, line), is_whole=True)
    whole = model.closed(made.FULL)
    for at in range(len(whole) - 1):
        wanted = model.made(whole[:at])
        judge.that(wanted[0] == 1, f"model: a front of FULL, {at} bytes, is a text")
        judge.makes(f"a front of FULL, {at} bytes", whole[:at], wanted, is_whole=True)


def dumps_of_made(judge):
    for part in (made.odd_strings, made.odd_lists, made.odd_tables, made.not_opening):
        for what, file in part():
            judge.dumps(what, file)
    for what, file in made.of_vectors(5):
        judge.dumps(what, file)


def dumps_of_real(judge):
    """Real files, whole, cut and changed."""
    r = random.Random(11)
    for name, file in made.corpus().items():
        judge.dumps(name, file)
        for _ in range(6):
            cut = r.randrange(len(file))
            judge.dumps(f"{name}, its first {cut} bytes", file[:cut])
        for number in range(24):
            judge.dumps(f"{name}, changed {number}", made.changed(file, r))
    for _, file in made.odd_lists():
        for number in range(4):
            judge.dumps(f"made, changed {number}", made.changed(file, r))


def bad_files(judge):
    """FILE of `dump` that can't be read; wrong usage; output that can't be written."""
    judge.folder.joinpath("sample").write_bytes(made.SAMPLE)
    for name in ("none", ".", "sample/x", ""):
        ran = judge.run("dump", name)
        judge.that((ran.returncode, ran.stdout) == (2, b"") and ran.stderr, f"dump of {name!r}: {ran}")
    for words in ([], ["sample", "sample"], ["--frob", "sample"], ["-o", "sample"]):
        ran = judge.run("dump", *words)
        judge.that((ran.returncode, ran.stdout) == (2, b"") and ran.stderr, f"dump {words}: {ran}")
    judge.folder.joinpath("long").write_bytes(made.two(first=[(7, bytes(300000))]))
    for name in ("sample", "long"):
        if os.path.exists("/dev/full"):
            with open("/dev/full", "wb") as device:
                ran = judge.run("dump", name, stdout=device)
            judge.that(ran.returncode == 2 and ran.stderr, f"dump of {name} into a full device: {ran}")
        ran = judge.by_shell('exec "$0" dump "$1" >&-', name)
        judge.that(ran.returncode == 2 and ran.stderr, f"dump of {name}, standard output closed: {ran}")
        wanted = model.dumped((judge.folder / name).read_bytes())[1]
        for read in (0, 1, 5000):
            ended, got = closed_after(judge, name, read)
            what = f"dump of {name}, closed after {read}: status {ended}"
            judge.that(ended in (0, 2) and wanted.startswith(got), f"{what} {got[:99]}")
            judge.that(ended == 2 or len(wanted) < 2**17, what)


def closed_after(judge, name, read):
    """The exit status of a dump of which nobody reads more, and what was read."""
    judge.runs += 1
    with subprocess.Popen([judge.gsym, "dump", name], cwd=judge.folder, stdout=PIPE, stderr=PIPE, bufsize=0) as process:
        timer = threading.Timer(SOON, process.kill)
        timer.start()
        got = b""
        while len(got) < read and (piece := os.read(process.stdout.fileno(), read - len(got))):
            got += piece
        process.stdout.close()
        process.stderr.read()
        ended = process.wait()
        timer.cancel()
    return ended, got


def right_texts(judge):
    for number, (what, text) in enumerate(made.right_texts()):
        text = model.closed(text)
        judge.that(model.made(text)[0] == 0, f"model: {what} {model.made(text)}")
        judge.makes(what, text)
        judge.makes(what, text, by_file=True, before=[None, 0o640, 0o755, 0o600][number % 4])


def wrong_lines(judge):
    for number, (text, line) in enumerate(made.wrong_texts()):
        text = model.closed(text)
        what = f"{text[:60]}..{text[-60:]}" if len(text) > 120 else text
        judge.that(model.made(text) == (1, line), f"model: {what} {model.made(text)}")
        judge.makes(what, text, (1, line), before=[None, 0o640][number % 2], by_file=number % 3 == 0)


def refused(judge):
    for number, (lines, line) in enumerate(made.REFUSED):
        text = made.on(*lines, b"end")
        judge.that(model.made(text) == (1, line), f"model: {text} {model.made(text)}")
        judge.makes(text, text, (1, line), before=[None, 0o640][number % 2], by_file=number % 3 == 0)


def left_open(judge):
    """What RULES doesn't settle, as made.LEFT_OPEN has it."""
    for what, text, line in made.LEFT_OPEN:
        text = model.closed(text)
        status, told = model.made(text)
        judge.that((status, told if status else None) == (int(line is not None), line), f"model: {what}: {text}")
        judge.makes(f"{what}: {text}", text)
    for base, less_base in ((2**64 - 1, 1), (2**64 - 1, 2**64 - 1), (2**64 - 16, 16)):
        file = made.gsym([(0, made.info(0, 1)), (less_base, made.info(1, 1, (1, b"x")))], base=base, width=8)
        judge.dumps(f"a symbol's address above 2^64-1, {base} and {less_base}", file)


def texts_by_chance(judge):
    for number, text in enumerate(made.texts_by_chance(500)):
        judge.makes(text, text, is_whole=number % 9 == 0)


def texts_of_vectors(judge):
    """The contents of vectors.py as text, refused ones too: the line of an entry or a file is told."""
    for number, (name, content, _) in enumerate(vectors.cases()):
        if number % 6 and not name.startswith("both"):
            continue
        text, lines = as_text(content)
        status, *told = model.written(content, model.TOP)
        line = model.line_told(content, lines, (status, *told)) if status else told[0]
        judge.makes(f"vector {name}", text, (int(status != 0), line))


def as_text(content):
    """A content by offsets alone, and the lines of its entries and files."""
    out, lines = [b"gsym 1", *model.string_lines(content.strings)], {"name": [], "file": [], "item": []}
    for both in content.files:
        out.append(b"file %d %d" % both)
        lines["file"].append(len(out))
    for entry in content.entries:
        out.append(b"entry %d 0x%x %d" % (entry.address, entry.size, entry.name))
        lines["name"].append(len(out))
        lines["item"].append(range(len(out) + 1, len(out) + 1 + len(entry.items)))
        out += [b" %d %s" % (kind, block.hex().encode()) for kind, block in entry.items]
    return made.lines(*out, b"end"), lines


def rounds(judge):
    """A text of a dump makes a file of the same text; of changed files too, where `make` takes it."""
    r = random.Random(12)
    files = [*made.odd_strings(), *made.odd_lists(), *made.odd_tables(), *made.corpus().items()]
    for what, file in made.corpus().items():
        files += [(f"{what}, changed {number}", made.changed(file, r)) for number in range(12)]
    for what, file in files:
        status, text = model.dumped(file)
        if status == 2:
            continue
        status, told = model.made(text)
        if status == 0:
            ends = b"\n  " + model.REMARK not in text
            judge.that((model.dumped(told)[1] == text) == ends, f"model: the text of {what} makes another")
        judge.makes(f"what dump prints of {what}", text)


def by_pipe(judge, file, new, folder):
    """`gsym dump FILE | gsym make -o NEW`: both exit statuses."""
    judge.runs += 2
    one = subprocess.Popen([judge.gsym, "dump", file], cwd=folder, stdout=PIPE, stderr=PIPE)
    other = subprocess.run([judge.gsym, "make", "-o", new], cwd=folder, stdin=one.stdout, check=False, timeout=SOON,
                           capture_output=True)
    one.stdout.close()
    one.stderr.read()
    one.stderr.close()
    return one.wait(), other.returncode


def pipes(judge):
    """`gsym dump FILE | gsym make -o NEW`, where NEW is FILE too."""
    files = {**made.corpus(), "two": made.two(base=5, width=8, uuid=b"\x11" * 20)}
    for number, (name, file) in enumerate(files.items()):
        folder = judge.new_folder()
        wanted = model.made(model.dumped(file)[1])
        for new in ("new", "file"):
            (folder / "file").write_bytes(file)
            (folder / "new").write_bytes(BEFORE)
            (folder / new).chmod(0o640 if number % 2 else 0o755)
            kept = wanted[1] if wanted[0] == 0 else (folder / new).read_bytes()
            statuses = by_pipe(judge, "file", new, folder)
            got = (folder / new).read_bytes()
            what = f"dump {name} | make, {new}"
            judge.that((statuses, got) == ((0, wanted[0]), kept), f"{what}: {statuses} {len(got)} bytes")
            mode = stat.S_IMODE((folder / new).stat().st_mode)
            judge.that(mode == (0o640 if number % 2 else 0o755), f"{what}: mode {mode:o}")
            if wanted[0] == 0 or new == "file":
                again, text = judge.run("dump", new, folder=folder).stdout, model.dumped(file)[1]
                judge.that(again == text, f"{what}; dump: {differing(again, text)}")
            judge.that(listed(folder) == {"file", "new"}, f"{what}: leaves {listed(folder)}")


def new_files(judge):
    """Where NEW is, which mode it has, what stays."""
    text = model.closed(made.FULL)
    _, file = model.made(text)
    for mode in (0o640, 0o755, 0o600, 0o444, 0o666, 0o777, 0o400, 0o604):
        judge.makes(f"FULL over mode {mode:o}", text, before=mode)
        judge.makes(f"a wrong line over mode {mode:o}", text + b"x", before=mode)
    folder = judge.new_folder()
    (folder / "in").mkdir()
    (folder / "text").write_bytes(text)
    (folder / "wrong").write_bytes(text + b"x")

    def fails(what, *arguments, data=text, status=2, told=b""):
        names = listed(folder)
        ran = judge.run("make", *arguments, data=data, folder=folder)
        is_so = (ran.returncode, ran.stdout) == (status, b"") and ran.stderr and told in ran.stderr
        judge.that(is_so, f"make, {what}: {ran.returncode} {ran.stdout} {ran.stderr}")
        judge.that(listed(folder) == names, f"make, {what}: files are {listed(folder)}, were {names}")

    for new in ("none/new", "text/new", "in", ".", "in/", "none/", "", "/proc/new.gsym", "x" * 300):
        fails(f"-o {new!r}", "-o", new)
        fails(f"-o {new!r} FILE", "-o", new, "text")
    for name in ("none", "in", ".", "text/x", ""):
        fails(f"of {name!r}", "-o", "new", name)
        fails(f"of {name!r} to what is there", "-o", "text", name)
    for words in ([], ["text"], ["-o"], ["-o", "new", "text", "text"], ["--frob", "-o", "new", "text"]):
        fails(f"words {words}", *words)
    fails("wrong, in a folder that isn't there", "-o", "none/new", "wrong", status=1, told=b"line 14")
    # NEW in another folder, by a whole path, and the text itself
    for new in ("in/new", str(folder / "in/whole"), "./dot", "in/../up", "d-ash", "sp ace", "é"):
        for _ in range(2):
            ran = judge.run("make", "-o", new, "text", folder=folder)
            is_so = ran.returncode == 0 and (folder / new).read_bytes() == file
            judge.that(is_so, f"make -o {new}: {ran.returncode} {ran.stderr}")
    names = {"text", "wrong", "in", "dot", "up", "d-ash", "sp ace", "é", "in/new", "in/whole"}
    judge.that(listed(folder) == names, f"make leaves {listed(folder)}")
    ran = judge.run("make", "-o", "text", "text", folder=folder)
    judge.that((ran.returncode, (folder / "text").read_bytes()) == (0, file), f"make of NEW itself: {ran}")
    # another name of the file that was there keeps its bytes: it is replaced, not written over
    (folder / "old").write_bytes(BEFORE)
    os.link(folder / "old", folder / "linked")
    with open(folder / "old", "rb") as opened:
        ran = judge.run("make", "-o", "old", data=text, folder=folder)
        kept = opened.read(), (folder / "linked").read_bytes()
    judge.that(kept == (BEFORE, BEFORE) and ran.returncode == 0, f"make writes over the file that was there: {ran}")
    judge.that((folder / "old").read_bytes() == file, "make, where the file has another name too")
    full_folder(judge, text)
    at_once(judge)


def at_once(judge):
    """The longest name that a file may have; several that make one file; and closed streams."""
    folder = judge.new_folder()
    (folder / "text").write_bytes(model.closed(made.FULL))
    wanted = model.made(model.closed(made.FULL))[1]
    longest = "n" * 255
    for _ in range(2):
        ran = judge.run("make", "-o", longest, "text", folder=folder)
        judge.that(ran.returncode == 0, f"make, a name of 255 bytes: {ran.returncode} {ran.stderr}")
    ran = judge.by_shell('exec "$0" make -o closed text >&- 2>&-', folder=folder)
    judge.that(ran.returncode == 0, f"make, standard output and error closed: {ran.returncode}")
    for name in (longest, "closed"):
        is_so = (folder / name).exists() and (folder / name).read_bytes() == wanted
        judge.that(is_so, f"make, {name[:9]}: not the file")
    texts = [made.on(b"entry %d 1 0\n  1 %s" % (i, b"%02x" % i * 200000), b"end") for i in range(1, 9)]
    runs = [judge.pool.submit(judge.run, "make", "-o", "one", data=text, folder=folder) for text in texts]
    judge.that(all(ran.result().returncode == 0 for ran in runs), "make, several at once: one fails")
    new = (folder / "one").read_bytes() if (folder / "one").exists() else b""
    judge.that(new in [model.made(text)[1] for text in texts], f"make, several at once: NEW is {len(new)} bytes")
    judge.that(listed(folder) == {"text", longest, "closed", "one"}, f"make, several at once: leaves {listed(folder)}")


def full_folder(judge, text):
    """Where a file may not have so many bytes, NEW stays as it was, and no other file is left."""
    folder = judge.new_folder()
    (folder / "new").write_bytes(BEFORE)
    (folder / "text").write_bytes(text.removesuffix(b"end\n") + b"entry 0x2000 1 0\n  1 " + b"00" * 3000 + b"\nend\n")
    for blocks in (0, 1, 3):
        limit = f'trap "" XFSZ; ulimit -f {blocks}; exec "$0" make -o "$1" text'
        for new in ("new", "other"):
            ran = judge.by_shell(limit, new, folder=folder)
            judge.that(ran.returncode == 2 and ran.stderr, f"make, {blocks} blocks: {ran.returncode} {ran.stderr}")
        left = {path.name: path.read_bytes()[:40] for path in folder.iterdir()}
        is_so = list(sorted(left)) == ["new", "text"] and left["new"] == BEFORE
        judge.that(is_so, f"make, {blocks} blocks: leaves {left}")


def listed(folder):
    return {str(path.relative_to(folder)) for path in folder.rglob("*")}


def streams(judge):
    """Text that comes slowly; standard input that is a folder, or closed."""
    whole = model.closed(made.FULL)
    sync = model.closed(made.SYNC)
    for text, wanted in ((whole, model.made(whole)), (whole + b"x", (1, 14)), (sync[:-1], model.made(sync))):
        folder = judge.new_folder()
        judge.runs += 1
        command = [judge.gsym, "make", "-o", "new"]
        process = subprocess.Popen(command, cwd=folder, stdin=PIPE, stdout=PIPE, stderr=PIPE, bufsize=0)
        timer = threading.Timer(SOON, process.kill)
        timer.start()
        with contextlib.suppress(BrokenPipeError):
            for piece in (text[:1], text[1:9], text[9:20], text[20:-2], text[-2:-1]):
                process.stdin.write(piece)
                time.sleep(0.1)
            judge.that(not (folder / "new").exists(), "make, slow input: NEW is there before the end of the text")
            process.stdin.write(text[-1:])
            time.sleep(0.1)
            judge.that(not (folder / "new").exists(), "make, slow input: NEW is there before the end of the text")
            process.stdin.close()
        out, errors = process.stdout.read(), process.stderr.read()
        ran = subprocess.CompletedProcess(command, process.wait(), out, errors)
        process.stdout.close()
        process.stderr.close()
        timer.cancel()
        for is_so, told in as_made(ran, wanted):
            judge.that(is_so, f"make, slow input: {told}")
        new = (folder / "new").read_bytes() if (folder / "new").exists() else None
        judge.that(new == (wanted[1] if wanted[0] == 0 else None), f"make, slow input: NEW is {new and len(new)} bytes")
    folder = judge.new_folder()
    with contextlib.closing(Folder("/")) as of_files:
        ran = judge.run("make", "-o", "new", stdin=of_files.number, folder=folder)
    is_so = ran.returncode == 2 and ran.stderr and not os.listdir(folder)
    judge.that(is_so, f"make of a folder on standard input: {ran}")
    ran = judge.by_shell('exec "$0" make -o new <&-', folder=folder)
    is_so = ran.returncode in (1, 2) and ran.stderr and not os.listdir(folder)
    judge.that(is_so, f"make, standard input closed: {ran}, {os.listdir(folder)}")


class Folder:
    def __init__(self, name):
        self.number = os.open(name, os.O_RDONLY)

    def close(self):
        os.close(self.number)


def around(file, r):
    """Addresses to ask a file for: of each entry its own, its last, the next ones, and any."""
    opened = model.Opened(file)
    out = [0, model.TOP - 1, opened.base]
    for address, info in model.entries_of(opened):
        size = info[0] if info else 0
        out += [address, address - 1, address + size - 1, address + size, address + size + 1]
        out += [address + r.randrange(max(size, 1)) for _ in range(3)]
    out += [r.randrange(model.TOP), opened.base + r.randrange(2**20)]
    return [address for address in out if 0 <= address < model.TOP]


def lookups(judge):
    """In a file, and in what is made of its text, all lookups answer alike; so in changed files, where `make` takes
    the text."""
    r = random.Random(13)
    files = list(made.corpus().items())
    contents = made.contents_for_lookups()[::8]
    files += [(f"made {number}", model.file_of(content)) for number, content in enumerate(contents)]
    whole = [(name, file) for name, file in files if is_taken(file)]
    tried = whole[:]
    for number in range(4 * ROUNDS):
        name, file = whole[number % len(whole)]
        file = made.changed(file, r)
        if is_taken(file) and len(tried) < len(whole) + ROUNDS:
            tried.append((f"{name}, changed", file))
    for _, file in made.of_vectors(9):
        tried.append(("a vector", file))
    for name, file in tried:
        same_lookups(judge, name, file, around(file, r))


def is_taken(file):
    """`make` takes what `dump` prints of it."""
    status, text = model.dumped(file)
    return status == 0 and model.made(text)[0] == 0


def same_lookups(judge, name, file, addresses):
    folder = judge.new_folder()
    (folder / "file").write_bytes(file)
    statuses = by_pipe(judge, "file", "new", folder)
    judge.that(statuses == (0, 0), f"dump {name} | make: {statuses}")
    words = b"".join(b"%x\n" % address for address in addresses)
    one, other = (judge.run("addr2line", "-e", x, "--json", data=words, folder=folder) for x in ("file", "new"))
    same = (one.returncode, one.stdout) == (other.returncode, other.stdout)
    judge.that(same, f"lookups in what is made of {name}: {differing(other.stdout, one.stdout)}")
    judge.that(one.stdout.count(b"\n") == len(addresses), f"addr2line of {name}: {one.stdout[:200]} {one.stderr[:200]}")
    shutil.rmtree(folder)


def largest(judge):
    """A real file of some 20 MB, with GSYM_LARGE=1 and where it is there."""
    path = made.corpus_folder() / "vmlinux612.gsym.xz"
    if not os.environ.get("GSYM_LARGE") or not path.exists():
        return
    with lzma.open(path) as packed:
        file = packed.read()
    judge.dumps("the largest", file)
    judge.makes("what dump prints of the largest", model.dumped(file)[1])
    judge.judge_all()
    r = random.Random(14)
    same_lookups(judge, "the largest", file, r.sample(around(file, r), 20000))


PARTS = [page, ends, dumps_of_made, dumps_of_real, bad_files, right_texts, wrong_lines, refused, left_open]
PARTS += [texts_of_vectors, texts_by_chance, rounds, pipes, new_files, streams, lookups, largest]


def main():
    names = [word for word in sys.argv[2:] if word != "--first"]
    unknown = set(names) - {part.__name__ for part in PARTS}
    if unknown:
        sys.exit(f"tests/write: no such part: {unknown}")
    if len(made.corpus()) < 2 and not names:
        print(f"tests/write: no real files in {made.corpus_folder()}: not tried but for the sample", file=sys.stderr)
    with tempfile.TemporaryDirectory() as folder:
        judge = Judge(os.path.abspath(sys.argv[1]), pathlib.Path(folder), "--first" in sys.argv)
        with contextlib.suppress(Done):
            for part in PARTS:
                if not names or part.__name__ in names:
                    part(judge)
                    judge.judge_all()
        judge.pool.shutdown(cancel_futures=True)
    print(f"{judge.runs:,} runs of the tool, {judge.checks:,} checks, {judge.failed} failed")
    return 1 if judge.failed else 0


if __name__ == "__main__":
    sys.exit(main())
