#!/usr/bin/env python3
"""Holds `gsym report` to docs/RULES.md, "A report" and "What the tools print": `tool.py GSYM [--first] [PART..]`.

What a report says is the model's (model.py); an object of JSON is what `gsym addr2line --json` prints for the address,
and the model's. Addresses come as words of the command line and of standard input, as bytes, and with the file as the
whole input. Then words that are no address, files that don't open and that can't be read, wrong usage, input that comes
slowly and output that can't be written. Prints how many checks that were. With --first it stops at the first that
fails; with the names of parts, functions here, it tries these alone.
"""
import concurrent.futures
import contextlib
import json
import lzma
import os
import pathlib
import select
import subprocess
import sys
import tempfile
import threading
import time

import made
import model

SOON = 60
NULL, PIPE = subprocess.DEVNULL, subprocess.PIPE


class Done(Exception):
    """--first, and a check failed."""


class Judge:
    def __init__(self, gsym, folder, only_first):
        self.gsym, self.folder, self.only_first = gsym, folder, only_first
        self.checks, self.failed, self.files = 0, 0, {}
        self.pool, self.asked = concurrent.futures.ThreadPoolExecutor(4), []
        self.file("sample", made.SAMPLE)
        self.file("empty", b"")

    def run(self, *arguments, data=b"", **streams):
        whole, given = [self.gsym, *arguments], {} if "stdin" in streams else {"input": data}
        streams = {"stdout": PIPE, "stderr": PIPE, **given, **streams}
        try:
            return subprocess.run(whole, check=False, cwd=self.folder, timeout=SOON, **streams)
        except subprocess.TimeoutExpired:
            return subprocess.CompletedProcess(whole, "no end", b"", b"")

    def that(self, is_so, what):
        self.checks += 1
        if not is_so:
            self.failed += 1
            if self.failed <= 20:
                print(f"tests/report: gsym {what}"[:1500], file=sys.stderr)
            if self.only_first:
                raise Done

    def judge_all(self, but=0):
        """Judges what was asked, but for the last ones."""
        while len(self.asked) > but:
            arguments, data, judged, ran = self.asked.pop(0)
            ran, told = ran.result(), f"{arguments}, input {data[:100]}"
            self.that(*judged(ran, f"{told}: status {ran.returncode}, {ran.stdout[:400]}, {ran.stderr[:300]}"))

    def later(self, arguments, data, judged):
        """Four at a time; `judged` says of a run whether it is as it should be."""
        self.asked.append((arguments, data, judged, self.pool.submit(self.run, *arguments, data=data)))
        self.judge_all(8)

    def prints(self, arguments, out, status, data=b"", errors=None, words=b""):
        """What is printed. `errors` says whether there is a message on standard error, where that is settled, and it
        has these words; no control byte is in it."""

        def judged(ran, told):
            is_so = (ran.stdout, ran.returncode) == (out, status) and errors in (None, bool(ran.stderr))
            message = ran.stderr.replace(b"\n", b"")
            is_so = is_so and words in message and message == model.shown(message)
            return is_so, f"{told}; expected {out[:400]}, status {status}, and {words} on standard error"

        self.later(arguments, data, judged)

    def refuses(self, arguments, words=b"", data=b""):
        """Nothing is printed, the status is 2, and standard error has these words."""
        self.prints(arguments, b"", 2, data, True, words)

    def misused(self, *arguments, data=b""):
        self.refuses(arguments, b"usage: ", data)

    def file(self, name, data):
        (self.folder / name).write_bytes(data)
        self.files[name] = data
        return name


def wanted(file, addresses, as_json):
    """What is printed, and the status."""
    told = [model.answered(file, address, i == 0)[0] for i, address in enumerate(addresses)]
    return (model.objects if as_json else model.report)(file, addresses), 1 if any(told) else 0


def steering():
    """A file whose names, directory and file steer a terminal or have to be escaped in JSON."""
    strings = made.Strings()
    odd = [b'quo"te\\', "\u0085\u009b\u202e\u2066".encode(), b"new\nline\x1b[2J\x7f", "\u00e9\u20ac\U0001f600".encode()]
    places = [strings.at(name) for name in odd]
    files = [(0, 0), (strings.at(b"/di\nr\xff\x9b"), strings.at(b'f"i\\le\xe2\x82')), (places[1], places[2])]
    block = made.nested(places)
    infos = made.shape.info(0x40, strings.at(b"\x01own"), made.ROW, block, made.END)
    return made.shape.gsym([(0, infos)], strings=strings.table, files=files)


def some_files(judge):
    """Names of files, and addresses to ask them for."""
    three = made.with_frames([b"outer", b"in\nner", b"leaf"])
    at = [0x1000, 0x1000, 0x1001, 0x1040, 0x1041, 0]
    yield judge.file("sync", made.SYNC), [0x1005, 0x1000, 0x1020, 0x1021]
    yield judge.file("steering", steering()), at
    for size in (49153, 49152, 60000, 2**20):
        yield judge.file(f"of {size}", made.filled(size)), at
    yield judge.file("found", made.SYNC), [0x1005, 0x1001, 0x1020]
    yield "sample", [*made.SAMPLE_AT, 0xFFF, 0xFFFFFFFFFFFFFFFF, 0x1155]
    yield judge.file("whole", made.whole_lookups()), [0x1005, 0x1006, 0x100A, 0x1011, 0x1020, 0x1021, 0x1000, 0]
    yield judge.file("three", three), at
    yield judge.file("most", made.with_frames([b"f%d\n" % i for i in range(64)])), at
    yield judge.file("more", made.with_frames([b"f%d" % i for i in range(65)], True)), at
    yield judge.file("low", made.symbols((0, 1, b"zero"), (1, 0, b""), base=0)), [0, 0, 1, 2, 2**64 - 1]
    yield judge.file("top", made.symbols((0, 0, b"top"), base=2**64 - 16)), [2**64 - 1, 2**64 - 1, 0, 1, 2**64 - 16]
    path = pathlib.Path(made.corpus()) / "cpp-gcc.gsym"
    if path.exists():
        file = path.read_bytes()
        yield judge.file("cpp-gcc", file), made.around(file)[::9]


def bytes_of(addresses):
    return made.asked(b"", addresses)[4:]


def answers(judge):
    """Each way to ask, as text and in JSON."""
    for name, addresses in some_files(judge):
        file = judge.files[name]
        spelled = ["%x" % address for address in addresses]
        by_tool = judge.run("addr2line", "-e", name, "--json", spelled[0]).stdout
        by_tool += judge.run("addr2line", "-e", name, "--json", "--return-addresses", *spelled[1:]).stdout
        by_tool = [b'{"index":%d,%s\n' % (i, line[1:]) for i, line in enumerate(by_tool.split(b"\n")[:-1])]
        for as_json in (False, True):
            form = ["--json"] * as_json
            out, status = wanted(file, addresses, as_json)
            if as_json:
                judge.that(b"".join(by_tool) == out, f"addr2line --json of {name}: model {out}, tool {by_tool}")
                for i, line in enumerate(by_tool):
                    told = json.loads(line)
                    is_so = list(told)[:3] == ["index", "address", "number"] and told["index"] == i
                    judge.that(is_so and int(told["address"], 16) == addresses[i], f"report --json: {line}")
            judge.prints(["report", "-e", name, *form, *spelled], out, status, errors=False)
            judge.prints(["report", "-e", name, *form], out, status, " ".join(spelled).encode(), False)
            judge.prints(["report", "-e", name, "--binary", *form], out, status, bytes_of(addresses), False)
            judge.prints(["report", "--binary", *form], out, status, made.asked(file, addresses), False)
            for some in ([], addresses[:1]):
                out, status = wanted(file, some, as_json)
                words = ["%x" % address for address in some]
                judge.prints(["report", "-e", name, *form], out, status, " ".join(words).encode(), False)
                judge.prints(["report", "-e", name, "--binary", *form], out, status, bytes_of(some), False)
                judge.prints(["report", "--binary", *form], out, status, made.asked(file, some), False)
                if some:
                    judge.prints(["report", "-e", name, *form, *words], out, status, errors=False)


def spellings(judge):
    """Words that are addresses, where options may stand, and what parts the words of standard input."""
    at = [0x1155, 0x10D0, 0x1066, 0xFFFFFFFFFFFFFFFF, 0, 0xABCDEF]
    spelled = (
        ["1155", "10d0", "1066", "ffffffffffffffff", "0", "abcdef"],
        ["0x1155", "0x10d0", "0x1066", "0xffffffffffffffff", "0x0", "0xabcdef"],
        ["0X1155", "0X10D0", "0X1066", "0XFFFFFFFFFFFFFFFF", "0X0", "0XABCDEF"],
        ["00001155", "0x00000000000010D0", "0" * 40 + "1066", "0x" + "0" * 40 + "f" * 16, "0" * 17, "AbCdEf"],
    )
    for as_json in (False, True):
        form = ["--json"] * as_json
        out, status = wanted(made.SAMPLE, at, as_json)
        for words in spelled:
            judge.prints(["report", "-e", "sample", *form, "--", *words], out, status, errors=False)
            for between in (b" ", b"\t", b"\n", b"\r", b"\r\n", b" \t\r\n\n  "):
                text = between.join(word.encode() for word in words)
                for whole in (text, between + text + between):
                    judge.prints(["report", "-e", "sample", *form], out, status, whole, False)
        for front in (["report", "-esample"], ["--exe", "sample", "report"], ["--exe=sample", "report", "--"]):
            judge.prints([*form, *front, *words], out, status, errors=False)
        judge.prints(["report", *words, *form, "-e", "sample"], out, status, errors=False)
        judge.prints(["report", *words[:2], *form, *words[2:4], "-e", "sample", *words[4:]], out, status)
    text = b"1155 10d0\t1066\r\n0X%x\n\n0 AbCdEf" % at[3]
    judge.prints(["report", "-e", "sample"], *wanted(made.SAMPLE, at, False), text, False)
    # words on the command line are all: standard input is left alone
    judge.prints(["report", "-e", "sample", "1155"], *wanted(made.SAMPLE, [0x1155], False), b"10d0 zz", False)
    for nothing in (b"", b" ", b"\n", b" \t\r\n"):
        judge.prints(["report", "-e", "sample"], b"", 0, nothing, False)
        judge.prints(["report", "-e", "sample", "--json"], b"", 0, nothing, False)
    # arguments from a file
    judge.file("words", b"-e sample 1155\n10d0 '1066'\n")
    judge.prints(["report", "@words", "0"], *wanted(made.SAMPLE, [0x1155, 0x10D0, 0x1066, 0], False))
    for many in (255, 256, 257, 1000, 20000):
        at = [0x1000 + i * 7 % 0x1F0 for i in range(many)]
        for as_json in (False, True) if many < 2000 else (False,):
            out, status = wanted(made.SAMPLE, at, as_json)
            form, words = ["--json"] * as_json, ["%x" % address for address in at]
            if many < 2000:
                judge.prints(["report", "-e", "sample", *form, *words], out, status, errors=False)
            judge.prints(["report", "-e", "sample", *form], out, status, "\n".join(words).encode(), False)
            judge.prints(["report", "-e", "sample", *form, "--binary"], out, status, bytes_of(at), False)
            if many > 256:
                out, status = b"?\n", 2
            judge.prints(["report", "--binary", *form], out, status, made.asked(made.SAMPLE, at))


# words that are no address, as they are shown
NO_ADDRESS = [(word, word) for word in (b"zz", b"0x", b"10000000000000000", b"0x1ffffffffffffffff", b"-", b"+1", b"0X")]
NO_ADDRESS += [(word, word) for word in (b"1_0", b"0x0x1", b"x1", b"1155h", b"1,2", b"\xc3\xa9", b"0b.1", b"1155'")]
NO_ADDRESS += [(b"1\x1b[2J", b"1?[2J"), (b"1\x7f", b"1?"), (b"\x0b1155", b"?1155"), (b"1155\x0c1066", b"1155?1066")]
NO_ADDRESS += [(b"1\xc2\x9b", b"1?"), (b"\xe2\x80\xae1", b"?1"), (b"1\xff", b"1\xff"), (b"\xc2\xa01", b"\xc2\xa01")]


def bad_words(judge):
    judge.refuses(["report", "-e", "sample", "1155", "", "1066"], b"''")
    judge.refuses(["report", "-e", "sample"], b"1155?", b"1155\0 1066\n")
    judge.refuses(["report", "-e", "sample"], b"?1155", b"1066 \x001155")
    judge.refuses(["report", "-e", "sample"], b"zz", b"1155\n" * 3000 + b"zz\n" + b"1155\n" * 3000)
    long = b"z" * 100000
    judge.refuses(["report", "-e", "sample"], long[:99], b"1155 " + long + b" 1066")
    # in a file that doesn't open nothing is printed either
    judge.refuses(["report", "-e", "empty", "1155", "zz"], b"zz")
    judge.refuses(["report", "-e", "none", "1155", "zz"])
    # bytes that don't come out at whole addresses
    for form in ([], ["--json"]):
        for addresses in ([], [0x1155], [0x1155, 0x1066], [0x1155] * 256):
            for extra in (1, 2, 3, 4, 5, 6, 7) if len(addresses) < 2 else (1, 7):
                data = bytes_of(addresses) + b"\x11" * extra
                judge.refuses(["report", "-e", "sample", "--binary", *form], b"", data)
        judge.refuses(["report", "-e", "sample", "--binary", *form], b"", b"1155 1066\n")
    judge.refuses(["report", "-e", "empty", "--binary"], b"", bytes(7))
    good = [b"1155", b"10d0", b"1066"]
    for number, (word, shown) in enumerate(NO_ADDRESS):
        shown = b"'" + shown + b"'"
        for at in range(4) if number < 2 else (1,):
            words = [*good[:at], word, *good[at:]]
            judge.refuses(["report", "-e", "sample", "--json", "--", *words], shown)
            judge.refuses(["report", "-e", "sample", "--", *words], shown)
            judge.refuses(["report", "-e", "sample"], shown, b" ".join(words))
            judge.refuses(["report", "-e", "sample", "--json"], shown, b"\n".join(words) + b"\n")
        judge.refuses(["report", "-e", "sample", "--", word], shown)
        judge.refuses(["report", "-e", "sample"], shown, word)


def closed_files(judge):
    """Files that don't open: each address has its line, and a message says why."""
    # what can't be read is no report
    for name, why in (("none", b"No such file or directory"), (".", b"Is a directory"), ("sample/x", b""), ("", b"")):
        for form in ([], ["--json"]):
            judge.refuses(["report", *form, "-e", name, "1000"], why)
            judge.refuses(["report", *form, "-e", name], why, b"1000")
            judge.refuses(["report", *form, "--binary", "-e", name], why, bytes(8))
    judge.refuses(["report", "-e", b"odd\xff\x9b", "1000"])
    at = [0x1000, 0, 0x1001, 2**64 - 1]
    files = [(f"closed {number}", data) for number, (_, data) in enumerate(made.not_opening()) if data[6:7] != b"\3"]
    with open(judge.gsym, "rb") as program:
        files.append(("elf", (b"\x7fELF" + program.read())[: 2**16]))
    files += [("text", b"no symbols here\n"), ("swapped", b"GSYM\0\1\x08\x14")]
    words = ["%x" % address for address in at]
    for name, data in files:
        judge.file(name, data)
        for as_json in (False, True):
            form = ["--json"] * as_json
            for some in (at, at[:1], at[:1] * 300 if name in ("text", "empty") else [0, 0]):
                out, status = wanted(data, some, as_json)
                spelled = ["%x" % address for address in some]
                for arguments, given in (
                    (["-e", name, *spelled], b""),
                    (["-e", name], "\n".join(spelled).encode()),
                    (["-e", name, "--binary"], bytes_of(some)),
                ):
                    judge.prints(["report", *form, *arguments], out, status, given, True, name.encode())
                if len(some) <= 256:
                    judge.prints(["report", "--binary", *form], out, status, made.asked(data, some))
        judge.prints(["report", "-e", name], b"", 0, b"", True, name.encode())
        judge.prints(["report", "--binary"], b"", 0, made.asked(data, []))
    # an offset size of 3 opens
    data = judge.files[judge.file("width 3", made.SYNC[:6] + b"\3" + made.SYNC[7:])]
    judge.prints(["report", "-e", "width 3", *words], *wanted(data, at, False), errors=False)
    judge.prints(["report", "-e", "/dev/zero", "1000", "0"], b"0 ?3\n1 ?1\n", 1, errors=True)
    # a file that is a pipe
    judge.prints(["report", "-e", "/dev/stdin", "1155"], *wanted(made.SAMPLE, [0x1155], False), made.SAMPLE, False)


def whole_inputs(judge):
    """The whole input of a report: what is none."""
    whole = made.asked(made.SAMPLE, made.SAMPLE_AT)
    bad = [b"", bytes(1), bytes(3), bytes(5), bytes(11), whole[:3], whole[:100], whole[:-1], whole + b"\n"]
    bad += [b"1155 1066\n"]
    bad += [made.u32(length) + whole[4:] for length in (2**32 - 1, 2**31, 2**30, 2**30 + 1)]
    bad += [made.u32(more + len(made.SAMPLE)) + whole[4:] for more in (2**16, 2**24, 2**30, 2**31, -1, 1)]
    bad += [whole[:4][::-1] + whole[4:], made.asked(made.SAMPLE, [0x1155] * 257), made.asked(b"", [0] * 257)]
    bad += [made.asked(made.filled(60000), [0x1000])[:-1], made.asked(made.filled(60000), [0x1000]) + b"\0"]
    for data in bad:
        for form in ([], ["--json"]):
            judge.prints(["report", "--binary", *form], b"?\n", 2, data)
    for part in (made.page, made.edges, made.rests, made.frames, made.differences):
        for one in part():
            if one.kept and len(one.data) < 4000:
                asked = model.asked_by(model.MOST_OF_TOOL, one.data)
                out, status = wanted(*asked, False) if asked else (b"?\n", 2)
                judge.prints(["report", "--binary"], out, status, one.data)
    with open("/dev/zero", "rb") as device:
        ran = judge.run("report", "--binary", stdin=device)
    judge.that((ran.stdout, ran.returncode) == (b"?\n", 2), f"report --binary of /dev/zero: {ran}")
    if os.environ.get("GSYM_LARGE"):  # takes 1 GiB of memory
        for size, want in ((2**30, (b"0 ?3\n", 1)), (2**30 + 1, (b"0 ?3\n", 1))):
            with tempfile.TemporaryFile() as file:
                file.write(made.u32(size))
                file.truncate(4 + size + 8)
                file.seek(0)
                ran = judge.run("report", "--binary", stdin=file)
            judge.that((ran.stdout, ran.returncode) == want, f"report --binary of {size} bytes: {ran}")


def usage(judge):
    data = made.asked(made.SAMPLE, [0x1155])
    judge.misused("report")
    judge.misused("report", "1155")
    judge.misused("report", "--json", "1155")
    judge.misused("report", "--json", data=b"1155")
    judge.misused("report", "-e")
    judge.misused("report", "--binary", "1155", data=data)
    judge.misused("report", "--binary", "-e", "sample", "1155", data=bytes_of([0x1155]))
    judge.misused("report", "-e", "sample", "1155", "--binary")
    judge.misused("report", "--binary=1", data=data)
    judge.misused("report", "--json=1", "-e", "sample", "1155")
    judge.misused("report", "--frob", "-e", "sample", "1155")
    judge.misused("report", "-e", "sample", "-1155")
    judge.misused("report", "-b", "-e", "sample", "1155")
    others = "-a -f -i -p -s -C --addresses --functions --inlines --pretty --pretty-print --basenames --demangle"
    others += " --demangle=gnu --return-addresses --refusals --base=0"
    for option in others.split():
        judge.misused("report", option, "-e", "sample", "1155")
        judge.misused("report", "-e", "sample", "--json", "1155", option)
        judge.misused(option, "report", "--binary", data=data)
    judge.misused("report", "--base", "0", "-e", "sample", "1155")
    # and `--binary` is none of the others'
    judge.misused("addr2line", "--binary", "-e", "sample", "1155")
    judge.misused("check", "--binary", "sample")
    judge.misused("info", "--binary", "sample")
    for option in ("--help", "-h", "-H"):
        for arguments in (["report", option], [option, "report"], ["report", "-e", "sample", option, "1155"]):
            is_help = lambda ran: ran.stdout.startswith(b"usage: ") and b"gsym report" in ran.stdout and not ran.stderr
            judge.later(arguments, b"", lambda ran, told: (ran.returncode == 0 and is_help(ran), told))


def streams(judge):
    """Input that comes slowly and that can't be read; output that nobody reads and that can't be written."""
    whole = made.asked(made.SAMPLE, made.SAMPLE_AT)
    out, status = wanted(made.SAMPLE, made.SAMPLE_AT, False)
    text = b"".join(b"%x\n" % address for address in made.SAMPLE_AT)
    ways = [(["-e", "sample"], text, out, status), (["--binary"], whole, out, status)]
    ways += [(["-e", "sample", "--binary"], bytes_of(made.SAMPLE_AT), out, status)]
    ways += [(["-e", "sample"], text + b"zz\n", b"", 2)]
    ways += [(["-e", "sample", "--binary"], whole[-8:] + b"\0", b"", 2), (["--binary"], whole + b"\0", b"?\n", 2)]
    for arguments, data, want, want_status in ways:
        command = [judge.gsym, "report", *arguments]
        process = subprocess.Popen(command, cwd=judge.folder, stdin=PIPE, stdout=PIPE, stderr=PIPE, bufsize=0)
        timer = threading.Timer(SOON, process.kill)
        timer.start()
        with contextlib.suppress(BrokenPipeError):
            pieces = [data[:1], data[1:5], data[5:-3], data[-3:-2], data[-2:]]
            for piece in pieces:
                process.stdin.write(piece)
                time.sleep(0.05)
        early = select.select([process.stdout], [], [], 0.3)[0]
        with contextlib.suppress(BrokenPipeError):
            process.stdin.close()
        got = process.stdout.read(), process.stderr.read(), process.wait()
        timer.cancel()
        process.stdout.close()
        process.stderr.close()
        judge.that(not early, f"report {arguments}: something is printed before the end of the input")
        judge.that((got[0], got[2]) == (want, want_status), f"report {arguments}, slow input: {got}")
    folder = os.open("/", os.O_RDONLY)
    for arguments in (["-e", "sample"], ["-e", "sample", "--binary"], ["--binary"]):
        ran = judge.run("report", *arguments, stdin=folder)
        is_so = (ran.returncode, ran.stdout) == (2, b"") and ran.stderr
        judge.that(is_so, f"report {arguments} of a folder as standard input: {ran}")
        command = ["sh", "-c", 'exec "$0" report "$@" <&-', judge.gsym, *arguments]
        ran = subprocess.run(command, cwd=judge.folder, capture_output=True, check=False, timeout=SOON)
        is_so = ran.returncode == 2 and ran.stdout in (b"", b"?\n")
        judge.that(is_so or not ran.stdout and ran.returncode == 0, f"report {arguments}, standard input closed: {ran}")
    os.close(folder)
    words = ["%x" % address for address in made.SAMPLE_AT]
    if os.path.exists("/dev/full"):
        of_files = ["-e", "sample", *words], ["--json", "-e", "sample", *words], ["-e", "empty", "1000"]
        for arguments in (*of_files, ["--binary"]):
            with open("/dev/full", "wb") as device:
                ran = judge.run("report", *arguments, stdout=device, data=whole)
            judge.that(ran.returncode == 2 and ran.stderr, f"report {arguments} into a full device: {ran}")
    many = [*words, *words[:1] * 20000]
    for is_default in (True, False):
        for read in (0, 1, 70000):
            command = [judge.gsym, "report", "-e", "sample"]
            with tempfile.TemporaryFile() as file:
                file.write("\n".join(many).encode())
                file.seek(0)
                given = {"stdin": file, "stdout": PIPE, "stderr": PIPE, "restore_signals": is_default}
                process = subprocess.Popen(command, cwd=judge.folder, bufsize=0, **given)
            timer = threading.Timer(SOON, process.kill)
            timer.start()
            got = b""
            while len(got) < read and (piece := os.read(process.stdout.fileno(), read - len(got))):
                got += piece
            process.stdout.close()
            process.stderr.read()
            process.stderr.close()
            ended = process.wait()
            timer.cancel()
            is_front = model.report(made.SAMPLE, [int(word, 16) for word in many]).startswith(got)
            judge.that(ended in (0, 2) and is_front, f"report, closed after {read} bytes: {ended} {got[:200]}")


def largest(judge):
    """A real file of some 20 MB, where it is there."""
    path = pathlib.Path(made.corpus()) / "vmlinux612.gsym.xz"
    if not path.exists():
        print(f"tests/report: no {path}: not tried", file=sys.stderr)
        return
    with lzma.open(path) as packed:
        file = packed.read()
    judge.file("largest", file)
    f = model.lookup_model.Opened(file)
    at = [f.base + f.entry(i) + 5 for i in (f.count // 3, f.count // 2, f.count - 9)]
    out, status = wanted(file, at, False)
    judge.prints(["report", "-e", "largest", *("%x" % address for address in at)], out, status, errors=False)
    judge.prints(["report", "--binary"], out, status, made.asked(file, at), False)
    out, status = wanted(file, at, True)
    judge.prints(["report", "-e", "largest", "--json", *("%x" % address for address in at)], out, status, errors=False)


PARTS = [answers, bad_words, closed_files, whole_inputs, usage, spellings, streams, largest]


def main():
    names = [word for word in sys.argv[2:] if word != "--first"]
    unknown = set(names) - {part.__name__ for part in PARTS}
    if unknown:
        sys.exit(f"tests/report: no such part: {unknown}")
    with tempfile.TemporaryDirectory() as folder:
        judge = Judge(os.path.abspath(sys.argv[1]), pathlib.Path(folder), "--first" in sys.argv)
        with contextlib.suppress(Done):
            for part in PARTS:
                if not names or part.__name__ in names:
                    part(judge)
                    judge.judge_all()
        judge.pool.shutdown(cancel_futures=True)
    print(f"{judge.checks:,} checks of the tool, {judge.failed} failed")
    return 1 if judge.failed else 0


if __name__ == "__main__":
    sys.exit(main())
