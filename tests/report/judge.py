#!/usr/bin/env python3
"""Holds the program `report_main` to docs/RULES.md, "A report": `judge.py PROGRAM [--first] [PART..]`.

Each input of made.py goes to a process of its own, whose output must be the model's (model.py), byte for byte, with the
exit status 0 and nothing on standard error. Then pipes: inputs that come slowly, that break off and that never end;
output that is read slowly, that nobody reads, and that can't be written. Prints what was done, and on standard error
what differs, of each part the shortest input in hexadecimal. With --first it stops at the first that differs; with the
names of parts, functions here and in made.py, it tries these alone.
"""
import collections
import concurrent.futures
import contextlib
import os
import resource
import select
import subprocess
import sys
import tempfile
import threading
import time

import made
import model

PATIENCE = 60  # seconds for a process that has nothing to wait for
SOON = 10  # and for one that has to end by itself
NULL, PIPE = subprocess.DEVNULL, subprocess.PIPE


class Done(Exception):
    """--first, and something differs."""


class Judge:
    def __init__(self, program, only_first):
        self.program, self.only_first = os.path.abspath(program), only_first
        self.counts, self.wrong = collections.Counter(), {}

    def differs(self, part, data, what):
        """The shortest input of each part is kept."""
        self.counts["differ"] += 1
        if part not in self.wrong or len(data) < len(self.wrong[part][0]):
            self.wrong[part] = data, what
        if self.only_first:
            raise Done

    def that(self, is_so, part, what, data=b""):
        self.counts["pipes"] += 1
        if not is_so:
            self.differs(part, data, what)

    def run(self, data, **streams):
        """The status, the output and the errors for an input."""
        given = streams or {"input": data}
        try:
            ran = subprocess.run([self.program], capture_output=True, check=False, timeout=PATIENCE, **given)
        except subprocess.TimeoutExpired:
            return "no end", b"", b""
        return ran.returncode, ran.stdout, ran.stderr

    def started(self, **streams):
        return subprocess.Popen([self.program], bufsize=0, **{"stdin": PIPE, "stdout": PIPE, "stderr": PIPE, **streams})


@contextlib.contextmanager
def ending(process, seconds):
    """A process that is ended where it doesn't end by itself in time: `late` says so."""
    late = []
    timer = threading.Timer(seconds, lambda: (late.append(True), process.kill()))
    timer.start()
    try:
        yield late
        process.wait()
    finally:
        timer.cancel()
        if process.poll() is None:
            process.kill()
            process.wait()
        for stream in (process.stdin, process.stdout, process.stderr):
            if stream:
                with contextlib.suppress(OSError):
                    stream.close()


def shortened(data):
    return f"{data[:300]}{'..' if len(data) > 300 else ''}"


def compare(judge, one, want, got, how):
    judge.counts["inputs"] += 1
    if got != (0, want, b""):
        status, out, errors = got
        what = f"{one.what}, {how}: expected {shortened(want)}, got {shortened(out)}, status {status}, errors {errors}"
        judge.differs(one.part, one.data, what)


def inputs(judge, cases):
    """Inputs, by pipes and some of them as files, four at a time."""
    with concurrent.futures.ThreadPoolExecutor(4) as pool, tempfile.TemporaryFile() as file:
        asked = []

        def all_done(most):
            while len(asked) > most:
                one, want, got = asked.pop(0)
                compare(judge, one, want, got.result(), "by a pipe")

        try:
            for number, one in enumerate(cases):
                try:
                    want = model.output_of(model.MOST, one.data)
                except model.Unsettled:
                    judge.counts["unsettled"] += 1
                    continue
                if one.want not in (None, want):
                    judge.differs("the model", one.data, f"{one.what}: written out {one.want}, by the model {want}")
                asked.append((one, want, pool.submit(judge.run, one.data)))
                if number % 8 == 0:
                    file.seek(0)
                    file.truncate()
                    file.write(one.data)
                    file.seek(0)
                    compare(judge, one, want, judge.run(None, stdin=file), "by a file")
                all_done(8)
            all_done(0)
        finally:
            pool.shutdown(cancel_futures=True)


# ---- standard input


def fed(judge, parts, pauses, while_open=None):
    """What comes of an input that is written in parts, with a pause behind each of the first and a short one behind
    each other; `while_open` is asked before the end is told."""
    process = judge.started()
    with ending(process, PATIENCE) as late:

        def feed():
            with contextlib.suppress(OSError):
                for number, part in enumerate(parts):
                    process.stdin.write(part)
                    time.sleep(pauses[number] if number < len(pauses) else pauses[-1])
                if while_open:
                    while_open(process)
            with contextlib.suppress(OSError):
                process.stdin.close()

        feeding = threading.Thread(target=feed)
        feeding.start()
        out, errors = process.stdout.read(), process.stderr.read()
        feeding.join()
    return "no end" if late else process.returncode, out, errors


def cut(data, size):
    return [data[at : at + size] for at in range(0, len(data), size)]


def slow_input(judge):
    part = "inputs that come slowly"
    sample = made.asked(made.SAMPLE, made.SAMPLE_AT)
    three = made.asked(made.with_frames([b"outer", b"in\nner", b"leaf"]), [0x1000, 0x1001])
    full = made.asked(made.filled(model.MOST), [0x1000 + i % 64 for i in range(256)])
    ways = [(three, size, [0.001]) for size in (1, 2, 3, 7, 8)]
    ways += [(sample, 1, [0.05, 0.05, 0.05, 0.1, 0.0005]), (sample, 5, [0.05, 0.1, 0.001])]
    ways += [(full, size, [0.1, 0.05, 0.002]) for size in (1000, 4095, 4096, 4097, 8192, 49151, 49152, 49153, 49156)]
    ways += [(made.asked(made.filled(model.MOST + 1), [0x1000]), size, [0.05, 0.005]) for size in (4096, 49156, 49157)]
    ways += [(made.asked(made.SYNC, [0x1001] * n), 8, [0.05, 0.0005]) for n in (255, 256, 257)]
    cuts = (0, 1, 3, 4, 5, 60, len(three) - 16, len(three) - 9, len(three) - 1)
    ways += [(three[:n], 2, [0.05, 0.001]) for n in cuts]
    for number, (data, size, pauses) in enumerate(ways):
        got = fed(judge, cut(data, size), pauses)
        want = 0, model.output_of(model.MOST, data), b""
        told = f"expected {shortened(want[1])}, got {shortened(got[1])}, status {got[0]}, errors {got[2]}"
        judge.that(got == want, part, f"{size} bytes at a time, {number}: {told}", data)
    # each border of an input comes after a pause
    size = len(made.SAMPLE)
    borders = [0, 3, 4, 5, 4 + size - 1, 4 + size, 4 + size + 1, 4 + size + 8, 4 + size + 15, len(sample)]
    pieces = [sample[a:b] for a, b in zip(borders, borders[1:])]
    got = fed(judge, pieces, [0.05])
    judge.that(got == (0, model.output_of(model.MOST, sample), b""), part, f"borders after pauses: got {got}", sample)
    # a good input may still become a bad one: nothing is written before its end
    for more in (b"\0", bytes(8 * 256)):
        for data in (sample, made.asked(b"", [])):
            got = fed(judge, [data, more], [0.2])
            want = 0, model.output_of(model.MOST, data + more), b""
            judge.that(got == want, part, f"{len(more)} bytes more at last: got {got}", data + more)
    for data in (sample, three, made.asked(b"", [])):
        early = []
        still_open = lambda process: early.extend(select.select([process.stdout], [], [], 0.3)[0])
        got = fed(judge, [data], [0.1], still_open)
        want = 0, model.output_of(model.MOST, data), b""
        judge.that(got == want and not early, part, f"written before the end of the input: {got}", data)


def endless_input(judge):
    part = "inputs that never end"
    with open("/dev/zero", "rb") as device:
        process = judge.started(stdin=device)
        with ending(process, SOON) as late:
            out, errors = process.stdout.read(), process.stderr.read()
        judge.that((late, process.returncode, out, errors) == ([], 0, b"?\n", b""), part, f"/dev/zero: {late} {out}")
    head = made.asked(made.filled(model.MOST), [])
    starts = (("255", b"", b"\xff"), ("zeros", b"", b"\0"), ("a length of 2^31", b"\0\0\0\x80", b"\0"))
    starts += ("a file of 49,152 bytes", head, b"\1"), ("a small file", made.asked(made.SYNC, []), b"\2")
    for what, start, fill in starts:
        process = judge.started()
        with ending(process, SOON) as late:

            def feed():
                with contextlib.suppress(OSError):
                    process.stdin.write(start)
                    while process.poll() is None:
                        process.stdin.write(fill * 2**16)

            feeding = threading.Thread(target=feed)
            feeding.start()
            out, errors = process.stdout.read(), process.stderr.read()
            feeding.join()
        got = late, process.returncode, out, errors
        judge.that(got == ([], 0, b"?\n", b""), part, f"{what}, endless: {got}")


def bad_input(judge):
    part = "inputs that can't be read"
    folder = os.open("/", os.O_RDONLY)
    status, out, errors = run_with(judge, stdin=folder)
    judge.that(status == 2 and not out and errors, part, f"a folder as standard input: {status} {out} {errors}")
    os.close(folder)
    # one that is closed may be taken for an empty one
    status, out, errors = by_shell(judge, "<&-")
    is_so = (status, out, errors) == (0, b"?\n", b"") or status == 2 and not out and errors
    judge.that(is_so, part, f"a closed standard input: {status} {out} {errors}")
    status, out, errors = by_shell(judge, "<&- 2>&-")
    judge.that(status in (0, 2), part, f"a closed standard input and standard error: {status} {out} {errors}")


def run_with(judge, **streams):
    process = judge.started(**streams)
    with ending(process, SOON) as late:
        out, errors = process.stdout.read(), process.stderr.read()
    return "no end" if late else process.returncode, out, errors


def by_shell(judge, redirected, data=None):
    """As a shell starts it, with these redirections."""
    command = ["sh", "-c", f'exec "$0" {redirected}', judge.program]
    try:
        given = {"stdin": NULL} if data is None else {"input": data}
        ran = subprocess.run(command, capture_output=True, check=False, timeout=SOON, **given)
    except subprocess.TimeoutExpired:
        return "no end", b"", b""
    return ran.returncode, ran.stdout, ran.stderr


# ---- standard output


def long_report(size):
    """64 frames of names of this size for each of 256 addresses, and the report."""
    names = [(b"frame %d\n" % i * size)[:size] for i in range(64)]
    data = made.asked(made.with_frames(names), [0x1000, *[0x1001 + i % 4 for i in range(255)]])
    return data, model.output_of(model.MOST, data)


def slow_output(judge):
    part = "output that is read slowly"
    for size, steps in ((5, [1, 2, 3, 50]), (200, [1, 100, 4096, 4097, 70000]), (700, [65536, 65537, 2**20])):
        data, want = long_report(size)
        with tempfile.TemporaryFile() as file:
            file.write(data)
            file.seek(0)
            process = judge.started(stdin=file)
            with ending(process, PATIENCE) as late:
                got = b""
                for step in steps:
                    time.sleep(0.15)
                    got += os.read(process.stdout.fileno(), step)
                at, pieces = 0, [got]
                while piece := os.read(process.stdout.fileno(), 50000):
                    pieces.append(piece)
                    at += 1
                    time.sleep(0.01 if at < 30 else 0)
                errors = process.stderr.read()
        got = b"".join(pieces)
        differs_at = next((i for i, (a, b) in enumerate(zip(got, want)) if a != b), min(len(got), len(want)))
        is_so = (late, process.returncode, got, errors) == ([], 0, want, b"")
        what = f"names of {size} bytes: {len(got)} bytes of {len(want)}, differs at {differs_at}"
        judge.that(is_so, part, f"{what}, status {process.returncode} {errors[:200]} {late}", data)


def closed_output(judge):
    """Whoever reads may stop at any time: no signal ends the program, and the status is 2 where lines were left."""
    part = "output that nobody reads"
    long, whole = long_report(200)
    some = [(made.asked(made.SYNC, [0x1001, 0x1001]), "a short report"), (b"", "no input"), (long, "a long report")]
    some += [(made.asked(made.SYNC, []), "an empty report")]
    for data, what in some:
        for is_default in (True, False):  # whether the signal of a broken pipe would end it
            ours, theirs = os.pipe()
            os.close(ours)
            with tempfile.TemporaryFile() as file:
                file.write(data)
                file.seek(0)
                process = judge.started(stdin=file, stdout=theirs, restore_signals=is_default)
                os.close(theirs)
                with ending(process, SOON) as late:
                    process.stderr.read()
            want = 0 if what == "an empty report" else 2
            judge.that(not late and process.returncode == want, part, f"{what}: {late} {process.returncode}", data)
    for read in (1, 5, 4096, 65536, 65537, 200000):
        for is_default in (True, False):
            with tempfile.TemporaryFile() as file:
                file.write(long)
                file.seek(0)
                process = judge.started(stdin=file, restore_signals=is_default)
                with ending(process, SOON) as late:
                    got = b""
                    while len(got) < read and (piece := os.read(process.stdout.fileno(), read - len(got))):
                        got += piece
                    time.sleep(0.05)
                    process.stdout.close()
                    process.stderr.read()
            # what a pipe holds may be left unread without that being seen
            statuses = (2,) if len(whole) - read > 2 * 65536 else (0, 2)
            is_so = not late and process.returncode in statuses and got == whole[:read]
            judge.that(is_so, part, f"after {read} bytes: {late} {process.returncode}, {shortened(got)}", long)
    for data, what in some:
        status, _, _ = by_shell(judge, ">&-", data)
        judge.that(status in (0, 2), part, f"{what}, standard output closed: {status}", data)


def full_output(judge):
    part = "output that can't be written"
    if not os.path.exists("/dev/full"):
        return
    long, whole = long_report(200)
    for data, what in ((made.asked(made.SYNC, [0x1001]), "a line"), (b"", "no input"), (long, "a long report")):
        for errors_to in ("", "2>&-", "2>/dev/full"):
            status, _, errors = by_shell(judge, f">/dev/full {errors_to}", data)
            is_so = status == 2 and (errors or errors_to)
            judge.that(is_so, part, f"{what} to a full device {errors_to}: status {status}, errors {errors}", data)
    status, _, errors = by_shell(judge, ">/dev/full", made.asked(made.SYNC, []))
    judge.that((status, errors) == (0, b""), part, f"nothing to a full device: status {status}, errors {errors}")
    # a limit on the size of a file: what is written is a front
    for limit in (1, 1000, 70000):
        with tempfile.TemporaryFile() as file:
            limited = lambda: resource.setrlimit(resource.RLIMIT_FSIZE, (limit, limit))
            streams = {"input": long, "stdout": file, "stderr": PIPE}  # and no signal tells of the limit
            ran = subprocess.run(
                [judge.program], **streams, check=False, timeout=SOON, preexec_fn=limited, restore_signals=False
            )
            file.seek(0)
            got = file.read()
        is_so = ran.returncode == 2 and ran.stderr and got == whole[:limit]
        judge.that(is_so, part, f"a file of {limit} bytes at most: {ran}, {len(got)} bytes", long)


PIPES = [slow_input, endless_input, bad_input, slow_output, closed_output, full_output]


def main():
    judge = Judge(sys.argv[1], "--first" in sys.argv)
    names = [word for word in sys.argv[2:] if word != "--first"]
    unknown = set(names) - {part.__name__ for part in (*made.PARTS, made.vectors, *PIPES)}
    if unknown:
        sys.exit(f"tests/report: no such part: {unknown}")
    with contextlib.suppress(Done):
        named = [part for part in (*made.PARTS, made.vectors) if part.__name__ in names]
        inputs(judge, made.cases(named if names else made.PARTS))
        for part in PIPES:
            if not names or part.__name__ in names:
                part(judge)
    c = judge.counts
    print(f"{c['inputs']:,} runs of inputs and {c['pipes']} of pipes by the program, {c['differ']} differ")
    if not names and not any(made.real_files()):
        print(f"tests/report: no real files at {made.corpus()}: not tried", file=sys.stderr)
    for part, (data, what) in judge.wrong.items():
        print(f"tests/report: {part}: {what}: {data[:2000].hex()}{'..' if len(data) > 2000 else ''}", file=sys.stderr)
    if c["differ"] and not judge.only_first:
        print(f"tests/report: {c['differ']} differ; of each part the shortest is shown", file=sys.stderr)
    return 1 if judge.wrong else 0


if __name__ == "__main__":
    sys.exit(main())
