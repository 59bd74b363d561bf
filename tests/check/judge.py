#!/usr/bin/env python3
"""Holds the library's check of a whole file to docs/RULES.md, "Checking a file": `judge.py LIBRARY`, a shared library.

The files of made.py are held to what made.py says of them and to the model (tests/vectors/lookup_model.py); real files,
their torn prefixes, their changed bytes, the inputs of docs/DIFFERENCES.md and random files to the model; and in files
that pass lookups are refused with no number but those of that section, and tell the symbol that the model does. Prints
what was done, and what differs with the shortest file that does; with `-v` also what each real file is told.
"""
import collections
import ctypes
import glob
import lzma
import os
import pathlib
import random
import subprocess
import sys
import tempfile

TOP_FOLDER = pathlib.Path(__file__).resolve().parents[2]
sys.path[:0] = [str(TOP_FOLDER / "tests/vectors")]
import lookup_model as model  # noqa: E402
import made  # noqa: E402

# What a lookup in a file that passes may give, by options and room.
GIVEN = {(0, 0): {0, 1}, (0, 64): {0, 1}}
GIVEN |= {(1, room): {0, 1, 7, 8} for room in (0, 1, 64)}
GIVEN |= {(3, room): {0, 1, 6, 7, 8, 14} for room in (0, 1, 64)}


class Told(ctypes.Structure):
    _fields_ = [("number", ctypes.c_uint32), ("entry", ctypes.c_uint32)]


class Answer(ctypes.Structure):
    _fields_ = [("number", ctypes.c_uint32), ("has_code", ctypes.c_uint32), ("addr", ctypes.c_uint64)]
    _fields_ += [("size", ctypes.c_uint32), ("line", ctypes.c_uint32), ("texts", ctypes.c_uint64 * 6)]
    _fields_ += [("count", ctypes.c_uint64)]

    def numbers(self):
        """As the model tells them: symbol, size, name, whether there is code info, directory, file, line, count."""
        name_at, name_len, *others = self.texts
        return [self.addr, self.size, name_at, name_len, self.has_code, *others, self.line, self.count]


class Lookups:
    """A shared library that is asked for lookups alone."""

    def __init__(self, path):
        self.all = ctypes.CDLL(os.path.abspath(path))
        self.looked_up = self.all.gsym_lookup_2
        self.looked_up.restype = Answer
        self.looked_up.argtypes = [ctypes.c_char_p, ctypes.c_size_t, ctypes.c_uint64, ctypes.c_uint32]
        self.looked_up.argtypes += [ctypes.c_void_p, ctypes.c_size_t]
        self.frames = ctypes.create_string_buffer(64 * 56)

    def lookup(self, data, addr, opts, room):
        return self.looked_up(data, len(data), addr, opts, self.frames, room)


class Library(Lookups):
    """The same, asked for the check of a file too."""

    def __init__(self, path):
        super().__init__(path)
        self.checked = self.all.gsym_check_2
        self.checked.restype, self.checked.argtypes = Told, [ctypes.c_char_p, ctypes.c_size_t]

    def check(self, data, length=None):
        told = self.checked(data, len(data) if length is None else length)
        return told.number, told.entry


class Judge:
    def __init__(self, library):
        self.library = library
        self.counts, self.wrong = collections.Counter(), {}
        self.numbers, self.given = set(), {number: set() for number in (0, 1, 6, 7, 8, 14)}

    def differs(self, part, data, what):
        """The shortest file of each part is kept."""
        self.counts["differ"] += 1
        if part not in self.wrong or len(data) < len(self.wrong[part][0]):
            self.wrong[part] = data, what

    def file(self, part, data, want=None, what=""):
        """A file to all that have an answer to it; the library's answer."""
        self.counts[part] += 1
        got, by_model = self.library.check(data), model.check(data)
        self.numbers.add(got[0])
        if got != by_model or want not in (None, got):
            said = "" if want is None else f", expected {want}"
            self.differs(part, data, f"{what or part}: model {by_model}, library {got}{said}")
        if got == by_model == (0, 0):
            self.lookups(data)
        return got

    def lookups(self, data):
        f = model.Opened(data)
        entries = [f.entry(i) for i in range(f.count)]
        twins = [i for i in range(1, f.count) if entries[i] == entries[i - 1]]
        addresses = {0, 1, made.TOP - 1, f.base, max(f.base - 1, 0)}
        some = range(f.count)
        if f.count >= 6:
            some = {0, 1, f.count // 2, f.count - 2, f.count - 1, *twins[:2], *twins[-2:]}
        for i in some:
            start = f.base + entries[i]
            size = f.info(i)[0]
            addresses |= {start, start + size // 2, max(start + size - 1, 0), start + size, start + 1, start + 0x100}
            addresses.add(max(start - 1, 0))
        self.counts["passed files"] += 1
        for addr in {addr % made.TOP for addr in addresses}:
            for (opts, room), given in GIVEN.items():
                self.counts["lookups"] += 1
                got = self.library.lookup(data, addr, opts, room)
                if got.number in given:
                    self.given[got.number].add(opts)
                else:
                    what = f"a lookup of {addr:#x}, options {opts}, room {room}: {got.number}"
                    self.differs("lookups in files that pass", data, what)
                if (opts, room) == (0, 0) or (twins and (opts, room) == (3, 64)):
                    self.looked_up_by_model(data, addr, opts, room, got, twins)

    def looked_up_by_model(self, data, addr, opts, room, got, twins):
        """The whole answer is the model's, but the records. Counted is what is found of equal entries in a row, where
        the first and the last of them differ in size or name."""
        self.counts["lookups by the model"] += 1
        number, want, _ = model.answer(data, addr, opts, room)
        if (got.number, got.numbers()) != (number, want):
            what = f"a lookup of {addr:#x}, options {opts}: model {number} {want}, library {got.number} {got.numbers()}"
            self.differs("lookups by the model", data, what)
        if twins and number == 0:
            f = model.Opened(data)
            row = [i for i in range(f.count) if f.entry(i) == want[0] - f.base]
            self.counts["lookups of equal entries"] += f.info(row[0])[:2] != f.info(row[-1])[:2]


def corpus():
    return os.environ.get("GSYM_CORPUS") or "../shared/corpus"


def real_files():
    for path in [*sorted(glob.glob(f"{corpus()}/*.gsym")), "host/sample/connector.gsym"]:
        yield path, pathlib.Path(path).read_bytes()
    for path in glob.glob(f"{corpus()}/*.gsym.xz"):
        yield path, lzma.open(path).read()


def inputs_of_differences():
    with tempfile.TemporaryDirectory() as folder:
        make = TOP_FOLDER / "tests/differences/make.py"
        environment = {**os.environ, "PYTHONDONTWRITEBYTECODE": "1"}
        subprocess.run([sys.executable, make, folder], check=True, env=environment)
        for path in sorted(pathlib.Path(folder).iterdir()):
            yield path.stem, path.read_bytes()


def prefixes(judge, path, data):
    """Every torn prefix by the library: of a file that passes none has a fault but those of a cut. By the model too,
    every one of a short file, and of a longer one the last and some of the others."""
    step = 1 if len(data) < 2048 else len(data) // 64
    by_model = {*range(0, len(data), step), *range(max(0, len(data) - 32), len(data))}
    by_cuts = {0, 2, 5, 24, judge.library.check(data)[0]}
    for n in range(len(data)):
        judge.counts["prefixes"] += 1
        got = judge.library.check(data, n)
        if got[0] not in by_cuts:
            judge.differs("prefixes", data[:n], f"{path}, {n} bytes: {got}, which no cut gives")
        if n in by_model:
            judge.counts["prefixes by the model"] += 1
            want = model.check(data[:n])
            if got != want:
                judge.differs("prefixes", data[:n], f"{path}, {n} bytes: model {want}, library {got}")


def changes(judge, path, data):
    for at, byte in enumerate(data):
        for value in {byte ^ 1, byte ^ 0x80, 0, 255, (byte + 1) % 256} - {byte}:
            judge.file("changed bytes", data[:at] + bytes([value]) + data[at + 1 :], None, f"{path}, {value} at {at}")


def main():
    judge = Judge(Library(sys.argv[1]))
    r = random.Random(5)
    parts = [("files that pass", made.good), ("single faults", made.singles), ("pairs", made.pairs)]
    for part, files in (*parts, ("numbers too wide", made.wide)):
        for data, want, what in files(r):
            judge.file(part, data, want, what)
    seeds = []
    for path, data in real_files():
        told = judge.file("real files", data, None, path)
        if "-v" in sys.argv:
            print(path, *told)
        if len(data) < 2**16:
            prefixes(judge, path, data)
        if len(data) < 2048:
            changes(judge, path, data)
            seeds.append(data)
    for name, data in inputs_of_differences():
        told = judge.file("inputs of DIFFERENCES", data, None, name)
        if "-v" in sys.argv:
            print(name, *told)
    for _ in range(6000):
        data = made.mixed(r)
        judge.file("random files", data)
        judge.file("random files", made.mutated(r, data))
    for _ in range(2000):
        judge.file("random files", made.mutated(r, r.choice(seeds)))
    c = judge.counts
    missing = sorted({0, 15, *made.NUMBERS} - judge.numbers)
    missing += [f"{n} by a lookup" for n, options in judge.given.items() if not options]
    missing += [] if c["lookups of equal entries"] else ["one of equal entries"]
    made_files = c["files that pass"] + c["single faults"]
    print(
        f"{made_files:,} files made, {c['pairs']:,} pairs of faults, {c['numbers too wide']:,} with a number"
        f" too wide, short or padded, {c['real files']} real files,"
        f" {c['inputs of DIFFERENCES']} inputs of DIFFERENCES,"
        f" {c['prefixes']:,} torn ones ({c['prefixes by the model']:,} by the model),"
        f" {c['changed bytes']:,} changed bytes, {c['random files']:,} random files,"
        f" {c['lookups']:,} lookups in {c['passed files']:,} files that pass"
        f" ({c['lookups by the model']:,} by the model, {c['lookups of equal entries']:,} found one of equal entries that differ)"
    )
    if c["real files"] == 1:
        print(f"tests/check: no real files at {corpus()}: not tried", file=sys.stderr)
    for part, (data, what) in judge.wrong.items():
        print(f"tests/check: {what}: {data[:2000].hex()}{'..' if len(data) > 2000 else ''}", file=sys.stderr)
    if missing:
        print(f"tests/check: never told: {missing}", file=sys.stderr)
    if c["differ"]:
        print(f"tests/check: {c['differ']} differ; of each part the shortest is shown", file=sys.stderr)
    return 1 if judge.wrong or missing else 0


if __name__ == "__main__":
    sys.exit(main())
