#!/usr/bin/env python3
"""What LLVM's reader says of written files: `llvm.py LLVM_GSYMUTIL [GSYM]`.

Files are written from made contents, and from what real files (of the folder GSYM_CORPUS) are as text; by `gsym make`,
or by the model where no GSYM is given. Header, tables, strings and symbols have to be what was given, lookups what the
model of a lookup answers; and what is made of a real file's text has to be to LLVM what the file is. Prints how many
files and lookups that were.
"""
import importlib.util
import os
import pathlib
import random
import re
import subprocess
import sys
import tempfile

import made
import model
import tool



def model_of_lookups():
    spec = importlib.util.spec_from_file_location("lookups", pathlib.Path(__file__).parent / "../report/model.py")
    module = importlib.util.module_from_spec(spec)
    spec.loader.exec_module(module)
    return module


class Judge:
    def __init__(self, reader, gsym, folder):
        self.reader, self.gsym, self.folder = reader, gsym, folder
        self.files = self.lookups = self.failed = 0
        self.models = model_of_lookups()

    def that(self, is_so, what):
        if not is_so:
            self.failed += 1
            if self.failed <= 10:
                print(f"tests/write: {os.path.basename(self.reader)}: {what}"[:1500], file=sys.stderr)

    def written(self, name, text):
        """The path of a file made of a text."""
        path = self.folder / name
        if self.gsym:
            ran = subprocess.run([self.gsym, "make", "-o", str(path)], input=text, capture_output=True, check=False)
            self.that(ran.returncode == 0, f"gsym make: {ran.stderr} of {text[:300]}")
        else:
            path.write_bytes(model.made(text)[1])
        return path

    def dump(self, path):
        ran = subprocess.run([self.reader, str(path)], capture_output=True, check=False, timeout=tool.SOON)
        self.that(ran.returncode == 0, f"dump of {path}: {ran.returncode} {ran.stderr[:300]}")
        return ran.stdout

    def answers(self, path, addresses):
        """What LLVM tells of each address: the text of its lines."""
        asked = b"".join(b"0x%x %s\n" % (address, str(path).encode()) for address in addresses)
        command = [self.reader, "--addresses-from-stdin"]
        ran = subprocess.run(command, input=asked, capture_output=True, check=False, timeout=tool.SOON)
        self.that(ran.returncode == 0, f"lookups in {path}: {ran.returncode} {ran.stderr[:300]}")
        self.lookups += len(addresses)
        return [part for part in ran.stdout.split(b"\n\n") if part]


def frames(answer):
    """Of an answer each name, and its position, if it has one; None where the address isn't found."""
    out = []
    for line in re.sub(rb"^0x[0-9a-f]+: ", b"", answer).split(b"\n"):
        if line.startswith(b"error: address "):
            return None
        name, _, position = line.strip().removesuffix(b" [inlined]").partition(b" @ ")
        out.append((re.sub(rb" \+ [0-9]+$", b"", name), position or None))
    return out


def frames_of_model(judge, file, address):
    number, told = judge.models.answered(file, address, True)
    if number:
        return None
    path = lambda directory, name, line: (directory + b"/" if directory else b"") + name + b":%d" % line
    return [(name, path(*position) if position else None) for name, position in told[2]]


def tables(dumped):
    """Header, addresses, data offsets, files, strings and symbols of LLVM's dump."""
    text = dumped.decode("utf-8", "replace")
    number = lambda pattern: [tuple(int(n, 16) for n in found.groups()) for found in re.finditer(pattern, text, re.M)]
    header = {name: int(value, 16) for name, value in re.findall(r"^  (\w+) += 0x([0-9a-f]+)$", text, re.M)}
    addresses = number(r"^\[ *\d+\] 0x([0-9a-f]+) \(0x([0-9a-f]{16})\)$")
    offsets = number(r"^\[ *\d+\] 0x([0-9a-f]{8})$")
    files = number(r"^\[ *\d+\] 0x([0-9a-f]{8}) 0x([0-9a-f]{8}) ")
    strings = [(int(at, 16), string) for at, string in re.findall(r'^0x([0-9a-f]{8}): "(.*)"$', text, re.M)]
    symbol = r'^FunctionInfo @ 0x([0-9a-f]{8}): \[0x([0-9a-f]{16}) - 0x([0-9a-f]{16})\) "(.*)"$'
    symbols = re.findall(symbol, text, re.M)
    return header, addresses, offsets, files, strings, [(*(int(n, 16) for n in one[:3]), one[3]) for one in symbols]


def tables_of(content):
    """The same of a content, and of what RULES says of its file ("Writing a file")."""
    base = content.entries[0].address
    layout = model.Layout(content)
    header = {"Magic": 0x4753594D, "Version": 1, "AddrOffSize": model.offset_size(content), "UUIDSize": 0}
    header.update({"BaseAddress": base, "NumAddresses": len(content.entries), "StrtabOffset": layout.strings})
    header["StrtabSize"] = len(content.strings)
    strings, at = [], 0
    for string in content.strings.removesuffix(b"\0").split(b"\0"):
        strings.append((at, string.decode()))
        at += len(string) + 1
    addresses = [(entry.address - base, entry.address) for entry in content.entries]
    name = lambda entry: model.name_at(content.strings, entry.name).decode()
    symbols = [(place, entry.address, entry.address + entry.size, name(entry))
               for place, entry in zip(layout.data, content.entries)]
    return header, addresses, [(place,) for place in layout.data], content.files, strings, symbols


def judge_content(judge, content):
    text, _ = tool.as_text(content)
    path, file = judge.written("made", text), model.file_of(content)
    judge.files += 1
    for what, got, wanted in zip(("header", "addresses", "data offsets", "files", "strings", "symbols"),
                                 tables(judge.dump(path)), tables_of(content)):
        judge.that(got == wanted, f"{what} of {text}: {got}, not {wanted}")
    addresses = sorted({entry.address + more for entry in content.entries for more in (0, 5, 31, 32)})
    answers = judge.answers(path, addresses)
    judge.that(len(answers) == len(addresses), f"{len(answers)} answers to {len(addresses)} addresses in {text}")
    for address, answer in zip(addresses, answers):
        wanted = frames_of_model(judge, file, address)
        judge.that(frames(answer) == wanted, f"{address:#x} in {text}: {answer}, not {wanted}")


def judge_real(judge, name, file, r):
    """To LLVM a file and what is made of its text are one but for header and places."""
    status, text = model.dumped(file)
    if status or model.made(text)[0]:
        return
    judge.files += 1
    (judge.folder / "real").write_bytes(file)
    path = judge.written("new", text)
    told = [re.sub(rb"(?m)^FunctionInfo @ 0x[0-9a-f]+", b"", judge.dump(x).split(b"\nFiles:\n")[1])
            for x in (judge.folder / "real", path)]
    judge.that(told[0] == told[1], f"what is made of {name}: {tool.differing(told[1], told[0])}")
    addresses = sorted(set(tool.around(file, r)))
    before, after = (judge.answers(x, addresses) for x in (judge.folder / "real", path))
    others = [both for both in zip(before, after) if both[0] != both[1]]
    judge.that(before == after, f"lookups in what is made of {name}: {others[:2]}")


def main():
    with tempfile.TemporaryDirectory() as folder:
        judge = Judge(sys.argv[1], os.path.abspath(sys.argv[2]) if len(sys.argv) > 2 else None, pathlib.Path(folder))
        r = random.Random(19)
        for content in made.contents_for_lookups():
            judge_content(judge, content)
        for name, file in made.corpus().items():
            judge_real(judge, name, file, r)
    reader = os.path.basename(sys.argv[1])
    print(f"{judge.files} files and {judge.lookups:,} lookups by {reader}, {judge.failed} differ")
    return 1 if judge.failed or not judge.files else 0


if __name__ == "__main__":
    sys.exit(main())
