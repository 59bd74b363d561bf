#!/usr/bin/env python3
"""Compares a tool with LLVM's answers on real files: `corpus.py CORPUS WORD..`, the words call the tool.

CORPUS has NAME.gsym and NAME.llvm.tsv.xz, a line an address: address, ok, start, size, name, N and N times name, offset,
directory, file, line from the innermost frame outwards; or address, err, message. In `deep` a tree may have a node on level
65, which is refused with 13 by RULES and answered by LLVM: that is counted, and is a difference anywhere else.
"""
import json
import lzma
import pathlib
import subprocess
import sys


def expected(fields):
    """LLVM's answer as start, size and frames; None where there is none."""
    if fields[1] != "ok":
        return None
    frames = [tuple(fields[6 + 5 * k : 11 + 5 * k]) for k in range(int(fields[5]))]
    shown = []
    for name, _offset, directory, file, line in frames:
        placed = bool(directory or file or line != "0")
        shown.append((name, directory, file, int(line)) if placed else (name,))
    return int(fields[2], 16), int(fields[3]), shown


def answered(line):
    """The tool's answer in the same form, and its refusal's number."""
    said = json.loads(line)
    if said["number"]:
        return None, said["number"]
    frames = [
        (f["name"], f["directory"], f["file"], f["line"]) if "line" in f else (f["name"],) for f in said["frames"]
    ]
    return (int(said["start"], 16), said["size"], frames), 0


def compare(tool, folder, name):
    lines = lzma.open(folder / f"{name}.llvm.tsv.xz", "rt", encoding="utf-8").read().splitlines()
    rows = [line.split("\t") for line in lines]
    run = subprocess.run(
        [*tool, "-e", folder / f"{name}.gsym", "--json"],
        input="".join(f"{row[0]}\n" for row in rows),
        capture_output=True,
        encoding="utf-8",
    )
    said = run.stdout.splitlines()
    if len(said) != len(rows) or run.returncode not in (0, 1):
        sys.exit(f"corpus.py: {name}: {len(rows)} addresses, {len(said)} answers, exit status {run.returncode}")
    deep = differ = 0
    for row, line in zip(rows, said):
        got, number = answered(line)
        if got == expected(row):
            continue
        if name == "deep" and number == 13:
            deep += 1
            continue
        differ += 1
        if differ <= 5:
            print(f"{name} {row[0]}: LLVM {expected(row)}, this {got or number}"[:400])
    return len(rows), deep, differ


def main():
    folder, tool = pathlib.Path(sys.argv[1]), sys.argv[2:]
    names = sorted(p.name[: -len(".llvm.tsv.xz")] for p in folder.glob("*.llvm.tsv.xz"))
    total = deep = differ = 0
    for name in names:
        n, d, x = compare(tool, folder, name)
        total, deep, differ = total + n, deep + d, differ + x
    called = " ".join(tool)
    answers = f"{total} addresses of {len(names)} files as LLVM has them, {deep} refused with 13, {differ} differ"
    print(f"tests/host: {called}: {answers}")
    sys.exit(1 if differ or not total else 0)


main()
