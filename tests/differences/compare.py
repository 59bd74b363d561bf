#!/usr/bin/env python3
"""Holds table.txt to what runs: `compare.py FOLDER [--rust PROGRAM] [--llvm LLVM-GSYMUTIL].. [--tool GSYM-ADDR2LINE]`.

FOLDER gets the inputs of make.py. A line of the table is `name | asked | here | Rust | LLVM 14 | LLVM 19`. "Here" is
RULES as tests/vectors/lookup_model.py has it, and gsym-addr2line where its path is given. An answer is a question mark
and a refusal's number, or the frames from the innermost outwards. Which column a llvm-gsymutil belongs to it says
itself; --llvm may be given once for each. --write writes the columns that were run anew.
"""
import argparse
import json
import pathlib
import re
import signal
import subprocess
import sys

HERE = pathlib.Path(__file__).resolve().parent
sys.path[:0] = [str(HERE), str(HERE.parent / "vectors")]
import lookup_model  # noqa: E402
import make  # noqa: E402

TABLE = HERE / "table.txt"
LLVMS = ["14", "19"]  # the columns of LLVM, by its major version


def escaped(data):
    return "".join(chr(b) if 32 <= b < 127 else f"\\x{b:02x}" for b in data)


def frame(name, place=None):
    if place is None:
        return name
    directory, file, line = place
    return f"{name}@{directory}{'/' if directory else ''}{file}:{line}"


def short(answer):
    frames = answer.split(" < ")
    return answer if len(frames) <= 4 else f"{len(frames)} frames, {frames[0]} < .. < {frames[-1]}"


def by_model(file, address, opts, room, whole=False):
    """RULES' answer; None where several entries of a falling table are allowed, which it leaves to the reader. The
    whole answer has the symbol's address and size too."""
    try:
        number, answer, records = lookup_model.answer(file, address, opts, room)
    except AssertionError:
        return None
    if number:
        return f"?{number}"
    text = lambda place, length: escaped(file[place : place + length])
    site = lambda n: (text(n[0], n[1]), text(n[2], n[3]), n[4])
    frames = [frame(text(r[0], r[1]), site(r[2:])) for r in reversed(records)]
    frames.append(frame(text(answer[2], answer[3]), site(answer[5:10]) if answer[4] else None))
    return short(" < ".join(frames)) + (f"\t{answer[0]}\t{answer[1]}" if whole else "")


def by_tool(tool, path, address):
    run = subprocess.run([tool, "-e", path, "--json", f"{address:#x}"], capture_output=True)
    if run.returncode == 2:
        number = re.search(rb"\b([234]), ", run.stderr)
        return f"?{int(number[1])}" if number else "no answer: " + escaped(run.stderr.strip())
    if run.returncode not in (0, 1):
        return f"exit status {run.returncode}"
    said = json.loads(run.stdout)
    if said["number"]:
        return f"?{said['number']}"
    text = lambda s: escaped(s.encode())
    frames = [
        frame(text(f["name"]), (text(f["directory"]), text(f["file"]), f["line"]) if "line" in f else None)
        for f in said["frames"]
    ]
    return short(" < ".join(frames))


def major(tool):
    """The major version of an llvm-gsymutil."""
    said = subprocess.run([tool, "--version"], capture_output=True, encoding="utf-8").stdout
    found = re.search(r"LLVM version (\d+)", said)
    return found[1] if found else "unknown"


def by_llvm(tool, path, address):
    run = subprocess.run([tool, f"--address={address:#x}", path.name], cwd=path.parent, capture_output=True)
    if run.returncode < 0:
        return f"crash, {signal.Signals(-run.returncode).name}"
    if run.returncode:
        return "not opened: " + escaped(run.stderr.split(b": ", 1)[-1].strip())
    frames = []
    for line in run.stdout.split(b"\n")[1:]:
        said = line[20:].removesuffix(b" [inlined]")
        if said.startswith(b"error: "):
            return escaped(said)
        if said:
            frames.append(re.sub(r" @ ", "@", re.sub(r" \+ \d+(?= @ |$)", "", escaped(said))))
    return short(" < ".join(f.strip() for f in frames))


def by_rust(program, cases, whole=False):
    lines = [f"{file.hex() or '.'} {address} {opts} {shift}\n" for _, file, address, opts, _, shift in cases]
    said = subprocess.run([program], input="".join(lines), capture_output=True, encoding="ascii", check=True).stdout
    return [short(line if whole else line.split("\t")[0]) for line in said.splitlines()]


def asked(address, opts, room, shift):
    extra = [f"options {opts}"] * (opts != 3) + [f"room {room}"] * (room != 64) + [f"shift {shift}"] * (shift != 0)
    return " ".join([f"{address:#x}", *extra])


def stored():
    rows = {}
    for line in TABLE.read_text().splitlines() if TABLE.exists() else []:
        if line and not line.startswith("#"):
            name, *cells = (cell.strip() for cell in line.split(" | "))
            rows[name] = cells
    return rows


def named():
    """The inputs that docs/DIFFERENCES.md names in brackets."""
    text = (HERE.parent.parent / "docs" / "DIFFERENCES.md").read_text()
    return {name for names in re.findall(r"\[([a-z0-9, -]+)[]:]", text) for name in names.split(", ")}


def main():
    words = argparse.ArgumentParser()
    words.add_argument("folder", type=pathlib.Path)
    for name in ["--rust", "--tool"]:
        words.add_argument(name, default="")
    words.add_argument("--llvm", action="append", default=[])
    words.add_argument("--write", action="store_true")
    use = words.parse_args()
    make.write(use.folder)
    table, rows, differ = stored(), [], 0
    tools = {major(tool): tool for tool in use.llvm}
    sides = ["RULES", "the Rust", *(f"LLVM {version}" for version in LLVMS)]
    compared = dict.fromkeys([*sides, "gsym-addr2line"], 0)
    rust = by_rust(use.rust, make.CASES) if use.rust else [None] * len(make.CASES)
    for (name, file, address, opts, room, shift), said_rust in zip(make.CASES, rust):
        path = use.folder / f"{name}.gsym"
        plain = (opts, room, shift) == (3, 64, 0)
        asks = [tools.get(version) if not shift and room == 64 else None for version in LLVMS]
        said = [by_model(file, address, opts, room), said_rust]
        said += [by_llvm(tool, path, address) if tool else None for tool in asks]
        want = table.get(name, [asked(address, opts, room, shift)] + ["not run"] * len(sides))
        if use.write:
            want += ["not run"] * (len(sides) + 1 - len(want))
            rows.append([name, asked(address, opts, room, shift)] + [s or w for s, w in zip(said, want[1:])])
            continue
        tries = list(zip(sides, said, want[1:]))
        if use.tool and plain:
            tries.append(("gsym-addr2line", by_tool(use.tool, path, address), want[1]))
        for side, got, expected in tries:
            compared[side] += got is not None
            if got is not None and got != expected:
                differ += 1
                print(f"differences: {name}: {side} answers {got}, and table.txt has {expected}")
    if use.write:
        width = [max(len(row[i]) for row in rows) for i in range(len(rows[0]) - 1)]
        head = "# Inputs of docs/DIFFERENCES.md and what each side answers; README.md here says what a line means.\n"
        text = "".join(" | ".join([*(c.ljust(w) for c, w in zip(row, width)), row[-1]]) + "\n" for row in rows)
        TABLE.write_text(head + text)
        return 0
    names = {name for name, *_ in make.CASES}
    missing = (set(table) ^ names) | (named() - names)
    for name in sorted(missing):
        print(f"differences: {name}: not in make.py, table.txt and docs/DIFFERENCES.md alike")
    counts = ", ".join(f"{n} by {side}" for side, n in compared.items() if n)
    differ += len(missing)
    print(f"differences: {len(make.CASES)} inputs; answers compared with the table: {counts}; {differ} differ")
    return 1 if differ else 0


if __name__ == "__main__":
    sys.exit(main())
