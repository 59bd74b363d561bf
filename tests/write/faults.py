#!/usr/bin/env python3
"""Plants the faults of faults.txt, each in a copy of this folder, and runs the test that shows it, `vectors.py replay`
or a part of tool.py: `faults.py [FAULT..]`.

Exit status 1 where a test sees nothing, or where more goes wrong than what it reports; and where a test doesn't pass
the right program.
"""
import concurrent.futures
import os
import pathlib
import re
import shutil
import subprocess
import sys
import tempfile

HERE = pathlib.Path(__file__).resolve().parent
STORED = HERE.parents[1] / "crates/write_cases/stdin"
AT_ONCE = 3
SOON = 600


def faults():
    """Of each fault its name, the test and the changes: what becomes what."""
    out = []
    for line in (HERE / "faults.txt").read_text().split("\n"):
        sign, text = line[:1], line[1:]
        if sign == "-" and (not out[-1][2] or out[-1][2][-1][1]):
            out[-1][2].append(([text], []))
        elif sign in ("-", "+"):
            out[-1][2][-1][sign == "+"].append(text)
        elif sign not in ("", "#"):
            test, name = line.split(" ")
            out.append((name, test, []))
    return [(name, test, [("\n".join(old), "\n".join(new)) for old, new in changes]) for name, test, changes in out]


def planted(folder, changes):
    """A copy of this folder with the changes."""
    tests = folder / "tests"
    shutil.copytree(HERE, tests / "write", ignore=shutil.ignore_patterns("__pycache__"))
    for name in ("report", "vectors"):
        (tests / name).symlink_to(HERE.parent / name)
    texts = {name: (tests / "write" / name).read_text() for name in ("model.py", "tool_stand_in.py")}
    for old, new in changes:
        places = [name for name, text in texts.items() if old in text]
        assert len(places) == 1 and texts[places[0]].count(old) == 1, f"{old!r} stands in {places}, or more than once"
        texts[places[0]] = texts[places[0]].replace(old, new)
    for name, text in texts.items():
        (tests / "write" / name).write_text(text)
    return tests / "write"


def command_of(test, folder):
    if test == "vectors":
        return [sys.executable, str(folder / "vectors.py"), "replay", str(STORED)]
    program = folder / "gsym"
    command = f'"{sys.executable}" -S "{folder}/tool_stand_in.py" "$@"'
    program.write_text(f"#!/bin/sh\nSTAND_IN_INPUT=3 exec {command} 3<&0 </dev/null\n")
    program.chmod(0o755)
    return [sys.executable, str(HERE / "tool.py"), str(program), "--first", test]


def tried(name, test, changes):
    """What is wrong with the test of a fault; None where it sees it. With no changes, it has to pass."""
    with tempfile.TemporaryDirectory() as folder:
        command = command_of(test, planted(pathlib.Path(folder), changes))
        given = {**os.environ, "PYTHONDONTWRITEBYTECODE": "1"}
        ran = subprocess.run(command, check=False, capture_output=True, timeout=SOON, env=given)
    told = (ran.stdout + ran.stderr).decode("utf-8", "replace")
    if not changes:
        return None if ran.returncode == 0 else f"{test} doesn't pass the right program: {told}"
    is_seen = re.search(r", [1-9][0-9]* differ" if test == "vectors" else r"(?m)^tests/write: gsym ", told)
    if ran.returncode != 1 or not is_seen or "Traceback" in told:
        return f"{test} doesn't see {name}: {ran.returncode} {told}"
    return None


def main():
    wanted = set(sys.argv[1:])
    all_tries = faults()
    names = [name for name, _, _ in all_tries]
    assert len(names) == len(set(names)), "two faults of a name"
    tries = [one for one in all_tries if not wanted or one[0] in wanted]
    right = [] if wanted else [("nothing", test, []) for test in dict.fromkeys(test for _, test, _ in all_tries)]
    with concurrent.futures.ThreadPoolExecutor(AT_ONCE) as pool:
        told = [one for one in pool.map(lambda one: tried(*one), right + tries) if one]
    for one in told:
        print(f"tests/write: {one}"[:1500], file=sys.stderr)
    print(f"tests/write: the vectors and tool.py report {len(tries) - len(told)} of {len(tries)} faults")
    return 1 if told or not tries else 0


if __name__ == "__main__":
    sys.exit(main())
