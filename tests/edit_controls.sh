#!/bin/sh
# `edit_controls.sh CRATE..`: whether the must-fail edits of these crates are refused for what they change and not for how
# it is written. Each edit has its control, the right program in the form of the edit: a comment line `# same: TEXT` for
# each `new:`, which is put where that text would stand. Here each control is applied in a copy of the crates, and
# `rt check` must prove it; one that is the text as it stands, where an edit changes a number alone, is proved with the
# crate. Where no such program can be written, a line `# no twin: WHY` says why. Controls of different
# functions are tried together, and one by one where that fails. The copy takes along what `rt check` kept in out/. Not in
# test.sh: it is for whoever writes an edit. Needs the toolchain and Python.
set -u
cd "$(dirname "$0")/.." || exit 2
[ $# -gt 0 ] || { echo "edit_controls.sh: name the crates"; exit 2; }
copy=$(mktemp -d) || exit 2
trap 'rm -rf "$copy"' EXIT
cp -a crates crates.txt "$copy" || exit 2
[ ! -f HANDLES ] || cp HANDLES "$copy"
cat >"$copy/controls.py" <<'PY'
import pathlib
import re
import subprocess
import sys

ROOT = pathlib.Path(sys.argv[1])


def read(edit):
    """The replacements of an edit's control, as file, old text and right text; or why there are none."""
    file, old, pairs, same, why = "", "", [], [], ""
    for line in edit.read_text().split("\n"):
        if line.startswith("file: "):
            file = line[6:].strip()
        elif line.startswith("old: "):
            old = line[5:]
        elif line.startswith("new:"):
            pairs.append((file, old))
        elif line.startswith("# same:"):
            same.append(line[7:].removeprefix(" "))
        elif line.startswith("# no twin:") and line[10:].strip():
            why = line[10:].strip()
    if why and not same:
        return None, why
    if len(same) != len(pairs):
        return None, ""
    return [(f, o, s) for (f, o), s in zip(pairs, same)], ""


def place(crate, parts):
    """The functions that a control changes, and whether each old text stands once."""
    found = set()
    for file, old, _ in parts:
        text = (crate / file).read_text()
        if text.count(old) != 1:
            return None
        before = re.findall(r"^ *(?:pub(?:\([a-z]+\))? )?(?:extern \"C\" )?fn (\w+)", text[: text.index(old) + len(old)], re.M)
        found.add((file, before[-1] if before else ""))
    return found


def proved(crate, texts):
    """Whether the crate is proved with these texts in place of its own, and what was said."""
    kept = {file: (crate / file).read_text() for file in texts}
    try:
        for file, text in texts.items():
            (crate / file).write_text(text)
        ran = subprocess.run(["rt", "check"], cwd=crate, stdout=subprocess.PIPE, stderr=subprocess.STDOUT, encoding="utf-8", errors="replace")
        return ran.returncode == 0, ran.stdout
    finally:
        for file, text in kept.items():
            (crate / file).write_text(text)


def applied(crate, controls):
    texts = {}
    for parts in controls:
        for file, old, new in parts:
            texts[file] = texts.get(file, (crate / file).read_text()).replace(old, new)
    return texts


def judge(name):
    crate, bad, alone, plain, groups = ROOT / "crates" / name, [], [], [], []
    if not crate.is_dir():
        print(f"controls: {name} is no crate")
        return 1
    edits = sorted((crate / "must-fail").glob("*.edit"))
    for edit in edits:
        parts, why = read(edit)
        if why:
            alone.append(edit.stem)
        elif parts is None:
            bad.append(f"{edit.stem}: it has neither a `# same:` for each `new:` nor a `# no twin:`")
        elif (where := place(crate, parts)) is None:
            bad.append(f"{edit.stem}: an `old:` text doesn't stand in its file just once")
        elif all(old == new for _, old, new in parts):
            plain.append(edit.stem)
        else:
            for group in groups:
                if not group["where"] & where:
                    break
            else:
                group = {"where": set(), "edits": []}
                groups.append(group)
            group["where"] |= where
            group["edits"].append((edit.stem, parts))
    well, said = proved(crate, {})
    if not well:
        print(f"controls: {name} itself is not proved:\n{said[-600:]}")
        return 1
    done = 0
    for group in groups:
        well, said = proved(crate, applied(crate, [parts for _, parts in group["edits"]]))
        done += len(group["edits"]) * well
        if well:
            continue
        for stem, parts in group["edits"]:
            if len(group["edits"]) > 1:
                well, said = proved(crate, applied(crate, [parts]))
            done += well
            if not well:
                errors = [line for line in said.split("\n") if ": error" in line] or said.split("\n")[-3:]
                bad.append(f"{stem}: its control is not proved: {errors[0][:200]}")
    for line in bad:
        print(f"controls: {name}/{line}")
    words = f"controls: {name}: {len(edits)} edits, {done + len(plain)} controls proved"
    words += f" ({len(plain)} are the text as it stands)" * bool(plain)
    words += f", {len(alone)} without a twin" * bool(alone) + f", {len(bad)} bad" * bool(bad)
    print(words, flush=True)
    return 1 if bad else 0


sys.exit(max(judge(name) for name in sys.argv[2:]))
PY
PYTHONDONTWRITEBYTECODE=1 python3 "$copy/controls.py" "$copy" "$@"
