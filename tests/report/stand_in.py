#!/usr/bin/env python3
"""The model (model.py) as a program, in place of `report_main`; with a fault of FAULTS where the environment's
STAND_IN_FAULT names it, so that harms.sh shows that judge.py sees each. `stand_in.py --faults` lists them.
"""
import os
import signal
import sys

import model

FAULT = os.environ.get("STAND_IN_FAULT", "")
TOP = model.TOP

# Faults, by the part of judge.py and made.py that shows them.
FAULTS = {
    "page": """crash-address-one-lower return-address-as-it-stands return-0-by-the-file frames-first-to-last
        symbol-first symbol-missing first-frame-twice inlining-left-out innermost-alone 127-kept newline-kept
        control-bytes-dropped no-blank-behind-number number-from-1 refusal-with-words refusal-without-number
        last-line-dropped last-newline-missing stops-at-first-refusal found-alone length-big-endian
        address-big-endian question-mark-without-newline question-mark-status-1 refused-status-1 reads-nothing
        message-on-success 128-to-159-replaced c1-characters-replaced""",
    "edges": "return-0-wraps return-0-as-0 address-of-32-bits",
    "counts": "257-taken 255-alone number-in-hexadecimal",
    "sizes": "short-file-taken 49153-taken 49151-alone length-of-16-bits length-of-31-bits longest-input-cut",
    "rests": "partial-address-ignored partial-address-padded",
    "names": "31-kept tab-kept empty-name-dropped",
    "lengths_of_names": "name-cut-at-64 name-cut-at-4096",
    "frames": "room-63 first-frames-alone",
    "lengths": "empty-input-silent",
    "slow_input": "reads-once writes-before-the-end",
    "endless_input": "reads-without-end",
    "bad_input": "read-error-is-empty",
    "slow_output": "writes-once",
    "closed_output": "killed-by-broken-pipe",
    "full_output": "ignores-write-errors write-errors-status-0 write-errors-silent",
}
ALL = {name for names in FAULTS.values() for name in names.split()}


def is_fault(name):
    assert name in ALL, name
    return FAULT == name


def has_read(descriptor, most=None):
    """All bytes, or more than `most`."""
    out = b""
    while most is None or len(out) <= most:
        piece = os.read(descriptor, 2**16)
        if not piece:
            break
        out += piece
        if is_fault("reads-once"):
            break
    return out


def write_all(data):
    while data:
        written = os.write(1, data[: 2**16])
        data = data[written:]
        if is_fault("writes-once"):
            break


def shown(name):
    kept = {"127-kept": b"\x7f", "31-kept": b"\x1f", "newline-kept": b"\n", "tab-kept": b"\t"}.get(FAULT, b"")
    if is_fault("c1-characters-replaced"):
        name = "".join("?" if 0x80 <= ord(c) <= 0x9F else c for c in name.decode()).encode()
    if is_fault("128-to-159-replaced"):
        name = bytes(63 if 128 <= byte <= 159 else byte for byte in name)
    if is_fault("control-bytes-dropped"):
        name = bytes(byte for byte in name if byte >= 32 and byte != 127)
    if is_fault("name-cut-at-64") or is_fault("name-cut-at-4096"):
        name = name[: int(FAULT.rsplit("-", 1)[1])]
    return name.translate(bytes(byte if byte in kept else model.SHOWN[byte] for byte in range(256)))


def answered(file, address, is_crash):
    if is_fault("crash-address-one-lower") and is_crash:
        is_crash = False
    if is_fault("return-address-as-it-stands") and not is_crash and address:
        is_crash = True
    if not is_crash and address == 0:
        if is_fault("return-0-wraps"):
            address, is_crash = TOP - 1, True
        if is_fault("return-0-as-0") or is_fault("return-0-by-the-file"):
            is_crash = True
        if is_fault("return-0-by-the-file"):
            number, told = model.answered(file, address, is_crash)
            return (number, told) if number else (1, [])
    if is_fault("room-63"):
        model.ROOM = 63
    return model.answered(file, address, is_crash)


def told_of(file, index, address):
    number, told = answered(file, address, index == 0)
    if number:
        words = b" " + model.words_of_refusals()[number].encode() if is_fault("refusal-with-words") else b""
        return [b"?" if is_fault("refusal-without-number") else b"?%d%s" % (number, words)]
    names = [name for name, _ in told[2]]
    if is_fault("frames-first-to-last"):
        names = names[:-1][::-1] + names[-1:]
    if is_fault("symbol-first"):
        names = names[-1:] + names[:-1]
    if is_fault("symbol-missing") and len(names) > 1:
        names.pop()
    if is_fault("first-frame-twice") and len(names) > 1:
        names.append(names[-1])
    if is_fault("inlining-left-out"):
        names = names[-1:]
    if is_fault("innermost-alone"):
        names = names[:1]
    if is_fault("first-frames-alone"):
        names = names[:16]
    return [shown(name) for name in names if name or not is_fault("empty-name-dropped")]


def report(file, addresses):
    seen, out = {}, []
    for index, address in enumerate(addresses):
        key = address, index == 0
        if key not in seen:
            seen[key] = told_of(file, index, address)
        if is_fault("found-alone") and seen[key][0][:1] == b"?":
            continue
        number = index + is_fault("number-from-1")
        form = {"number-in-hexadecimal": b"%x %s\n", "no-blank-behind-number": b"%d%s\n"}.get(FAULT, b"%d %s\n")
        out += [form % (number, line) for line in seen[key]]
        if is_fault("stops-at-first-refusal") and seen[key][0][:1] == b"?":
            break
    if is_fault("last-line-dropped") and len(out) > 1:
        out.pop()
    text = b"".join(out)
    return text[:-1] if is_fault("last-newline-missing") else text


def asked_by(most, data):
    if is_fault("short-file-taken") and 4 <= len(data) < 4 + int.from_bytes(data[:4], "little"):
        return data[4:], []
    if is_fault("length-of-16-bits"):
        data = data[:2] + b"\0\0" + data[4:]
    if is_fault("length-of-31-bits") and len(data) > 3:
        data = data[:3] + bytes([data[3] & 127]) + data[4:]
    if is_fault("length-big-endian"):
        data = data[:4][::-1] + data[4:]
    if is_fault("partial-address-ignored") or is_fault("partial-address-padded"):
        rest = len(data) - 4 - int.from_bytes(data[:4], "little")
        if rest > 0 and rest % 8:
            data = data[: len(data) - rest % 8] if is_fault("partial-address-ignored") else data + bytes(8 - rest % 8)
    asked = model.asked_by(most, data)
    if asked and is_fault("address-big-endian"):
        asked = asked[0], [int.from_bytes(a.to_bytes(8, "little"), "big") for a in asked[1]]
    if asked and is_fault("address-of-32-bits"):
        asked = asked[0], [a % 2**32 for a in asked[1]]
    return asked


def main():
    """`report_main`."""
    most = {"49153-taken": 49153, "49151-alone": 49151}.get(FAULT, model.MOST)
    model.ADDRESSES = {"257-taken": 257, "255-alone": 255}.get(FAULT, 256)
    signal.signal(signal.SIGPIPE, signal.SIG_DFL if is_fault("killed-by-broken-pipe") else signal.SIG_IGN)
    if is_fault("writes-before-the-end"):
        os.write(1, b"0 ")
    try:
        data = has_read(0, None if is_fault("reads-without-end") else 4 + model.MOST + 8 * 256)
        if is_fault("longest-input-cut"):
            data = data[: 4 + model.MOST + 8 * 256]
    except OSError as error:
        if not is_fault("read-error-is-empty"):
            tell(f"report_main: standard input: {error.strerror}")
            return 2
        data = b""
    if is_fault("reads-nothing"):
        data = b""
    asked = asked_by(most, data)
    out = b"?\n" if asked is None else report(*asked)
    if asked is None and is_fault("question-mark-without-newline"):
        out = b"?"
    if not data and is_fault("empty-input-silent"):
        out = b""
    if is_fault("message-on-success"):
        tell("report_main: done")
    try:
        write_all(out[2:] if is_fault("writes-before-the-end") else out)
    except BrokenPipeError:
        return 2
    except OSError as error:
        if is_fault("ignores-write-errors"):
            return 0
        if not is_fault("write-errors-silent"):
            tell(f"report_main: standard output: {error.strerror}")
        return 0 if is_fault("write-errors-status-0") else 2
    if asked is None and is_fault("question-mark-status-1"):
        return 1
    return 1 if is_fault("refused-status-1") and b"?" in out else 0


def tell(line):
    try:
        os.write(2, line.encode("utf-8", "surrogateescape") + b"\n")
    except OSError:
        pass


def take_input():
    """Standard input where harms.sh has put it, out of reach of Python's start, which ends at a folder."""
    place = int(os.environ.get("STAND_IN_INPUT", "0"))
    if place:
        os.dup2(place, 0)
        os.close(place)


if __name__ == "__main__":
    if sys.argv[1:] == ["--faults"]:
        print(*(f"{name} {part}" for part, names in FAULTS.items() for name in names.split()), sep="\n")
    else:
        take_input()
        sys.exit(main())
