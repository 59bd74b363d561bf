#!/usr/bin/env python3
"""The model (model.py) as a program, in place of `gsym dump`, `gsym make` and `gsym addr2line --json`. harms.sh tries
copies of it, and of the model, that have a fault.
"""
import errno
import importlib.util
import os
import signal
import stat
import sys

import model


class Trouble(Exception):
    """What can't be read or written, or wrong usage."""


def tell(message):
    message = bytes(b if b >= 32 and b != 127 else 63 for b in message.encode("utf-8", "surrogateescape"))
    os.write(2, b"gsym: " + message + b"\n")


def has_read(name):
    """The bytes of a file, of standard input without a name."""
    try:
        with open(0 if name is None else name, "rb") as file:
            return file.read()
    except OSError as error:
        raise Trouble(f"{name or 'standard input'}: {error.strerror}")


def print_all(out):
    signal.signal(signal.SIGPIPE, signal.SIG_IGN)
    try:
        while out:
            out = out[os.write(1, out) :]
    except OSError as error:
        raise Trouble(f"standard output: {error.strerror}")


def dump(words):
    if len(words) != 1:
        raise Trouble("usage: gsym dump FILE")
    status, text = model.dumped(has_read(words[0]))
    if status == 2:
        raise Trouble(f"{words[0]}: it doesn't open")
    print_all(text)
    return status


def write_file(new, data):
    """NEW is written whole or not at all: a new file in the same folder takes its name."""
    folder, name = os.path.split(new)
    mode = stat.S_IMODE(os.stat(new).st_mode) if os.path.exists(new) else None
    if os.path.isdir(new):
        raise OSError(errno.EISDIR, "Is a directory")
    beside = os.path.join(folder, f".gsym.{os.getpid()}")
    try:
        with open(beside, "xb") as file:
            file.write(data)
            if mode is not None:
                os.fchmod(file.fileno(), mode)
        os.replace(beside, new)
    except OSError:
        if os.path.exists(beside):
            os.remove(beside)
        raise


def make(words):
    if len(words) not in (2, 3) or words[0] != "-o":
        raise Trouble("usage: gsym make -o NEW [FILE]")
    status, told = model.made(has_read(words[2] if len(words) == 3 else None))
    if status:
        tell(f"line {told}")
        return status
    try:
        write_file(words[1], told)
    except OSError as error:
        raise Trouble(f"{words[1]}: {error.strerror}")
    return 0


def addr2line(words):
    """`-e FILE --json`, with the addresses on standard input: a lookup by tests/report/model.py."""
    spec = importlib.util.spec_from_file_location("lookups", f"{os.path.dirname(__file__)}/../report/model.py")
    lookups = importlib.util.module_from_spec(spec)
    spec.loader.exec_module(lookups)
    file = has_read(words[1])
    out = b"".join(lookups.json_object(file, None, int(word, 16), True) for word in has_read(None).split())
    print_all(out)
    return int(b'"refusal"' in out)


def main():
    if "STAND_IN_INPUT" in os.environ:  # where standard input is out of reach of Python's start, which ends at a folder
        os.dup2(int(os.environ["STAND_IN_INPUT"]), 0)
    commands = {"dump": dump, "make": make, "addr2line": addr2line}
    command, *words = sys.argv[1:] or [""]
    try:
        if command not in commands:
            raise Trouble("usage: gsym dump|make|addr2line")
        return commands[command](words)
    except Trouble as trouble:
        tell(str(trouble))
        return 2


if __name__ == "__main__":
    sys.exit(main())
