#!/usr/bin/env python3
"""Writes the vectors that crates/check_cases replays, to standard output: `vectors.py > crates/check_cases/stdin`.

Of the files of made.py the shortest of each kind, and the shortest of each pair of numbers; README.md says what a line
is. The expected answers are those of made.py.
"""
import random
import re

import made


def shortest(files, kind):
    first = {}
    for data, want, what in files:
        key = kind(want, what)
        if key not in first or len(data) < len(first[key][0]):
            first[key] = data, want, what
    return first.values()


def of_pair(want, what):
    """Two numbers, and whether they are of one entry; or of the tables, without how many bytes there are."""
    pair = re.fullmatch(r"(\d+) at (\d+) and (\d+) at (\d+)", what)
    return (pair[1], pair[3], pair[2] == pair[4]) if pair else (want, what.split("]")[0])


def of_place(want, what):
    """Where the number stands, whichever entry's it is."""
    pair = of_pair(want, what)
    return pair if len(pair) == 3 else what


def main():
    r = random.Random(5)
    parts = (
        ("files that pass", made.good, lambda want, what: what),
        ("single faults", made.singles, lambda want, what: what),
        ("pairs of faults, of which the first is told", made.pairs, of_pair),
        ("numbers too wide, short and padded, in each place", made.wide, of_place),
    )
    for name, files, kind in parts:
        print("#", name)
        for data, (number, entry), _ in shortest(files(r), kind):
            print(f"{number:x} {entry:x} {data.hex() or '.'}")


if __name__ == "__main__":
    main()
