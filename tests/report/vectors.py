#!/usr/bin/env python3
"""Writes the vectors that crates/report_cases replays, to standard output: `vectors.py > crates/report_cases/stdin`.

They are the inputs of made.py that are kept, each with the output of the model; README.md says what a line is.
"""
import made
import model


def main():
    part = None
    for one in made.vectors():
        if one.part != part:
            part = one.part
            print("#", part)
        print(one.data.hex() or ".", model.output_of(model.MOST, one.data).hex() or ".")


if __name__ == "__main__":
    main()
