#!/bin/sh
# Writes all vectors to standard output: those that make.py makes, and the stored answers of the unchanged Rust.
set -eu
cd "$(dirname "$0")"
python3 make.py
cat line.txt inline.txt parser.txt
