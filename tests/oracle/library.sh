#!/bin/sh
# Proves and builds what compare.sh, mutants.sh and harmed.sh link beside the Rust: `library.sh OUT` puts libgsym.a (the
# C face), libreader_c.a (parts of the reader) and libgsym.rlib (the binding for Rust hosts) into OUT.
set -eu
cd "$(dirname "$0")/../.."
out=${1:?the folder to build in}
make libgsym.a target/libreader_c.a >"$out/rt.log" 2>&1 || { tail -n 20 "$out/rt.log"; exit 1; }
cp libgsym.a target/libreader_c.a "$out/"
rustc --edition 2021 -O --crate-type rlib --crate-name gsym -o "$out/libgsym.rlib" bindings/rust/src/lib.rs
