#!/bin/sh
# Builds the unchanged Rust as a library, for the programs here to compare with: `build.sh OUT`. The sources are
# those of blazesym 0.2.6 at $BLAZESYM_SRC (a folder with src/gsym/ and src/util.rs), checked by SHA-256 and used as
# they are; without them it says so and answers 3. Release build, no overflow checks, as the domain has it (RULES,
# "Domain of the comparison").
set -eu
here=$(cd "$(dirname "$0")" && pwd)
out=${1:?the folder to build in}
src=${BLAZESYM_SRC:-$here/../../../shared/docs/src}
[ -f "$src/src/gsym/resolver.rs" ] || { echo "oracle: no sources of blazesym 0.2.6 at $src (set BLAZESYM_SRC)"; exit 3; }
src=$(cd "$src" && pwd)
# a copy with a deliberate fault is no published file (mutants.sh)
[ -n "${ORACLE_MUTANT:-}" ] || (cd "$src" && sha256sum -c --quiet "$here/SHA256SUMS") || { echo "oracle: $src is not blazesym 0.2.6 as published"; exit 1; }
mkdir -p "$out"
flags="--edition 2021 -C opt-level=3 -C overflow-checks=off -C debug-assertions=off ${ORACLE_FLAGS:-}"
cat >"$out/libc.rs" <<'RS'
// The few names of the crate libc that util.rs mentions; none is called.
#![allow(non_camel_case_types)]
pub type c_char = i8;
#[repr(C)]
pub struct stat {
    _opaque: [u64; 18],
}
#[repr(C)]
pub struct utsname {
    pub sysname: [c_char; 65],
    pub nodename: [c_char; 65],
    pub release: [c_char; 65],
    pub version: [c_char; 65],
    pub machine: [c_char; 65],
    pub domainname: [c_char; 65],
}
extern "C" {
    pub fn stat(path: *const c_char, to: *mut stat) -> i32;
    pub fn fstat(fd: i32, to: *mut stat) -> i32;
    pub fn uname(to: *mut utsname) -> i32;
}
RS
cat >"$out/oracle.rs" <<RS
#![allow(dead_code, unused, unexpected_cfgs, unfulfilled_lint_expectations)]
#[path = "$here/standins.rs"]
mod standins;
pub use standins::*;
#[path = "$src/src/util.rs"]
mod util;
pub mod gsym {
    #[path = "$src/src/gsym/types.rs"]
    mod types;
    #[path = "$src/src/gsym/parser.rs"]
    mod parser;
    #[path = "$src/src/gsym/linetab.rs"]
    pub mod linetab;
    #[path = "$src/src/gsym/inline.rs"]
    mod inline;
    #[cfg(not(one_caller))]
    #[path = "$src/src/gsym/resolver.rs"]
    mod resolver;
    #[path = "$here/facade.rs"]
    pub mod facade;
}
RS
rustc $flags --crate-type rlib -o "$out/liblibc.rlib" "$out/libc.rs"
rustc $flags --crate-type rlib --crate-name oracle --extern "libc=$out/liblibc.rlib" -o "$out/liboracle.rlib" "$out/oracle.rs"
