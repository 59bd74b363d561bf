// The check of a whole file beside a plain walk of it by the unchanged Rust, which has no check: of each entry the
// information and the name, each line table run to its end, each inline tree read at its symbol's address. `check FILE
// check` says what is found, and that the Rust walks what passes; `check FILE harmed COUNT` says it of so many copies
// with one to four other bytes, and how often each number came; `check FILE time PASSES` prints medians; `check FILE
// rust` and `check FILE rattle` make one pass, for counting instructions.
mod shared;

use gsym::Finding;
use oracle::gsym::facade;
use std::collections::BTreeMap;

#[inline(never)]
fn rust_pass(file: &[u8]) -> u64 {
    let count = file.get(16..20).map_or(0, |n| u32::from_le_bytes(n.try_into().unwrap()));
    u64::from(facade::walk(file, count as usize).is_some())
}

#[inline(never)]
fn rattle_pass(file: &[u8]) -> u64 {
    u64::from(gsym::check(file).is_ok())
}

// What is found in a file that the Rust walks where it passes.
fn found(file: &[u8]) -> Option<Finding> {
    let found = gsym::check(file).err();
    assert!(found.is_some() || rust_pass(file) == 1, "it passes, and the Rust's walk stops");
    found
}

fn harmed(file: &[u8], count: u64) {
    let mut numbers = BTreeMap::new();
    let mut state = 20_261_126u64;
    let mut next = |below: usize| {
        state = state.wrapping_mul(6_364_136_223_846_793_005).wrapping_add(1_442_695_040_888_963_407);
        (state >> 33) as usize % below
    };
    for _ in 0..count {
        let mut copy = file.to_vec();
        for _ in 0..1 + next(4) {
            let at = next(copy.len());
            copy[at] = next(256) as u8;
        }
        let copy = shared::aligned(copy);
        *numbers.entry(found(copy.bytes()).map_or(0, |f| f.number())).or_insert(0u64) += 1;
    }
    let told: Vec<String> = numbers.iter().map(|(number, times)| format!("{number}: {times}")).collect();
    println!("{count} harmed copies, {}; the Rust walks all that pass", told.join(", "));
}

fn main() {
    let args: Vec<String> = std::env::args().collect();
    let file = shared::aligned(std::fs::read(&args[1]).unwrap());
    let file = file.bytes();
    match args[2].as_str() {
        "check" => match found(file) {
            None => println!("{} bytes pass, and the Rust walks them", file.len()),
            Some(finding) => println!("{finding} ({})", finding.number()),
        },
        "harmed" => harmed(file, args[3].parse().unwrap()),
        "time" => shared::measure(args[3].parse().unwrap(), || rust_pass(file), || rattle_pass(file)),
        "rust" => println!("{}", rust_pass(file)),
        "rattle" => println!("{}", rattle_pass(file)),
        other => panic!("no mode {other}"),
    }
}
