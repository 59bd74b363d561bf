// Compares the unchanged Rust with the static library, in one process: `compare short [BYTES]`, `compare files SEED LOOKUPS`
// or `compare real FILE..`. compare.sh builds and runs it. Exit status 1 where an answer differs.
#[allow(dead_code)]
mod domain;
mod files;
mod lookups;
mod random;
mod short;
mod tally;

use random::Random;
use std::time::Instant;
use tally::Tally;

// Random whole files, twenty lookups each.
fn run_files(seed: u64, wanted: u64) -> Tally {
    let mut tally = Tally::default();
    let mut r = Random::new(seed);
    while tally.inside.iter().sum::<u64>() < wanted {
        let made = files::make(&mut r);
        lookups::compare_file(&mut tally, &mut r, &made, 20);
    }
    tally
}

// Real files, at every edge of every symbol and inside it.
fn run_real(paths: &[String]) -> Tally {
    let mut tally = Tally::default();
    for path in paths {
        let read = std::fs::read(path).unwrap_or_else(|e| panic!("{path}: {e}"));
        let aligned = lookups::Aligned::of(&read);
        let file = aligned.bytes();
        let tables = domain::Tables::of(file);
        for addr in tables.as_ref().map_or(vec![], |t| t.worth_asking()) {
            for options in [gsym::Options::ALL, gsym::Options::CODE_INFO, gsym::Options::NAME] {
                lookups::compare(&mut tally, file, tables.as_ref(), addr, options, 64);
            }
        }
    }
    tally
}

fn main() {
    let args: Vec<String> = std::env::args().skip(1).collect();
    let number = |i: usize, or: u64| args.get(i).map_or(or, |a| a.parse().expect("a number"));
    let start = Instant::now();
    let (name, tally) = match args.first().map(String::as_str) {
        Some("short") => ("short inputs", short::run(number(1, 3))),
        Some("files") => ("random files", run_files(number(1, 1), number(2, 1_000_000))),
        Some("real") => ("real files", run_real(&args[1..])),
        _ => panic!("compare short [BYTES] | files SEED LOOKUPS | real FILE.."),
    };
    tally.print(name, start.elapsed().as_secs_f64());
    std::process::exit(i32::from(tally.differ > 0 || tally.inside.iter().sum::<u64>() == 0));
}
