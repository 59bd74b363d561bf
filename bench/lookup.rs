// Whole lookups on both sides: `lookup FILE check`, `lookup FILE time PASSES`, `lookup FILE rust|rattle KIND` (one
// pass, for callgrind), `lookup scale4|scale8 PASSES` or `lookup runs PASSES`. FILE may be `tables`, `rows` or
// `letters`, files that are made here. The Rust opens its file once, as its users do; this reader has nothing to open.
mod made;
mod shared;

use gsym::{Frame, Options};
use oracle::gsym::facade;
use shared::{measure, next};

// What is asked for, and in which order.
const KINDS: [(&str, Options, bool); 6] = [
    ("name", Options::NAME, false),
    ("name, shuffled", Options::NAME, true),
    ("code info", Options::CODE_INFO, false),
    ("code info, shuffled", Options::CODE_INFO, true),
    ("inlining", Options::ALL, false),
    ("inlining, shuffled", Options::ALL, true),
];

// 100,000 rising addresses, spread over all symbols and inside each; the same in another order.
fn addresses(file: &[u8], shuffled: bool) -> Vec<u64> {
    let symbols = shared::symbols(file);
    let mut state = 20_261_115;
    let mut out: Vec<u64> = (0..100_000usize)
        .map(|i| {
            let (symbol, size) = symbols[i * symbols.len() / 100_000];
            symbol + next(&mut state) % size.max(1)
        })
        .collect();
    out.sort();
    if shuffled {
        for i in (1..out.len()).rev() {
            out.swap(i, next(&mut state) as usize % (i + 1));
        }
    }
    out
}

#[inline(never)]
fn rust_pass(opened: &facade::Opened<'_>, addrs: &[u64], options: Options) -> u64 {
    let mut sum = 0u64;
    for addr in addrs {
        if let Some(s) = opened.find(*addr, options.code_info, options.inlining) {
            let line = s.code_info.as_ref().map_or(0, |c| u64::from(c.line.unwrap_or(0)));
            let inner: u64 = s.inlined.iter().map(|f| f.name.len() as u64).sum();
            sum = sum.wrapping_mul(31).wrapping_add(s.addr ^ line << 20 ^ (s.name.len() as u64) << 40 ^ inner);
        }
    }
    sum
}

#[inline(never)]
fn rattle_pass(file: &[u8], addrs: &[u64], options: Options) -> u64 {
    let mut sum = 0u64;
    let mut frames = [Frame::default(); 64];
    for addr in addrs {
        if let Ok(a) = gsym::lookup(file, *addr, options, &mut frames) {
            let line = a.position.map_or(0, |p| u64::from(p.line));
            let inner: u64 = frames[..a.count].iter().map(|f| f.name.len).sum();
            sum = sum.wrapping_mul(31).wrapping_add(a.addr ^ line << 20 ^ a.name.len << 40 ^ inner);
        }
    }
    sum
}

// Nanoseconds a lookup by name, by the number of entries of so many bytes.
fn scale(width: u8, passes: usize) {
    for bits in 2..=20 {
        let file = shared::aligned(made::plain(width, 1 << bits, 1));
        let mut state = 7;
        let addrs: Vec<u64> = (0..100_000).map(|_| 0x1000 + next(&mut state) % (16 << bits)).collect();
        let opened = facade::open(file.bytes()).unwrap();
        let (r, q) = shared::medians(
            passes,
            || rust_pass(&opened, &addrs, Options::NAME),
            || rattle_pass(file.bytes(), &addrs, Options::NAME),
        );
        println!("{} {:.1} {:.1}", 1 << bits, r * 1e4, q * 1e4);
    }
}

// Nanoseconds a lookup by name among 100,000 entries, by how many of them stand at one address.
fn runs(passes: usize) {
    for (run, asked) in [(1, 100_000), (100, 100_000), (100_000, 500)] {
        let file = shared::aligned(made::plain(4, 100_000, run));
        let mut state = 7;
        let span = u64::from(16 * (100_000 / run));
        let addrs: Vec<u64> = (0..asked).map(|_| 0x1000 + next(&mut state) % span).collect();
        let opened = facade::open(file.bytes()).unwrap();
        let (r, q) = shared::medians(
            passes,
            || rust_pass(&opened, &addrs, Options::NAME),
            || rattle_pass(file.bytes(), &addrs, Options::NAME),
        );
        let each = 1e9 / f64::from(asked);
        println!("{run} {:.1} {:.1} {:.3}", r * each, q * each, q / r);
    }
}

// Something to measure: what is asked for, of which addresses.
struct Kind {
    name: &'static str,
    options: Options,
    addrs: Vec<u64>,
}

// A file and what is measured of it. A line table without a row takes some 70 ns, so that of two million of them one lookup
// is a pass.
fn kinds(word: &str) -> (shared::Aligned, Vec<Kind>) {
    match word {
        "tables" => {
            let kind = Kind { name: "tables without a row", options: Options::CODE_INFO, addrs: vec![0x1008] };
            (shared::aligned(made::tables(2_000_000)), vec![kind])
        }
        "rows" => {
            let kind = Kind { name: "line tables of one row", options: Options::CODE_INFO, addrs: vec![0x1008] };
            (shared::aligned(made::rows(2_000_000)), vec![kind])
        }
        "letters" => {
            let file = shared::aligned(made::letters(1024, 64));
            let addrs = addresses(file.bytes(), false);
            (file, vec![Kind { name: "names of two-byte letters", options: Options::NAME, addrs }])
        }
        path => {
            let file = shared::aligned(std::fs::read(path).expect("the file"));
            let kind = |(name, options, shuffled)| Kind { name, options, addrs: addresses(file.bytes(), shuffled) };
            let kinds = KINDS.into_iter().map(kind).collect();
            (file, kinds)
        }
    }
}

fn main() {
    let args: Vec<String> = std::env::args().skip(1).collect();
    let passes = || args.last().unwrap().parse().expect("passes");
    match args[0].as_str() {
        "scale4" => return scale(4, passes()),
        "scale8" => return scale(8, passes()),
        "runs" => return runs(passes()),
        _ => {}
    }
    let (file, kinds) = kinds(&args[0]);
    let opened = facade::open(file.bytes()).expect("a file that opens");
    for Kind { name, options, addrs } in kinds {
        match args[1].as_str() {
            "check" => {
                assert_eq!(rust_pass(&opened, &addrs, options), rattle_pass(file.bytes(), &addrs, options), "{name}");
            }
            "time" => {
                print!("{name}: ");
                measure(
                    passes(),
                    || rust_pass(&opened, &addrs, options),
                    || rattle_pass(file.bytes(), &addrs, options),
                );
            }
            side if args[2] == name => {
                // every tenth address is enough for a count that repeats exactly
                let addrs: Vec<u64> = addrs.iter().step_by(10).copied().collect();
                let sum = match side {
                    "rust" => rust_pass(&opened, &addrs, options),
                    _ => rattle_pass(file.bytes(), &addrs, options),
                };
                println!("{sum}");
            }
            _ => {}
        }
    }
}
