// Reports of a crash on both sides: `report FILE check`, `report FILE time PASSES`, `report FILE rust|rattle` (one
// pass, for callgrind). One report takes well under a millisecond, so a pass is 400 of them, with about as many
// addresses as a pass of lookup.rs. Their lists differ: of one list again and again all that it needs would lie in the
// cache. The Rust opens its file once, as its users do, and writes into bytes that it keeps from report to report; this
// reader has nothing to open, and writes into lent bytes.
mod shared;

use oracle::gsym::facade;
use shared::next;
use std::hint::black_box;
use std::io::Write as _;

extern "C" {
    fn gsym_report(
        file: *const u8,
        len: usize,
        addresses: *const u64,
        count: usize,
        room: *mut u8,
        room_len: usize,
    ) -> usize;
}

const LISTS: usize = 400;
const ADDRESSES: usize = 256;

// More bytes than a report has here.
const ROOM: usize = 1 << 18;

// The lists of a pass, each a crash address and 255 return addresses: spread over all symbols and inside each, and in no
// order, as on a stack. A return address is one past what is looked up.
fn lists(file: &[u8]) -> Vec<Vec<u64>> {
    let symbols = shared::symbols(file);
    let mut state = 20_261_127;
    let mut list = |k: usize| {
        let mut inside = |i: usize| {
            let (symbol, size) = symbols[(i * LISTS + k) * symbols.len() / (ADDRESSES * LISTS)];
            symbol + next(&mut state) % size.max(1)
        };
        let mut list: Vec<u64> = (0..ADDRESSES).map(&mut inside).collect();
        for i in (1..list.len()).rev() {
            list.swap(i, next(&mut state) as usize % (i + 1));
        }
        for back in &mut list[1..] {
            *back += 1;
        }
        list
    };
    (0..LISTS).map(&mut list).collect()
}

// Lists of both edges of every symbol, some of which no symbol covers, each behind two addresses that are 0.
fn edges(file: &[u8]) -> Vec<Vec<u64>> {
    let both = |(symbol, size): (u64, u64)| [symbol, symbol + size];
    let edges: Vec<u64> = shared::symbols(file).into_iter().flat_map(both).collect();
    edges.chunks(ADDRESSES - 2).map(|some| [&[0, 0], some].concat()).collect()
}

fn line(out: &mut Vec<u8>, index: usize, name: &str) {
    write!(out, "{index} ").unwrap();
    out.extend(name.bytes().map(|b| if b.is_ascii_control() { b'?' } else { b }));
    out.push(b'\n');
}

// The same lines by the Rust. Of a file that it opens and that is whole an address is refused with 1 alone: `check`
// holds both sides to that.
fn rust_report(opened: &facade::Opened<'_>, addrs: &[u64], out: &mut Vec<u8>) {
    out.clear();
    for (index, addr) in addrs.iter().enumerate() {
        let asked = if index == 0 { Some(*addr) } else { addr.checked_sub(1) };
        match asked.and_then(|addr| opened.find(addr, true, true)) {
            Some(symbol) => {
                for frame in symbol.inlined.iter().rev() {
                    line(out, index, &frame.name);
                }
                line(out, index, symbol.name);
            }
            None => line(out, index, "?1"),
        }
    }
}

fn rattle_report<'a>(file: &[u8], addrs: &[u64], room: &'a mut [u8]) -> &'a [u8] {
    let len =
        unsafe { gsym_report(file.as_ptr(), file.len(), addrs.as_ptr(), addrs.len(), room.as_mut_ptr(), room.len()) };
    &room[..len]
}

fn add(sum: u64, report: &[u8]) -> u64 {
    black_box(report);
    sum.wrapping_mul(31).wrapping_add(report.len() as u64)
}

#[inline(never)]
fn rust_pass(opened: &facade::Opened<'_>, lists: &[Vec<u64>]) -> u64 {
    let mut sum = 0;
    let mut out = Vec::new();
    for addrs in lists {
        rust_report(opened, addrs, &mut out);
        sum = add(sum, &out);
    }
    sum
}

#[inline(never)]
fn rattle_pass(file: &[u8], lists: &[Vec<u64>]) -> u64 {
    let mut sum = 0;
    let mut room = vec![0; ROOM];
    for addrs in lists {
        sum = add(sum, rattle_report(file, addrs, &mut room));
    }
    sum
}

// That both give the same bytes, report by report.
fn check(file: &[u8], opened: &facade::Opened<'_>, what: &str, lists: &[Vec<u64>]) {
    let (mut lines, mut refused, mut bytes) = (0, 0, 0);
    let mut room = vec![0; ROOM];
    let mut out = Vec::new();
    for (k, addrs) in lists.iter().enumerate() {
        rust_report(opened, addrs, &mut out);
        let report = rattle_report(file, addrs, &mut room);
        assert!(report == out, "{what}, report {k}: the Rust and this reader differ");
        lines += out.iter().filter(|b| **b == b'\n').count();
        refused += out.split(|b| *b == b'\n').filter(|line| line.ends_with(b" ?1")).count();
        bytes += out.len();
    }
    println!("{what}: {} reports, {lines} lines, {refused} of them refused, {bytes} bytes, the same", lists.len());
}

fn main() {
    let args: Vec<String> = std::env::args().collect();
    let file = shared::aligned(std::fs::read(&args[1]).unwrap());
    let file = file.bytes();
    let opened = facade::open(file).expect("a file that opens");
    let lists = lists(file);
    // every tenth list is enough for a count that repeats exactly
    let some = || -> Vec<Vec<u64>> { lists.iter().step_by(10).cloned().collect() };
    match args[2].as_str() {
        "check" => {
            check(file, &opened, "inside symbols", &lists);
            check(file, &opened, "at their edges", &edges(file));
        }
        "time" => {
            shared::measure(args[3].parse().unwrap(), || rust_pass(&opened, &lists), || rattle_pass(file, &lists))
        }
        "rust" => println!("{}", rust_pass(&opened, &some())),
        "rattle" => println!("{}", rattle_pass(file, &some())),
        other => panic!("no mode {other}"),
    }
}
