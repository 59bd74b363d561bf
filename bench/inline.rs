// The frames of every inline block of a GSYM file at the middle address of its symbol: the unchanged Rust against the
// static library, same process, same input. Modes as in line.rs; `check` takes every edge of every range and one below.
mod shared;

use oracle::gsym::facade;
use shared::blocks;
use shared::Block;

#[repr(C)]
struct BlockAnswer {
    count: usize,
    number: u8,
}

extern "C" {
    fn gsym_block(block: *const u8, len: usize, symbol: u64, addr: u64, store: *mut u32, room: usize) -> BlockAnswer;
}

// The refusal number that an error text of the Rust means.
fn number(text: &str) -> u8 {
    match text {
        t if t.contains("overflowed") => 11,
        t if t.contains("call file index") => 12,
        _ => 10,
    }
}

// The starts and ends of all ranges, and how deep the tree is; a block that doesn't read ends the walk.
fn edges(data: &mut &[u8], base: u64, level: u32, out: &mut Vec<u64>, deepest: &mut u32) -> Option<bool> {
    let number = |data: &mut &[u8]| {
        let (v, n) = facade::unsigned(data)?;
        *data = &data[n..];
        Some(v)
    };
    let count = number(data)?;
    if count == 0 {
        return Some(false);
    }
    *deepest = level.max(*deepest);
    let mut first = None;
    for _ in 0..count {
        let start = base.wrapping_add(number(data)?);
        let end = start.wrapping_add(number(data)?);
        first.get_or_insert(start);
        out.extend([start.wrapping_sub(1), start, end.wrapping_sub(1), end]);
    }
    let kids = *data.first()?;
    *data = data.get(5..)?;
    number(data)?;
    number(data)?;
    if kids != 0 {
        while edges(data, first?, level + 1, out, deepest)? {}
    }
    Some(true)
}

fn compare(b: &Block, addr: u64, deepest: u32) -> bool {
    let mut store = [0xeeee_eeeeu32; 192];
    let got = unsafe { gsym_block(b.bytes.as_ptr(), b.bytes.len(), b.symbol, addr, store.as_mut_ptr(), 64) };
    let want = match facade::block(b.bytes, b.symbol, addr) {
        // outside the domain: RULES decides
        _ if deepest > 64 => Err(13),
        Ok(frames) => Ok(frames),
        Err(text) => Err(number(&text)),
    };
    match want {
        Err(n) => got.number == n && got.count == 0,
        Ok(frames) => {
            let flat: Vec<u32> = frames.iter().flat_map(|f| [f.0, f.1, f.2]).collect();
            got.number == 0 && got.count == frames.len() && store[..flat.len()] == flat[..]
        }
    }
}

#[inline(never)]
fn rust_pass(all: &[Block]) -> u64 {
    all.iter().map(|b| facade::count_frames(b.bytes, b.symbol, b.symbol + b.size / 2)).sum()
}

#[inline(never)]
fn rattle_pass(all: &[Block]) -> u64 {
    let mut store = [0; 192];
    all.iter()
        .map(|b| {
            let addr = b.symbol + b.size / 2;
            unsafe { gsym_block(b.bytes.as_ptr(), b.bytes.len(), b.symbol, addr, store.as_mut_ptr(), 64) }.count as u64
        })
        .sum()
}

fn main() {
    let args: Vec<String> = std::env::args().collect();
    let file = std::fs::read(&args[1]).unwrap();
    let all = blocks(&file, 2);
    match args[2].as_str() {
        "check" => {
            let (mut cases, mut deep) = (0, 0);
            for b in &all {
                let (mut addrs, mut deepest) = (vec![b.symbol, b.symbol + b.size / 2, u64::MAX], 0);
                edges(&mut &b.bytes[..], b.symbol, 1, &mut addrs, &mut deepest);
                addrs.sort();
                addrs.dedup();
                for addr in addrs {
                    assert!(compare(b, addr, deepest), "symbol {:#x}, address {addr:#x}", b.symbol);
                    cases += 1;
                    deep += u64::from(deepest > 64);
                }
            }
            println!("{} blocks, {cases} answers compared, 0 differ ({deep} by RULES: a node on level 65)", all.len());
        }
        "time" => shared::measure(args[3].parse().unwrap(), || rust_pass(&all), || rattle_pass(&all)),
        "rust" => println!("{}", rust_pass(&all)),
        "rattle" => println!("{}", rattle_pass(&all)),
        other => panic!("no mode {other}"),
    }
}
