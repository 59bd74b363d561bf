// The row of every line block of a GSYM file at the middle address of its symbol: the unchanged Rust against the
// static library, same process, same input. `line FILE check` compares the answers, also at both ends of each symbol;
// `line FILE time PASSES` prints medians; `line FILE rust` and `line FILE rattle` make one pass, for counting instructions.
mod shared;

use oracle::gsym::facade;
use shared::blocks;
use shared::Block;

#[repr(C)]
#[derive(Clone, Copy, PartialEq, Debug)]
struct LineAnswer {
    addr: u64,
    file: u32,
    line: u32,
    tag: u32,
}

extern "C" {
    fn gsym_line_row(block: *const u8, len: usize, symbol: u64, addr: u64) -> LineAnswer;
}

fn rust(b: &Block, addr: u64) -> LineAnswer {
    match facade::line_row(b.bytes, b.symbol, addr) {
        Ok(Some(r)) => LineAnswer { addr: r.addr, file: r.file_idx, line: r.file_line, tag: 0 },
        Ok(None) => LineAnswer { addr: 0, file: 0, line: 0, tag: 1 },
        Err(()) => LineAnswer { addr: 0, file: 0, line: 0, tag: 2 },
    }
}

fn rattle(b: &Block, addr: u64) -> LineAnswer {
    unsafe { gsym_line_row(b.bytes.as_ptr(), b.bytes.len(), b.symbol, addr) }
}

#[inline(never)]
fn rust_pass(all: &[Block]) -> u64 {
    all.iter().map(|b| rust(b, b.symbol + b.size / 2).line as u64).sum()
}

#[inline(never)]
fn rattle_pass(all: &[Block]) -> u64 {
    all.iter().map(|b| rattle(b, b.symbol + b.size / 2).line as u64).sum()
}

fn main() {
    let args: Vec<String> = std::env::args().collect();
    let file = std::fs::read(&args[1]).unwrap();
    let all = blocks(&file, 1);
    match args[2].as_str() {
        "check" => {
            let mut cases = 0;
            for b in &all {
                for addr in [b.symbol.wrapping_sub(1), b.symbol, b.symbol + b.size / 2, b.symbol + b.size, u64::MAX] {
                    assert_eq!(rust(b, addr), rattle(b, addr), "symbol {:#x}, address {addr:#x}", b.symbol);
                    cases += 1;
                }
            }
            println!("{} blocks, {cases} rows compared, 0 differ", all.len());
        }
        "time" => shared::measure(args[3].parse().unwrap(), || rust_pass(&all), || rattle_pass(&all)),
        "rust" => println!("{}", rust_pass(&all)),
        "rattle" => println!("{}", rattle_pass(&all)),
        other => panic!("no mode {other}"),
    }
}
