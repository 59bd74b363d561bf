// LEB128 numbers in each place where they are read, in blocks made for it: the unchanged Rust against the static
// library. A figure is that of a pass over a block, by the number: what stands around a number is in it, as the opcode
// and its row, the node, the call. So figures of one place are compared, and not those of two.
//     numbers check               both sides come to the same sum of rows, or count of frames
//     numbers list                PLACE | BYTES | how many numbers a pass has
//     numbers time PASSES         PLACE | BYTES | nanoseconds a number: the Rust | this, medians
//     numbers rust PLACE BYTES    one pass, for counting instructions; so too `rattle`
//     numbers lengths FILE        KIND | how many of a file's numbers have one byte | two | three | more
mod shared;

use oracle::gsym::facade;

#[repr(C)]
#[derive(PartialEq, Debug)]
struct LineAnswer {
    addr: u64,
    file: u32,
    line: u32,
    tag: u32,
}

#[repr(C)]
struct BlockAnswer {
    count: usize,
    number: u8,
}

extern "C" {
    fn gsym_line_row(block: *const u8, len: usize, symbol: u64, addr: u64) -> LineAnswer;
    fn gsym_block(block: *const u8, len: usize, symbol: u64, addr: u64, store: *mut u32, room: usize) -> BlockAnswer;
}

// Where numbers stand.
#[derive(Clone, Copy, PartialEq)]
enum Place {
    LineHeader,
    // of line tables that are read row by row
    File,
    LineAndAddress,
    ByOpcode,
    // of inline trees: a node with many ranges, or many nodes with one
    RangesJudged,
    RangesPassedOver,
    CallsJudged,
    CallsPassedOver,
}
use Place::*;

const PLACES: [(Place, &str); 8] = [
    (LineHeader, "line header"),
    (File, "file"),
    (LineAndAddress, "line and address"),
    (ByOpcode, "line and address, opcode by opcode"),
    (RangesJudged, "ranges, judged"),
    (RangesPassedOver, "ranges, passed over"),
    (CallsJudged, "call file and line, judged"),
    (CallsPassedOver, "call file and line, passed over"),
];

// How many bytes a number has, none of them padding; `1-2`: one or two, in an order that isn't foreseen.
const LENGTHS: [&str; 5] = ["1", "2", "1-2", "3", "5"];

// How many files, rows, ranges or nodes a block has, and how often a pass reads it.
const UNITS: usize = 10_000;
const TIMES: usize = 10;

const SYMBOL: u64 = 0x1000;

// One bit of a turn, another for each seed, in an order that isn't foreseen.
fn bit(turn: usize, seed: u64) -> bool {
    let mut x = (turn as u64 + 1).wrapping_add(seed << 32).wrapping_mul(0x9e37_79b9_7f4a_7c15);
    x = (x ^ x >> 30).wrapping_mul(0xbf58_476d_1ce4_e5b9);
    x = (x ^ x >> 27).wrapping_mul(0x94d0_49bb_1331_11eb);
    (x ^ x >> 31) & 1 == 1
}

// How many bytes the number of a turn has.
fn bytes_of(length: &str, turn: usize, seed: u64) -> usize {
    length.parse().unwrap_or(1 + usize::from(bit(turn, seed)))
}

// The least number of a length and a little that varies, without padding.
fn unsigned(out: &mut Vec<u8>, length: &str, turn: usize, seed: u64) {
    let bytes = bytes_of(length, turn, seed);
    let least = if bytes == 1 { 0 } else { 1u64 << (7 * (bytes - 1)) };
    let mut value = least + turn as u64 % 50;
    for _ in 1..bytes {
        out.push(value as u8 | 0x80);
        value >>= 7;
    }
    out.push(value as u8);
}

// The same with a sign, which varies too.
fn signed(out: &mut Vec<u8>, length: &str, turn: usize, seed: u64) {
    let bytes = bytes_of(length, turn, seed);
    let least = if bytes == 1 { 0 } else { 1i64 << (7 * (bytes - 1) - 1) };
    let above = least + turn as i64 % 50;
    let mut value = if bit(turn, seed + 100) { above } else { -1 - above };
    for _ in 1..bytes {
        out.push(value as u8 & 0x7f | 0x80);
        value >>= 7;
    }
    out.push(value as u8 & 0x7f);
}

// The block of a place, and how many numbers of the length it has.
fn block(place: Place, length: &str) -> (Vec<u8>, usize) {
    match place {
        LineHeader => {
            let mut out = vec![];
            (0..2).for_each(|k| signed(&mut out, length, k, 0));
            unsigned(&mut out, length, 2, 0);
            out.push(0);
            (out, 3)
        }
        File | LineAndAddress | ByOpcode => rows(place, length),
        RangesJudged | RangesPassedOver | CallsJudged | CallsPassedOver => tree(place, length),
    }
}

fn rows(place: Place, length: &str) -> (Vec<u8>, usize) {
    // a range of 10, which is read row by row; or of 301, opcode by opcode
    let mut out = if place == ByOpcode { vec![0, 0xac, 0x02, 1] } else { vec![0x7c, 5, 1] };
    for k in 0..UNITS {
        if place == File {
            out.push(1);
            unsigned(&mut out, length, k, 0);
            out.push(4 + k as u8 % 10);
        } else {
            out.push(3);
            signed(&mut out, length, k, 0);
            out.push(2);
            unsigned(&mut out, length, k, 1);
        }
    }
    (out, if place == File { UNITS } else { 2 * UNITS })
}

// A root that contains the address, if what is below it is to be judged.
fn tree(place: Place, length: &str) -> (Vec<u8>, usize) {
    let judged = place == RangesJudged || place == CallsJudged;
    let mut out = vec![1, 0, if judged { 127 } else { 1 }, 1, 1, 0, 0, 0, 0, 0];
    if place == RangesJudged || place == RangesPassedOver {
        assert_eq!(UNITS, 0x10 + (0x4e << 7));
        out.extend([0x90, 0x4e]);
        for k in 0..UNITS {
            unsigned(&mut out, length, k, 0);
            unsigned(&mut out, length, k, 1);
        }
        out.extend([0, 1, 0, 0, 0, 0, 0]);
    } else {
        for k in 0..UNITS {
            out.extend([1, 0, 1, 0, 1, 0, 0, 0]);
            unsigned(&mut out, length, k, 0);
            unsigned(&mut out, length, k, 1);
        }
    }
    out.push(0);
    (out, 2 * UNITS)
}

// Whether it stands in a line table.
fn is_line(place: Place) -> bool {
    matches!(place, LineHeader | File | LineAndAddress | ByOpcode)
}

// The address that is asked for: past all rows of a line table; of a tree in its root, if that is to be open.
fn asked(place: Place) -> u64 {
    if is_line(place) { u64::MAX } else { SYMBOL + 100 }
}

// How often a pass reads a block; a line header is short.
fn times(place: Place) -> usize {
    if place == LineHeader { TIMES * UNITS } else { TIMES }
}

fn sum(addr: u64, file: u32, line: u32) -> u64 {
    addr ^ u64::from(file) << 32 ^ u64::from(line)
}

#[inline(never)]
fn rust_pass(place: Place, block: &[u8]) -> u64 {
    let addr = asked(place);
    (0..times(place))
        .map(|_| {
            let block = std::hint::black_box(block);
            if is_line(place) {
                let row = facade::line_row(block, SYMBOL, addr).expect("the header");
                row.map_or(0, |row| sum(row.addr, row.file_idx, row.file_line))
            } else {
                facade::count_frames(block, SYMBOL, addr)
            }
        })
        .fold(0, u64::wrapping_add)
}

#[inline(never)]
fn rattle_pass(place: Place, block: &[u8]) -> u64 {
    let addr = asked(place);
    let mut store = [0; 192];
    (0..times(place))
        .map(|_| {
            let block = std::hint::black_box(block);
            if is_line(place) {
                let row = unsafe { gsym_line_row(block.as_ptr(), block.len(), SYMBOL, addr) };
                sum(row.addr, row.file, row.line)
            } else {
                let got = unsafe { gsym_block(block.as_ptr(), block.len(), SYMBOL, addr, store.as_mut_ptr(), 64) };
                assert_eq!(got.number, 0);
                got.count as u64
            }
        })
        .fold(0, u64::wrapping_add)
}

// ---- how long the numbers of a file are

const KINDS: [&str; 8] = [
    "line header", "file", "address", "line", "range count, or the end of a list", "offset of a range",
    "size of a range", "call file or line",
];

// How many numbers of each kind have one byte, two, three, and more.
struct Counts([[u64; 4]; 8]);

impl Counts {
    fn unsigned(&mut self, kind: usize, data: &mut &[u8]) -> Option<u64> {
        let (value, n) = facade::unsigned(data)?;
        self.0[kind][n.min(4) - 1] += 1;
        *data = &data[n..];
        Some(value)
    }

    fn signed(&mut self, kind: usize, data: &mut &[u8]) -> Option<i64> {
        let (value, n) = facade::signed(data)?;
        self.0[kind][n.min(4) - 1] += 1;
        *data = &data[n..];
        Some(value)
    }

    // A line table, up to opcode 0 or the end of its bytes. None where a number doesn't read.
    fn line(&mut self, mut data: &[u8]) -> Option<()> {
        let data = &mut data;
        self.signed(0, data)?;
        self.signed(0, data)?;
        self.unsigned(0, data)?;
        while let Some((op, rest)) = data.split_first() {
            *data = rest;
            match op {
                0 => break,
                1 => drop(self.unsigned(1, data)?),
                2 => drop(self.unsigned(2, data)?),
                3 => drop(self.signed(3, data)?),
                _ => {}
            }
        }
        Some(())
    }

    // A node with all below it: whether there is one. None where it doesn't read.
    fn node(&mut self, data: &mut &[u8]) -> Option<bool> {
        let count = self.unsigned(4, data)?;
        if count == 0 {
            return Some(false);
        }
        for _ in 0..count {
            self.unsigned(5, data)?;
            self.unsigned(6, data)?;
        }
        let children = *data.first()?;
        *data = data.get(5..)?;
        self.unsigned(7, data)?;
        self.unsigned(7, data)?;
        while children != 0 && self.node(data)? {}
        Some(true)
    }
}

fn lengths(file: &[u8]) {
    let mut counts = Counts([[0; 4]; 8]);
    let lines = shared::blocks(file, 1);
    let trees = shared::blocks(file, 2);
    let read = lines.iter().filter_map(|b| counts.line(b.bytes)).count();
    assert_eq!(read, lines.len(), "a line table doesn't read");
    let read = trees.iter().filter_map(|b| counts.node(&mut &b.bytes[..])).count();
    assert_eq!(read, trees.len(), "an inline tree doesn't read");
    for (kind, n) in KINDS.iter().zip(counts.0) {
        println!("{kind} | {} | {} | {} | {}", n[0], n[1], n[2], n[3]);
    }
}

fn main() {
    let args: Vec<String> = std::env::args().collect();
    if args[1] == "lengths" {
        return lengths(&std::fs::read(&args[2]).expect("the file"));
    }
    let mut passes = 0;
    for (place, name) in PLACES {
        // of three numbers no order is worth foreseeing
        for length in LENGTHS.into_iter().filter(|length| place != LineHeader || *length != "1-2") {
            let (block, numbers) = block(place, length);
            let all = numbers * times(place);
            let wanted = || args[2] == name && args[3] == length;
            match args[1].as_str() {
                "check" => assert_eq!(rust_pass(place, &block), rattle_pass(place, &block), "{name}, {length} bytes"),
                "list" => println!("{name} | {length} | {all}"),
                "time" => {
                    let passes = args[2].parse().expect("how many passes");
                    let (r, q) = shared::medians(passes, || rust_pass(place, &block), || rattle_pass(place, &block));
                    println!("{name} | {length} | {:.2} | {:.2}", r * 1e9 / all as f64, q * 1e9 / all as f64);
                }
                "rust" if wanted() => println!("{}", rust_pass(place, &block)),
                "rattle" if wanted() => println!("{}", rattle_pass(place, &block)),
                "rust" | "rattle" => continue,
                other => panic!("no mode {other}"),
            }
            passes += 1;
        }
    }
    assert_ne!(passes, 0, "no such place and length");
    if args[1] == "check" {
        println!("{passes} blocks compared, 0 differ");
    }
}
