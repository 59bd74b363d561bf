// What the bench programs share: the symbols and the blocks of a GSYM file, by the layout alone, and the clock.
#![allow(dead_code)]
use std::hint::black_box;
use std::time::Instant;

pub struct Block<'a> {
    pub symbol: u64,
    pub size: u64,
    pub bytes: &'a [u8],
}

// The blocks of a kind (1: line table, 2: inline tree), with the address and the size of their symbol.
pub fn blocks(file: &[u8], kind: usize) -> Vec<Block<'_>> {
    let u32_at = |at: usize| u32::from_le_bytes(file[at..at + 4].try_into().unwrap()) as usize;
    let base = u64::from_le_bytes(file[8..16].try_into().unwrap());
    let width = file[6] as usize;
    let count = u32_at(16);
    let offsets = (48 + count * width + 3) / 4 * 4;
    let mut out = Vec::new();
    for i in 0..count {
        let mut entry = [0; 8];
        entry[..width].copy_from_slice(&file[48 + i * width..][..width]);
        let symbol = base + u64::from_le_bytes(entry);
        let mut at = u32_at(offsets + i * 4);
        let size = u32_at(at) as u64;
        at += 8;
        while u32_at(at) != 0 {
            let len = u32_at(at + 4);
            if u32_at(at) == kind {
                out.push(Block { symbol, size, bytes: &file[at + 8..][..len] });
            }
            at += 8 + len;
        }
    }
    out
}

fn median(mut times: Vec<f64>) -> f64 {
    times.sort_by(f64::total_cmp);
    times[times.len() / 2]
}

// The medians of both sides in seconds, a pass of the Rust and one of the static library in turn.
pub fn medians(passes: usize, rust: impl Fn() -> u64, rattle: impl Fn() -> u64) -> (f64, f64) {
    assert_eq!(rust(), rattle());
    let time = |pass: &dyn Fn() -> u64| {
        let start = Instant::now();
        black_box(pass());
        start.elapsed().as_secs_f64()
    };
    let (mut r, mut q) = (Vec::new(), Vec::new());
    for _ in 0..passes {
        r.push(time(&rust));
        q.push(time(&rattle));
    }
    (median(r), median(q))
}

// Prints them and their ratio.
pub fn measure(passes: usize, rust: impl Fn() -> u64, rattle: impl Fn() -> u64) {
    let (r, q) = medians(passes, rust, rattle);
    println!("time, median of {passes} passes: Rust {:.2} ms, this {:.2} ms, ratio {:.3}", r * 1e3, q * 1e3, q / r);
}

// Numbers that look like chance and are the same each time.
pub fn next(state: &mut u64) -> u64 {
    *state = state.wrapping_mul(6_364_136_223_846_793_005).wrapping_add(1_442_695_040_888_963_407);
    *state >> 33
}

// The address and the size of every symbol.
pub fn symbols(file: &[u8]) -> Vec<(u64, u64)> {
    let u32_at = |at: usize| u32::from_le_bytes(file[at..at + 4].try_into().unwrap()) as usize;
    let base = u64::from_le_bytes(file[8..16].try_into().unwrap());
    let width = file[6] as usize;
    let count = u32_at(16);
    let offsets = (48 + count * width + 3) / 4 * 4;
    let each = |i: usize| {
        let mut entry = [0; 8];
        entry[..width].copy_from_slice(&file[48 + i * width..][..width]);
        (base + u64::from_le_bytes(entry), u32_at(u32_at(offsets + i * 4)) as u64)
    };
    (0..count).map(each).collect()
}

// Bytes at a place divisible by 8.
pub struct Aligned {
    words: Vec<u64>,
    len: usize,
}

impl Aligned {
    pub fn bytes(&self) -> &[u8] {
        unsafe { std::slice::from_raw_parts(self.words.as_ptr().cast::<u8>(), self.len) }
    }
}

pub fn aligned(file: Vec<u8>) -> Aligned {
    let mut words = vec![0u64; file.len() / 8 + 1];
    let bytes = unsafe { std::slice::from_raw_parts_mut(words.as_mut_ptr().cast::<u8>(), file.len()) };
    bytes.copy_from_slice(&file);
    Aligned { words, len: file.len() }
}
