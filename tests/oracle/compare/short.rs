// All short inputs: LEB128 strings up to three bytes, line programs up to three bytes after a few headers, inline blocks up to
// three bytes or as many as asked for. None of them can hold a number that is too wide or a node on level 65.
use crate::lookups::hex;
use crate::tally::Tally;
use oracle::gsym::facade;

#[repr(C)]
struct Number {
    value: u64,
    next: usize,
    tag: u32,
}

#[repr(C)]
struct Line {
    addr: u64,
    file: u32,
    line: u32,
    tag: u32,
}

extern "C" {
    fn gsym_unsigned(bytes: *const u8, len: usize, at: usize) -> Number;
    fn gsym_signed(bytes: *const u8, len: usize, at: usize) -> Number;
    fn gsym_line_row(block: *const u8, len: usize, symbol: u64, addr: u64) -> Line;
}

// Calls f with every string of so many bytes behind `front`.
fn each(front: &[u8], len: u32, mut f: impl FnMut(&[u8])) {
    let mut bytes = front.to_vec();
    bytes.resize(front.len() + len as usize, 0);
    for n in 0..1u64 << (8 * len) {
        bytes[front.len()..].copy_from_slice(&n.to_le_bytes()[..len as usize]);
        f(&bytes);
    }
}

fn numbers(t: &mut Tally, bytes: &[u8]) {
    let here = unsafe { gsym_unsigned(bytes.as_ptr(), bytes.len(), 0) };
    let rust = facade::unsigned(bytes);
    t.inside(0);
    if rust != (here.tag == 0).then_some((here.value, here.next)) {
        t.differs(|| format!("unsigned {}: Rust {rust:?}, here {} {}", hex(bytes), here.tag, here.value));
    }
    let here = unsafe { gsym_signed(bytes.as_ptr(), bytes.len(), 0) };
    let rust = facade::signed(bytes);
    t.inside(0);
    if rust != (here.tag == 0).then_some((here.value as i64, here.next)) {
        t.differs(|| format!("signed {}: Rust {rust:?}, here {} {}", hex(bytes), here.tag, here.value as i64));
    }
}

const SYMBOL: u64 = 0x1000;

fn line(t: &mut Tally, bytes: &[u8], addr: u64) {
    let here = unsafe { gsym_line_row(bytes.as_ptr(), bytes.len(), SYMBOL, addr) };
    let rust = facade::line_row(bytes, SYMBOL, addr);
    t.inside(if here.tag > 1 { 9 } else { 0 });
    let same = match &rust {
        Err(()) => here.tag == 2,
        Ok(None) => here.tag == 1,
        Ok(Some(r)) => (0, here.addr, here.file, here.line) == (here.tag, r.addr, r.file_idx, r.file_line),
    };
    if !same {
        t.differs(|| format!("line block {} at {addr:#x}: here {} {:#x} {}", hex(bytes), here.tag, here.addr, here.line));
    }
}

fn block(t: &mut Tally, bytes: &[u8], addr: u64) {
    let mut frames = [gsym::InlineFrame::default(); 64];
    let here = gsym::block_frames(bytes, SYMBOL, addr, &mut frames);
    let rust = facade::block(bytes, SYMBOL, addr);
    t.inside(here.as_ref().err().map_or(0, |r| u32::from(r.number())));
    let same = match (&rust, here) {
        (Ok(v), Ok(n)) => {
            v.len() == n && v.iter().zip(&frames).all(|(a, b)| *a == (b.name, b.call_file, b.call_line))
        }
        (Err(text), Err(r)) => r.number() == if text.contains("overflowed") { 11 } else if text.contains("call file") { 12 } else { 10 },
        _ => false,
    };
    if !same {
        t.differs(|| format!("inline block {} at {addr:#x}: Rust {rust:?}, here {here:?}", hex(bytes)));
    }
}

pub fn run(block_bytes: u64) -> Tally {
    let mut t = Tally::default();
    for len in 0..=3 {
        each(&[], len, |b| numbers(&mut t, b));
    }
    // ranges 15, 1, 0, -2 and one that is no byte, and a first line of two bytes
    let headers: [&[u8]; 5] = [&[0x7c, 10, 5], &[0, 0, 0x81, 1], &[0, 0x7f, 5], &[0, 0x7d, 5], &[0x81, 0x7c, 0x83, 2, 7]];
    for header in headers {
        for cut in 0..header.len() {
            line(&mut t, &header[..cut], SYMBOL);
        }
        for len in 0..=3 {
            each(header, len, |b| [SYMBOL - 1, SYMBOL, SYMBOL + 9].iter().for_each(|a| line(&mut t, b, *a)));
        }
    }
    for len in 0..=block_bytes as u32 {
        each(&[], len, |b| block(&mut t, b, SYMBOL));
    }
    t
}
