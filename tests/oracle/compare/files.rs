// Random whole files: all offset sizes, several blocks an entry, nested trees, unknown types, odd strings; and damage.
use crate::random::Random;

// A file, and addresses worth asking for.
pub struct Made {
    pub file: Vec<u8>,
    pub addrs: Vec<u64>,
}

const STRINGS: &[u8] = b"\0main\0post_order\0caf\xc3\xa9\0/src/lib\0a.c\0\xff\xfe\0x\0\xe2\x82\xac\0\xed\xa0\x80\0open";

// Offsets of strings: those that start one, one inside, the one that is never ended, and some past the table.
const OFFSETS: [u32; 16] = [0, 1, 1, 1, 6, 6, 17, 17, 23, 32, 36, 39, 41, 45, 49, 0x7fff_ffff];

fn uleb(out: &mut Vec<u8>, mut v: u64) {
    while v >= 128 {
        out.push(v as u8 | 0x80);
        v >>= 7;
    }
    out.push(v as u8);
}

// The same with a byte of padding now and then.
fn number(r: &mut Random, out: &mut Vec<u8>, v: u64) {
    uleb(out, v);
    if r.one_in(24) {
        *out.last_mut().unwrap() |= 0x80;
        out.push(0);
    }
}

fn sleb(out: &mut Vec<u8>, mut v: i64) {
    while !(-64..64).contains(&v) {
        out.push(v as u8 & 0x7f | 0x80);
        v >>= 7;
    }
    out.push(v as u8 & 0x7f);
}

fn line_block(r: &mut Random, size: u64) -> Vec<u8> {
    let mut out = Vec::new();
    let wild = r.one_in(16);
    // one byte each or two, where the range stays below 256
    let most = r.pick(&[9, 9, 9, 120]);
    let plain = (-(r.below(most) as i64), r.below(most + 7) as i64);
    let (min, max) = if wild { (r.any() as i64, r.any() as i64) } else { plain };
    sleb(&mut out, min);
    sleb(&mut out, max);
    let first = if wild { r.any() } else { 1 + r.below(200) };
    number(r, &mut out, first);
    for _ in 0..r.pick(&[0, 1, 2, 3, 5, 8, 20]) {
        match r.below(10) {
            0 => {
                out.push(1);
                let file = if r.one_in(12) { r.any() } else { r.below(6) };
                number(r, &mut out, file);
            }
            1 | 2 => {
                out.push(2);
                let by = if r.one_in(20) { r.any() } else { r.below(size / 4 + 2) };
                number(r, &mut out, by);
            }
            3 => {
                out.push(3);
                // of one byte, two or three, either way
                let most = r.pick(&[30, 30, 2_000, 2_000, 200_000]);
                let by = if r.one_in(20) { r.any() as i64 } else { r.below(2 * most) as i64 - most as i64 };
                sleb(&mut out, by);
            }
            _ => out.push(4 + r.below(252) as u8),
        }
    }
    if !r.one_in(5) {
        out.push(0);
    }
    if r.one_in(30) {
        out.truncate(r.below(out.len() as u64 + 1) as usize);
    }
    out
}

// A node and all below it; `base` is where its offsets count from, `size` how far it should reach.
fn node(r: &mut Random, out: &mut Vec<u8>, addrs: &mut Vec<u64>, base: u64, size: u64, level: u32) {
    let ranges = if r.one_in(60) { 0 } else { r.pick(&[1, 1, 1, 2, 3]) };
    number(r, out, ranges);
    if ranges == 0 {
        return;
    }
    let mut first = None;
    for _ in 0..ranges {
        let offset = if r.one_in(80) { r.any() } else { r.below(size / 3 + 1) };
        let len = if r.one_in(80) { r.any() } else { r.below(size + 2) };
        number(r, out, offset);
        number(r, out, len);
        let start = base.wrapping_add(offset);
        first.get_or_insert(start);
        addrs.extend([start.wrapping_sub(1), start, start.wrapping_add(len).wrapping_sub(1), start.wrapping_add(len)]);
    }
    let kids = if level < 5 || r.one_in(200) { r.pick(&[0, 0, 1, 1, 2, 3]) } else { 0 };
    out.push(if kids == 0 { 0 } else { r.pick(&[1, 1, 1, 2, 255]) });
    out.extend(if r.one_in(8) { 0 } else { r.pick(&OFFSETS) }.to_le_bytes());
    let file = if r.one_in(50) { r.any() } else { r.below(5) };
    number(r, out, file);
    let line = if r.one_in(30) { r.any() } else { r.below(500) };
    number(r, out, line);
    if kids > 0 {
        for _ in 0..kids {
            node(r, out, addrs, first.unwrap_or(base), size / 2 + 1, level + 1);
        }
        if !r.one_in(60) {
            out.push(0);
        }
    }
}

// Nodes one in the other, so many levels, all of them open at the symbol's address.
fn chain(r: &mut Random, out: &mut Vec<u8>, levels: u64) {
    for level in 1..=levels {
        out.extend([1, 0, 8, u8::from(level < levels)]);
        out.extend(if r.one_in(3) { 0 } else { r.pick(&[1u32, 6]) }.to_le_bytes());
        out.extend([1, level as u8 & 0x7f]);
    }
    out.resize(out.len() + levels as usize - 1, 0);
}

fn item(out: &mut Vec<u8>, kind: u32, bytes: &[u8]) {
    out.extend(kind.to_le_bytes());
    out.extend((bytes.len() as u32).to_le_bytes());
    out.extend(bytes);
}

fn data(r: &mut Random, addrs: &mut Vec<u64>, symbol: u64, size: u32) -> Vec<u8> {
    let mut out = size.to_le_bytes().to_vec();
    out.extend(if r.one_in(12) { r.pick(&OFFSETS) } else { r.pick(&[1, 6, 17]) }.to_le_bytes());
    let reach = if size == 0 { 64 } else { u64::from(size).min(4096) };
    for _ in 0..r.pick(&[0, 1, 2, 2, 2, 3, 4]) {
        match r.below(12) {
            0 => item(&mut out, r.pick(&[3, 4, 9, u32::MAX]), &[1, 2, 3][..r.below(4) as usize]),
            1..=6 => item(&mut out, 1, &line_block(r, reach)),
            n => {
                let mut block = Vec::new();
                if n == 7 && r.one_in(12) {
                    let levels = r.pick(&[2, 30, 63, 64, 65, 66, 70]);
                    chain(r, &mut block, levels);
                } else {
                    node(r, &mut block, addrs, symbol, reach, 1);
                }
                if r.one_in(40) {
                    block.truncate(r.below(block.len() as u64 + 1) as usize);
                }
                item(&mut out, 2, &block);
            }
        }
    }
    match r.below(12) {
        0 => {}
        1 => out.extend([0, 0, 0, 0]),
        2 => out.extend([2, 0, 0, 0, 200, 0, 0, 0, 1]),
        _ => item(&mut out, 0, &[]),
    }
    out
}

fn put32(file: &mut [u8], at: usize, v: u32) {
    file[at..at + 4].copy_from_slice(&v.to_le_bytes());
}

pub fn make(r: &mut Random) -> Made {
    let width = if r.one_in(30) { r.below(10) as usize } else { r.pick(&[1, 2, 4, 8]) };
    let base = r.pick(&[0, 0x1000, 0x40_0000, 1 << 40, u64::MAX - 0x400, u64::MAX - 9]);
    // in one of five files more than 16, where the search takes two turns at once
    let count = if r.one_in(5) { 17 + r.below(54) } else { r.pick(&[0, 1, 1, 2, 3, 5, 9]) };
    let mut offset = if r.one_in(4) { r.below(20) } else { 0 };
    // in one of eight files a third of the entries are equal to the one before them, the second in few
    let runs = r.one_in(8);
    let mut entries = Vec::new();
    let mut addrs = vec![0, base.wrapping_sub(1), base, u64::MAX];
    for nth in 0..count {
        let size = if r.one_in(6) { 0 } else { 1 + r.below(90) as u32 };
        entries.push((offset, size));
        offset += match r.below(40) {
            0 => 0,
            _ if runs && r.one_in(if nth == 0 { 20 } else { 3 }) => 0,
            // so that many entries of one byte rise
            _ if width == 1 && count > 16 => 1 + r.below(3),
            1 => 1 << r.below(30),
            _ => u64::from(size) + r.below(6),
        };
    }
    let mut file = 0x4753_594du32.to_le_bytes().to_vec();
    file.extend([1, 0, width as u8, r.below(22) as u8]);
    file.extend(base.to_le_bytes());
    file.extend((entries.len() as u32).to_le_bytes());
    file.resize(48, 0x55);
    for (offset, _) in &entries {
        let mut bytes = offset.to_le_bytes().to_vec();
        bytes.resize(width, 0);
        file.extend(bytes);
    }
    file.resize(file.len().div_ceil(4) * 4, 0xee);
    let offsets = file.len();
    file.resize(offsets + 4 * entries.len(), 0);
    let files = r.below(5) as u32;
    file.extend(files.to_le_bytes());
    for _ in 0..2 * files {
        file.extend(r.pick(&OFFSETS).to_le_bytes());
    }
    let strings = file.len();
    file.extend(STRINGS);
    put32(&mut file, 20, strings as u32);
    put32(&mut file, 24, STRINGS.len() as u32);
    for (i, (offset, size)) in entries.iter().enumerate() {
        file.resize(file.len().div_ceil(4) * 4, 0);
        let place = file.len() as u32;
        put32(&mut file, offsets + 4 * i, place);
        let symbol = base.wrapping_add(*offset);
        let end = symbol.wrapping_add(u64::from(*size));
        addrs.extend([symbol.wrapping_sub(1), symbol, symbol.wrapping_add(1), end.wrapping_sub(1), end]);
        let bytes = data(r, &mut addrs, symbol, *size);
        file.extend(bytes);
    }
    damage(r, &mut file);
    Made { file, addrs }
}

// Every second file stays as it is; the others are cut, or bytes of them are flipped, swapped or set.
fn damage(r: &mut Random, file: &mut Vec<u8>) {
    let len = file.len() as u64;
    match r.below(8) {
        0 => file.truncate(r.below(len + 1) as usize),
        1 => {
            let at = r.below(len) as usize;
            file[at] ^= 1 << r.below(8);
        }
        2 => {
            for _ in 0..1 + r.below(4) {
                let at = r.below(len) as usize;
                file[at] = r.pick(&[0, 1, 2, 0x7f, 0x80, 0xff]);
            }
        }
        3 => {
            let (a, b) = (r.below(len) as usize, r.below(len) as usize);
            file.swap(a, b);
            if len > 8 && r.one_in(2) {
                let at = r.below(len - 8) as usize;
                file[at..at + r.pick(&[2, 4, 8])].fill(0xff);
            }
        }
        _ => {}
    }
}
