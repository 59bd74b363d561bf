// Small files for the vectors of whole lookups: one string table and one file table for all, symbols with items.

// where the strings stand in the string table
pub const MAIN: u32 = 1;
pub const OUTER: u32 = 6;
pub const INNER: u32 = 12;
pub const LEAF: u32 = 18;
pub const SRC: u32 = 23;
pub const A_C: u32 = 28;
pub const LIB: u32 = 32;
pub const B_C: u32 = 37;
pub const CAFE: u32 = 41;
pub const NO_UTF8: u32 = 47;
pub const OPEN: u32 = 50;
pub const PAST: u32 = 54;
const STRINGS: &[u8] = b"\0main\0outer\0inner\0leaf\0/src\0a.c\0/lib\0b.c\0caf\xc3\xa9\0\xff\xfe\0open";

// rows of the file table: good ones, then those of which a string doesn't read, then one that is not UTF-8
pub const FILE_A: u64 = 1;
pub const FILE_B: u64 = 2;
pub const BAD_DIRS: [u64; 2] = [3, 4];
pub const BAD_NAMES: [u64; 2] = [5, 6];
pub const ODD_FILE: u64 = 7;
pub const FILES: u64 = 8;
const ROWS: [(u32, u32); 8] =
    [(0, 0), (SRC, A_C), (LIB, B_C), (PAST, A_C), (OPEN, A_C), (SRC, 999), (SRC, OPEN), (NO_UTF8, NO_UTF8)];

pub struct Shape {
    pub width: u8,
    pub base: u64,
    // offset, and what stands at the data offset
    pub entries: Vec<(u64, Vec<u8>)>,
    pub files: Vec<(u32, u32)>,
    pub strings: Vec<u8>,
}

// One symbol at 0x1000.
pub fn one(data: Vec<u8>) -> Shape {
    many(2, 0x1000, vec![(0, data)])
}

pub fn many(width: u8, base: u64, entries: Vec<(u64, Vec<u8>)>) -> Shape {
    Shape { width, base, entries, files: ROWS.to_vec(), strings: STRINGS.to_vec() }
}

// The symbol `main` of 64 bytes at 0x1000, with these items.
pub fn with(items: &[Vec<u8>]) -> Vec<u8> {
    write(&one(data(0x40, MAIN, items)))
}

pub fn data(size: u32, name: u32, items: &[Vec<u8>]) -> Vec<u8> {
    let mut out = size.to_le_bytes().to_vec();
    out.extend(name.to_le_bytes());
    items.iter().for_each(|i| out.extend(i));
    out
}

pub fn item(kind: u32, bytes: &[u8]) -> Vec<u8> {
    let mut out = kind.to_le_bytes().to_vec();
    out.extend((bytes.len() as u32).to_le_bytes());
    out.extend(bytes);
    out
}

pub fn end() -> Vec<u8> {
    item(0, &[])
}

// Where the string table stands in what `write` writes.
pub fn strings_place(s: &Shape) -> u64 {
    let n = s.entries.len() as u64;
    let table = 48 + n * u64::from(s.width);
    table.div_ceil(4) * 4 + 4 * n + 4 + 8 * s.files.len() as u64
}

pub fn write(s: &Shape) -> Vec<u8> {
    let mut out = 0x4753_594du32.to_le_bytes().to_vec();
    out.extend(1u16.to_le_bytes());
    out.extend([s.width, 20]);
    out.extend(s.base.to_le_bytes());
    out.extend((s.entries.len() as u32).to_le_bytes());
    out.extend((strings_place(s) as u32).to_le_bytes());
    out.extend((s.strings.len() as u32).to_le_bytes());
    out.extend([0x55; 20]);
    for (offset, _) in &s.entries {
        let mut bytes = offset.to_le_bytes().to_vec();
        bytes.resize(s.width.into(), 0);
        out.extend(bytes);
    }
    out.resize(out.len().div_ceil(4) * 4, 0xee);
    let offsets = out.len();
    out.resize(offsets + 4 * s.entries.len(), 0);
    out.extend((s.files.len() as u32).to_le_bytes());
    for (directory, name) in &s.files {
        out.extend(directory.to_le_bytes());
        out.extend(name.to_le_bytes());
    }
    out.extend(&s.strings);
    for (i, (_, d)) in s.entries.iter().enumerate() {
        out.resize(out.len().div_ceil(4) * 4, 0);
        let place = out.len() as u32;
        out[offsets + 4 * i..][..4].copy_from_slice(&place.to_le_bytes());
        out.extend(d);
    }
    out
}

pub fn uleb(out: &mut Vec<u8>, mut v: u64) {
    while v >= 128 {
        out.push(v as u8 | 0x80);
        v >>= 7;
    }
    out.push(v as u8);
}

pub fn sleb(out: &mut Vec<u8>, mut v: i64) {
    while !(-64..64).contains(&v) {
        out.push(v as u8 & 0x7f | 0x80);
        v >>= 7;
    }
    out.push(v as u8 & 0x7f);
}

// A line table of these rows: offset from the symbol, file, line.
pub fn lines(rows: &[(u64, u64, i64)]) -> Vec<u8> {
    let mut out = vec![0, 0, 1];
    let mut at = (0, 1, 1);
    for &(offset, file, line) in rows {
        if file != at.1 {
            out.push(1);
            uleb(&mut out, file);
        }
        if line != at.2 {
            out.push(3);
            sleb(&mut out, line - at.2);
        }
        out.push(2);
        uleb(&mut out, offset - at.0);
        at = (offset, file, line);
    }
    out.push(0);
    out
}

// The item of such a table.
pub fn rows(rows: &[(u64, u64, i64)]) -> Vec<u8> {
    item(1, &lines(rows))
}

#[derive(Clone)]
pub struct Node {
    pub ranges: Vec<(u64, u64)>,
    pub name: u32,
    pub file: u64,
    pub line: u64,
    pub kids: Vec<Node>,
}

pub fn node(ranges: &[(u64, u64)], name: u32, call: (u64, u64), kids: Vec<Node>) -> Node {
    Node { ranges: ranges.to_vec(), name, file: call.0, line: call.1, kids }
}

fn put(out: &mut Vec<u8>, n: &Node) {
    uleb(out, n.ranges.len() as u64);
    for (offset, size) in &n.ranges {
        uleb(out, *offset);
        uleb(out, *size);
    }
    out.push(u8::from(!n.kids.is_empty()));
    out.extend(n.name.to_le_bytes());
    uleb(out, n.file);
    uleb(out, n.line);
    if !n.kids.is_empty() {
        n.kids.iter().for_each(|k| put(out, k));
        out.push(0);
    }
}

pub fn tree(n: &Node) -> Vec<u8> {
    let mut out = vec![];
    put(&mut out, n);
    out
}

// The item of a tree.
pub fn inline(n: &Node) -> Vec<u8> {
    item(2, &tree(n))
}

// Nodes one below the other, all of the symbol's range; level 1 is the root. A node's call line is its level.
pub fn chain(levels: u64, name: impl Fn(u64) -> u32) -> Node {
    let each = |level: u64, kids| node(&[(0, 0x40)], name(level), (FILE_A + level % 2, level), kids);
    (1..levels).rev().fold(each(levels, vec![]), |below, level| each(level, vec![below]))
}

// Names in turn.
pub fn names(level: u64) -> u32 {
    [MAIN, OUTER, INNER, LEAF][(level - 1) as usize % 4]
}
