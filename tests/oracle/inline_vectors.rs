// Writes the vectors of inline blocks, with the answers of the unchanged Rust: vectors.sh runs it. What lies outside
// the domain of the comparison (a node on level 65, more frames than room, a number that is too wide) is answered by
// RULES and stands under a remark that says so.
use oracle::gsym::facade;
use std::fmt::Write as _;

struct Out(String);

// The refusal number that an error text of the Rust means.
fn number(text: &str) -> u64 {
    match text {
        t if t.contains("overflowed") => 11,
        t if t.contains("call file index") => 12,
        t if t.contains("from inline information") => 10,
        t => panic!("no number for: {t}"),
    }
}

impl Out {
    fn remark(&mut self, text: &str) {
        writeln!(self.0, "# {text}").unwrap();
    }

    fn case(&mut self, kind: char, data: &[u8], p: u64, q: u64, r: u64, tag: char, n: [u64; 3]) {
        let hex: String = data.iter().map(|b| format!("{b:02x}")).collect();
        let hex = if hex.is_empty() { "." } else { &hex };
        writeln!(self.0, "{kind} {hex} {p:x} {q:x} {r:x} {tag} {:x} {:x} {:x} 0", n[0], n[1], n[2]).unwrap();
    }

    // The count or the refusal, and each frame, with room for 64.
    fn block(&mut self, data: &[u8], symbol: u64, addr: u64) {
        match facade::block(data, symbol, addr) {
            Err(text) => self.case('B', data, symbol, addr, 64, 'r', [number(&text), 0, 0]),
            Ok(frames) => {
                assert!(frames.len() <= 64);
                self.case('B', data, symbol, addr, 64, 'v', [frames.len() as u64, 0, 0]);
                for (i, f) in frames.iter().enumerate() {
                    self.case('F', data, symbol, addr, i as u64, 'v', [f.0.into(), f.1.into(), f.2.into()]);
                }
            }
        }
    }

    // Only the count or the refusal.
    fn outcome(&mut self, data: &[u8], symbol: u64, addr: u64) {
        match facade::block(data, symbol, addr) {
            Err(text) => self.case('B', data, symbol, addr, 64, 'r', [number(&text), 0, 0]),
            Ok(frames) => self.case('B', data, symbol, addr, 64, 'v', [frames.len() as u64, 0, 0]),
        }
    }

    // By RULES, with this room.
    fn ruled(&mut self, data: &[u8], symbol: u64, addr: u64, room: u64, tag: char, a: u64) {
        self.case('B', data, symbol, addr, room, tag, [a, 0, 0]);
    }
}

#[derive(Clone)]
struct Node {
    ranges: Vec<(u64, u64)>,
    name: u32,
    file: u64,
    line: u64,
    kids: Vec<Node>,
}

fn uleb(out: &mut Vec<u8>, mut v: u64) {
    while v >= 128 {
        out.push(v as u8 | 0x80);
        v >>= 7;
    }
    out.push(v as u8);
}

fn node(ranges: &[(u64, u64)], name: u32, kids: Vec<Node>) -> Node {
    Node { ranges: ranges.to_vec(), name, file: name.into(), line: u64::from(name) * 10, kids }
}

fn put(out: &mut Vec<u8>, n: &Node) {
    uleb(out, n.ranges.len() as u64);
    for (offset, size) in &n.ranges {
        uleb(out, *offset);
        uleb(out, *size);
    }
    out.push(u8::from(!n.kids.is_empty()));
    out.extend(n.name.to_le_bytes());
    uleb(out, n.file);
    uleb(out, n.line);
    if !n.kids.is_empty() {
        for k in &n.kids {
            put(out, k);
        }
        out.push(0);
    }
}

fn bytes(n: &Node) -> Vec<u8> {
    let mut out = Vec::new();
    put(&mut out, n);
    out
}

// A chain of nodes, one below the other, all of the same range.
fn chain(levels: u32, name: impl Fn(u32) -> u32) -> Node {
    let mut n = node(&[(0, 0x20)], name(levels), vec![]);
    for level in (1..levels).rev() {
        n = node(&[(0, 0x20)], name(level), vec![n]);
    }
    n
}

fn main() {
    let mut o = Out(String::new());
    let top = u64::MAX;
    o.remark("Inline blocks, answered by the unchanged Rust; made by tests/oracle/vectors.sh.");
    o.remark("RULES, T9 to T12");
    let t9 = [1, 0, 0x20, 1, 1, 0, 0, 0, 0, 0, 1, 4, 8, 0, 5, 0, 0, 0, 1, 10, 0];
    let mut t11 = t9;
    t11[4] = 0;
    o.block(&t9, 0x1000, 0x1005);
    o.block(&t9, 0x1000, 0x100c);
    o.block(&t11, 0x1000, 0x1005);
    o.block(&[0], 0x1000, 0x1005);
    o.remark("T9 at each address, behind other bytes, and cut at every byte");
    for addr in 0xfff..=0x1021 {
        o.block(&t9, 0x1000, addr);
    }
    let mut behind = t9.to_vec();
    behind.extend([0xff, 0xff, 0x80]);
    o.block(&behind, 0x1000, 0x1005);
    for cut in 0..t9.len() {
        o.block(&t9[..cut], 0x1000, 0x1005);
        o.block(&t9[..cut], 0x1000, 0x2000);
    }
    o.remark("overlapping siblings, several ranges, empty ranges, unnamed nodes; child offsets from the first range");
    let tree = node(
        &[(0x10, 0x40), (0x100, 0x10), (0x200, 0)],
        1,
        vec![
            node(&[(0, 8), (0xf0, 4)], 2, vec![node(&[(2, 2)], 3, vec![])]),
            node(&[(4, 8)], 0, vec![node(&[(0, 4), (2, 6)], 4, vec![]), node(&[(1, 1)], 5, vec![])]),
            node(&[(6, 0)], 6, vec![]),
            node(&[(0, 0x30)], 7, vec![node(&[(5, 1)], 8, vec![node(&[(0, 1)], 9, vec![])])]),
        ],
    );
    let data = bytes(&tree);
    for addr in (0x100f..0x1024).chain((0x1024..0x1052).step_by(5)).chain([0x10ff, 0x1100, 0x1103, 0x1104, 0x110f, 0x1110, 0x1200, 0, top]) {
        o.block(&data, 0x1000, addr);
    }
    for cut in 0..data.len() {
        o.outcome(&data[..cut], 0x1000, 0x1016);
    }
    o.remark("starts and ends at 2^64 - 1 and above; below a closed node they are not judged");
    for (offset, size) in [(0xfff, 0), (0xfff, 1), (0x1000, 0), (0xffe, 1), (0, top), (top, 0), (0, 0xfff), (0, 0x1000)] {
        let n = node(&[(offset, size)], 1, vec![]);
        o.block(&bytes(&n), top - 0xfff, top - 0xfff);
        let n = node(&[(0, 0x10), (offset, size)], 1, vec![]);
        o.block(&bytes(&n), top - 0xfff, top - 0xfff);
        let n = node(&[(0, 0x10)], 1, vec![node(&[(offset, size)], 2, vec![])]);
        o.block(&bytes(&n), top - 0xfff, top - 0xfff);
        o.block(&bytes(&n), top - 0xfff, top - 0xf00);
    }
    o.remark("call files and call lines at their limits");
    for v in [0, 1, 127, 128, 0xffff_fffe, 0xffff_ffff, 0x1_0000_0000, top] {
        let mut n = node(&[(0, 0x10)], 1, vec![]);
        n.file = v;
        o.block(&bytes(&n), 0x1000, 0x1000);
        o.block(&bytes(&n), 0x1000, 0x2000);
        let below = node(&[(0x100, 0x10)], 1, vec![n.clone()]);
        o.block(&bytes(&below), 0x1000, 0x1000);
        n.file = 3;
        n.line = v;
        o.block(&bytes(&n), 0x1000, 0x1000);
    }
    o.remark("63 and 64 levels, 63 and 64 frames");
    for levels in [63, 64] {
        let data = bytes(&chain(levels, |l| l));
        o.outcome(&data, 0x1000, 0x1001);
        o.outcome(&data, 0x1000, 0x2000);
        o.case('F', &data, 0x1000, 0x1001, u64::from(levels) - 1, 'v', [levels.into(), levels.into(), u64::from(levels) * 10]);
    }
    let wide = node(&[(0, 0x20)], 1, (2..=64).map(|i| node(&[(0, 0x20)], i, vec![])).collect());
    o.outcome(&bytes(&wide), 0x1000, 0x1001);
    o.remark("damaged counts and numbers");
    let mut seed = 0x2545_f491_4f6c_dd1du64;
    let mut random = move |below: u64| {
        seed ^= seed << 13;
        seed ^= seed >> 7;
        seed ^= seed << 17;
        seed % below
    };
    let mut made = 0;
    while made < 60 {
        let mut hurt = data.clone();
        for _ in 0..1 + random(3) {
            let at = random(hurt.len() as u64) as usize;
            hurt[at] = random(256) as u8;
        }
        // a number of ten bytes or more may be too wide: outside the domain
        if hurt.windows(9).any(|w| w.iter().all(|b| *b >= 128)) {
            continue;
        }
        o.outcome(&hurt, 0x1000, 0x1010 + random(0x40));
        made += 1;
    }
    o.remark("outside the domain, answered by RULES: a node on level 65, and a list that ends there");
    for levels in [65, 66, 70] {
        let data = bytes(&chain(levels, |l| u32::from(l == 1)));
        o.ruled(&data, 0x1000, 0x1001, 64, 'r', 13);
        o.ruled(&data, 0x1000, 0x2000, 64, 'r', 13);
    }
    // the node on level 64 has children, and their list ends at once: its children byte stands seven bytes before the
    // ends of the 63 lists above it
    let mut ends = bytes(&chain(64, |l| u32::from(l == 1)));
    let children = ends.len() - 63 - 7;
    ends[children] = 1;
    ends.push(0);
    o.ruled(&ends, 0x1000, 0x1001, 64, 'v', 1);
    let mut cut = ends.clone();
    cut.truncate(ends.len() - 64);
    o.ruled(&cut, 0x1000, 0x1001, 64, 'r', 10);
    o.remark("outside the domain, answered by RULES: more frames than room");
    for (room, tag, a) in [(0, 'r', 14), (1, 'r', 14), (2, 'v', 2), (3, 'v', 2), (64, 'v', 2), (1000, 'v', 2)] {
        o.ruled(&t9, 0x1000, 0x1005, room, tag, a);
    }
    o.ruled(&[0], 0x1000, 0x1005, 0, 'v', 0);
    o.ruled(&t11, 0x1000, 0x100c, 0, 'v', 0);
    let more = node(&[(0, 0x20)], 1, (2..=65).map(|i| node(&[(0, 0x20)], i, vec![])).collect());
    o.ruled(&bytes(&more), 0x1000, 0x1001, 64, 'r', 14);
    o.ruled(&bytes(&more), 0x1000, 0x1001, 1000, 'r', 14);
    o.remark("outside the domain, answered by RULES: numbers that are too wide");
    let mut too_wide = vec![0xff; 9];
    too_wide.push(2);
    for at in [0, 1, 2] {
        let mut d = vec![1, 0, 0x20];
        d.truncate(at);
        d.extend(&too_wide);
        d.extend([0, 0x20, 0, 1, 0, 0, 0, 0, 0]);
        o.ruled(&d, 0x1000, 0x1001, 64, 'r', 15);
    }
    in_each_place(&mut o);
    which_comes_first(&mut o);
    print!("{}", o.0);
}

const PLACES: usize = 7;

// A node of two ranges, 0 to 0x20 and 0x40 to 0x48, with one of its numbers written otherwise: range count, offset and
// size of the first and of the second, call file, call line. The bytes up to the end of that number, and all.
fn node_with(place: usize, number: &[u8]) -> (Vec<u8>, Vec<u8>) {
    let mut parts = [2, 0, 0x20, 0x40, 8, 3, 9].map(|n| vec![n]);
    parts[place] = number.to_vec();
    let before = if place > 4 { vec![0, 7, 0, 0, 0] } else { vec![] };
    let cut = [parts[..place.min(5)].concat(), before, parts[place.min(5)..=place].concat()].concat();
    (cut, [parts[..5].concat(), vec![0, 7, 0, 0, 0], parts[5..].concat()].concat())
}

// Nine bytes and one more.
fn ten(fill: u8, last: u8) -> Vec<u8> {
    let mut out = vec![fill; 9];
    out.push(last);
    out
}

// What stands before a node in a block that is asked at 0x1001: nothing, where it is the root; a root that contains the
// address, where it is judged too; a root that doesn't, below which it is passed over.
const ABOVE: [&[u8]; 3] = [&[], &[1, 0, 0x20, 1, 1, 0, 0, 0, 0, 0], &[1, 0x20, 0x20, 1, 1, 0, 0, 0, 0, 0]];

fn in_each_place(o: &mut Out) {
    o.remark("in each place of a node, the root, an open child and below a closed node: nine bytes and the end: short");
    for above in ABOVE {
        for place in 0..PLACES {
            for fill in [0x80, 0xff] {
                o.outcome(&[above, &node_with(place, &[fill; 9]).0].concat(), 0x1000, 0x1001);
            }
        }
    }
    o.remark("numbers of ten bytes that fit, in each place of a node: as short as they may be padded, and the largest");
    for above in ABOVE {
        for (place, value) in [2, 0, 0x20, 0x40, 8, 3, 9].into_iter().enumerate() {
            let mut padded = ten(0x80, 0);
            padded[0] |= value;
            for number in [padded, ten(0x80, 1), ten(0xff, 0), ten(0xff, 1)] {
                o.block(&[above, &node_with(place, &number).1, &[0]].concat(), 0x1000, 0x1001);
            }
        }
    }
    o.remark("outside the domain, answered by RULES: too wide in each place of a node, with its rest and without");
    for above in ABOVE {
        for place in 0..PLACES {
            for (fill, last) in [(0x80, 2), (0xff, 0x7f), (0x80, 0x80), (0xff, 0xff), (0x80, 0x81)] {
                let (cut, whole) = node_with(place, &ten(fill, last));
                o.ruled(&[above, &cut].concat(), 0x1000, 0x1001, 64, 'r', 15);
                o.ruled(&[above, &whole, &[0]].concat(), 0x1000, 0x1001, 64, 'r', 15);
            }
        }
    }
    o.remark("outside the domain, answered by RULES: too wide where the end of a list could stand");
    for above in &ABOVE[1..] {
        let leaf = [1, 0, 8, 0, 2, 0, 0, 0, 1, 1];
        o.ruled(&[above, &leaf[..], &ten(0x80, 0x80)].concat(), 0x1000, 0x1001, 64, 'r', 15);
        o.outcome(&[above, &leaf[..], &ten(0x80, 0)].concat(), 0x1000, 0x1001);
        o.outcome(&[above, &leaf[..], &[0x80; 9]].concat(), 0x1000, 0x1001);
    }
}

// Levels below each other down to this one, and a node there that is asked at the first's address.
fn below(levels: u32, last: &[u8]) -> Vec<u8> {
    let mut out = bytes(&chain(levels, |_| 0));
    let ends = levels as usize - 1;
    out.truncate(out.len() - ends);
    let kids = out.len() - 7; // the last node's children byte, name, call file and call line
    out[kids] = 1;
    out.extend(last);
    out
}

fn which_comes_first(o: &mut Out) {
    let wide = ten(0x80, 0x80);
    let top = u64::MAX;
    let symbol = top - 0xfff;
    let mut past = vec![];
    uleb(&mut past, 0x1000);
    let mut file = vec![];
    uleb(&mut file, 1 << 32);
    let closed = [1, 0x20, 0x20, 1, 1, 0, 0, 0, 0, 0];
    o.remark("outside the domain, answered by RULES: what comes first beside a number that is too wide");
    // the level before all but the range count
    o.ruled(&below(64, &wide), 0x1000, 0x1001, 64, 'r', 15);
    o.ruled(&below(64, &[&[1][..], &wide].concat()), 0x1000, 0x1001, 64, 'r', 13);
    o.ruled(&below(63, &[&[1][..], &wide].concat()), 0x1000, 0x1001, 64, 'r', 15);
    // a start and an end are judged when both numbers are read, and before the next range
    let sums: [(&[&[u8]], u64); 4] = [
        (&[&[1], &past, &wide], 15),
        (&[&[2], &past, &[0], &wide], 11),
        (&[&[2], &[0], &past, &wide], 11),
        (&[&[2], &[0], &[8], &past, &wide], 15),
    ];
    for (parts, number) in sums {
        let data = parts.concat();
        o.ruled(&data, symbol, symbol, 64, 'r', number);
        o.ruled(&[&closed[..], &data].concat(), symbol, symbol, 64, 'r', 15);
    }
    // the limit of a call file before the call line; below a closed node it is not judged
    let front = [1, 0, 0x20, 0, 7, 0, 0, 0];
    let lined = [&front[..], &file, &wide].concat();
    o.ruled(&lined, 0x1000, 0x1001, 64, 'r', 12);
    o.ruled(&lined, 0x1000, 0x2000, 64, 'r', 12);
    o.ruled(&[&closed[..], &lined].concat(), 0x1000, 0x1001, 64, 'r', 15);
    // a call file that is too wide is no call file above the limit, and reads as one where it fits
    o.ruled(&[&front[..], &wide, &[0]].concat(), 0x1000, 0x1001, 64, 'r', 15);
    o.outcome(&[&front[..], &ten(0xff, 1), &[0]].concat(), 0x1000, 0x1001);
    // room after the call line; in the parent before its children
    o.ruled(&[&front[..], &[3], &wide].concat(), 0x1000, 0x1001, 0, 'r', 15);
    o.ruled(&[&front[..], &[3, 9]].concat(), 0x1000, 0x1001, 0, 'r', 14);
    let with_kids = [&[1, 0, 0x20, 1, 7, 0, 0, 0, 3, 9][..], &wide].concat();
    o.ruled(&with_kids, 0x1000, 0x1001, 0, 'r', 14);
    o.ruled(&with_kids, 0x1000, 0x1001, 1, 'r', 15);
    o.ruled(&with_kids, 0x1000, 0x2000, 0, 'r', 15);
    // what stands behind it is not read
    o.ruled(&[&wide[..], &[0x80; 3]].concat(), 0x1000, 0x1001, 64, 'r', 15);
    o.remark("behind the root's end a number that is too wide is not read");
    o.block(&[&front[..], &[3, 9], &wide].concat(), 0x1000, 0x1001);
    o.block(&[&[0][..], &wide].concat(), 0x1000, 0x1001);
}
