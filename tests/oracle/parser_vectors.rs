// Writes the vectors of header, tables, entry search and items, with the answers of the unchanged Rust: vectors.sh runs
// it. Tables that don't strictly rise lie outside the domain; RULES answers there, under a remark that says so. Where
// the table never falls, and doesn't begin with equal entries or has the address among its own, the Rust is asked too.
use oracle::gsym::facade;
use std::fmt::Write as _;

struct Out(String);

// The file at a place divisible by 8, as the domain has it.
fn aligned<T>(file: &[u8], f: impl FnOnce(&[u8]) -> T) -> T {
    let mut words = vec![0u64; file.len() / 8 + 1];
    let bytes = unsafe { std::slice::from_raw_parts_mut(words.as_mut_ptr().cast::<u8>(), file.len()) };
    bytes.copy_from_slice(file);
    f(bytes)
}

impl Out {
    fn remark(&mut self, text: &str) {
        writeln!(self.0, "# {text}").unwrap();
    }

    fn case(&mut self, kind: char, file: &[u8], p: u64, q: u64, tag: char, n: [u64; 3]) {
        let hex: String = file.iter().map(|b| format!("{b:02x}")).collect();
        let hex = if hex.is_empty() { "." } else { &hex };
        writeln!(self.0, "{kind} {hex} {p:x} {q:x} 0 {tag} {:x} {:x} {:x} 0", n[0], n[1], n[2]).unwrap();
    }

    fn opened(&mut self, file: &[u8]) {
        match aligned(file, facade::header_fault) {
            None => self.case('T', file, 0, 0, 'v', [0; 3]),
            Some(n) => self.case('T', file, 0, 0, 'r', [n.into(), 0, 0]),
        }
    }

    fn entry(&mut self, file: &[u8], addr: u64) {
        match aligned(file, |f| facade::entry(f, addr)) {
            Some((i, symbol)) => self.case('I', file, addr, 0, 'v', [i as u64, symbol, 0]),
            None => self.case('I', file, addr, 0, '-', [0; 3]),
        }
    }

    fn info(&mut self, file: &[u8], i: usize) {
        match aligned(file, |f| facade::info(f, i)) {
            Some((size, name)) => self.case('E', file, i as u64, 0, 'v', [size.into(), name.into(), 0]),
            None => self.case('E', file, i as u64, 0, '-', [0; 3]),
        }
    }

    fn row(&mut self, file: &[u8], i: usize) {
        match aligned(file, |f| facade::file_row(f, i)) {
            Some((directory, name)) => self.case('f', file, i as u64, 0, 'v', [directory.into(), name.into(), 0]),
            None => self.case('f', file, i as u64, 0, '-', [0; 3]),
        }
    }

    fn item(&mut self, file: &[u8], i: usize, nth: usize) {
        match aligned(file, |f| facade::item(f, i, nth)) {
            Some((kind, place, len)) => {
                self.case('i', file, i as u64, nth as u64, 'v', [kind.into(), place as u64, len as u64])
            }
            None => self.case('i', file, i as u64, nth as u64, 'e', [0; 3]),
        }
    }
}

struct Shape {
    width: u8,
    base: u64,
    entries: Vec<u64>,
    // what stands at each entry's data offset
    data: Vec<Vec<u8>>,
    files: Vec<(u32, u32)>,
    strings: Vec<u8>,
}

fn item(kind: u32, bytes: &[u8]) -> Vec<u8> {
    let mut out = kind.to_le_bytes().to_vec();
    out.extend((bytes.len() as u32).to_le_bytes());
    out.extend(bytes);
    out
}

fn data(size: u32, name: u32, items: &[Vec<u8>]) -> Vec<u8> {
    let mut out = size.to_le_bytes().to_vec();
    out.extend(name.to_le_bytes());
    for i in items {
        out.extend(i);
    }
    out
}

fn write(s: &Shape) -> Vec<u8> {
    let mut out = 0x4753_594du32.to_le_bytes().to_vec();
    out.extend(1u16.to_le_bytes());
    out.push(s.width);
    out.push(7);
    out.extend(s.base.to_le_bytes());
    out.extend((s.entries.len() as u32).to_le_bytes());
    let strings_field = out.len();
    out.extend([0; 4]);
    out.extend((s.strings.len() as u32).to_le_bytes());
    out.extend([0x55; 20]);
    for e in &s.entries {
        out.extend(&e.to_le_bytes()[..usize::from(s.width.min(8))]);
        out.extend(vec![0; usize::from(s.width.max(8)) - 8]);
    }
    while out.len() % 4 != 0 {
        out.push(0xee);
    }
    let offsets = out.len();
    out.extend(vec![0; 4 * s.entries.len()]);
    out.extend((s.files.len() as u32).to_le_bytes());
    for (directory, name) in &s.files {
        out.extend(directory.to_le_bytes());
        out.extend(name.to_le_bytes());
    }
    let strings = out.len() as u32;
    out[strings_field..strings_field + 4].copy_from_slice(&strings.to_le_bytes());
    out.extend(&s.strings);
    for (i, d) in s.data.iter().enumerate() {
        while out.len() % 4 != 0 {
            out.push(0);
        }
        let place = out.len() as u32;
        out[offsets + 4 * i..offsets + 4 * i + 4].copy_from_slice(&place.to_le_bytes());
        out.extend(d);
    }
    out
}

fn shape(width: u8, base: u64, entries: &[u64]) -> Shape {
    let end = item(0, &[]);
    let each = |i: usize| match i % 3 {
        0 => data(0x10, 1, &[item(1, &[1, 2, 3]), item(2, &[]), end.clone()]),
        1 => data(0, 6, &[item(9, &[5; 7]), item(1, &[0]), item(0, &[])]),
        _ => data(0x20, 99, &[end.clone()]),
    };
    Shape {
        width,
        base,
        entries: entries.to_vec(),
        data: (0..entries.len()).map(each).collect(),
        files: vec![(0, 0), (1, 6)],
        strings: b"\0main\0post\0".to_vec(),
    }
}

// The entries that RULES allows: not above what is wanted; the entry before it, if there is one, differs from it; the
// next one that differs from it, if there is one, is above.
fn allowed(entries: &[u64], wanted: u64) -> Vec<usize> {
    let is_allowed = |i: usize| {
        let next = entries[i..].iter().find(|e| **e != entries[i]);
        let above = next.map_or(true, |e| wanted < *e);
        entries[i] <= wanted && (i == 0 || entries[i - 1] != entries[i]) && above
    };
    (0..entries.len()).filter(|&i| is_allowed(i)).collect()
}

// Where several are allowed: the search by halving that `find_in` defines, and then over equal entries to the front.
fn searched(entries: &[u64], wanted: u64) -> usize {
    let (mut at, mut len) = (0, entries.len());
    while len > 1 {
        let half = len / 2;
        if entries[at + half] <= wanted {
            at += half;
        }
        len -= half;
    }
    while at > 0 && entries[at - 1] == entries[at] {
        at -= 1;
    }
    at
}

// A file of tables alone.
fn tables(width: u8, base: u64, entries: &[u64]) -> Vec<u8> {
    write(&Shape { data: vec![], files: vec![], strings: vec![], ..shape(width, base, entries) })
}

// A table, and what is wanted of it: an address less the base.
type Asked = (u8, u64, Vec<u64>, u64);

// The answer of RULES, in the words of which one entry is allowed. Where the Rust searches alike it must have it, too.
fn ruled(o: &mut Out, (width, base, entries, wanted): &Asked) {
    let file = tables(*width, *base, entries);
    let addr = base + wanted;
    let chosen = if entries[0] <= *wanted { allowed(entries, *wanted) } else { vec![] };
    assert_eq!(chosen.len(), usize::from(entries[0] <= *wanted), "{entries:x?} at {wanted:x}");
    let answer = chosen.first().map(|&i| (i, base + entries[i]));
    if as_the_rust(entries, *wanted) {
        assert_eq!(aligned(&file, |f| facade::entry(f, addr)), answer, "{entries:x?} at {wanted:x}");
    }
    match answer {
        Some((i, symbol)) => o.case('I', &file, addr, 0, 'v', [i as u64, symbol, 0]),
        None => o.case('I', &file, addr, 0, '-', [0; 3]),
    }
}

// Whether the Rust has the answer of RULES in a table that doesn't strictly rise.
fn as_the_rust(entries: &[u64], wanted: u64) -> bool {
    let falls = entries.windows(2).any(|w| w[1] < w[0]);
    !falls && (entries[0] != entries[1] || entries[0] > wanted || entries.contains(&wanted))
}

// Runs of one to four, at entry 0 and behind another, with and without one behind them, in each width: below them, at
// their address, one past it, in between, at the next entry and past that.
fn runs(o: &mut Out) {
    let mut asked: Vec<Asked> = vec![];
    for width in [1u8, 2, 4, 8] {
        let unit = 1u64 << (8 * (width - 1));
        for len in 1..=4 {
            for before in [&[][..], &[3]] {
                for behind in [&[][..], &[9]] {
                    let entries = [before, &vec![5; len], behind].concat();
                    let entries: Vec<u64> = entries.iter().map(|e| e * unit).collect();
                    let wanted = [5 * unit - 1, 5 * unit, 5 * unit + 1, 9 * unit - 1, 9 * unit, 12 * unit];
                    let base = if width == 8 { 0x10 } else { 0x4000 };
                    asked.extend(wanted.map(|w| (width, base, entries.clone(), w)));
                }
            }
        }
    }
    let mut more = |entries: &[u64], wanted: &[u64]| {
        asked.extend(wanted.iter().map(|w| (1, 0, entries.to_vec(), *w)));
    };
    more(&[5, 5, 5, 9, 9], &[4, 5, 6, 8, 9, 10, 20]);
    more(&[0, 0], &[0, 1, u64::MAX]);
    more(&[5, 5], &[5, 7]);
    more(&[1, 5, 5, 9, 9, 9, 200, 200], &[0, 1, 4, 5, 8, 9, 199, 200, 201]);
    more(&[0, 0, 0, 1, 2, 2, 2, 2, 3, 3], &[0, 1, 2, 3, 4]);
    more(&[vec![7; 40], vec![9]].concat(), &[6, 7, 8, 9]);
    more(&[vec![1], vec![7; 40]].concat(), &[6, 7, 8, 9]);
    more(&[255, 255, 255], &[254, 255, 256]);
    asked.retain(|(_, _, entries, _)| entries.len() > 1);
    let (alike, apart): (Vec<Asked>, Vec<Asked>) = asked.into_iter().partition(|(_, _, e, w)| as_the_rust(e, *w));
    o.remark("runs of equal entries, of which the first is chosen, by RULES and by the unchanged Rust alike");
    alike.iter().for_each(|a| ruled(o, a));
    o.remark("outside the domain, answered by RULES: tables that begin with a run, not at its address: the first, too");
    apart.iter().for_each(|a| ruled(o, a));
}

fn falling_tables(o: &mut Out) {
    let top = u64::MAX;
    o.remark("outside the domain, answered by RULES: a falling table whose first entry is above");
    for wanted in [0, 1, 5, 8] {
        ruled(o, &(1, 0, vec![9, 5, 1], wanted));
    }
    for wanted in [3, 4] {
        ruled(o, &(1, 0, vec![5, 5, 3, 5, 5], wanted));
    }
    o.remark("outside the domain, answered by RULES: falling tables where one entry alone is allowed");
    for asked in [
        (1, 0, vec![1, 9, 5], 9),
        (1, 0, vec![9, 5, 1], 9),
        (1, 0x4000, vec![7, 7, 2, 2, 7], 7),
        (1, 0, vec![5, 5, 3, 5, 5], 5),
        (1, 0, vec![5, 5, 3, 5, 5], 7),
        (1, 0, vec![5, 5, 3, 3], 5),
        (1, 0, vec![5, 3, 5], 6),
        (1, 0, vec![5, 3, 3], 6),
        (1, 0, vec![3, 3, 9, 9, 4, 4], 9),
        (1, 0, vec![3, 3, 9, 9, 4, 4], 3),
        (1, 0, vec![0, 9, 9, 9, 2, 2, 2], 9),
        (1, 0, vec![0, 9, 9, 9, 2, 2, 2], 1),
        (2, 0, vec![0x100, 0x300, 0x200], 0x1ff),
        (2, 7, vec![2, 8, 8, 5, 9], 8),
        (2, 7, vec![2, 8, 8, 5, 5, 9, 9], 8),
        (4, top - 0x20, vec![0, 0x20, 0x10], 0x20),
        (4, 0, vec![5, 0x1_0000, 0x2_0000, 0x8000], 0x7fff),
        (4, 0, vec![0xffff_ffff, 0, 0xffff_ffff, 5], 1 << 32),
        (4, 0, vec![0xffff_ffff, 0xffff_ffff, 0, 0, 0xffff_ffff, 0xffff_ffff], 1 << 32),
        (8, 0, vec![0, 1 << 40, 1 << 20, 1 << 41], 1 << 40),
        (8, 0, vec![1, top, 0], top),
        (8, 0, vec![1, 1, top, top, 0, 0], top),
    ] {
        ruled(o, &asked);
    }
    o.remark("outside the domain, several entries are allowed: the one that this reader's own search settles");
    for (entries, wanted, i) in [
        (vec![1, 9, 5], 6, 0),
        (vec![1, 9, 5, 8], 8, 3),
        (vec![0, 6, 2, 8, 3], 5, 2),
        (vec![1, 1, 9, 5, 5], 6, 0),
        (vec![1, 1, 1, 9, 5, 5, 5], 6, 0),
        (vec![1, 5, 5, 9, 5, 5], 6, 1),
        (vec![2, 8, 4, 4, 4, 9], 5, 2),
        (vec![2, 2, 8, 8, 4, 4, 4, 9, 3, 3], 5, 4),
        (vec![4, 4, 4, 4, 9, 2, 2], 4, 5),
        (vec![0, 3, 1, 1, 1, 1, 3, 0], 2, 2),
    ] {
        let many = allowed(&entries, wanted);
        assert!(many.len() > 1 && many.contains(&i) && searched(&entries, wanted) == i, "{entries:x?} at {wanted:x}");
        o.case('I', &tables(2, 0, &entries), wanted, 0, 'v', [i as u64, entries[i], 0]);
    }
}

fn main() {
    let mut o = Out(String::new());
    let top = u64::MAX;
    o.remark("Header, tables, search and items, answered by the unchanged Rust; made by tests/oracle/vectors.sh.");
    o.remark("every cut of a small file");
    let mut tiny = shape(1, 0x1000, &[0]);
    tiny.files.truncate(1);
    tiny.strings.truncate(6);
    let small = write(&tiny);
    for cut in 0..=small.len() {
        o.opened(&small[..cut]);
    }
    for cut in small.len() - 36..small.len() {
        o.info(&small[..cut], 0);
        o.item(&small[..cut], 0, 0);
        o.item(&small[..cut], 0, 1);
    }
    o.remark("each byte of the header changed");
    for at in 0..48 {
        let mut file = small.clone();
        file[at] ^= 0x01;
        o.opened(&file);
        if at < 20 {
            o.entry(&file, 0x1005);
        }
    }
    o.remark("offset sizes 0 to 9; addresses around each entry");
    for width in 0..=9 {
        let mut s = shape(width, 0x4000, &[0, 1, 0xfe, 0xff]);
        s.data.truncate(1);
        let file = write(&s);
        o.opened(&file);
        for addr in [0x3fff, 0x4000, 0x4001, 0x40fd, 0x40fe, 0x40ff, 0x4100, top] {
            o.entry(&file, addr);
        }
    }
    o.remark("wide offsets, bases near 2^64, no entries, one entry, first entry above");
    for (width, base, entries) in [
        (2, 0, vec![0x100, 0x200, 0xffff]),
        (4, 7, vec![5, 0x1_0000, 0xffff_ffff]),
        (8, 0, vec![0, 1 << 40, top]),
        (8, top - 5, vec![0, 2, 5]),
        (1, top, vec![0]),
        (4, 0x1000, vec![]),
        (4, 0x1000, vec![4]),
        (2, 0x1000, (0..17).map(|i| i * 3).collect()),
    ] {
        let mut s = shape(width, base, &entries);
        s.data.truncate(1);
        let file = write(&s);
        o.opened(&file);
        let mut addrs = vec![0, base, top];
        for e in entries.iter().take(4).chain(entries.iter().rev().take(2)) {
            let a = base.wrapping_add(*e);
            addrs.extend([a.wrapping_sub(1), a]);
        }
        addrs.sort();
        addrs.dedup();
        for addr in addrs {
            o.entry(&file, addr);
        }
    }
    o.remark("entries' information and file rows, up to the count and past it");
    let file = write(&shape(4, 0x1000, &[0, 0x40, 0x80]));
    for i in 0..5 {
        o.info(&file, i);
        o.row(&file, i);
        for nth in 0..4 {
            o.item(&file, i, nth);
        }
    }
    o.remark("string tables and data offsets at the end and past it");
    for (field, values) in [(20usize, 0..12u32), (24, 0..12)] {
        for v in values {
            let mut file = small.clone();
            let n = if field == 20 { small.len() as u32 - 6 + v } else { small.len() as u32 - 72 + v };
            file[field..field + 4].copy_from_slice(&n.to_le_bytes());
            o.opened(&file);
        }
    }
    for back in 0..12u32 {
        let mut file = small.clone();
        let place = (small.len() as u32 - back).to_le_bytes();
        file[52..56].copy_from_slice(&place);
        o.info(&file, 0);
        o.item(&file, 0, 0);
    }
    o.remark("lists that end in each way");
    for items in [
        vec![],
        vec![item(0, &[])],
        vec![item(1, &[1]), item(2, &[2])],
        vec![item(1, &[1]), vec![2, 0, 0, 0, 9, 0, 0, 0, 1]],
        vec![item(1, &[1]), vec![2, 0, 0]],
        vec![item(1, &[1]), vec![2, 0, 0, 0, 1, 0]],
        vec![item(1, &[1]), vec![0, 0, 0, 0]],
        vec![item(1, &[1]), vec![0, 0, 0, 0, 7]],
        vec![item(1, &[1]), vec![2, 0, 0, 0, 0xff, 0xff, 0xff, 0xff, 1, 2]],
        vec![item(0xffff_ffff, &[1; 9]), item(3, &[]), item(0, &[4, 4])],
    ] {
        let mut s = shape(1, 0, &[0]);
        s.data = vec![data(1, 1, &items)];
        let file = write(&s);
        for nth in 0..4 {
            o.item(&file, 0, nth);
        }
    }
    runs(&mut o);
    falling_tables(&mut o);
    print!("{}", o.0);
}
