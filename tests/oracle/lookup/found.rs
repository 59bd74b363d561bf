// Whole lookups that are answered: options, positions, what is and isn't read of the list; and unknown addresses.
use crate::out::{rust, Out, Said};
use crate::shape::*;

const TOP: u64 = u64::MAX;

// A root, a call in it, a call in that, and one more beside; call lines 10, 20, 30, 40.
fn nest(names: [u32; 4]) -> Node {
    let leaf = node(&[(4, 4)], names[3], (FILE_A, 30), vec![]);
    let inner = node(&[(8, 0x10), (0x20, 8)], names[2], (FILE_B, 20), vec![leaf]);
    let beside = node(&[(0x30, 8)], OUTER, (FILE_B, 40), vec![]);
    let outer = node(&[(0x10, 0x20)], names[1], (FILE_A, 10), vec![inner]);
    node(&[(0, 0x40)], names[0], (0, 0), vec![outer, beside])
}

const NAMES: [u32; 4] = [MAIN, OUTER, INNER, LEAF];
const PLACES: [(u64, u64, i64); 4] = [(0, FILE_A, 5), (0x10, FILE_B, 6), (0x1c, FILE_A, 7), (0x28, FILE_B, 300)];

pub fn all(o: &mut Out) {
    options(o);
    positions(o);
    items(o);
    rows_of(o);
    unknown(o);
    ruled(o);
}

fn options(o: &mut Out) {
    o.remark("each option, at every edge of a tree and of a line table; rooms that are enough");
    o.file(&with(&[rows(&PLACES), inline(&nest(NAMES)), end()]));
    for at in [0, 0xf, 0x10, 0x17, 0x18, 0x1b, 0x1c, 0x1f, 0x20, 0x27, 0x28, 0x2f, 0x30, 0x37, 0x38, 0x3f] {
        for opts in 0..4 {
            o.ask(0, 0x1000 + at, opts, 64);
        }
        o.ask(0, 0x1000 + at, 3, 4);
    }
    o.remark("without inlining no room is needed");
    for opts in 0..3 {
        o.ask(0, 0x101c, opts, 0);
    }
}

fn positions(o: &mut Out) {
    o.remark("positions move up by one: the symbol has the first later frame's call site, the last frame the row's");
    for levels in [1, 2, 3, 5, 8] {
        o.file(&with(&[rows(&PLACES), inline(&chain(levels, names)), end()]));
        o.ask(0, 0x1020, 3, levels);
        o.ask(0, 0x1000, 3, levels + 1);
    }
    o.remark("64 levels: 63 records");
    o.file(&with(&[rows(&PLACES), inline(&chain(64, names))]));
    o.ask(0, 0x1000, 3, 64);
    o.remark("the first frame only replaces the name: its own call site is not read");
    o.file(&with(&[rows(&PLACES), inline(&node(&[(0, 0x40)], LEAF, (99, 99), vec![])), end()]));
    o.ask(0, 0x1000, 3, 1);
    o.ask(0, 0x1000, 1, 1);
    o.remark("unnamed nodes are no frames: a root, all but the last, one between, all");
    for names in [[0, OUTER, INNER, LEAF], [0, 0, 0, LEAF], [MAIN, OUTER, 0, LEAF], [0; 4]] {
        o.file(&with(&[rows(&PLACES), inline(&nest(names)), end()]));
        o.ask(0, 0x101c, 3, names.iter().filter(|n| **n > 0).count() as u64);
    }
    o.remark("siblings that overlap are all frames; a name of the first frame beyond ASCII; an empty file row");
    let beside = |name, line| node(&[(0, 0x20)], name, (FILE_B, line), vec![]);
    o.file(&with(&[
        rows(&[(0, 0, 9)]),
        inline(&node(&[(0, 0x40)], CAFE, (0, 0), vec![beside(LEAF, 7), beside(OUTER, 8)])),
    ]));
    o.ask(0, 0x1010, 3, 3);
    o.ask(0, 0x1020, 3, 3);
}

fn items(o: &mut Out) {
    let good = rows(&PLACES);
    let none = item(1, &[0, 0, 1, 0]);
    let bad_line = item(1, &[0x80]);
    let bad_tree = item(2, &[1, 0]);
    let frames = inline(&nest(NAMES));
    let other = inline(&node(&[(0, 0x40)], LEAF, (0, 0), vec![]));
    let closed = inline(&node(&[(0, 1)], LEAF, (0, 0), vec![]));
    let torn = |kind: u8| vec![kind, 0, 0, 0, 9, 0, 0, 0, 1, 0, 0, 0];
    o.remark("what is read of the list: once there is a row no other line table, once there are frames no other tree");
    for list in [
        vec![good.clone(), bad_line.clone(), end()],
        vec![none.clone(), good.clone(), bad_line.clone(), frames.clone()],
        vec![good.clone(), frames.clone(), bad_tree.clone(), end()],
        vec![good.clone(), item(2, &[0]), frames.clone(), other.clone()],
        vec![good.clone(), closed.clone(), frames.clone(), bad_tree.clone()],
        vec![frames.clone(), bad_tree.clone(), good.clone(), end()],
        vec![good.clone(), end(), bad_line.clone(), bad_tree.clone()],
        vec![end(), good.clone(), frames.clone()],
        vec![],
    ] {
        o.file(&with(&list));
        o.ask(0, 0x101c, 3, 64);
        o.ask(0, 0x101c, 1, 64);
    }
    o.remark("a torn item ends the list: in its bytes, its length, its type; type 0 ends it whatever follows");
    for last in
        [torn(1), torn(2), torn(9), vec![1, 0, 0, 0, 5, 0], vec![2, 0, 0], vec![1], item(0, &bad_line), vec![0; 7]]
    {
        o.file(&with(&[good.clone(), frames.clone(), last.clone()]));
        o.ask(0, 0x101c, 3, 64);
        o.file(&with(&[frames.clone(), last]));
        o.ask(0, 0x101c, 3, 64);
    }
    o.remark("other types are skipped, whatever their bytes");
    for kind in [3, 4, 9, 0x100, 0x0100_0000, 0xffff_ffff] {
        o.file(&with(&[item(kind, &[0x80; 5]), good.clone(), item(kind, &[]), frames.clone(), end()]));
        o.ask(0, 0x101c, 3, 64);
    }
    o.remark("no code info: nothing of the list is read; no inlining: no tree; no row: no frames, the name as it was");
    for list in [vec![bad_line.clone()], vec![bad_tree.clone()], vec![good.clone(), bad_tree.clone()]] {
        o.file(&with(&list));
        o.ask(0, 0x1000, 0, 64);
        o.ask(0, 0x1000, 2, 64);
    }
    o.file(&with(&[good, bad_tree.clone()]));
    o.ask(0, 0x101c, 1, 64);
    o.file(&with(&[none, bad_tree]));
    o.ask(0, 0x101c, 1, 64);
    let bad_name = inline(&node(&[(0, 0x40)], PAST, (0, 0), vec![node(&[(0, 0x40)], NO_UTF8, (99, 1), vec![])]));
    o.file(&with(&[bad_name, rows(&[(0x20, 99, 1)]), end()]));
    o.ask(0, 0x1000, 3, 64);
    o.ask(0, 0x101f, 3, 64);
}

fn rows_of(o: &mut Out) {
    o.remark("directories and files need not be UTF-8, of a row and of a call site");
    o.file(&with(&[rows(&[(0, ODD_FILE, 3)]), inline(&chain(2, names)), end()]));
    o.ask(0, 0x1000, 1, 64);
    o.ask(0, 0x1000, 3, 64);
    let call = node(&[(0, 0x40)], LEAF, (ODD_FILE, 8), vec![]);
    o.file(&with(&[rows(&[(0, FILE_A, 3)]), inline(&node(&[(0, 0x40)], MAIN, (0, 0), vec![call])), end()]));
    o.ask(0, 0x1000, 3, 64);
    o.remark("lines at the ends of their range, a call line above it, changes after the last row");
    let deep = node(&[(0, 0x40)], LEAF, (FILE_B, 1 << 32), vec![]);
    o.file(&with(&[rows(&[(0, 1, 0), (8, 1, 0xffff_ffff)]), inline(&node(&[(0, 0x40)], MAIN, (0, 0), vec![deep]))]));
    o.ask(0, 0x1000, 3, 64);
    o.ask(0, 0x1008, 3, 64);
    o.file(&with(&[item(1, &[0, 0, 7, 2, 0, 1, 2, 3, 5]), end()]));
    o.ask(0, 0x1000, 1, 0);
    o.remark("special opcodes; range 0 stops; the address wraps");
    for block in
        [&[0x7c, 10, 9, 255, 1, 2, 255, 0][..], &[0, 0x7f, 9, 2, 0, 4, 2, 0], &[0, 0x7d, 9, 7, 7], &[0, 0, 9, 2, 8]]
    {
        o.file(&with(&[item(1, block), end()]));
        for addr in [0x1000, 0x100f, 0x1010, 0x103f] {
            o.ask(0, addr, 1, 0);
        }
    }
}

fn unknown(o: &mut Out) {
    let plain = |size| data(size, MAIN, &[end()]);
    o.remark("size: an address at least that far past the symbol is unknown; size 0 covers everything");
    for (size, at, number) in [
        (0x40, 0x3f, 0),
        (0x40, 0x40, 1),
        (0x40, 0x41, 1),
        (1, 0, 0),
        (1, 1, 1),
        (0xffff_ffff, 0xffff_fffe, 0),
        (0xffff_ffff, 0xffff_ffff, 1),
        (0, 0, 0),
        (0, TOP - 0x1000, 0),
        (0x40, TOP - 0x1000, 1),
    ] {
        o.file(&write(&one(plain(size))));
        o.ask(number, 0x1000 + at, 0, 0);
        o.ask(number, 0x1000 + at, 3, 64);
    }
    o.remark("below the base, below the first entry, no entries");
    o.file(&write(&many(4, 0x1000, vec![(8, plain(8)), (0x20, plain(0)), (0x30, plain(4))])));
    for (addr, number) in [
        (0, 1),
        (0xfff, 1),
        (0x1000, 1),
        (0x1007, 1),
        (0x1008, 0),
        (0x1010, 1),
        (0x1020, 0),
        (0x102f, 0),
        (0x1030, 0),
        (0x1034, 1),
        (TOP, 1),
    ] {
        o.ask(number, addr, 3, 64);
    }
    o.file(&write(&many(8, 0, vec![])));
    o.ask(1, 0, 3, 64);
    o.ask(1, TOP, 0, 0);
    o.remark("offset sizes");
    for width in [0, 1, 2, 3, 4, 5, 7, 8, 9, 16] {
        o.file(&write(&many(width, 0x1000, vec![(0, plain(8)), (0x10, plain(8))])));
        let number = if [1, 2, 4, 8].contains(&width) { 0 } else { 1 };
        o.ask(number, 0x1000, 0, 0);
        o.ask(number, 0x1011, 3, 64);
    }
    o.remark("the ends of the addresses");
    o.file(&write(&many(8, 0, vec![(0, plain(1)), (1 << 40, plain(0)), (TOP - 8, plain(8))])));
    for (addr, number) in
        [(0, 0), (1, 1), ((1 << 40) - 1, 1), (1 << 40, 0), (TOP - 9, 0), (TOP - 8, 0), (TOP - 1, 0), (TOP, 1)]
    {
        o.ask(number, addr, 3, 64);
    }
    o.remark("the size is judged before the name, and after the eight bytes");
    o.file(&write(&one(data(8, PAST, &[]))));
    o.ask(1, 0x1008, 0, 0);
    o.ask(6, 0x1007, 0, 0);
}

// The answer for a symbol without items.
fn plain_answer(s: &Shape, symbol: u64, size: u32, name: (u32, u64)) -> Said {
    let mut answer = [0; 11];
    answer[..4].copy_from_slice(&[symbol, size.into(), strings_place(s) + u64::from(name.0), name.1]);
    Said { number: 0, answer, records: vec![] }
}

fn ruled(o: &mut Out) {
    o.remark("outside the domain, answered by RULES: symbol address plus size above 2^64-1");
    let s = many(1, TOP - 5, vec![(0, data(6, MAIN, &[])), (2, data(0x40, OUTER, &[end()]))]);
    o.file(&write(&s));
    for (addr, symbol, size, name) in
        [(TOP - 4, TOP - 5, 6, (MAIN, 4)), (TOP - 3, TOP - 3, 0x40, (OUTER, 5)), (TOP, TOP - 3, 0x40, (OUTER, 5))]
    {
        for opts in 0..4 {
            o.whole(addr, opts, 64, &plain_answer(&s, symbol, size, name));
        }
    }
    equal_and_falling(o);
}

// Offsets of entries, with what each says: size and name. Each entry has its own name.
fn named(width: u8, base: u64, entries: &[(u64, u32, (u32, u64))]) -> Shape {
    let data = |size, name: (u32, u64)| data(size, name.0, &[end()]);
    many(width, base, entries.iter().map(|(offset, size, name)| (*offset, data(*size, *name))).collect())
}

const M: (u32, u64) = (MAIN, 4);
const O: (u32, u64) = (OUTER, 5);
const I: (u32, u64) = (INNER, 5);
const L: (u32, u64) = (LEAF, 4);

fn equal_and_falling(o: &mut Out) {
    let behind = named(2, 0x1000, &[(1, 4, M), (5, 9, O), (5, 0x20, I), (9, 0x20, L), (9, 0, M)]);
    let few = named(4, 0x1000, &[(1, 0, M), (5, 2, O), (5, 0, I), (5, 0x20, L)]);
    let open = named(8, 0x1000, &[(1, 0, M), (5, 0, O), (5, 2, I)]);
    let front = named(2, 0x1000, &[(5, 9, M), (5, 0x20, O), (9, 0x20, O), (9, 0, L)]);
    let short = named(1, 0x1000, &[(5, 2, M), (5, 0x20, O), (5, 0, I)]);
    let whole = named(1, 0x1000, &[(5, 0, M), (5, 2, O)]);
    o.remark(
        "of equal entries the first alone is asked, at its address and past it, by RULES and the unchanged Rust alike",
    );
    for (s, addr, symbol, size, name) in [
        (&behind, 0x1004, 0x1001, 4, M),
        (&behind, 0x1005, 0x1005, 9, O),
        (&behind, 0x1008, 0x1005, 9, O),
        (&behind, 0x1009, 0x1009, 0x20, L),
        (&behind, 0x1028, 0x1009, 0x20, L),
        (&few, 0x1005, 0x1005, 2, O),
        (&few, 0x1006, 0x1005, 2, O),
        (&open, 0x1005, 0x1005, 0, O),
        (&open, 0x1006, 0x1005, 0, O),
        (&open, TOP, 0x1005, 0, O),
        (&front, 0x1005, 0x1005, 9, M),
        (&front, 0x1009, 0x1009, 0x20, O),
        (&short, 0x1005, 0x1005, 2, M),
        (&whole, 0x1005, 0x1005, 0, M),
    ] {
        o.file(&write(s));
        for (opts, room) in [(0, 0), (3, 64)] {
            assert_eq!(rust(&o.now, addr, opts), plain_answer(s, symbol, size, name), "at {addr:x}");
            o.ask(0, addr, opts, room);
        }
    }
    for (s, addr) in
        [(&behind, 0x1000), (&behind, 0x1029), (&few, 0x1007), (&few, 0x1008), (&few, TOP), (&front, 0x1004)]
    {
        o.file(&write(s));
        o.ask(1, addr, 0, 0);
        o.ask(1, addr, 3, 64);
    }
    o.remark("outside the domain, by RULES: the same past the address of a run that the table begins with");
    for (s, addr, symbol, size, name) in [
        (&front, 0x1008, 0x1005, 9, M),
        (&short, 0x1006, 0x1005, 2, M),
        (&whole, 0x1006, 0x1005, 0, M),
        (&whole, TOP, 0x1005, 0, M),
    ] {
        o.file(&write(s));
        o.whole(addr, 0, 0, &plain_answer(s, symbol, size, name));
        o.whole(addr, 3, 64, &plain_answer(s, symbol, size, name));
    }
    o.file(&write(&short));
    o.rule(1, 0x1007, 0, 0);
    o.rule(1, TOP, 3, 64);
    let falling = named(1, 0x1000, &[(1, 9, M), (9, 0x20, O), (5, 0, L)]);
    let twice = named(1, 0x1000, &[(5, 9, M), (5, 0, O), (3, 0, I), (5, 4, L), (5, 0, O)]);
    o.remark("outside the domain, by RULES: falling tables where one entry is allowed");
    for (s, addr, symbol, size, name) in [
        (&falling, 0x1009, 0x1005, 0, L),
        (&falling, 0x1004, 0x1001, 9, M),
        (&twice, 0x1005, 0x1005, 4, L),
        (&twice, 0x1008, 0x1005, 4, L),
    ] {
        o.file(&write(s));
        o.whole(addr, 0, 0, &plain_answer(s, symbol, size, name));
        o.whole(addr, 3, 64, &plain_answer(s, symbol, size, name));
    }
    o.file(&write(&twice));
    o.rule(1, 0x1003, 0, 0);
    o.rule(1, 0x1009, 3, 64);
}
