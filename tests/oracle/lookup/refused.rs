// Whole lookups that are refused, number by number, each from several causes; and files with two faults.
use crate::blocks;
use crate::out::Out;
use crate::shape::*;

const TOP: u64 = u64::MAX;

pub fn all(o: &mut Out) {
    opening(o);
    entries(o);
    strings(o);
    files(o);
    blocks::all(o);
    order(o);
}

pub fn good() -> Vec<u8> {
    rows(&[(0, FILE_A, 5), (0x10, FILE_B, 6)])
}

// A root with one call in it, at the wanted address.
fn call(root: u32, name: u32, site: (u64, u64)) -> Vec<u8> {
    inline(&node(&[(0, 0x40)], root, (0, 0), vec![node(&[(0, 0x40)], name, site, vec![])]))
}

fn opening(o: &mut Out) {
    let file = with(&[good(), end()]);
    o.remark("2: every part of header and tables cut short; the strings' end past the file");
    for cut in [0, 1, 3, 4, 5, 6, 7, 16, 47, 48, 49, 51, 52, 55, 56, 59, 60, 61, 100, 123] {
        o.file(&file[..cut]);
        o.ask(2, 0x1000, (cut % 4) as u64, 64);
    }
    for (field, value) in [(16, 0x1000u32), (16, u32::MAX), (20, 999), (24, 999), (24, u32::MAX), (56, 99)] {
        let mut file = file.clone();
        file[field..field + 4].copy_from_slice(&value.to_le_bytes());
        o.file(&file);
        o.ask(2, 0x1000, 3, 64);
    }
    o.remark("3: each byte of the magic; byte-swapped; four bytes alone; a wrong version beside it");
    for (i, by) in [(0, 1), (1, 1), (2, 1), (3, 1), (0, 0x80), (3, 0xff)] {
        let mut file = file.clone();
        file[i] ^= by;
        o.file(&file);
        o.ask(3, 0x1000, 3, 64);
    }
    let mut swapped = file.clone();
    swapped[..6].copy_from_slice(&[0x47, 0x53, 0x59, 0x4d, 0, 1]);
    for file in [&swapped[..], &swapped[..4], &[0; 4], &[0xff; 5], &[0; 64]] {
        o.file(file);
        o.ask(3, 0, 0, 0);
    }
    o.remark("4: each byte of the version; six bytes alone; tables that don't fit beside it");
    for (version, len) in
        [(0, 256), (2, 256), (3, 64), (0x100, 256), (0x101, 256), (0xffff, 256), (0, 6), (2, 7), (2, 47), (0x8001, 60)]
    {
        let mut file = file.clone();
        file[4..6].copy_from_slice(&u16::to_le_bytes(version));
        o.file(&file[..len.min(file.len())]);
        o.ask(4, 0x1000, 3, 64);
    }
}

fn entries(o: &mut Out) {
    o.remark("5: fewer than eight bytes at the data offset; far past the file; of the second entry alone");
    let s = many(2, 0x1000, vec![(0, data(0x10, MAIN, &[])), (0x10, data(0x10, OUTER, &[end()]))]);
    let file = write(&s);
    for left in 0..9 {
        let mut file = file.clone();
        let place = (file.len() - left) as u32;
        file[56..60].copy_from_slice(&place.to_le_bytes());
        o.file(&file);
        o.ask(if left < 8 { 5 } else { 0 }, 0x101f, 3, 64);
        o.ask(0, 0x100f, 3, 64);
    }
    for place in [file.len() as u32 + 1, 0x7fff_ffff, u32::MAX] {
        let mut file = file.clone();
        file[52..56].copy_from_slice(&place.to_le_bytes());
        o.file(&file);
        o.ask(5, 0x100f, 0, 0);
        o.ask(5, 0x1000, 3, 64);
        o.ask(0, 0x1010, 3, 64);
    }
}

fn strings(o: &mut Out) {
    o.remark("6: the symbol's name past the table, without a zero byte, not UTF-8; with each option");
    for name in [PAST, PAST + 1, u32::MAX, OPEN, OPEN + 3, NO_UTF8, NO_UTF8 + 1, CAFE + 4] {
        o.file(&write(&one(data(0, name, &[good(), call(OUTER, LEAF, (FILE_A, 1)), end()]))));
        for opts in 0..4 {
            o.ask(6, 0x1000, opts, 64);
        }
    }
    o.remark("0: names at the table's last zero byte, empty ones, one beyond ASCII");
    for name in [0, OPEN - 1, CAFE] {
        o.file(&write(&one(data(0, name, &[end()]))));
        o.ask(0, 0x1000, 0, 64);
    }
    o.remark("6: an empty string table; the first frame's name; a later frame's name");
    let mut s = one(data(0, 0, &[]));
    s.strings.clear();
    o.file(&write(&s));
    o.ask(6, 0x1000, 0, 0);
    for name in [PAST, u32::MAX, OPEN, NO_UTF8] {
        for (root, child) in [(name, LEAF), (MAIN, name), (0, name)] {
            o.file(&with(&[good(), call(root, child, (FILE_A, 1)), end()]));
            o.ask(6, 0x1000, 3, 64);
            o.ask(0, 0x1000, 1, 64);
        }
    }
}

fn files(o: &mut Out) {
    o.remark("7: a row's file index at the count and past it; files that there are none of");
    for index in [FILES, FILES + 1, 0x80, u64::from(u32::MAX)] {
        o.file(&with(&[rows(&[(0, FILE_A, 1), (0x10, index, 2)]), call(MAIN, LEAF, (FILE_B, 2)), end()]));
        o.ask(0, 0x100f, 1, 0);
        o.ask(7, 0x1010, 1, 0);
        o.ask(7, 0x103f, 3, 64);
    }
    for count in 0..2 {
        let mut s = one(data(0, MAIN, &[good()]));
        s.files.truncate(count);
        o.file(&write(&s));
        o.ask(7, 0x1000, 1, 0);
        o.ask(0, 0x1000, 2, 0);
    }
    o.remark("7: a later frame's call file; the index is taken modulo 2^32 in a row");
    for index in [FILES, FILES + 1, u64::from(u32::MAX)] {
        o.file(&with(&[call(MAIN, LEAF, (index, 2)), good(), end()]));
        o.ask(7, 0x1000, 3, 64);
        o.ask(0, 0x1000, 1, 64);
    }
    o.file(&with(&[rows(&[(0, (1 << 32) + FILE_B, 2)]), end()]));
    o.ask(0, 0x1000, 1, 0);
    o.remark("8: a row's directory, a row's file, a call site's directory, a call site's file");
    for index in [BAD_DIRS, BAD_NAMES].concat() {
        o.file(&with(&[rows(&[(0, index, 1)]), call(MAIN, LEAF, (FILE_B, 2)), end()]));
        o.ask(8, 0x1000, 1, 0);
        o.ask(8, 0x103f, 3, 64);
        o.file(&with(&[good(), call(MAIN, LEAF, (index, 2)), end()]));
        o.ask(8, 0x1000, 3, 64);
        o.ask(0, 0x1000, 1, 64);
        o.file(&with(&[good(), call(index as u32, LEAF, (FILE_A, 2)), end()]));
        o.ask(0, 0x1000, 3, 64);
    }
}

fn order(o: &mut Out) {
    let bad_line = item(1, &[0x80]);
    let bad_tree = item(2, &[1, 0]);
    let no_row = item(1, &[0, 0, 1]);
    let low = inline(&node(&[(TOP, 1)], MAIN, (0, 0), vec![]));
    o.remark("faults refuse in list order, even if no row comes later");
    for (list, number) in [
        (vec![bad_line.clone(), bad_tree.clone()], 9),
        (vec![bad_tree.clone(), bad_line.clone()], 10),
        (vec![low.clone(), bad_line.clone(), bad_tree.clone()], 11),
        (vec![no_row.clone(), bad_line.clone(), good()], 9),
        (vec![no_row.clone(), bad_tree.clone(), end()], 10),
        (vec![bad_tree.clone()], 10),
        (vec![low.clone(), end(), good()], 11),
        (vec![item(2, &[0]), bad_tree.clone(), good()], 10),
        (vec![inline(&node(&[(0, 0x40)], 0, (0, 0), vec![])), low.clone(), good()], 11),
        (vec![good(), item(7, &[1, 0]), low.clone(), bad_tree.clone()], 11),
        (vec![rows(&[(0, 99, 1)]), bad_tree.clone()], 10),
        (vec![call(PAST, PAST, (99, 1)), bad_line.clone()], 9),
    ] {
        o.file(&with(&list));
        o.ask(number, 0x1000, 3, 64);
    }
    o.remark("6 of the symbol before the list; then the row's 7 or 8, the first frame's 6, and frame by frame 6, 7, 8");
    o.file(&write(&one(data(0x40, OPEN, &[bad_line, bad_tree]))));
    o.ask(6, 0x1000, 3, 64);
    let frames = |root, first: (u32, u64), second: (u32, u64)| {
        let below = node(&[(0, 0x40)], second.0, (second.1, 2), vec![]);
        inline(&node(&[(0, 0x40)], root, (99, 0), vec![node(&[(0, 0x40)], first.0, (first.1, 1), vec![below])]))
    };
    let (dir, name) = (BAD_DIRS[0], BAD_NAMES[0]);
    for (file, root, first, second, number) in [
        (FILES, PAST, (PAST, 99), (PAST, 99), 7),
        (dir, PAST, (PAST, 99), (PAST, 99), 8),
        (name, PAST, (LEAF, 99), (LEAF, 1), 8),
        (FILE_A, NO_UTF8, (LEAF, 99), (LEAF, dir), 6),
        (FILE_A, MAIN, (PAST, 99), (LEAF, 1), 6),
        (FILE_A, MAIN, (LEAF, 99), (PAST, 1), 7),
        (FILE_A, MAIN, (LEAF, dir), (PAST, 99), 8),
        (FILE_A, MAIN, (LEAF, name), (LEAF, 99), 8),
        (FILE_A, MAIN, (LEAF, 1), (PAST, 99), 6),
        (FILE_A, MAIN, (LEAF, 1), (LEAF, 99), 7),
        (FILE_A, MAIN, (LEAF, 1), (LEAF, name), 8),
        (FILE_A, MAIN, (LEAF, 1), (INNER, 2), 0),
    ] {
        o.file(&with(&[rows(&[(0, file, 1)]), frames(root, first, second), end()]));
        o.ask(number, 0x1000, 3, 64);
    }
}
