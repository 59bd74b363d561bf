// Whole lookups whose line table or inline tree is refused: 9 to 15.
use crate::out::Out;
use crate::refused::good;
use crate::shape::*;

const TOP: u64 = u64::MAX;

pub fn all(o: &mut Out) {
    blocks(o);
    limits(o);
    wide(o);
    first_of_the_list(o);
}

fn blocks(o: &mut Out) {
    o.remark("9: a line table that ends in each number of its header; asked for and not");
    for bytes in
        [&[][..], &[0x80], &[0x80, 0x80], &[0], &[0, 0xff], &[0, 0], &[0, 0, 0x80], &[0x80, 0, 0x80, 0, 0xff, 0xff]]
    {
        o.file(&with(&[item(1, bytes), good(), end()]));
        o.ask(9, 0x1000, 1, 0);
        o.ask(9, 0x1000, 3, 64);
        o.ask(0, 0x1000, 2, 64);
    }
    o.remark("outside the domain, answered by RULES: numbers that are too wide");
    let wide = [0xff; 10];
    for before in [vec![], vec![0], vec![0, 0]] {
        o.file(&with(&[item(1, &[before, wide.to_vec(), vec![1, 1, 1]].concat()), end()]));
        o.rule(15, 0x1000, 1, 0);
        o.rule(15, 0x1000, 3, 64);
    }
    for before in [vec![], vec![1], vec![1, 0], vec![1, 0, 64, 0, 1, 0, 0, 0], vec![1, 0, 64, 0, 1, 0, 0, 0, 0]] {
        o.file(&with(&[good(), item(2, &[before, wide.to_vec(), vec![1; 9]].concat()), end()]));
        o.rule(15, 0x1000, 3, 64);
    }
    o.remark("10: a tree cut at each byte, below an open and below a closed node");
    let leaf = node(&[(0, 0x20)], LEAF, (FILE_A, 300), vec![]);
    let whole = tree(&node(&[(0, 0x20), (0x30, 8)], MAIN, (0, 0), vec![leaf]));
    for cut in 0..whole.len() {
        o.file(&with(&[good(), item(2, &whole[..cut]), end()]));
        o.ask(10, 0x1000, 3, 64);
        o.ask(10, 0x1020, 3, 64);
        o.ask(0, 0x1000, 1, 64);
    }
    o.file(&with(&[good(), item(2, &[&whole[..], &[0x80]].concat()), end()]));
    o.ask(0, 0x1000, 3, 64);
    o.remark("11: a start and an end above 2^64-1, in each range of a root, of a child, of an unnamed one");
    let full = (0, 0x40);
    for ranges in [
        vec![(TOP, 0)],
        vec![(TOP - 0xfff, 0)],
        vec![(0, TOP)],
        vec![(0, TOP - 0xfff)],
        vec![full, (TOP, 1)],
        vec![full, (1, TOP)],
    ] {
        for name in [0, LEAF] {
            let bad = node(&ranges, name, (FILE_A, 1), vec![]);
            o.file(&with(&[good(), inline(&bad), end()]));
            o.ask(11, 0x1000, 3, 64);
            let below = |root| inline(&node(&[root], MAIN, (0, 0), vec![bad.clone()]));
            o.file(&with(&[good(), below(full), end()]));
            o.ask(11, 0x1000, 3, 64);
            o.file(&with(&[below((0, 0x10)), good()]));
            o.ask(0, 0x1010, 3, 64);
        }
    }
    o.file(&with(&[good(), inline(&node(&[(0, TOP - 0x1000)], LEAF, (0, 0), vec![])), end()]));
    o.ask(0, 0x1000, 3, 64);
    o.remark("12: a call file above the limit, of a root, of an open child, of a closed one; not below a closed one");
    for site in [1 << 32, (1 << 32) + 1, TOP] {
        for ranges in [full, (0x20, 1)] {
            let bad = node(&[ranges], LEAF, (site, 1), vec![]);
            o.file(&with(&[good(), inline(&bad), end()]));
            o.ask(12, 0x1000, 3, 64);
            let below = |root| inline(&node(&[root], MAIN, (0, 0), vec![bad.clone()]));
            o.file(&with(&[below(full), good(), end()]));
            o.ask(12, 0x1000, 3, 64);
            o.file(&with(&[good(), below((0, 0x10)), end()]));
            o.ask(0, 0x1010, 3, 64);
        }
    }
}

fn limits(o: &mut Out) {
    o.remark("13 by RULES: a node on level 65, open, unnamed, closed, below a closed one; not without inlining");
    let closed = |mut n: Node| {
        n.ranges = vec![(0x20, 1)];
        n
    };
    let mut late = chain(64, |_| 0);
    late.kids.push(chain(64, names));
    let level65 = [
        chain(65, names),
        chain(66, names),
        chain(80, |_| 0),
        closed(chain(65, names)),
        closed(chain(65, |_| 0)),
        late,
    ];
    for n in &level65 {
        o.file(&with(&[good(), inline(n), end()]));
        o.rule(13, 0x1000, 3, 64);
        o.rule(13, 0x103f, 3, 64);
        o.ask(0, 0x1000, 1, 0);
    }
    for n in &level65[..3] {
        o.file(&with(&[inline(n)]));
        o.rule(13, 0x1000, 3, 64);
    }
    o.remark("64 levels of a closed tree, and of an unnamed one that needs no room");
    for n in [closed(chain(64, names)), chain(64, |_| 0)] {
        o.file(&with(&[good(), inline(&n), end()]));
        o.ask(0, 0x1000, 3, 0);
    }
    o.remark("14 by RULES: one frame more than room; the room counts the first frame; 64 at most; no row needed");
    for frames in 1..5 {
        o.file(&with(&[good(), inline(&chain(frames, names)), end()]));
        for room in 0..4 {
            if room < frames {
                o.rule(14, 0x1000, 3, room);
            } else {
                o.ask(0, 0x1000, 3, room);
            }
        }
    }
    let kid = node(&[(0, 0x20)], LEAF, (FILE_A, 1), vec![]);
    for (kids, number) in [(63, 0), (64, 14), (70, 14)] {
        o.file(&with(&[good(), inline(&node(&[(0, 0x40)], MAIN, (0, 0), vec![kid.clone(); kids])), end()]));
        if number == 0 {
            o.ask(0, 0x1000, 3, 64);
            o.rule(14, 0x1000, 3, 63);
        } else {
            o.rule(14, 0x1000, 3, 64);
        }
        o.ask(0, 0x1020, 3, 1);
    }
    o.file(&with(&[inline(&chain(2, names))]));
    o.rule(14, 0x1000, 3, 1);
    o.remark("the first met, by RULES: 14 before 13 on level 65; 12 before 14 in a node; 10 before 13 and after");
    o.file(&with(&[good(), inline(&chain(65, names)), end()]));
    o.rule(14, 0x1000, 3, 1);
    o.rule(14, 0x1000, 3, 63);
    let mut n = chain(3, names);
    n.kids[0].file = 1 << 32;
    o.file(&with(&[good(), inline(&n), end()]));
    o.rule(14, 0x1000, 3, 0);
    o.rule(12, 0x1000, 3, 1);
    let cut = tree(&chain(65, |_| 0));
    let at = |level: usize| cut.len() - 64 - 10 * (65 - level) - 10;
    for (len, number) in [(at(65), 10), (at(65) + 1, 13), (at(65) + 2, 13)] {
        o.file(&with(&[good(), item(2, &cut[..len]), end()]));
        o.rule(number, 0x1000, 3, 64);
    }
}

// Nine bytes and one more.
fn ten(fill: u8, last: u8) -> Vec<u8> {
    let mut out = vec![fill; 9];
    out.push(last);
    out
}

// A header and a row at 0x1000, with one number of the header written otherwise.
fn header_with(place: usize, number: &[u8]) -> Vec<u8> {
    let mut parts = [vec![0], vec![0], vec![5]];
    parts[place] = number.to_vec();
    [parts.concat(), vec![2, 0, 0]].concat()
}

// A node of the symbol's range, or of one that the address is not in, with one of its numbers written otherwise: range
// count, offset, size, call file, call line.
fn node_with(place: usize, number: &[u8], kids: u8) -> Vec<u8> {
    let mut parts = [vec![1], vec![0], vec![0x40], vec![FILE_A as u8], vec![9]];
    parts[place] = number.to_vec();
    [parts[..3].concat(), vec![kids, LEAF as u8, 0, 0, 0], parts[3..].concat()].concat()
}

fn wide(o: &mut Out) {
    let long = [[0x80; 9], [0xff; 9]];
    o.remark("9 and 10: nine bytes that all ask for another, in each number of a header and of a node, and the end");
    for bytes in long {
        for place in 0..3 {
            let header = header_with(place, &bytes);
            o.file(&with(&[item(1, &header[..place + 9]), good(), end()]));
            o.ask(9, 0x1000, 1, 0);
            o.ask(9, 0x1000, 3, 64);
        }
        for place in 0..5 {
            let cut = if place < 3 { place + 9 } else { place + 14 };
            for above in above() {
                let block = [&above[..], &node_with(place, &bytes, 0)[..cut]].concat();
                o.file(&with(&[good(), item(2, &block), end()]));
                o.ask(10, 0x1000, 3, 64);
                o.ask(0, 0x1000, 1, 64);
            }
        }
    }
    o.remark("numbers of ten bytes that fit: a first line, and each of a node");
    for last in [0, 1] {
        o.file(&with(&[item(1, &header_with(2, &ten(0x85, last))), end()]));
        o.ask(0, 0x1000, 1, 0);
        o.ask(0, 0x1000, 3, 64);
    }
    for (place, value) in [1, 0, 0x40, FILE_A as u8, 9].into_iter().enumerate() {
        let mut padded = ten(0x80, 0);
        padded[0] |= value;
        for above in above() {
            o.file(&with(&[good(), item(2, &[&above[..], &node_with(place, &padded, 0), &[0]].concat()), end()]));
            o.ask(0, 0x1000, 3, 64);
        }
    }
    o.remark("outside the domain, answered by RULES: a min and a max of ten bytes that fit");
    for (place, number) in [(0, ten(0x80, 0)), (0, ten(0xff, 0x7f)), (1, ten(0xff, 0)), (1, ten(0x80, 0x7f))] {
        o.file(&with(&[item(1, &header_with(place, &number)), end()]));
        o.ask(0, 0x1000, 1, 0);
    }
    o.remark("15 by RULES: too wide in each number of a header; without code info it is not read");
    for place in 0..3 {
        let by_value = if place < 2 { [ten(0x80, 1), ten(0xff, 0x7e)] } else { [ten(0x80, 2), ten(0xff, 0x7f)] };
        for number in by_value.into_iter().chain([ten(0x80, 0x80), ten(0xff, 0xff)]) {
            let header = header_with(place, &number);
            for block in [&header[..], &header[..place + 10]] {
                o.file(&with(&[item(1, block), good(), end()]));
                o.rule(15, 0x1000, 1, 0);
                o.rule(15, 0x1000, 3, 64);
                o.ask(0, 0x1000, 0, 0);
                o.ask(0, 0x1000, 2, 64);
                o.ask(1, 0x1040, 3, 64);
            }
        }
    }
    o.remark("15 by RULES: too wide in each number of a root, of a child, below a closed node; not without inlining");
    for place in 0..5 {
        for number in [ten(0x80, 2), ten(0xff, 0x7f), ten(0x80, 0x80), ten(0xff, 0xff)] {
            for above in above() {
                let block = [&above[..], &node_with(place, &number, 0), &[0]].concat();
                o.file(&with(&[good(), item(2, &block), end()]));
                o.rule(15, 0x1000, 3, 64);
                o.rule(15, 0x103f, 3, 64);
                o.ask(0, 0x1000, 1, 64);
                o.ask(0, 0x1000, 2, 64);
                o.ask(0, 0x1000, 0, 0);
            }
        }
    }
    o.remark("an operand that is too wide ends the program: the row before it, or none, by RULES");
    for op in [1, 2, 3] {
        let program = [&[0, 0, 5, 2, 0, op][..], &ten(0xff, 0xff), &[2, 0]].concat();
        o.file(&with(&[item(1, &program), end()]));
        let row = crate::out::rust(&with(&[item(1, &[0, 0, 5, 2, 0, 0]), end()]), 0x1000, 1);
        // the item is longer by twelve bytes, behind the strings that the answer names
        o.whole(0x1000, 1, 0, &row);
        o.whole(0x1020, 3, 64, &row);
    }
}

// What stands before a node: nothing, an open root, a closed root.
fn above() -> [Vec<u8>; 3] {
    [vec![], vec![1, 0, 0x40, 1, 1, 0, 0, 0, 0, 0], vec![1, 0x41, 8, 1, 1, 0, 0, 0, 0, 0]]
}

fn first_of_the_list(o: &mut Out) {
    let wide = ten(0x80, 0x80);
    let wide_line = item(1, &wide);
    let wide_tree = item(2, &wide);
    let short_line = item(1, &[0x80; 9]);
    let short_tree = item(2, &[0x80; 9]);
    let low = inline(&node(&[(TOP, 1)], MAIN, (0, 0), vec![]));
    let lined = node_with(4, &wide, 0);
    o.remark("of two faults in the list the first, by RULES: 15 of a header, 15 of a tree, and the others");
    for (list, with_both, code) in [
        (vec![wide_line.clone(), short_tree.clone()], 15, 15),
        (vec![short_tree.clone(), wide_line.clone()], 10, 15),
        (vec![wide_tree.clone(), short_line.clone()], 15, 9),
        (vec![short_line.clone(), wide_tree.clone()], 9, 9),
        (vec![wide_line.clone(), short_line.clone()], 15, 15),
        (vec![short_line.clone(), wide_line.clone()], 9, 9),
        (vec![wide_tree.clone(), wide_line.clone()], 15, 15),
        (vec![wide_tree.clone(), low.clone(), good()], 15, 0),
        (vec![low.clone(), wide_tree.clone(), good()], 11, 0),
        (vec![good(), wide_line.clone(), wide_tree.clone()], 15, 0),
        (vec![good(), inline(&chain(1, names)), wide_tree.clone()], 0, 0),
        (vec![item(1, &[0, 0, 1, 0]), wide_line.clone(), good()], 15, 15),
        (vec![good(), item(7, &wide), end(), wide_tree.clone()], 0, 0),
        (vec![wide_tree.clone()], 15, 0),
    ] {
        o.file(&with(&list));
        if with_both == 0 {
            o.ask(0, 0x1000, 3, 64);
        } else {
            o.rule(with_both, 0x1000, 3, 64);
        }
        if code == 0 {
            o.ask(0, 0x1000, 1, 64);
        } else {
            o.rule(code, 0x1000, 1, 64);
        }
        o.ask(0, 0x1000, 2, 64);
    }
    o.remark("15 by RULES before room, and after the limit of a call file; the name of the symbol before the list");
    o.file(&with(&[good(), item(2, &lined), end()]));
    o.rule(15, 0x1000, 3, 0);
    let mut file = vec![];
    uleb(&mut file, 1 << 32);
    let mut limited = lined.clone();
    limited.splice(8..9, file);
    o.file(&with(&[good(), item(2, &limited), end()]));
    o.rule(12, 0x1000, 3, 0);
    o.rule(12, 0x1000, 3, 64);
    o.file(&write(&one(data(0x40, OPEN, &[wide_line, wide_tree]))));
    o.ask(6, 0x1000, 3, 64);
}
