// Writes the vectors of line tables, with the answers of the unchanged Rust: vectors.sh runs it. A case that lies
// outside the domain of the comparison is answered by RULES and stands under a remark that says so.
use oracle::gsym::facade;
use std::fmt::Write as _;

struct Out(String);

fn hex(data: &[u8]) -> String {
    if data.is_empty() {
        return ".".into();
    }
    data.iter().map(|b| format!("{b:02x}")).collect()
}

impl Out {
    fn remark(&mut self, text: &str) {
        writeln!(self.0, "# {text}").unwrap();
    }

    fn case(&mut self, kind: char, data: &[u8], p: u64, q: u64, tag: char, n: [u64; 4]) {
        writeln!(self.0, "{kind} {} {p:x} {q:x} 0 {tag} {:x} {:x} {:x} {:x}", hex(data), n[0], n[1], n[2], n[3]).unwrap();
    }

    // The header; bytes that end too early are short.
    fn header(&mut self, data: &[u8]) {
        match facade::header(data) {
            Some((h, n)) => {
                self.case('H', data, 0, 0, 'v', [h.min_delta as u64, h.max_delta as u64, h.first_line.into(), n as u64])
            }
            None => self.case('H', data, 0, 0, 's', [0; 4]),
        }
    }

    // The state after each opcode, up to the one that ends the program.
    fn steps(&mut self, data: &[u8], symbol: u64) {
        let Some((header, at)) = facade::header(data) else { return };
        let mut row = facade::start(&header, symbol);
        let mut ops = &data[at..];
        for count in 0..12 {
            let empty = ops.is_empty();
            let ran = facade::step(&mut row, &header, &mut ops);
            let next = (data.len() - ops.len()) as u64;
            let state = [row.addr, row.file_idx.into(), row.file_line.into(), next];
            match ran {
                Some(facade::Ran::Ok) => self.case('o', data, symbol, count, 'o', state),
                Some(facade::Ran::NewRow) => self.case('o', data, symbol, count, 'n', state),
                Some(facade::Ran::End) => {
                    self.case('o', data, symbol, count, 'e', [0, 0, 0, next]);
                    return;
                }
                None => {
                    self.case('o', data, symbol, count, if empty { 'z' } else { 'x' }, [0; 4]);
                    return;
                }
            }
        }
    }

    fn row(&mut self, data: &[u8], symbol: u64, addr: u64) {
        match facade::line_row(data, symbol, addr) {
            Err(()) => self.case('L', data, symbol, addr, 's', [0; 4]),
            Ok(None) => self.case('L', data, symbol, addr, '-', [0; 4]),
            Ok(Some(r)) => self.case('L', data, symbol, addr, 'v', [r.addr, r.file_idx.into(), r.file_line.into(), 0]),
        }
    }

    // A program under a header: its steps, and the row for each address.
    fn program(&mut self, min: i64, max: i64, first: u64, ops: &[u8], symbol: u64, addrs: &[u64]) {
        let mut data = Vec::new();
        signed(&mut data, min);
        signed(&mut data, max);
        unsigned(&mut data, first);
        data.extend_from_slice(ops);
        self.steps(&data, symbol);
        for addr in addrs {
            self.row(&data, symbol, *addr);
        }
    }
}

fn unsigned(out: &mut Vec<u8>, mut v: u64) {
    while v >= 128 {
        out.push(v as u8 | 0x80);
        v >>= 7;
    }
    out.push(v as u8);
}

// At most nine bytes: a signed number of ten lies outside the domain.
fn signed(out: &mut Vec<u8>, mut v: i64) {
    loop {
        let low = v as u8 & 0x7f;
        v >>= 7;
        if (v == 0 && low & 0x40 == 0) || (v == -1 && low & 0x40 != 0) {
            out.push(low);
            return;
        }
        out.push(low | 0x80);
    }
}

fn main() {
    let mut o = Out(String::new());
    let top = u64::MAX;
    o.remark("Line tables, answered by the unchanged Rust; made by tests/oracle/vectors.sh.");
    o.remark("headers: whole, at each cut, first line above 2^32");
    let mut whole = Vec::new();
    signed(&mut whole, -300);
    signed(&mut whole, 5000);
    unsigned(&mut whole, 0x1_0000_0007);
    for cut in 0..=whole.len() {
        o.header(&whole[..cut]);
        o.row(&whole[..cut], 0x1000, 0x1000);
    }
    for (min, max) in [(0, 0), (-4, 10), (63, 64), (-64, -65), (i64::MAX >> 1, 1 << 61), (-(1 << 62), (1 << 62) - 1)] {
        let mut data = Vec::new();
        signed(&mut data, min);
        signed(&mut data, max);
        unsigned(&mut data, 0xffff_ffff);
        o.header(&data);
    }
    o.remark("empty programs: no row");
    o.program(-4, 10, 5, &[], 0x1000, &[0, 0x1000, top]);
    o.program(-4, 10, 5, &[0], 0x1000, &[0, 0x1000, top]);
    o.remark("each opcode, with and without an end");
    let near = [0xfff, 0x1000, 0x1001, 0x1002, 0x100f, 0x1010, 0x1011, 0x1012, 0x2000];
    o.program(-4, 10, 5, &[1, 7], 0x1000, &near);
    o.program(-4, 10, 5, &[2, 0], 0x1000, &near);
    o.program(-4, 10, 5, &[2, 0, 2, 16, 0], 0x1000, &near);
    o.program(-4, 10, 5, &[3, 9, 2, 0], 0x1000, &near);
    o.program(-4, 10, 5, &[3, 0x7e, 2, 1, 2, 15, 0, 2, 1], 0x1000, &near);
    o.program(-4, 10, 5, &[4, 19, 255, 255, 0], 0x1000, &near);
    o.program(-4, 10, 5, &[255, 1, 3, 255, 0], 0x1000, &near);
    o.remark("changes made after the last row count where the program ends, and not where a row stops it");
    o.program(-4, 10, 5, &[2, 0, 1, 9, 3, 4], 0x1000, &near);
    o.program(-4, 10, 5, &[2, 0, 1, 9, 3, 4, 0], 0x1000, &near);
    o.program(-4, 10, 5, &[2, 0, 1, 9, 3, 4, 2, 16], 0x1000, &near);
    o.program(-4, 10, 5, &[2, 0, 1, 9, 3, 4, 2], 0x1000, &near);
    o.remark("operands that don't read, before any row and after one");
    for ops in [&[1u8][..], &[2], &[3], &[1, 0x80], &[2, 0xff], &[3, 0x80], &[2, 0, 1], &[2, 0, 2, 0x80], &[2, 0, 3, 0xff]] {
        o.program(-4, 10, 5, ops, 0x1000, &[0xfff, 0x1000, 0x1001]);
    }
    o.remark("range 0 stops the program; a range of 1");
    for ops in [&[4u8][..], &[255], &[2, 0, 4], &[2, 0, 3, 5, 200, 2, 9], &[1, 4, 3, 5, 2, 3, 17]] {
        o.program(0, -1, 5, ops, 0x1000, &near);
        o.program(7, 7, 5, ops, 0x1000, &near);
    }
    o.remark("ranges below 0: the address moves back");
    for (min, max) in [(0, -2), (0, -3), (5, -5), (1, -300), (1 << 40, -(1 << 40))] {
        for ops in [&[4u8, 7, 255, 0][..], &[2, 32, 5, 6, 100, 255, 2, 200, 1], &[255, 254, 2, 64, 9]] {
            o.program(min, max, 1000, ops, 0x1000, &[0xf00, 0xfff, 0x1000, 0x1010, 0x1020, 0x1040, top]);
        }
    }
    o.remark("addresses wrap at 2^64, lines at 2^32");
    let mut far = vec![2];
    unsigned(&mut far, top);
    far.extend([2, 1, 2, 1, 0]);
    o.program(-4, 10, 5, &far, 0x1000, &[0, 1, 0xfff, 0x1000, 0x1001, top]);
    o.program(-4, 10, 5, &[255, 255, 255], top - 20, &[0, 5, top - 20, top - 4, top]);
    o.program(0, -3, 5, &[255, 255, 255], 3, &[0, 3, 100, top - 200, top]);
    o.program(-4, 10, 1, &[3, 0x7c, 2, 1, 4, 4, 3, 9, 2, 1], 0x1000, &near);
    o.program(-4, 10, 0xffff_fffe, &[18, 18, 18, 3, 5, 2, 1], 0x1000, &near);
    let mut jump = vec![3];
    signed(&mut jump, -(1 << 40) - 3);
    jump.extend([2, 1, 3]);
    signed(&mut jump, (1 << 45) + 77);
    jump.extend([2, 1, 1]);
    unsigned(&mut jump, 0x3_0000_0009);
    jump.extend([2, 1, 0]);
    o.program(-4, 10, 50, &jump, 0x1000, &near);
    o.remark("line changes that wrap as signed 64-bit numbers");
    o.program((1 << 62) - 1, -(1 << 62), 50, &[4, 5, 100, 255, 0], 0x1000, &near);
    o.program(-(1 << 62), (1 << 62) - 1, 50, &[4, 5, 100, 255, 0], 0x1000, &near);
    o.program(-(1 << 31) - 5, -(1 << 31) + 20, 50, &[4, 5, 100, 255, 0], 0x1000, &near);
    o.remark("thousands of rows");
    let mut long = Vec::new();
    for i in 0..2500u32 {
        match i % 5 {
            0 => long.extend([2, (i % 100) as u8]),
            1 => long.extend([3, 0x7f]),
            2 => long.extend([1, (i % 7) as u8]),
            _ => long.push((4 + i % 252) as u8),
        }
    }
    let mut data = vec![0x7c, 10, 20];
    data.extend(&long);
    for addr in [0xf_ffff, 0x10_4000, top] {
        o.row(&data, 0x10_0000, addr);
    }
    o.remark("programs and headers at random");
    let mut seed = 0x9e37_79b9_7f4a_7c15u64;
    let mut random = move |below: u64| {
        seed ^= seed << 13;
        seed ^= seed >> 7;
        seed ^= seed << 17;
        seed % below
    };
    for _ in 0..150 {
        let min = random(40) as i64 - 20;
        let max = random(60) as i64 - 20;
        let mut ops = Vec::new();
        for _ in 0..random(14) {
            match random(6) {
                0 => ops.push(random(4) as u8),
                1 => ops.extend([1, random(128) as u8]),
                2 => ops.extend([2, random(128) as u8]),
                3 => ops.extend([3, random(128) as u8]),
                _ => ops.push(random(256) as u8),
            }
        }
        let addr = 0x1000 + random(200);
        o.program(min, max, random(1 << 34), &ops, 0x1000, &[addr]);
    }
    o.remark("outside the domain, answered by RULES: a header number that is too wide");
    let mut wide = vec![0xff; 9];
    wide.push(2);
    let mut second = vec![0];
    second.extend(&wide);
    let mut third = vec![0, 0];
    third.extend(&wide);
    for data in [&wide, &second, &third] {
        o.case('H', data, 0, 0, 'w', [0; 4]);
        o.case('L', data, 0x1000, 0x1000, 'w', [0; 4]);
    }
    o.remark("outside the domain, answered by RULES: an operand that is too wide ends the program");
    for op in [1u8, 2, 3] {
        let mut data = vec![0, 0, 5, 2, 1, op];
        data.extend([0xff; 9]);
        data.push(2);
        o.case('o', &data, 0x1000, 1, 'x', [0; 4]);
        o.case('L', &data, 0x1000, 0x1005, 'v', [0x1001, 1, 5, 0]);
    }
    in_each_place(&mut o);
    print!("{}", o.0);
}

// The bytes of a header of min 1, max 9 and first line 5, with the number at `place` written otherwise.
fn header_with(place: usize, number: &[u8]) -> Vec<u8> {
    let mut parts = [vec![1], vec![9], vec![5]];
    parts[place] = number.to_vec();
    parts.concat()
}

// Nine bytes and one more.
fn ten(fill: u8, last: u8) -> Vec<u8> {
    let mut out = vec![fill; 9];
    out.push(last);
    out
}

fn in_each_place(o: &mut Out) {
    let row = [2, 1, 0];
    o.remark("in each place of a header: nine bytes that all ask for another, and the end: short");
    for place in 0..3 {
        for fill in [0x80, 0xff] {
            let whole = header_with(place, &[fill; 9]);
            let data = &whole[..place + 9];
            o.header(data);
            o.row(data, 0x1000, 0x1001);
        }
    }
    o.remark("a first line of ten bytes that fits");
    for (fill, last) in [(0x80, 0), (0x80, 1), (0xff, 0), (0xff, 1)] {
        let data = [header_with(2, &ten(fill, last)), row.to_vec()].concat();
        o.header(&data);
        o.row(&data, 0x1000, 0x1001);
    }
    o.remark("outside the domain, answered by RULES: min and max of ten bytes that fit; the Rust reads these alike");
    let most = i64::MAX as u64;
    for (fill, last, value) in
        [(0x80, 0, 0), (0x80, 0x7f, 1 << 63), (0xff, 0, most), (0xff, 0x7f, u64::MAX)]
    {
        for place in 0..2 {
            let data = [header_with(place, &ten(fill, last)), row.to_vec()].concat();
            let (min, max) = if place == 0 { (value, 9) } else { (1, value) };
            o.case('H', &data, 0, 0, 'v', [min, max, 5, 12]);
            o.case('L', &data, 0x1000, 0x1001, 'v', [0x1001, 1, 5, 0]);
            let (by_rust, next) = facade::header(&data).unwrap();
            assert_eq!((by_rust.min_delta as u64, by_rust.max_delta as u64, next), (min, max, 12));
        }
    }
    o.remark("outside the domain, answered by RULES: too wide in each place of a header, whatever is behind it");
    for place in 0..3 {
        let by_value: &[(u8, u8)] = if place < 2 {
            &[(0x80, 1), (0x80, 0x7e), (0xff, 1), (0xff, 2), (0xff, 0x3f), (0xff, 0x40), (0xff, 0x7e)]
        } else {
            &[(0x80, 2), (0x80, 0x7f), (0xff, 2), (0xff, 0x40), (0xff, 0x7f)]
        };
        for (fill, last) in by_value.iter().copied().chain([(0x80, 0x80), (0xff, 0xff), (0x80, 0x81)]) {
            let whole = header_with(place, &ten(fill, last));
            for data in [&whole[..place + 10], &whole[..], &[&whole[..], &row].concat()[..]] {
                o.case('H', data, 0, 0, 'w', [0; 4]);
                o.case('L', data, 0x1000, 0x1001, 'w', [0; 4]);
            }
        }
    }
    o.remark("outside the domain, answered by RULES: the first number that doesn't read decides");
    for first in 0..2 {
        for second in first + 1..3 {
            let mut parts = [vec![1], vec![9], vec![5]];
            parts[first] = ten(0x80, 0x80);
            parts[second] = vec![0x80; 3];
            let data = parts[..=second].concat();
            o.case('H', &data, 0, 0, 'w', [0; 4]);
            o.case('L', &data, 0x1000, 0x1001, 'w', [0; 4]);
        }
    }
    o.remark("operands of nine bytes that all ask for another, and the end; of ten bytes that fit");
    for op in [1u8, 2, 3] {
        for fill in [0x80, 0xff] {
            let ops = [&[2, 1, op][..], &[fill; 9]].concat();
            o.program(0, 0, 5, &ops, 0x1000, &[0x1005]);
        }
    }
    for op in [1u8, 2] {
        for (fill, last) in [(0x80, 0), (0x80, 1), (0xff, 0), (0xff, 1)] {
            let ops = [&[2, 1, op][..], &ten(fill, last), &[2, 1, 0]].concat();
            o.program(0, 0, 5, &ops, 0x1000, &[0x1001, 0x1005, u64::MAX]);
        }
    }
    o.remark("outside the domain, answered by RULES: a line change of ten bytes that fits");
    for (fill, last, line) in [(0x80, 0, 5), (0x80, 0x7f, 5), (0xff, 0, 4), (0xff, 0x7f, 4)] {
        let data = [&[0, 0, 5, 3][..], &ten(fill, last), &[2, 1, 0]].concat();
        o.case('o', &data, 0x1000, 0, 'o', [0x1000, 1, line, 14]);
        o.case('L', &data, 0x1000, 0x1001, 'v', [0x1001, 1, line, 0]);
    }
    o.remark("outside the domain, answered by RULES: an operand whose tenth byte asks for another ends the program");
    for op in [1u8, 2, 3] {
        for fill in [0x80, 0xff] {
            for more in [&[][..], &[0], &[2, 1, 0]] {
                let data = [&[0, 0, 5, 2, 1, op][..], &[fill; 10], more].concat();
                o.case('o', &data, 0x1000, 1, 'x', [0; 4]);
                o.case('L', &data, 0x1000, 0x1005, 'v', [0x1001, 1, 5, 0]);
            }
        }
    }
}
