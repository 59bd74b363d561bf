// What the vectors of whole lookups are made of: the Rust's answer told in places, the limits of RULES, which the Rust
// does not have, and the text.
use oracle::gsym::facade;
use oracle::symbolize::CodeInfo;
use std::fmt::Write as _;

// An answer: its number; symbol, size, name (place and length), whether there is code info, directory, file, line and
// how many records; and the records: name, directory, file, line.
#[derive(Clone, PartialEq, Debug)]
pub struct Said {
    pub number: u64,
    pub answer: [u64; 11],
    pub records: Vec<[u64; 7]>,
}

pub fn refused(number: u64) -> Said {
    Said { number, answer: [0; 11], records: vec![] }
}

// The file at a place divisible by 8, as the domain has it.
pub fn aligned<T>(file: &[u8], f: impl FnOnce(&[u8]) -> T) -> T {
    let mut words = vec![0u64; file.len() / 8 + 1];
    let bytes = unsafe { std::slice::from_raw_parts_mut(words.as_mut_ptr().cast::<u8>(), file.len()) };
    bytes.copy_from_slice(file);
    f(bytes)
}

// What the unchanged Rust answers. Bit 0 of the options asks for code info, bit 1 for inlining.
pub fn rust(file: &[u8], addr: u64, opts: u64) -> Said {
    aligned(file, |f| {
        let text = |s: &[u8]| [(s.as_ptr() as usize - f.as_ptr() as usize) as u64, s.len() as u64];
        let code = |c: &CodeInfo<'_>| {
            let dir = text(c.dir.as_ref().unwrap().as_os_str().as_encoded_bytes());
            let name = text(c.file.as_encoded_bytes());
            [dir[0], dir[1], name[0], name[1], c.line.unwrap().into()]
        };
        facade::with_file(f, addr, opts & 1 != 0, opts & 2 != 0, |r| match r {
            Err(t) => refused(facade::refusal_number(&t).into()),
            Ok(None) => refused(1),
            Ok(Some(sym)) => {
                let n = text(sym.name.as_bytes());
                let c = sym.code_info.as_ref().map_or([0; 5], |c| code(c));
                let has = sym.code_info.is_some().into();
                let size = sym.size.unwrap() as u64;
                let count = sym.inlined.len() as u64;
                let records = sym.inlined.iter().map(|i| {
                    let (n, c) = (text(i.name.as_bytes()), code(i.code_info.as_ref().unwrap()));
                    [n[0], n[1], c[0], c[1], c[2], c[3], c[4]]
                });
                let answer = [sym.addr, size, n[0], n[1], has, c[0], c[1], c[2], c[3], c[4], count];
                Said { number: 0, answer, records: records.collect() }
            }
        })
    })
}

fn number_at(block: &[u8], at: &mut usize) -> Option<u64> {
    let mut value = 0;
    for shift in (0..).step_by(7) {
        let byte = *block.get(*at)?;
        *at += 1;
        value |= u64::from(byte & 0x7f).checked_shl(shift).unwrap_or(0);
        if byte < 0x80 {
            return Some(value);
        }
    }
    None
}

// Passes over a node and all below it; the deepest level met goes to `most`. None where the bytes end.
fn pass(block: &[u8], at: &mut usize, level: u32, most: &mut u32) -> Option<bool> {
    let ranges = number_at(block, at)?;
    if ranges == 0 {
        return Some(false);
    }
    *most = level.max(*most);
    for _ in 0..ranges {
        number_at(block, at)?;
        number_at(block, at)?;
    }
    let kids = *block.get(*at)? != 0;
    *at += 5;
    number_at(block, at)?;
    number_at(block, at)?;
    while kids && pass(block, at, level + 1, most)? {}
    Some(true)
}

// The refusal that the limits of RULES give and the Rust does not: 13 where a block that is read has a node on level
// 65, 14 where it has more frames than room. The file is one that the Rust refuses nothing of up to there.
pub fn limit(file: &[u8], addr: u64, opts: u64, room: u64) -> Option<u64> {
    if opts != 3 {
        return None;
    }
    aligned(file, |f| {
        let (i, symbol) = facade::entry(f, addr)?;
        for nth in 0.. {
            let (kind, place, len) = facade::item(f, i, nth)?;
            if kind != 2 {
                continue;
            }
            let block = &f[place..place + len];
            let mut most = 0;
            let _ = pass(block, &mut 0, 1, &mut most);
            if most > 64 {
                return Some(13);
            }
            let frames = facade::block(block, symbol, addr).ok()?.len() as u64;
            if frames > room.min(64) {
                return Some(14);
            }
            if frames > 0 {
                return None;
            }
        }
        None
    })
}

// All numbers of an answer after the first, and of its records, in one.
fn digest(said: &Said) -> u64 {
    let all = said.answer.iter().chain(said.records.iter().flatten());
    all.fold(0u64, |d, x| d.wrapping_mul(1_000_003).wrapping_add(*x).wrapping_add(1))
}

pub struct Out {
    pub text: String,
    // what the cases after it are asked of
    pub now: Vec<u8>,
    counts: [u64; 16],
}

impl Out {
    pub fn new() -> Self {
        Out { text: String::new(), now: vec![], counts: [0; 16] }
    }

    pub fn remark(&mut self, text: &str) {
        writeln!(self.text, "# {text}").unwrap();
    }

    pub fn file(&mut self, file: &[u8]) {
        let hex: String = file.iter().map(|b| format!("{b:02x}")).collect();
        let hex = if hex.is_empty() { "." } else { &hex };
        writeln!(self.text, "@ {hex}").unwrap();
        self.now = file.to_vec();
    }

    fn tally(&mut self, said: &Said) {
        assert_eq!(said.answer[10], said.records.len() as u64);
        assert!(said.number == 0 || *said == refused(said.number));
        self.counts[said.number as usize] += 1;
    }

    // A case with its whole answer.
    pub fn whole(&mut self, addr: u64, opts: u64, room: u64, said: &Said) {
        self.tally(said);
        write!(self.text, "A {addr:x} {opts:x} {room:x} {:x}", said.number).unwrap();
        said.answer.iter().for_each(|x| write!(self.text, " {x:x}").unwrap());
        for record in &said.records {
            self.text.push_str("\nR");
            record.iter().for_each(|x| write!(self.text, " {x:x}").unwrap());
        }
        self.text.push('\n');
    }

    // A case with the digest of its answer.
    pub fn short(&mut self, addr: u64, opts: u64, room: u64, said: &Said) {
        self.tally(said);
        writeln!(self.text, "D {addr:x} {opts:x} {room:x} {:x} {:x}", said.number, digest(said)).unwrap();
    }

    // What the Rust answers, which must have the number that RULES says. Not beyond the limits.
    pub fn ask(&mut self, number: u64, addr: u64, opts: u64, room: u64) {
        assert_eq!(limit(&self.now, addr, opts, room), None, "beyond a limit at {addr:x}");
        let said = rust(&self.now, addr, opts);
        assert_eq!(said.number, number, "at {addr:x} with options {opts}, after:\n{}", self.last_remark());
        self.whole(addr, opts, room, &said);
    }

    // A refusal by RULES alone.
    pub fn rule(&mut self, number: u64, addr: u64, opts: u64, room: u64) {
        self.whole(addr, opts, room, &refused(number));
    }

    fn last_remark(&self) -> &str {
        let at = self.text.rfind("# ").unwrap_or(0);
        self.text[at..].lines().next().unwrap_or("")
    }

    pub fn counted(&mut self) {
        let each: Vec<String> = self.counts.iter().enumerate().map(|(i, n)| format!("{i}: {n}")).collect();
        let all: u64 = self.counts.iter().sum();
        self.remark(&format!("{all} cases, by number: {}", each.join(", ")));
    }
}
