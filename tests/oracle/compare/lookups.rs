// Whole lookups on both sides: number, every field, every record, and the lent list before and after.
use crate::domain::{Rule, Tables};
use crate::files::Made;
use crate::random::Random;
use crate::tally::Tally;
use gsym::{Frame, Options, Refusal, Text};
use oracle::gsym::facade;
use oracle::symbolize::{CodeInfo, ResolvedSym};

const MARK: Frame = {
    let text = Text { place: 0x5555, len: 0xaaaa };
    Frame { name: text, dir: text, file: text, line: 0x1234 }
};

fn place(file: &[u8], s: &[u8]) -> Text {
    Text { place: (s.as_ptr() as usize - file.as_ptr() as usize) as u64, len: s.len() as u64 }
}

fn position(file: &[u8], c: &CodeInfo<'_>) -> (Text, Text, u32) {
    let dir = place(file, c.dir.as_ref().unwrap().as_os_str().as_encoded_bytes());
    (dir, place(file, c.file.as_encoded_bytes()), c.line.unwrap())
}

// Whether the symbol that the Rust found is the one answered here, record by record.
fn same(file: &[u8], sym: &ResolvedSym<'_>, answer: &gsym::Answer, frames: &[Frame]) -> bool {
    let here = answer.position.map(|p| (p.dir, p.file, p.line));
    sym.addr == answer.addr
        && sym.size == Some(answer.size as usize)
        && place(file, sym.name.as_bytes()) == answer.name
        && sym.code_info.as_ref().map(|c| position(file, c)) == here
        && sym.inlined.len() == answer.count
        && sym.inlined.iter().zip(frames).all(|(f, g)| {
            let (dir, path, line) = position(file, f.code_info.as_ref().unwrap());
            (place(file, f.name.as_bytes()), dir, path, line) == (g.name, g.dir, g.file, g.line)
        })
}

// One lookup on both sides.
pub fn compare(tally: &mut Tally, file: &[u8], tables: Option<&Tables<'_>>, addr: u64, options: Options, room: usize) {
    let mut frames = [MARK; 66];
    let here = gsym::lookup(file, addr, options, &mut frames[..room]);
    let written = here.as_ref().map_or(0, |a| a.count);
    let told = || format!("{addr:#x} {options:?} room {room}: here {here:?}\n  file {}", hex(file));
    if frames[written.min(66)..].iter().any(|f| *f != MARK) {
        tally.differs(|| format!("a record that should have stayed: {}", told()));
    }
    let refusal = here.as_ref().err().map_or(0, |r: &Refusal| u32::from(r.number()));
    let outside = tables.and_then(|t| t.outside(addr, options.code_info, options.inlining, room.min(64)));
    if let Some(rule) = outside {
        tally.outside(rule);
        // these three are what the domain's own reading meets first in a header or a tree, and so does the reader
        let number = match rule {
            Rule::TooWide => 15,
            Rule::Level65 => 13,
            Rule::MoreThanRoom => 14,
            _ => return,
        };
        if refusal != number {
            tally.differs(|| format!("outside, {rule:?}: not refused with {number}: {}", told()));
        }
        return;
    }
    tally.inside(refusal);
    tally.runs += u64::from(tables.is_some_and(|t| t.has_runs));
    let agree = facade::with_file(file, addr, options.code_info, options.inlining, |rust| match (&rust, &here) {
        (Err(text), Err(_)) => u32::from(facade::refusal_number(text)) == refusal,
        (Ok(None), Err(_)) => refusal == 1,
        (Ok(Some(sym)), Ok(answer)) => same(file, sym, answer, &frames),
        _ => false,
    });
    if !agree {
        tally.differs(told);
    }
}

pub fn hex(bytes: &[u8]) -> String {
    bytes.iter().take(4000).map(|b| format!("{b:02x}")).collect()
}

// The file at a place divisible by 8, as the domain has it.
pub struct Aligned {
    words: Vec<u64>,
    len: usize,
}

impl Aligned {
    pub fn of(file: &[u8]) -> Aligned {
        let mut words = vec![0u64; file.len() / 8 + 1];
        let bytes = unsafe { std::slice::from_raw_parts_mut(words.as_mut_ptr().cast::<u8>(), file.len()) };
        bytes.copy_from_slice(file);
        Aligned { words, len: file.len() }
    }

    pub fn bytes(&self) -> &[u8] {
        unsafe { std::slice::from_raw_parts(self.words.as_ptr().cast::<u8>(), self.len) }
    }
}

// Some of a file's addresses, with any options and rooms.
pub fn compare_file(tally: &mut Tally, r: &mut Random, made: &Made, lookups: u64) {
    let aligned = Aligned::of(&made.file);
    let file = aligned.bytes();
    let tables = Tables::of(file);
    for _ in 0..lookups {
        let addr = if r.one_in(20) { r.any() } else { r.pick(&made.addrs) };
        let (code_info, inlining) = r.pick(&[(true, true), (true, true), (true, false), (false, false), (false, true)]);
        let room = r.pick(&[64, 64, 64, 66, 65, 5, 3, 2, 1, 0]);
        compare(tally, file, tables.as_ref(), addr, Options { code_info, inlining }, room);
    }
    if file != made.file {
        tally.differs(|| format!("the file was written to: {}", hex(&made.file)));
    }
}
