// Two builds of the library in one process, this tree's and an earlier one whose calls are named `old_..`: the same
// answer to every call, field by field, the same records, and nothing written past them. Checks are compared where the
// earlier one has them (cfg old_has_check). Inputs as main's usage has them.
// With AGAINST_WIDE the earlier one is of before 15, which it must show: where it has 9 or 10 this one has 15 exactly
// where the domain's own reading meets a number of a line header or a node that is too wide, and all else is the same.
// In a table that falls, past a first run and where a sum is too large that reading stops before it knows: there 15 is
// taken as well as the earlier number, and such calls are counted by themselves.
#[path = "../compare/domain.rs"]
#[allow(dead_code)]
mod domain;
#[path = "../compare/files.rs"]
mod files;
#[path = "../compare/random.rs"]
mod random;

use domain::Rule;
use random::Random;
use std::fmt::Debug;
use std::mem::size_of;
use std::time::Instant;

#[repr(C)]
#[derive(Clone, Copy, Debug, PartialEq)]
struct Text {
    place: u64,
    len: u64,
}

#[repr(C)]
#[derive(Clone, Copy, Debug, PartialEq)]
struct Answer {
    number: u32,
    has_code: u32,
    addr: u64,
    size: u32,
    line: u32,
    name: Text,
    dir: Text,
    file: Text,
    count: u64,
}

// Behind the line are four bytes of which nothing is said.
#[repr(C)]
#[derive(Clone, Copy, Debug, PartialEq)]
struct Frame {
    name: Text,
    dir: Text,
    file: Text,
    line: u32,
}

#[repr(C)]
#[derive(Clone, Copy, Debug, PartialEq)]
struct InlineFrame {
    name: u32,
    call_file: u32,
    call_line: u32,
}

#[repr(C)]
#[derive(Clone, Copy, Debug, PartialEq)]
struct Listed {
    count: u64,
    number: u32,
}

#[repr(C)]
#[derive(Clone, Copy, Debug, PartialEq)]
struct Finding {
    number: u32,
    entry: u32,
}

type Lookup = unsafe extern "C" fn(*const u8, usize, u64, u32, *mut Frame, usize) -> Answer;
type Block = unsafe extern "C" fn(*const u8, usize, u64, u64, *mut InlineFrame, usize) -> Listed;

extern "C" {
    #[link_name = "gsym_lookup_2"]
    fn gsym_lookup(file: *const u8, len: usize, addr: u64, options: u32, frames: *mut Frame, room: usize) -> Answer;
    #[link_name = "gsym_block_frames_2"]
    fn gsym_block_frames(
        block: *const u8,
        len: usize,
        symbol: u64,
        addr: u64,
        frames: *mut InlineFrame,
        room: usize,
    ) -> Listed;
    #[link_name = "gsym_check_2"]
    fn gsym_check(file: *const u8, len: usize) -> Finding;
    fn old_gsym_check(file: *const u8, len: usize) -> Finding;
    fn old_gsym_lookup(file: *const u8, len: usize, addr: u64, options: u32, frames: *mut Frame, room: usize)
        -> Answer;
    fn old_gsym_block_frames(
        block: *const u8,
        len: usize,
        symbol: u64,
        addr: u64,
        frames: *mut InlineFrame,
        room: usize,
    ) -> Listed;
}

// Whether the earlier library has checks. Where it has none old_gsym_check is not called, and needn't be there.
const CHECKS: bool = cfg!(old_has_check);

// More records than a lookup ever uses.
const LIST: usize = 66;

const TEXT: Text = Text { place: 0x5555, len: 0xaaaa };
const MARK: Frame = Frame { name: TEXT, dir: TEXT, file: TEXT, line: 0x1234 };
const INLINE_MARK: InlineFrame = InlineFrame { name: 0x5555, call_file: 0xaaaa, call_line: 0x1234 };

// What a call gave: its answer, and the list as it was left.
#[derive(Debug, PartialEq)]
struct Given<A, F> {
    answer: A,
    list: [F; LIST],
}

// Two that differ, in words: both answers, and the first record that differs.
fn told<A: Debug, F: Debug + PartialEq>(old: &Given<A, F>, new: &Given<A, F>) -> String {
    let record = (0..LIST).find(|i| old.list[*i] != new.list[*i]);
    let record = record.map_or(String::new(), |i| {
        format!("\n  record {i}\n    old {:?}\n    new {:?}", old.list[i], new.list[i])
    });
    format!("\n  old {:?}\n  new {:?}{record}", old.answer, new.answer)
}

fn look(call: Lookup, file: &[u8], addr: u64, options: u32, room: usize) -> Given<Answer, Frame> {
    let mut list = [MARK; LIST];
    let answer = unsafe { call(file.as_ptr(), file.len(), addr, options, list.as_mut_ptr(), room) };
    Given { answer, list }
}

fn list(call: Block, block: &[u8], symbol: u64, addr: u64, room: usize) -> Given<Listed, InlineFrame> {
    let mut list = [INLINE_MARK; LIST];
    let answer = unsafe { call(block.as_ptr(), block.len(), symbol, addr, list.as_mut_ptr(), room) };
    Given { answer, list }
}

#[derive(Default)]
struct Tally {
    numbers: [u64; 26],
    differ: u64,
    // whether the earlier library is of before 15, and how often it said 9 and 10 where 15 is right
    before_15: bool,
    wide: [u64; 2],
    // how often it said 9 or 10 where nothing here knows what is right, and this one said so too, or 15
    not_judged: [u64; 2],
    // a fault to put into what the library of this tree gave; 0 for none
    fault: u32,
}

// Faults that the comparison must see, each a change of one answer or record. Those from the 19th on are rare, and the
// last four are faults of checks.
const FAULTS: u32 = if CHECKS { 26 } else { 22 };

// Refusals 9, 10 and 15 where 15 is known: what the earlier library's number becomes by the domain's own reading. None
// where that stops before it knows.
fn since_15(old: u32, rule: Option<Rule>) -> Option<u32> {
    match rule {
        None | Some(Rule::Level65 | Rule::MoreThanRoom) => Some(old),
        Some(Rule::TooWide) => Some(15),
        Some(_) => None,
    }
}

fn spoil(fault: u32, g: &mut Given<Answer, Frame>) {
    let a = &mut g.answer;
    let last = (a.count as usize).saturating_sub(1);
    match fault {
        1 => a.number ^= u32::from(a.number == 6),
        2 => a.has_code ^= 1,
        3 => a.addr ^= 1,
        4 => a.size ^= 1,
        5 => a.line ^= 1,
        6 => a.name.place ^= 1,
        7 => a.name.len ^= 1,
        8 => a.dir.place ^= 1,
        9 => a.dir.len ^= 1,
        10 => a.file.place ^= 1,
        11 => a.file.len ^= 1,
        12 => a.count += u64::from(a.count == 1),
        13 if a.count > 0 => g.list[last].name.place ^= 1,
        14 if a.count > 0 => g.list[0].line ^= 1,
        15 => g.list[a.count as usize].line ^= 1,
        19 if a.number == 15 => a.number = 10,
        20 if a.number == 9 => a.number = 15,
        _ => {}
    }
}

fn spoil_block(fault: u32, g: &mut Given<Listed, InlineFrame>) {
    match fault {
        16 => g.answer.number ^= u32::from(g.answer.number == 10),
        17 if g.answer.count > 0 => g.list[0].call_line ^= 1,
        18 => g.list[g.answer.count as usize].name ^= 1,
        21 if g.answer.number == 15 => g.answer.number = 10,
        22 if g.answer.number == 10 => g.answer.number = 15,
        _ => {}
    }
}

fn spoil_check(fault: u32, f: &mut Finding) {
    match fault {
        23 => f.number ^= u32::from(f.number == 23),
        24 => f.entry ^= 1,
        25 if f.number == 15 => f.number = 10,
        26 if f.number == 10 => f.number = 15,
        _ => {}
    }
}

fn hex(bytes: &[u8]) -> String {
    bytes.iter().take(2000).map(|b| format!("{b:02x}")).collect()
}

impl Tally {
    // Counts a number that this tree's library gave, and says where what it gave is not what the old one gave.
    fn compare<A: Debug + PartialEq, F: Debug + PartialEq>(
        &mut self,
        number: u32,
        old: &Given<A, F>,
        new: &Given<A, F>,
        asked: impl FnOnce() -> String,
        bytes: &[u8],
    ) {
        self.numbers[number.min(25) as usize] += 1;
        if new == old {
            return;
        }
        self.differ += 1;
        if self.differ <= 3 && self.fault == 0 {
            println!("  differs: {}{}\n  bytes {}", asked(), told(old, new), hex(bytes));
        }
    }

    // What an earlier library's refusal is now, where it is of before 15; the same number where that isn't known to be
    // another. Such a library has no 15: one of its own stays, and differs from all that a call can give.
    fn now(&mut self, old: u32, new: u32, rule: impl FnOnce() -> Option<Rule>) -> u32 {
        if !self.before_15 || !matches!(old, 9 | 10 | 15) {
            return old;
        }
        if old == 15 {
            return u32::MAX;
        }
        let Some(number) = since_15(old, rule()) else {
            self.not_judged[usize::from(new == 15)] += 1;
            return if new == 15 { new } else { old };
        };
        self.wide[old as usize - 9] += u64::from(number == 15);
        number
    }

    fn lookup(&mut self, file: &[u8], addr: u64, options: u32, room: usize) {
        let mut old = look(old_gsym_lookup, file, addr, options, room);
        let mut new = look(gsym_lookup, file, addr, options, room);
        spoil(self.fault, &mut new);
        old.answer.number = self.now(old.answer.number, new.answer.number, || {
            let mut tables = domain::Tables::of(file)?;
            tables.reads_on = true;
            tables.outside(addr, options & 1 != 0, options & 2 != 0, room.min(64))
        });
        let asked = || format!("lookup {addr:#x}, options {options:#x}, room {room}");
        self.compare(new.answer.number, &old, &new, asked, file);
    }

    fn block(&mut self, block: &[u8], symbol: u64, addr: u64, room: usize) {
        let mut old = list(old_gsym_block_frames, block, symbol, addr, room);
        let mut new = list(gsym_block_frames, block, symbol, addr, room);
        spoil_block(self.fault, &mut new);
        old.answer.number = self.now(old.answer.number, new.answer.number, || {
            domain::outside_block(block, symbol, addr, room.min(64))
        });
        let asked = || format!("block of {symbol:#x} at {addr:#x}, room {room}");
        self.compare(new.answer.number, &old, &new, asked, block);
    }

    // The check of a whole file.
    fn check(&mut self, file: &[u8]) {
        if !CHECKS {
            return;
        }
        let call = |check: unsafe extern "C" fn(*const u8, usize) -> Finding| {
            let answer = unsafe { check(file.as_ptr(), file.len()) };
            Given { answer, list: [(); LIST] }
        };
        let (mut old, mut new) = (call(old_gsym_check), call(gsym_check));
        spoil_check(self.fault, &mut new.answer);
        let entry = old.answer.entry as usize;
        old.answer.number = self.now(old.answer.number, new.answer.number, || {
            domain::Tables::of(file)?.first_unread(entry)
        });
        self.compare(new.answer.number, &old, &new, || "check".to_string(), file);
    }

    // A lookup, and the single blocks that the bytes behind some place would be.
    fn ask(&mut self, r: &mut Random, file: &[u8], addr: u64) {
        let options = r.pick(&[3, 3, 3, 1, 1, 0, 2, 0xffff_fffc, 0xffff_ffff]);
        let room = r.pick(&[64, 64, 64, 66, 65, 63, 17, 16, 15, 5, 3, 2, 1, 0]);
        self.lookup(file, addr, options, room);
        if r.one_in(4) && !file.is_empty() {
            let at = r.below(file.len() as u64) as usize;
            let base = addr.wrapping_sub(r.below(64));
            self.block(&file[at..], base, addr, room);
        }
    }

    fn print(&self, name: &str, seconds: f64) {
        let calls: u64 = self.numbers.iter().sum();
        println!("{name}: {calls} calls, {} differ, {seconds:.1} s", self.differ);
        let numbers: Vec<_> =
            (0..26).filter(|n| self.numbers[*n] > 0).map(|n| format!("{n}: {}", self.numbers[n])).collect();
        println!("  by number: {}", numbers.join(", "));
        if self.before_15 {
            let ([nine, ten], [same, wide]) = (self.wide, self.not_judged);
            println!("  of 15 the earlier library told {nine} as 9 and {ten} as 10");
            println!("  of its 9 and 10 {} more are not judged, {wide} of them 15 here", same + wide);
        }
    }
}

// The blocks of a file by its items, with their symbol's address and size.
fn inline_blocks(file: &[u8]) -> Vec<(u64, u64, &[u8])> {
    let u32_at = |at: usize| Some(u32::from_le_bytes(file.get(at..at.checked_add(4)?)?.try_into().ok()?) as usize);
    let mut out = vec![];
    let (Some(n), Some(width)) = (u32_at(16), file.get(6).map(|w| usize::from(*w))) else { return out };
    let base = u64::from_le_bytes(file[8..16].try_into().unwrap());
    let offsets = (48 + n * width).div_ceil(4) * 4;
    for i in 0..n {
        let (Some(at), Some(entry)) = (u32_at(offsets + 4 * i), file.get(48 + i * width..48 + (i + 1) * width)) else {
            break;
        };
        let mut bytes = [0; 8];
        bytes[..width.min(8)].copy_from_slice(&entry[..width.min(8)]);
        let symbol = base.wrapping_add(u64::from_le_bytes(bytes));
        let size = u32_at(at).unwrap_or(0) as u64;
        let mut at = at + 8;
        while let (Some(kind), Some(len)) = (u32_at(at), u32_at(at + 4)) {
            let Some(bytes) = file.get(at + 8..at + 8 + len).filter(|_| kind != 0) else { break };
            if kind == 2 {
                out.push((symbol, size, bytes));
            }
            at += 8 + len;
        }
    }
    out
}

fn random_files(t: &mut Tally, seed: u64, wanted: u64) {
    let mut r = Random::new(seed);
    while t.numbers.iter().sum::<u64>() < wanted {
        let made = files::make(&mut r);
        t.check(&made.file);
        for _ in 0..20 {
            let addr = if r.one_in(20) { r.any() } else { r.pick(&made.addrs) };
            t.ask(&mut r, &made.file, addr);
        }
        for (symbol, size, block) in inline_blocks(&made.file) {
            let addr = symbol.wrapping_add(r.below(size.max(1)));
            let room = r.pick(&[64, 64, 66, 3, 2, 1, 0]);
            t.block(block, symbol, addr, room);
        }
    }
}

fn read(path: &String) -> Vec<u8> {
    std::fs::read(path).unwrap_or_else(|e| panic!("{path}: {e}"))
}

// Every edge of every symbol, with each choice of options; every block at the ends and the middle of its symbol.
fn real_files(t: &mut Tally, paths: &[String]) {
    for path in paths {
        let file = read(path);
        t.check(&file);
        for addr in domain::Tables::of(&file).map_or(vec![0], |t| t.worth_asking()) {
            for options in 0..4 {
                t.lookup(&file, addr, options, 64);
            }
            for room in 0..4 {
                t.lookup(&file, addr, 3, room);
            }
        }
        for (symbol, size, block) in inline_blocks(&file) {
            for addr in [symbol.wrapping_sub(1), symbol, symbol.wrapping_add(size / 2), symbol.wrapping_add(size)] {
                for room in [64, 66, 1, 0] {
                    t.block(block, symbol, addr, room);
                }
            }
        }
    }
}

// Some of a whole file's addresses worth asking.
fn some_addresses(r: &mut Random, file: &[u8]) -> Vec<u64> {
    let all = domain::Tables::of(file).expect("a file that opens").worth_asking();
    (0..12).map(|_| r.pick(&all)).collect()
}

// Every prefix of each file.
fn torn_files(t: &mut Tally, paths: &[String]) {
    let mut r = Random::new(1);
    for path in paths {
        let file = read(path);
        let addrs = some_addresses(&mut r, &file);
        for cut in 0..=file.len() {
            t.check(&file[..cut]);
            for addr in &addrs {
                t.ask(&mut r, &file[..cut], *addr);
            }
        }
    }
}

// Copies of each file with a few bytes changed.
fn changed_files(t: &mut Tally, copies: u64, paths: &[String]) {
    let mut r = Random::new(2);
    for path in paths {
        let file = read(path);
        let addrs = some_addresses(&mut r, &file);
        for _ in 0..copies {
            let mut copy = file.clone();
            for _ in 0..1 + r.below(6) {
                let at = r.below(copy.len() as u64) as usize;
                copy[at] = r.pick(&[0, 1, 2, 0x7f, 0x80, 0xff, copy[at] ^ 1, copy[at].wrapping_add(1)]);
            }
            t.check(&copy);
            for addr in &addrs {
                t.ask(&mut r, &copy, *addr);
            }
        }
    }
}

fn main() {
    assert!(size_of::<Answer>() == 80 && size_of::<Frame>() == 56 && size_of::<InlineFrame>() == 12);
    assert!(size_of::<Finding>() == 8);
    let args: Vec<String> = std::env::args().skip(1).collect();
    let number = |i: usize| args[i].parse().expect("a number");
    let start = Instant::now();
    // ten bytes that all ask for another: too wide
    let by = |call: Block| list(call, &[0x80; 10], 0, 0, 0).answer.number;
    let (old, new) = (by(old_gsym_block_frames), by(gsym_block_frames));
    let before_15 = std::env::var_os("AGAINST_WIDE").is_some();
    if before_15 && (old, new) != (10, 15) {
        println!("AGAINST_WIDE is for an earlier library that refuses a number that is too wide with 10, and one of");
        println!("this tree that does so with 15; they have {old} and {new}");
        std::process::exit(1);
    }
    let mut t = Tally { before_15, ..Tally::default() };
    let name = match args.first().map(String::as_str) {
        Some("random") => {
            random_files(&mut t, number(1), number(2));
            "random files"
        }
        Some("real") => {
            real_files(&mut t, &args[1..]);
            "real files"
        }
        Some("torn") => {
            torn_files(&mut t, &args[1..]);
            "every prefix of real files"
        }
        Some("changed") => {
            changed_files(&mut t, number(1), &args[2..]);
            "real files with bytes changed"
        }
        Some("faults") => {
            let calls = |fault| if fault == 0 || fault > 18 { 1_000_000 } else { 20_000 };
            for fault in 0..=FAULTS {
                let mut t = Tally { before_15, fault, ..Tally::default() };
                random_files(&mut t, 7, calls(fault));
                if fault == 0 && t.differ > 0 {
                    println!("{} calls differ without a fault, so that none can be shown to be seen", t.differ);
                    std::process::exit(1);
                }
                assert!(fault == 0 || t.differ > 0, "fault {fault} is not seen");
            }
            println!("{FAULTS} faults in answers and records, each seen");
            return;
        }
        _ => panic!("against random SEED CALLS | real FILE.. | torn FILE.. | changed COPIES FILE.. | faults"),
    };
    t.print(name, start.elapsed().as_secs_f64());
    std::process::exit(i32::from(t.differ > 0 || t.numbers.iter().sum::<u64>() == 0));
}
