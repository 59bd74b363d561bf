// Whether a lookup lies in the domain of the comparison (RULES, "Domain of the comparison"), and if not, by which
// rule. The rules are judged on what a lookup reads, so this reads a file once more, by RULES alone.

#[derive(Clone, Copy, PartialEq, Eq, Debug)]
pub enum Rule {
    Falls,
    PastFirstRun,
    SumAbove,
    TooWide,
    OperandTooWide,
    TenByteSigned,
    Level65,
    MoreThanRoom,
}

pub const RULES: [(Rule, &str); 8] = [
    (Rule::Falls, "an address table that falls"),
    (Rule::PastFirstRun, "an address past equal entries that the table begins with"),
    (Rule::SumAbove, "symbol address plus size above 2^64-1"),
    (Rule::TooWide, "a LEB128 number of a line header or a node too wide"),
    (Rule::OperandTooWide, "an operand of a line opcode too wide"),
    (Rule::TenByteSigned, "a signed LEB128 number of ten bytes"),
    (Rule::Level65, "a node on level 65"),
    (Rule::MoreThanRoom, "more frames than room"),
];

// Why reading stops: a rule that puts the lookup outside, or a fault, which ends it inside.
enum Stop {
    Outside(Rule),
    Fault,
}

type Read<T> = Result<T, Stop>;

struct Cursor<'a> {
    bytes: &'a [u8],
    at: usize,
    // Whether reading goes on, as the reader's does, behind a signed number of ten bytes and where an operand that is
    // too wide has ended a program: then neither is a rule.
    reads_on: bool,
}

impl Cursor<'_> {
    fn byte(&mut self) -> Read<u8> {
        let b = *self.bytes.get(self.at).ok_or(Stop::Fault)?;
        self.at += 1;
        Ok(b)
    }

    // The bytes of a LEB128 number: the low seven bits of each.
    fn digits(&mut self) -> Read<(u128, u32)> {
        let (mut value, mut n) = (0u128, 0);
        loop {
            let b = self.byte()?;
            value |= u128::from(b & 0x7f) << (7 * n);
            n += 1;
            if b < 0x80 {
                return Ok((value, n));
            }
            if n == 10 {
                return Err(Stop::Outside(Rule::TooWide));
            }
        }
    }

    fn unsigned(&mut self) -> Read<u64> {
        let (value, _) = self.digits()?;
        u64::try_from(value).map_err(|_| Stop::Outside(Rule::TooWide))
    }

    fn signed(&mut self) -> Read<i64> {
        let (value, n) = self.digits()?;
        let shift = 128 - 7 * n;
        let value = (value << shift) as i128 >> shift;
        match i64::try_from(value) {
            Ok(_) if n == 10 && !self.reads_on => Err(Stop::Outside(Rule::TenByteSigned)),
            Ok(value) => Ok(value),
            Err(_) => Err(Stop::Outside(Rule::TooWide)),
        }
    }

    fn u32(&mut self) -> Read<u32> {
        let bytes = self.bytes.get(self.at..self.at + 4).ok_or(Stop::Fault)?;
        self.at += 4;
        Ok(u32::from_le_bytes(bytes.try_into().unwrap()))
    }
}

// The header of a line block: min and max.
fn header(c: &mut Cursor<'_>) -> Read<(i64, i64)> {
    let (min, max) = (c.signed()?, c.signed()?);
    c.unsigned()?;
    Ok((min, max))
}

// Whether a line block has a row for the address.
fn has_row(mut c: Cursor<'_>, symbol: u64, addr: u64) -> Read<bool> {
    let (min, max) = header(&mut c)?;
    let (mut at, mut made) = (symbol, false);
    loop {
        let step = |c: &mut Cursor<'_>| -> Read<Option<u64>> {
            Ok(match c.byte()? {
                0 => return Err(Stop::Fault),
                1 => {
                    c.unsigned()?;
                    None
                }
                2 => Some(c.unsigned()?),
                3 => {
                    c.signed()?;
                    None
                }
                op => {
                    let range = max.wrapping_sub(min).wrapping_add(1);
                    Some(i64::from(op - 4).checked_div(range).ok_or(Stop::Fault)? as u64)
                }
            })
        };
        match step(&mut c) {
            Err(Stop::Fault) => return Ok(made),
            Err(Stop::Outside(Rule::TooWide)) if c.reads_on => return Ok(made),
            Err(Stop::Outside(Rule::TooWide)) => return Err(Stop::Outside(Rule::OperandTooWide)),
            Err(outside) => return Err(outside),
            Ok(None) => {}
            Ok(Some(by)) => {
                at = at.wrapping_add(by);
                if addr < at {
                    return Ok(made);
                }
                made = true;
            }
        }
    }
}

struct Tree<'a> {
    cursor: Cursor<'a>,
    addr: u64,
    room: usize,
    frames: usize,
}

impl Tree<'_> {
    // A node; `base` is where its offsets count from, none where it is only passed over. False at a list's end.
    fn node(&mut self, base: Option<u64>, level: u32) -> Read<bool> {
        let ranges = self.cursor.unsigned()?;
        if ranges == 0 {
            return Ok(false);
        }
        if level == 65 {
            return Err(Stop::Outside(Rule::Level65));
        }
        let (mut first, mut inside) = (None, false);
        for _ in 0..ranges {
            let (offset, size) = (self.cursor.unsigned()?, self.cursor.unsigned()?);
            if let Some(base) = base {
                let start = base.checked_add(offset).ok_or(Stop::Fault)?;
                let end = start.checked_add(size).ok_or(Stop::Fault)?;
                first.get_or_insert(start);
                inside |= start <= self.addr && self.addr < end;
            }
        }
        let kids = self.cursor.byte()?;
        let name = self.cursor.u32()?;
        let file = self.cursor.unsigned()?;
        if base.is_some() && file > u64::from(u32::MAX) {
            return Err(Stop::Fault);
        }
        self.cursor.unsigned()?;
        if inside && name != 0 {
            if self.frames == self.room {
                return Err(Stop::Outside(Rule::MoreThanRoom));
            }
            self.frames += 1;
        }
        if kids != 0 {
            let base = first.filter(|_| inside);
            while self.node(base, level + 1)? {}
        }
        Ok(true)
    }
}

// The rule that puts a single block outside the domain.
pub fn outside_block(bytes: &[u8], symbol: u64, addr: u64, room: usize) -> Option<Rule> {
    // where no number is signed, and none an operand
    let cursor = Cursor { bytes, at: 0, reads_on: false };
    let mut tree = Tree { cursor, addr, room, frames: 0 };
    match tree.node(Some(symbol), 1) {
        Err(Stop::Outside(rule)) => Some(rule),
        _ => None,
    }
}

fn u32_at(file: &[u8], at: usize) -> Option<u32> {
    Some(u32::from_le_bytes(file.get(at..at.checked_add(4)?)?.try_into().ok()?))
}

// The item at a place, its type and its bytes; none where the list ends there.
fn item(file: &[u8], at: usize) -> Option<(u32, &[u8])> {
    let kind = u32_at(file, at).filter(|k| *k != 0)?;
    let len = u32_at(file, at + 4)? as usize;
    Some((kind, file.get(at + 8..at + 8 + len)?))
}

// A file's tables, as far as the domain asks for them.
pub struct Tables<'a> {
    file: &'a [u8],
    base: u64,
    entries: Vec<u64>,
    offsets: usize,
    strings: &'a [u8],
    never_falls: bool,
    // Whether two entries in a row are equal.
    pub has_runs: bool,
    // As a cursor's, for the items: then only a table that falls, a first run and a sum hide what the reader meets.
    pub reads_on: bool,
}

impl<'a> Tables<'a> {
    // None where the tables don't read: every lookup is then inside.
    pub fn of(file: &'a [u8]) -> Option<Tables<'a>> {
        let u32_at = |at| u32_at(file, at);
        if u32_at(0)? != 0x4753_594d || file.get(4..6)? != [1, 0] || file.len() < 48 {
            return None;
        }
        let width = usize::from(file[6]);
        let count = u32_at(16)? as usize;
        let offsets = (48 + count * width).div_ceil(4) * 4;
        let rows = u32_at(offsets + 4 * count)? as usize;
        let strings = file.get(u32_at(20)? as usize..u32_at(20)? as usize + u32_at(24)? as usize)?;
        file.get(..offsets + 4 * count + 4 + 8 * rows)?;
        let mut entries = Vec::new();
        if matches!(width, 1 | 2 | 4 | 8) {
            for e in file[48..48 + count * width].chunks(width) {
                let mut bytes = [0; 8];
                bytes[..width].copy_from_slice(e);
                entries.push(u64::from_le_bytes(bytes));
            }
        }
        let base = u64::from_le_bytes(file[8..16].try_into().unwrap());
        let never_falls = entries.windows(2).all(|w| w[0] <= w[1]);
        let has_runs = entries.windows(2).any(|w| w[0] == w[1]);
        Some(Tables { file, base, entries, offsets, strings, never_falls, has_runs, reads_on: false })
    }

    // Addresses at and around the edges of every symbol, and inside it.
    pub fn worth_asking(&self) -> Vec<u64> {
        let mut out = vec![0, self.base.wrapping_sub(1), u64::MAX];
        for (i, entry) in self.entries.iter().enumerate() {
            let symbol = self.base.wrapping_add(*entry);
            let place = u32_at(self.file, self.offsets + 4 * i).map_or(0, |p| p as usize);
            let size = u64::from(u32_at(self.file, place).unwrap_or(0));
            out.extend([0, 1, size / 3, size / 2, size.wrapping_sub(1), size].map(|d| symbol.wrapping_add(d)));
        }
        out
    }

    // The rule that puts a lookup outside the domain.
    pub fn outside(&self, addr: u64, code: bool, inlining: bool, room: usize) -> Option<Rule> {
        if !self.never_falls {
            return Some(Rule::Falls);
        }
        let wanted = addr.checked_sub(self.base)?;
        let last = self.entries.partition_point(|e| *e <= wanted).checked_sub(1)?;
        // of equal entries in a row the first
        let i = self.entries.partition_point(|e| *e < self.entries[last]);
        if i == 0 && last > 0 && wanted > self.entries[0] {
            return Some(Rule::PastFirstRun);
        }
        let symbol = self.base + self.entries[i];
        let place = u32_at(self.file, self.offsets + 4 * i)? as usize;
        let (size, name) = (u64::from(u32_at(self.file, place)?), u32_at(self.file, place + 4)? as usize);
        if symbol.checked_add(size).is_none() {
            return Some(Rule::SumAbove);
        }
        if size != 0 && addr - symbol >= size {
            return None;
        }
        let text = self.strings.get(name..)?;
        std::str::from_utf8(&text[..text.iter().position(|b| *b == 0)?]).ok()?;
        if !code {
            return None;
        }
        match self.items(place + 8, symbol, addr, inlining, room) {
            Err(Stop::Outside(rule)) => Some(rule),
            _ => None,
        }
    }

    // The items of an entry; a fault ends them inside the domain.
    fn items(&self, mut at: usize, symbol: u64, addr: u64, inlining: bool, room: usize) -> Read<()> {
        let (mut row, mut frames) = (false, 0);
        while let Some((kind, bytes)) = item(self.file, at) {
            at += 8 + bytes.len();
            let cursor = Cursor { bytes, at: 0, reads_on: self.reads_on };
            if kind == 1 && !row {
                row = has_row(cursor, symbol, addr)?;
            } else if kind == 2 && inlining && frames == 0 {
                let mut tree = Tree { cursor, addr, room, frames: 0 };
                tree.node(Some(symbol), 1)?;
                frames = tree.frames;
            }
        }
        Ok(())
    }

    // For a check that refuses an entry with 9, 10 or 15, so that all before it is well: the rule of the first line
    // header or tree there that doesn't read; none where it is short.
    pub fn first_unread(&self, entry: usize) -> Option<Rule> {
        let mut at = u32_at(self.file, self.offsets + 4 * entry)? as usize + 8;
        while let Some((kind, bytes)) = item(self.file, at) {
            at += 8 + bytes.len();
            let mut cursor = Cursor { bytes, at: 0, reads_on: true };
            let read = match kind {
                1 => header(&mut cursor).map(|_| ()),
                2 => Tree { cursor, addr: 0, room: 0, frames: 0 }.node(None, 1).map(|_| ()),
                _ => Ok(()),
            };
            match read {
                Ok(()) => {}
                Err(Stop::Outside(rule)) => return Some(rule),
                Err(Stop::Fault) => return None,
            }
        }
        None
    }
}
