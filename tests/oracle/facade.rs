// What the comparison calls of the unchanged Rust. It stands inside its module `gsym`, so that it reaches what is
// public there only; each function only hands on. With `--cfg one_caller` what would be a second caller of `run_op` is
// left out, so that the compiler may compile that function into the loop, as it may in the crate itself.
use super::linetab::run_op;
use super::linetab::LineTableHeader;
use super::linetab::LineTableRow;
use super::linetab::RunResult;
use crate::util::ReadRaw as _;

// LEB128: the value and how many bytes were taken.
pub fn unsigned(data: &[u8]) -> Option<(u64, usize)> {
    let mut rest = data;
    let value = rest.read_u64_leb128()?;
    Some((value, data.len() - rest.len()))
}

pub fn signed(data: &[u8]) -> Option<(i64, usize)> {
    let mut rest = data;
    let value = rest.read_i64_leb128()?;
    Some((value, data.len() - rest.len()))
}

pub fn header(data: &[u8]) -> Option<(LineTableHeader, usize)> {
    let mut rest = data;
    let header = LineTableHeader::parse(&mut rest)?;
    Some((header, data.len() - rest.len()))
}

// One opcode: what it did, the row after it and how many bytes it took. None where it stopped.
pub enum Ran {
    Ok,
    NewRow,
    End,
}

#[cfg(not(one_caller))]
pub fn step(row: &mut LineTableRow, header: &LineTableHeader, ops: &mut &[u8]) -> Option<Ran> {
    run_op(row, header, ops).map(|r| match r {
        RunResult::Ok => Ran::Ok,
        RunResult::NewRow => Ran::NewRow,
        RunResult::End => Ran::End,
    })
}

pub fn start(header: &LineTableHeader, symbol: u64) -> LineTableRow {
    LineTableRow::from_header(header, symbol)
}

// The row for an address. The loop is that of `parse_line_tab_info` in resolver.rs, which is private there; whole
// lookups run it in its own place.
#[inline(never)]
pub fn line_row(mut data: &[u8], symbol: u64, addr: u64) -> Result<Option<LineTableRow>, ()> {
    let header = LineTableHeader::parse(&mut data).ok_or(())?;
    let mut row = LineTableRow::from_header(&header, symbol);
    let mut last = row;
    let mut rows = 0;
    while !data.is_empty() {
        match run_op(&mut row, &header, &mut data) {
            Some(RunResult::Ok) => {}
            Some(RunResult::NewRow) => {
                rows += 1;
                if addr < row.addr {
                    if rows == 1 {
                        return Ok(None);
                    }
                    row = last;
                    break;
                }
                last = row;
            }
            Some(RunResult::End) | None => break,
        }
    }
    Ok((rows != 0).then_some(row))
}

// The frames of one inline block as name, call file, call line; or the text of the fault.
pub fn block(mut data: &[u8], symbol: u64, addr: u64) -> Result<Vec<(u32, u32, u32)>, String> {
    let mut stack = Vec::new();
    super::inline::InlineInfo::parse_inline_stack(&mut data, symbol, addr, &mut stack).map_err(|e| e.0)?;
    Ok(stack.into_iter().map(|f| (f.name, f.call_file, f.call_line)).collect())
}

// How many frames one inline block has, on a list that is used again as the resolver's is.
#[inline(never)]
pub fn count_frames(mut data: &[u8], symbol: u64, addr: u64) -> u64 {
    thread_local! {
        static STACK: std::cell::RefCell<Vec<super::inline::InlineFrame>> = const { std::cell::RefCell::new(Vec::new()) };
    }
    STACK.with_borrow_mut(|stack| {
        stack.clear();
        match super::inline::InlineInfo::parse_inline_stack(&mut data, symbol, addr, stack) {
            Ok(()) => stack.len() as u64,
            Err(_) => 0,
        }
    })
}

// A whole lookup, by the unchanged resolver.
#[cfg(not(one_caller))]
pub fn with_file<T>(
    file: &[u8],
    addr: u64,
    code: bool,
    inlined: bool,
    f: impl FnOnce(Result<Option<crate::symbolize::ResolvedSym<'_>>, String>) -> T,
) -> T {
    use crate::symbolize::FindSymOpts;
    use crate::symbolize::Symbolize as _;
    match super::resolver::GsymResolver::with_data(file) {
        Err(e) => f(Err(e.0)),
        Ok(resolver) => match resolver.find_sym(addr, &FindSymOpts { code, inlined }) {
            Err(e) => f(Err(e.0)),
            Ok(Err(_)) => f(Ok(None)),
            Ok(Ok(sym)) => f(Ok(Some(sym))),
        },
    }
}

// The refusal number that an error text means; it tells 2 to 12 apart.
pub fn refusal_number(text: &str) -> u8 {
    match text {
        t if t.contains("sufficient bytes") => 2,
        t if t.contains("magic") => 3,
        t if t.contains("version") => 4,
        t if t.contains("address information entry") => 5,
        t if t.contains("string table entry") => 6,
        t if t.contains("file info data") => 7,
        t if t.contains("directory string") || t.contains("file name string") => 8,
        t if t.contains("line table header") => 9,
        t if t.contains("from inline information") => 10,
        t if t.contains("overflowed") => 11,
        t if t.contains("call file index") => 12,
        t => panic!("no number for: {t}"),
    }
}

// A file that is opened once and looked up in many times, as the Rust's users do.
#[cfg(not(one_caller))]
pub struct Opened<'a>(super::resolver::GsymResolver<'a>);

#[cfg(not(one_caller))]
pub fn open(file: &[u8]) -> Option<Opened<'_>> {
    super::resolver::GsymResolver::with_data(file).ok().map(Opened)
}

#[cfg(not(one_caller))]
impl Opened<'_> {
    #[inline(never)]
    pub fn find(&self, addr: u64, code: bool, inlined: bool) -> Option<crate::symbolize::ResolvedSym<'_>> {
        use crate::symbolize::FindSymOpts;
        use crate::symbolize::Symbolize as _;
        self.0.find_sym(addr, &FindSymOpts { code, inlined }).ok()?.ok()
    }
}

// The refusal number of a header's fault: 2, 3 or 4.
pub fn header_fault(file: &[u8]) -> Option<u8> {
    match super::parser::GsymContext::parse_header(file) {
        Ok(_) => None,
        Err(e) if e.0.contains("magic") => Some(3),
        Err(e) if e.0.contains("version") => Some(4),
        Err(_) => Some(2),
    }
}

// The entry of an address, and its own address.
pub fn entry(file: &[u8], addr: u64) -> Option<(usize, u64)> {
    let ctx = super::parser::GsymContext::parse_header(file).ok()?;
    let i = ctx.find_addr(addr)?;
    Some((i, ctx.addr_at(i)?))
}

// Size and name of an entry.
pub fn info(file: &[u8], i: usize) -> Option<(u32, u32)> {
    let ctx = super::parser::GsymContext::parse_header(file).ok()?;
    let info = ctx.addr_info(i)?;
    Some((info.size, info.name))
}

// Directory and file name of a row of the file table.
pub fn file_row(file: &[u8], i: usize) -> Option<(u32, u32)> {
    let ctx = super::parser::GsymContext::parse_header(file).ok()?;
    let row = ctx.file_info(i)?;
    Some((row.directory, row.filename))
}

// Kind, place and length of an item of an entry's list.
pub fn item(file: &[u8], i: usize, nth: usize) -> Option<(u32, usize, usize)> {
    let ctx = super::parser::GsymContext::parse_header(file).ok()?;
    let info = ctx.addr_info(i)?;
    let item = super::parser::parse_address_data(info.data).nth(nth)?;
    Some((item.typ, item.data.as_ptr() as usize - file.as_ptr() as usize, item.data.len()))
}

// A plain walk of a whole file of so many entries: each entry's information and name, each line table run to its end,
// and each inline tree read to its end. The rows and frames on the way; None where something doesn't read. It stands
// here only with `--cfg walk`, since a caller more may change how `run_op` is compiled.
#[cfg(walk)]
#[inline(never)]
pub fn walk(file: &[u8], count: usize) -> Option<u64> {
    let ctx = super::parser::GsymContext::parse_header(file).ok()?;
    let mut stack = Vec::new();
    let mut met = 0;
    for i in 0..count {
        let symbol = ctx.addr_at(i)?;
        let info = ctx.addr_info(i)?;
        ctx.get_str(info.name as usize)?.to_str()?;
        for item in super::parser::parse_address_data(info.data) {
            let mut data = item.data;
            match item.typ {
                1 => {
                    let header = LineTableHeader::parse(&mut data)?;
                    let mut row = LineTableRow::from_header(&header, symbol);
                    while !data.is_empty() {
                        match run_op(&mut row, &header, &mut data)? {
                            RunResult::Ok => {}
                            RunResult::NewRow => met += 1,
                            RunResult::End => break,
                        }
                    }
                }
                2 => {
                    stack.clear();
                    super::inline::InlineInfo::parse_inline_stack(&mut data, symbol, symbol, &mut stack).ok()?;
                    met += stack.len() as u64;
                }
                _ => {}
            }
        }
    }
    Some(met)
}
