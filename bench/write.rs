// Writing a file, beside a copy of as many bytes: the content of a file is read into rows by the layout alone, and
// `gsym_write` writes it. `write FILE check` says what was read and written, that what is behind the file stays, and
// that the unchanged Rust answers alike in both files at four addresses of each symbol; `write FILE time PASSES` prints
// medians and bytes a second; `write FILE rust` makes one copy and `write FILE rattle` writes once, for counting
// instructions. Of equal entries in a row, which a writer refuses, the first is written: it alone is found.
mod shared;

use oracle::gsym::facade;
use std::hint::black_box;

#[repr(C)]
struct Entry {
    addr: u64,
    items: u64,
    size: u32,
    name: u32,
}

#[repr(C)]
struct Item {
    len: u64,
    kind: u32,
}

#[repr(C)]
struct File {
    directory: u32,
    filename: u32,
}

#[repr(C)]
struct Written {
    len: u64,
    index: u64,
    number: u32,
    of_file: u32,
}

extern "C" {
    #[link_name = "gsym_write_1"]
    fn gsym_write(
        entries: *const Entry,
        entry_count: usize,
        items: *const Item,
        item_count: usize,
        bytes: *const u8,
        bytes_len: usize,
        files: *const File,
        file_count: usize,
        strings: *const u8,
        strings_len: usize,
        out: *mut u8,
        out_len: usize,
    ) -> Written;
}

struct Rows<'a> {
    entries: Vec<Entry>,
    items: Vec<Item>,
    bytes: Vec<u8>,
    files: Vec<File>,
    strings: &'a [u8],
}

fn rows(file: &[u8]) -> Rows<'_> {
    let number = |at: usize| u32::from_le_bytes(file[at..at + 4].try_into().unwrap());
    let u32_at = |at: usize| number(at) as usize;
    let (width, count) = (file[6] as usize, u32_at(16));
    let offsets = (48 + count * width + 3) / 4 * 4;
    let table = offsets + 4 * count;
    let mut rows = Rows {
        entries: Vec::new(),
        items: Vec::new(),
        bytes: Vec::new(),
        files: Vec::new(),
        strings: &file[u32_at(20)..][..u32_at(24)],
    };
    for k in 0..u32_at(table) {
        rows.files.push(File { directory: number(table + 4 + 8 * k), filename: number(table + 8 + 8 * k) });
    }
    for (i, (addr, _)) in shared::symbols(file).into_iter().enumerate() {
        if rows.entries.last().map_or(false, |last| last.addr == addr) {
            continue;
        }
        let mut at = u32_at(offsets + 4 * i);
        let mut entry = Entry { addr, items: 0, size: number(at), name: number(at + 4) };
        at += 8;
        while number(at) != 0 {
            let len = u32_at(at + 4);
            rows.items.push(Item { len: len as u64, kind: number(at) });
            rows.bytes.extend_from_slice(&file[at + 8..][..len]);
            entry.items += 1;
            at += 8 + len;
        }
        rows.entries.push(entry);
    }
    rows
}

fn write(rows: &Rows<'_>, out: &mut [u8]) -> Written {
    unsafe {
        gsym_write(
            rows.entries.as_ptr(),
            rows.entries.len(),
            rows.items.as_ptr(),
            rows.items.len(),
            rows.bytes.as_ptr(),
            rows.bytes.len(),
            rows.files.as_ptr(),
            rows.files.len(),
            rows.strings.as_ptr(),
            rows.strings.len(),
            out.as_mut_ptr(),
            out.len(),
        )
    }
}

// The copy, of bytes that are written already.
#[inline(never)]
fn rust_pass(written: &[u8], out: &mut [u8]) -> u64 {
    out[..written.len()].copy_from_slice(written);
    black_box(&*out);
    written.len() as u64
}

#[inline(never)]
fn rattle_pass(rows: &Rows<'_>, out: &mut [u8]) -> u64 {
    let answer = write(rows, out);
    black_box(&*out);
    answer.len
}

// That the Rust answers alike in both files: at each symbol's start, inside it, at its end and one before its start.
fn same_answers(file: &[u8], written: &[u8]) -> (usize, usize) {
    let (one, other) = (facade::open(file).unwrap(), facade::open(written).unwrap());
    let (mut asked, mut found) = (0, 0);
    for (addr, size) in shared::symbols(file) {
        for addr in [addr.saturating_sub(1), addr, addr + size / 2, addr + size] {
            let (one, other) = (one.find(addr, true, true), other.find(addr, true, true));
            found += usize::from(one.is_some());
            asked += 1;
            assert!(format!("{one:?}") == format!("{other:?}"), "the Rust answers otherwise at {addr:#x}");
        }
    }
    (asked, found)
}

fn main() {
    let args: Vec<String> = std::env::args().collect();
    let file = shared::aligned(std::fs::read(&args[1]).unwrap());
    let file = file.bytes();
    let rows = rows(file);
    let asked = write(&rows, &mut []);
    assert!(asked.number == 32, "refused with {} at {} ({})", asked.number, asked.index, asked.of_file);
    let len = asked.len as usize;
    // the pages of both are there before anything is measured
    let mut out = vec![0xa5; len + 64];
    let answer = write(&rows, &mut out);
    assert!(answer.number == 0 && answer.len as usize == len);
    let written = out[..len].to_vec();
    match args[2].as_str() {
        "check" => {
            assert!(out[len..].iter().all(|byte| *byte == 0xa5), "what is behind the file stays");
            let (entries, items) = (rows.entries.len(), rows.items.len());
            println!("{entries} entries, {items} items and {} files of {} bytes", rows.files.len(), file.len());
            let (asked, found) = same_answers(file, &written);
            println!("written: {len} bytes, in which the Rust answers {asked} addresses alike, {found} of them found");
            let others = file.iter().zip(&written).filter(|(a, b)| a != b).count();
            if file.len() == len {
                println!("of the bytes of the file that was read {others} are others");
            }
        }
        "time" => {
            let room = std::cell::RefCell::new(&mut out);
            let (copied, wrote) = shared::medians(
                args[3].parse().unwrap(),
                || rust_pass(&written, &mut room.borrow_mut()),
                || rattle_pass(&rows, &mut room.borrow_mut()),
            );
            let rate = |seconds: f64| len as f64 / 1e6 / seconds;
            println!(
                "time, median of {} passes: a copy {:.2} ms, writing {:.2} ms, ratio {:.3}; {:.0} and {:.0} MB/s",
                args[3],
                copied * 1e3,
                wrote * 1e3,
                wrote / copied,
                rate(copied),
                rate(wrote)
            );
        }
        "rust" => println!("{}", rust_pass(&written, &mut out)),
        "rattle" => println!("{}", rattle_pass(&rows, &mut out)),
        other => panic!("no mode {other}"),
    }
}
