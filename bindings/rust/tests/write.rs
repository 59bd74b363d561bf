//! Files that are written, and what refuses one.
#![cfg(feature = "write")]
use gsym::write::{Builder, WriteError};
use gsym::{check, lookup, Frame, Options, Refusal};

const LINES: [u8; 10] = [0, 0, 5, 1, 1, 2, 0, 2, 4, 0];

#[test]
fn the_files_of_rules() {
    let mut none = Builder::new();
    none.file(0, 0);
    let file = none.finish().unwrap();
    let mut want = vec![0x4d, 0x59, 0x53, 0x47, 1, 0, 1, 0];
    want.extend([0; 12]);
    want.extend([0x3c, 0, 0, 0, 1, 0, 0, 0]);
    want.extend([0; 20]);
    want.extend([1, 0, 0, 0, 0, 0, 0, 0, 0, 0, 0, 0, 0]);
    assert_eq!((file.len(), &file), (61, &want));

    let nothing = Builder::with_strings(Vec::new()).finish().unwrap();
    assert_eq!((nothing.len(), nothing[20], &nothing[..20]), (52, 0x34, &want[..20]));
}

#[test]
fn strings_are_there_once() {
    let mut builder = Builder::new();
    assert_eq!([builder.string(b""), builder.string(b"main"), builder.string(b"sync")], [0, 1, 6]);
    assert_eq!([builder.string(b"main"), builder.string(b"sync\0more"), builder.string(b"")], [1, 6, 0]);

    // the first of equal ones, and one that has no end yet
    let mut table = Builder::with_strings(b"a\0b\0a\0\0tail".to_vec());
    assert_eq!([table.string(b"a"), table.string(b"b"), table.string(b"")], [0, 2, 6]);
    assert_eq!([table.string(b"tail"), table.string(b"b")], [12, 2]);
    assert_eq!(Builder::with_strings(Vec::new()).string(b""), 0);
    assert_eq!(Builder::default().string(b"x"), 1);
}

#[test]
fn what_is_written_is_read() {
    let mut builder = Builder::new();
    let (name, other, dir) =
        (builder.string(b"main"), builder.string("\u{e9}t\u{e9}".as_bytes()), builder.string(b"/s"));
    let source = builder.string(b"a.c");
    assert_eq!([builder.file(0, 0), builder.file(dir, source)], [0, 1]);
    builder.entry(0x1000, 0x20, name).item(1, &LINES);
    builder.entry(0x1020, 0, other).item(9, b"abc").item(1, &LINES);
    let file = builder.finish().unwrap();
    assert_eq!(check(&file), Ok(()));
    let mut frames = [Frame::default(); 4];
    let answer = lookup(&file, 0x101f, Options::ALL, &mut frames).unwrap();
    let position = answer.position.unwrap();
    assert_eq!((answer.addr, answer.size, answer.name.str(&file)), (0x1000, 0x20, Some("main")));
    assert_eq!((position.dir.bytes(&file), position.file.bytes(&file)), (&b"/s"[..], &b"a.c"[..]));
    let answer = lookup(&file, u64::MAX, Options::NAME, &mut frames).unwrap();
    assert_eq!((answer.addr, answer.name.str(&file)), (0x1020, Some("\u{e9}t\u{e9}")));
    assert_eq!(lookup(&file, 0xfff, Options::NAME, &mut frames), Err(Refusal::UnknownAddress));

    // into every room
    for room in 0..file.len() + 3 {
        let mut out = vec![0xa5; room];
        let answer = builder.finish_into(&mut out);
        if room < file.len() {
            assert_eq!(answer, Err(WriteError::TooLittleRoom { needed: file.len() as u64 }));
            assert!(out.iter().all(|byte| *byte == 0xa5));
        } else {
            assert_eq!(answer, Ok(file.len()));
            assert!(out[..file.len()] == file[..] && out[file.len()..].iter().all(|byte| *byte == 0xa5));
        }
    }
    assert_eq!(builder.clone().finish(), Ok(file));
}

fn three() -> Builder {
    let mut builder = Builder::with_strings(b"\0sync\0\xff\0".to_vec());
    builder.file(0, 0);
    builder.entry(5, 1, 1).item(1, &LINES);
    builder.entry(6, 1, 1);
    builder
}

#[test]
fn refusals_say_why() {
    let refused = |builder: &Builder, error: WriteError, number: u32, text: &str| {
        assert_eq!(builder.finish(), Err(error));
        assert_eq!(builder.finish_into(&mut [0; 500]), Err(error));
        assert_eq!((error.number(), &*error.to_string()), (number, text));
    };
    let mut builder = three();
    builder.entry(6, 0, 0);
    refused(&builder, WriteError::NotRising { entry: 2 }, 21, "entry 2 is not above the one before it");
    let mut builder = three();
    builder.entry(u64::MAX, 1, 0);
    refused(&builder, WriteError::SumTooLarge { entry: 2 }, 22, "entry 2: the symbol ends above 2^64-1");
    for name in [6, 8, u32::MAX] {
        let mut builder = three();
        builder.entry(9, 0, name);
        let text = "entry 2: the name doesn't read, or is not UTF-8";
        refused(&builder, WriteError::UnreadName { entry: 2 }, 29, text);
    }
    let mut builder = three();
    assert_eq!(builder.file(6, 0), 1);
    assert!(builder.finish().is_ok());
    builder.file(0, 8);
    refused(&builder, WriteError::UnreadFile { file: 2 }, 29, "file 2: the directory or the file name doesn't read");
    let mut builder = three();
    builder.item(0, b"");
    refused(&builder, WriteError::EndItem { entry: 1 }, 30, "entry 1: an item of type 0");
    let mut builder = Builder::new();
    builder.item(1, &LINES).entry(1, 1, 0);
    refused(&builder, WriteError::UnevenRows, 33, "rows that don't come out: an item of no entry");
    assert_eq!(WriteError::TooLarge.number(), 31);
    assert_eq!(WriteError::TooLittleRoom { needed: 61 }.to_string(), "too little room: the file has 61 bytes");
    assert_eq!((WriteError::NoMemory.number(), WriteError::Other { number: 99 }.number()), (34, 99));
}

#[test]
fn addresses_of_every_width() {
    for (far, width) in [(1u64, 1), (255, 1), (256, 2), (65535, 2), (65536, 4), (1 << 32, 8), (u64::MAX - 7, 8)] {
        let mut builder = Builder::new();
        builder.entry(7, 1, 0).entry(7 + far, 0, 0);
        let file = builder.finish().unwrap();
        assert_eq!(file[6], width);
        for (addr, size) in [(7, 1), (7 + far, 0)] {
            let answer = lookup(&file, addr, Options::NAME, &mut []).unwrap();
            assert_eq!((answer.addr, answer.size), (addr, size));
        }
    }
}
