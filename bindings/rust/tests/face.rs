//! The safe face on the sample file, on torn prefixes of it, and on the marked examples of RULES.
use gsym::{block_frames, check, check_library, lookup, version, Fault, Finding};
use gsym::{Frame, InlineFrame, Options, Refusal, Resolver, Text, VERSION};

fn sample() -> Vec<u8> {
    std::fs::read(concat!(env!("CARGO_MANIFEST_DIR"), "/tests/connector.gsym")).unwrap()
}

const MARK: Frame =
    Frame { name: Text { place: 7, len: 7 }, dir: Text { place: 7, len: 7 }, file: Text { place: 7, len: 7 }, line: 7 };

#[test]
fn calls_go_from_the_innermost_outwards() {
    let file = sample();
    let mut frames = [MARK; 5];
    let answer = lookup(&file, 0x1155, Options::ALL, &mut frames).unwrap();
    assert_eq!((answer.addr, answer.size, answer.count), (0x10a0, 0x100, 2));
    let calls: Vec<_> = answer.calls(&file, &frames).collect();
    let names: Vec<_> = calls.iter().map(|c| (c.name, c.file, c.line)).collect();
    assert_eq!(
        names,
        [
            ("send_request", &b"post.c"[..], Some(35)),
            ("post_order", b"post.c", Some(18)),
            ("sync_orders", b"sync.c", Some(44))
        ]
    );
    assert!(calls.iter().all(|c| c.dir == b"/src/connector"));
    assert_eq!(frames[2..], [MARK; 3]);
}

#[test]
fn less_is_asked_for() {
    let file = sample();
    let mut frames = [MARK; 3];
    let plain = lookup(&file, 0x1155, Options::CODE_INFO, &mut frames).unwrap();
    let position = plain.position.unwrap();
    assert_eq!((position.file.bytes(&file), position.line, plain.count), (&b"post.c"[..], 35, 0));
    let name = lookup(&file, 0x1155, Options::NAME, &mut frames).unwrap();
    assert_eq!((name.name.str(&file), name.position), (Some("sync_orders"), None));
    assert_eq!(frames, [MARK; 3]);
}

#[test]
fn refusals_change_nothing() {
    let file = sample();
    let mut frames = [MARK; 2];
    assert_eq!(lookup(&file, 0x11d5, Options::ALL, &mut frames), Err(Refusal::UnreadName));
    assert_eq!(lookup(&file, 0xfff, Options::ALL, &mut frames), Err(Refusal::UnknownAddress));
    assert_eq!(lookup(&file, 0x1155, Options::ALL, &mut frames), Err(Refusal::TooManyFrames));
    assert_eq!(lookup(&[], 0, Options::NAME, &mut []), Err(Refusal::TooFewBytes));
    assert_eq!(frames, [MARK; 2]);
}

#[test]
fn torn_files_are_answered() {
    let file = sample();
    for cut in 0..file.len() {
        for addr in [0x1000, 0x1065, 0x1155, 0x11d5] {
            let mut frames = [MARK; 64];
            if let Err(refusal) = lookup(&file[..cut], addr, Options::ALL, &mut frames) {
                assert_ne!(refusal, Refusal::TooWide);
                assert_eq!(frames, [MARK; 64]);
            }
        }
    }
}

#[test]
fn marked_examples() {
    let block = |root| [1, 0, 0x20, 1, root, 0, 0, 0, 0, 0, 1, 4, 8, 0, 5, 0, 0, 0, 1, 10, 0];
    let frame = |name, call_file, call_line| InlineFrame { name, call_file, call_line };
    let mut list = [frame(9, 9, 9); 3];
    assert_eq!(block_frames(&block(1), 0x1000, 0x1005, &mut list), Ok(2));
    assert_eq!(list, [frame(1, 0, 0), frame(5, 1, 10), frame(9, 9, 9)]);
    let mut list = [frame(9, 9, 9); 3];
    assert_eq!(block_frames(&block(1), 0x1000, 0x100c, &mut list), Ok(1));
    assert_eq!(list[..2], [frame(1, 0, 0), frame(9, 9, 9)]);
    assert_eq!(block_frames(&block(0), 0x1000, 0x1005, &mut list), Ok(1));
    assert_eq!(list[0], frame(5, 1, 10));
    assert_eq!(block_frames(&[0], 0x1000, 0x1005, &mut list), Ok(0));
    let mut short = [frame(9, 9, 9); 1];
    assert_eq!(block_frames(&block(1), 0x1000, 0x1005, &mut short), Err(Refusal::TooManyFrames));
    assert_eq!(short, [frame(9, 9, 9)]);
}

#[test]
fn a_block_is_torn_or_too_wide() {
    // the marked one, by the line of the call in its child, which is closed at 0x100c and passed over at 0x1020
    let block = |line: &[u8]| {
        let mut block = vec![1u8, 0, 0x20, 1, 1, 0, 0, 0, 0, 0, 1, 4, 8, 0, 5, 0, 0, 0, 1];
        block.extend_from_slice(line);
        block.push(0);
        block
    };
    let mark = InlineFrame { name: 9, call_file: 9, call_line: 9 };
    let nine_and = |tenth: u8| [0xff, 0xff, 0xff, 0xff, 0xff, 0xff, 0xff, 0xff, 0xff, tenth];
    for (addr, count) in [(0x1005, 2), (0x100c, 1), (0x1020, 0)] {
        let mut list = [mark; 3];
        // 2^64-1, which is told as the largest line
        let reads = block(&nine_and(1));
        assert_eq!(block_frames(&reads, 0x1000, addr, &mut list), Ok(count));
        assert!(count < 2 || list[1].call_line == u32::MAX);
        let mut list = [mark; 3];
        // above it, and what asks for an eleventh byte
        for tenth in [2, 0x7f, 0x80, 0xff] {
            let wide = block(&nine_and(tenth));
            assert_eq!(block_frames(&wide, 0x1000, addr, &mut list), Err(Refusal::TooWide));
            // cut before its tenth byte it is torn
            for cut in 0..wide.len() - 1 {
                assert_eq!(block_frames(&wide[..cut], 0x1000, addr, &mut list), Err(Refusal::UnreadInline));
            }
        }
        for cut in 0..reads.len() {
            assert_eq!(block_frames(&reads[..cut], 0x1000, addr, &mut list), Err(Refusal::UnreadInline));
        }
        assert_eq!(list, [mark; 3]);
    }
}

#[test]
fn a_lookup_is_torn_or_too_wide() {
    let refused = |changes: &[(usize, &[u8])], addr, options| {
        let mut file = good();
        for (place, bytes) in changes {
            put(&mut file, *place, bytes);
        }
        lookup(&file, addr, options, &mut [MARK; 64]).err()
    };
    // the first number of a line table's header, and the header cut to two bytes
    for options in [Options::CODE_INFO, Options::ALL] {
        assert_eq!(refused(&[(276, &[0xff; 10])], 0x1065, options), Some(Refusal::TooWide));
        assert_eq!(refused(&[(272, &[2])], 0x1065, options), Some(Refusal::UnreadLineHeader));
    }
    assert_eq!(refused(&[(276, &[0xff; 10])], 0x1065, Options::NAME), None);
    // the last ten bytes of an inline block, and the last nine
    assert_eq!(refused(&[(372, &[0xff; 10])], 0x1155, Options::ALL), Some(Refusal::TooWide));
    assert_eq!(refused(&[(373, &[0xff; 9])], 0x1155, Options::ALL), Some(Refusal::UnreadInline));
    assert_eq!(refused(&[(372, &[0xff; 10])], 0x1155, Options::CODE_INFO), None);
    // an operand of a line program only ends it
    assert_eq!(refused(&[(315, &WIDE_OPERAND)], 0x1155, Options::ALL), None);
}

#[test]
fn refusals_have_their_numbers() {
    for (i, r) in Refusal::ALL.iter().enumerate() {
        assert_eq!(r.number() as usize, i + 1);
        assert!(!r.text().is_empty());
    }
    assert_eq!(Refusal::TooDeep.to_string(), "inlined calls on more than 64 levels");
    assert_eq!((Refusal::TooWide.number(), Refusal::ALL.len()), (15, 15));
    assert_eq!((version(), version(), VERSION), (200, 200, 200));
    assert_eq!(check_library(), Ok(()));
}

#[test]
fn texts_that_fit_and_that_do_not() {
    let bytes = b"abcd";
    for place in 0..7 {
        for len in 0..7 {
            let part = Text { place, len }.bytes(bytes);
            if place + len <= 4 {
                assert_eq!(part, &bytes[place as usize..(place + len) as usize]);
                assert_eq!(part.as_ptr(), bytes[place as usize..].as_ptr());
            } else {
                assert_eq!((part, Text { place, len }.str(bytes)), (&b""[..], None));
            }
        }
    }
    for text in [Text { place: u64::MAX, len: 2 }, Text { place: 2, len: u64::MAX }] {
        assert_eq!((text.bytes(bytes), text.str(bytes)), (&b""[..], None));
    }
    assert_eq!(Text { place: 0, len: 0 }.str(&[]), Some(""));
    assert_eq!(Text { place: 0, len: 1 }.str(b"\xff"), None);
}

/// The sample with the name of its last symbol, which doesn't read on purpose, made one that does.
fn good() -> Vec<u8> {
    let mut file = sample();
    put(&mut file, 428, &1u32.to_le_bytes());
    file
}

/// An opcode with a number that asks for an eleventh byte.
const WIDE_OPERAND: [u8; 11] = [2, 0xff, 0xff, 0xff, 0xff, 0xff, 0xff, 0xff, 0xff, 0xff, 0xff];

fn put(file: &mut [u8], place: usize, bytes: &[u8]) {
    file[place..place + bytes.len()].copy_from_slice(bytes);
}

/// What is found in the good file with some bytes changed.
fn found(changes: &[(usize, &[u8])]) -> Result<(), Finding> {
    let mut file = good();
    for (place, bytes) in changes {
        put(&mut file, *place, bytes);
    }
    let said = check(&file);
    assert_eq!(Resolver::new(file).map(|r| r.check()), said.map_or_else(as_opened, |()| Ok(Ok(()))));
    said
}

/// What a resolver tells of a finding: the tables when it is made, the rest when it checks.
fn as_opened(found: Finding) -> Result<Result<(), Finding>, Refusal> {
    match found {
        Finding::Tables(refusal) => Err(refusal),
        found => Ok(Err(found)),
    }
}

#[test]
fn a_check_of_the_tables() {
    assert_eq!(found(&[]), Ok(()));
    assert_eq!(check(&[]), Err(Finding::Tables(Refusal::TooFewBytes)));
    assert_eq!(found(&[(0, b"G")]), Err(Finding::Tables(Refusal::WrongMagic)));
    assert_eq!(found(&[(4, &[2])]), Err(Finding::Tables(Refusal::WrongVersion)));
    assert_eq!(found(&[(24, &[0xff; 4])]), Err(Finding::Tables(Refusal::TooFewBytes)));
    assert_eq!(found(&[(6, &[3])]), Err(Finding::OffsetSize));
    assert_eq!((Finding::OffsetSize.number(), Finding::Tables(Refusal::WrongMagic).number()), (20, 3));
}

#[test]
fn a_check_of_the_entries() {
    let entry = |index, fault| Err(Finding::Entry { index, fault });
    let refused = |index, refusal| entry(index, Fault::Refused(refusal));
    // so that the last symbol ends at 2^64-1, and one further
    let base = u64::MAX - 0x1d0 - 32;
    let (last, above) = (base.to_le_bytes(), (base + 1).to_le_bytes());
    assert_eq!(check(&sample()), refused(4, Refusal::UnreadName));
    assert_eq!(found(&[(50, &[0, 0])]), Ok(()));
    assert_eq!(found(&[(48, &[0xff, 0])]), entry(1, Fault::FallingTable));
    assert_eq!(found(&[(72, &[0xff; 4])]), refused(3, Refusal::UnreadInfo));
    assert_eq!(found(&[(8, &last)]), Ok(()));
    assert_eq!(found(&[(8, &above)]), entry(4, Fault::SumTooLarge));
    // items: a special opcode where min and max leave no range, an operand too wide, a list that doesn't end, a header,
    // an inline tree
    assert_eq!(found(&[(236, &[0, 0x7f, 10, 4])]), entry(0, Fault::StoppedProgram));
    assert_eq!(found(&[(315, &WIDE_OPERAND)]), entry(2, Fault::StoppedProgram));
    assert_eq!(found(&[(250, &[9]), (254, &[0xff; 4])]), entry(0, Fault::OpenList));
    assert_eq!(found(&[(272, &[2])]), refused(1, Refusal::UnreadLineHeader));
    assert_eq!(found(&[(276, &[0xff; 10])]), refused(1, Refusal::TooWide));
    assert_eq!(found(&[(381, &[1])]), refused(2, Refusal::UnreadInline));
    assert_eq!(found(&[(373, &[0xff; 9])]), refused(2, Refusal::UnreadInline));
    assert_eq!(found(&[(372, &[0xff; 10])]), refused(2, Refusal::TooWide));
    assert_eq!(found(&[(8, &last), (350, &[0xff, 0x7f])]), refused(2, Refusal::InlineSumTooLarge));
    assert_eq!(found(&[(368, &[0xff, 0xff, 0xff, 0xff, 0x7f])]), refused(2, Refusal::CallFileTooLarge));
    for levels in [64, 65] {
        let mut file = good();
        let start = file.len() as u32;
        put(&mut file, 64, &start.to_le_bytes());
        file.extend([0, 0, 0, 0, 1, 0, 0, 0, 2, 0, 0, 0]);
        file.extend((levels * 11 - 1u32).to_le_bytes());
        for level in 1..=levels {
            file.extend([1, 0, 8, u8::from(level < levels), 1, 0, 0, 0, 1, 1]);
        }
        file.extend((1..levels).map(|_| 0));
        file.extend([0; 8]);
        assert_eq!(check(&file), if levels == 64 { Ok(()) } else { refused(1, Refusal::TooDeep) });
    }
}

#[test]
fn torn_files_do_not_pass() {
    let file = good();
    // the last entry's list ends the file: type 0, whose length is not judged
    for cut in 0..=file.len() {
        let said = check(&file[..cut]);
        assert_eq!(said.is_ok(), cut + 4 >= file.len());
        assert_ne!(said.map_err(Finding::number), Err(Refusal::TooWide.number()));
    }
}

#[test]
fn findings_have_their_words() {
    let found = Finding::Entry { index: 3, fault: Fault::OpenList };
    assert_eq!(found.to_string(), "entry 3: the address data list doesn't end in type 0");
    assert_eq!(found.number(), 24);
    let found = Finding::Entry { index: 0, fault: Fault::Refused(Refusal::TooDeep) };
    assert_eq!(found.to_string(), "entry 0: inlined calls on more than 64 levels");
    let found = Finding::Entry { index: 2, fault: Fault::Refused(Refusal::TooWide) };
    assert_eq!(found.to_string(), "entry 2: a number wider than 64 bits: from a broken producer, not a torn file");
    assert_eq!(found.number(), 15);
    assert_eq!(Finding::Tables(Refusal::WrongMagic).to_string(), Refusal::WrongMagic.text());
    assert_eq!(Finding::OffsetSize.to_string(), "an offset size other than 1, 2, 4 and 8");
    let later = Finding::Other { number: 77, entry: 1 };
    assert_eq!((later.number(), later.to_string()), (77, "a finding of a later library, number 77".into()));
}
