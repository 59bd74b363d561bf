//! What the binding makes of a library of another version (other.c): no panic, and nothing out of bounds.
use gsym::{block_frames, check, check_library, lookup, version, FindSymOpts, Resolver};
use gsym::{Finding, Frame, InlineFrame, Options, Reason, Refusal};

fn main() {
    let file = b"abc";
    let mut frames = [Frame::default(); 3];
    let mut look = |addr| lookup(file, addr, Options::ALL, &mut frames);
    assert_eq!(look(0), Err(Refusal::UnknownAddress));
    for (addr, number) in [(1, 16), (2, u32::MAX)] {
        let refusal = look(addr).unwrap_err();
        assert!(matches!(refusal, Refusal::Other { .. }));
        assert_eq!((refusal.number(), refusal.text()), (number, "a refusal of a later library"));
        assert_eq!(refusal.to_string(), format!("a refusal of a later library, number {}", number));
    }
    let answer = look(3).unwrap();
    assert_eq!((answer.count, answer.name.bytes(file), answer.name.str(file)), (3, &b""[..], None));
    assert_eq!(answer.calls(file, &frames).count(), 4);
    let mut list = [InlineFrame::default(); 2];
    assert_eq!(block_frames(file, 0, 0, &mut list), Ok(2));
    assert_eq!(block_frames(file, 0, 1, &mut list).unwrap_err().number(), 99);
    let resolver = Resolver::new(&file[..]).unwrap();
    assert_eq!(resolver.find_sym(0, &FindSymOpts::Basic), Ok(Err(Reason::UnknownAddr)));
    assert_eq!(resolver.find_sym(1, &FindSymOpts::Basic).unwrap_err().number(), 16);
    assert_eq!(resolver.find_sym(3, &FindSymOpts::CodeInfoAndInlined).unwrap().unwrap().inlined.len(), 64);
    assert_eq!(check(&[]), Ok(()));
    assert_eq!(check(&[0; 3]), Err(Finding::Tables(Refusal::WrongMagic)));
    for (len, number) in [(4, u32::MAX), (14, 14), (15, 15), (16, 16), (25, 25), (99, 99)] {
        let found = check(&[0; 99][..len]).unwrap_err();
        assert_eq!(found.number(), number);
        if number > 15 {
            assert_eq!(found, Finding::Other { number, entry: u32::MAX });
            assert_eq!(found.to_string(), format!("a finding of a later library, number {}", number));
        } else {
            assert!(matches!(found, Finding::Entry { index: u32::MAX, .. }));
        }
    }
    // the library is asked once
    assert_eq!((version(), version()), (300, 300));
    assert_eq!(check_library().unwrap_err().found, 300);
}
