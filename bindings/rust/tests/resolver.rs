//! The resolver that owns a file's bytes, against the calls below it.
#![cfg(feature = "std")]
use gsym::{lookup, Fault, FindSymOpts, Finding, Frame, Options, Reason, Refusal, Resolver};

const SAMPLE: &str = concat!(env!("CARGO_MANIFEST_DIR"), "/tests/connector.gsym");
const OPTIONS: [(FindSymOpts, Options); 3] = [
    (FindSymOpts::Basic, Options::NAME),
    (FindSymOpts::CodeInfo, Options::CODE_INFO),
    (FindSymOpts::CodeInfoAndInlined, Options::ALL),
];

#[test]
fn a_symbol_with_all_that_is_known() {
    let resolver = Resolver::open(SAMPLE).unwrap().unwrap();
    let sym = resolver.find_sym(0x1155, &FindSymOpts::CodeInfoAndInlined).unwrap().unwrap();
    assert_eq!((sym.name, sym.addr, sym.size), ("sync_orders", 0x10a0, Some(0x100)));
    let outermost = sym.code_info.unwrap();
    assert_eq!(outermost.dir, Some(&b"/src/connector"[..]));
    assert_eq!((outermost.file, outermost.line), (&b"sync.c"[..], Some(44)));
    let line = |f: &gsym::InlinedFn| f.code_info.as_ref().unwrap().line;
    let inlined: Vec<_> = sym.inlined.iter().map(|f| (f.name, line(f))).collect();
    assert_eq!(inlined, [("post_order", Some(18)), ("send_request", Some(35))]);
    assert!(sym.inlined.iter().all(|f| f.code_info.as_ref().unwrap().file == b"post.c"));
}

#[test]
fn every_address_as_lookup_has_it() {
    let resolver = Resolver::open(SAMPLE).unwrap().unwrap();
    for addr in 0xff0..0x1300 {
        for (opts, options) in OPTIONS {
            let mut frames = [Frame::default(); 64];
            let low = lookup(resolver.bytes(), addr, options, &mut frames);
            match (resolver.find_sym(addr, &opts), low) {
                (Ok(Ok(sym)), Ok(answer)) => {
                    assert_eq!((sym.addr, sym.size), (answer.addr, Some(answer.size as usize)));
                    assert_eq!(Some(sym.name), answer.name.str(resolver.bytes()));
                    assert_eq!((sym.inlined.len(), sym.code_info.is_some()), (answer.count, answer.position.is_some()));
                    for (f, frame) in sym.inlined.iter().zip(&frames) {
                        assert_eq!(Some(f.name), frame.name.str(resolver.bytes()));
                        assert_eq!(f.code_info.as_ref().unwrap().line, Some(frame.line));
                    }
                }
                (Ok(Err(Reason::UnknownAddr)), Err(Refusal::UnknownAddress)) => {}
                (Err(high), Err(low)) => assert_eq!(high, low),
                (high, low) => panic!("{:#x}: {:?}, {:?}", addr, high, low),
            }
        }
    }
}

#[test]
fn a_number_that_is_too_wide() {
    // the last ten bytes of the inline block of sync_orders
    let mut file = std::fs::read(SAMPLE).unwrap();
    file[372..382].fill(0xff);
    let resolver = Resolver::new(file).unwrap();
    assert_eq!(resolver.find_sym(0x1155, &FindSymOpts::CodeInfoAndInlined), Err(Refusal::TooWide));
    let sym = resolver.find_sym(0x1155, &FindSymOpts::CodeInfo).unwrap().unwrap();
    assert_eq!((sym.name, sym.code_info.unwrap().line), ("sync_orders", Some(35)));
    assert!(matches!(resolver.find_sym(0x1065, &FindSymOpts::CodeInfoAndInlined), Ok(Ok(_))));
    assert_eq!(resolver.check(), Err(Finding::Entry { index: 2, fault: Fault::Refused(Refusal::TooWide) }));
}

#[test]
fn what_is_no_symbol_file() {
    let file = std::fs::read(SAMPLE).unwrap();
    assert_eq!(Resolver::new(&b""[..]).unwrap_err(), Refusal::TooFewBytes);
    assert_eq!(Resolver::new(&b"GSYM and more"[..]).unwrap_err(), Refusal::WrongMagic);
    assert_eq!(Resolver::new(&b"MYSG\x02\x00"[..]).unwrap_err(), Refusal::WrongVersion);
    assert!(Resolver::open("/nowhere/at/all").is_err());
    // a torn file is refused at once, or keeps answering
    for cut in 0..file.len() {
        match Resolver::new(&file[..cut]) {
            Ok(resolver) => {
                for addr in [0x1000, 0x1065, 0x1155, 0x11d5] {
                    let found = resolver.find_sym(addr, &FindSymOpts::CodeInfoAndInlined);
                    assert!(!matches!(found, Err(Refusal::TooFewBytes | Refusal::WrongMagic | Refusal::WrongVersion)));
                }
            }
            Err(refusal) => assert_eq!(refusal, Refusal::TooFewBytes),
        }
    }
}
