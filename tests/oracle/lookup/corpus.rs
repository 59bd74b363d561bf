// Whole lookups on real files: every address of LLVM's answers, answered by the unchanged Rust, which is held to LLVM's
// answers on the way. A tree with a node on level 65 is refused with 13 by RULES.
use crate::out::{limit, refused, rust, Out, Said};

const NAMES: [&str; 8] = ["cpp-gcc", "rs-calc", "deep", "c-gcc", "c-clang", "icf-merged", "far8", "tiny1"];

fn number(word: &str) -> u64 {
    match word.strip_prefix("0x") {
        Some(hex) => u64::from_str_radix(hex, 16).unwrap(),
        None => word.parse().unwrap(),
    }
}

fn text(file: &[u8], place: u64, len: u64) -> &str {
    std::str::from_utf8(&file[place as usize..(place + len) as usize]).unwrap()
}

// The Rust's answer as LLVM tells it: the places from the innermost frame out, each as name, directory, file, line.
fn as_llvm(file: &[u8], said: &Said) -> Vec<[String; 4]> {
    let place = |n: &[u64], c: &[u64]| {
        [text(file, n[0], n[1]), text(file, c[0], c[1]), text(file, c[2], c[3]), &c[4].to_string()].map(String::from)
    };
    let records = said.records.iter().rev().map(|r| place(&r[..2], &r[2..]));
    records.chain([place(&said.answer[2..4], &said.answer[5..10])]).collect()
}

fn hold(file: &[u8], said: &Said, words: &[&str]) {
    if words[1] == "err" {
        assert_eq!(*said, refused(1), "{words:?}");
        return;
    }
    assert_eq!((said.number, said.answer[0], said.answer[1]), (0, number(words[2]), number(words[3])), "{words:?}");
    let places: Vec<[String; 4]> = words[6..].chunks(5).map(|p| [p[0], p[2], p[3], p[4]].map(String::from)).collect();
    assert_eq!(places.len() as u64, number(words[5]));
    assert_eq!(as_llvm(file, said), places, "{words:?}");
}

// The folder has NAME.gsym and, unpacked, NAME.llvm.tsv.
pub fn all(o: &mut Out, folder: &str) {
    for name in NAMES {
        let file = std::fs::read(format!("{folder}/{name}.gsym")).unwrap();
        let answers = std::fs::read_to_string(format!("{folder}/{name}.llvm.tsv")).unwrap();
        o.remark(&format!("{name}: the addresses of LLVM's answers, which the Rust gives too"));
        o.file(&file);
        for line in answers.lines() {
            let words: Vec<&str> = line.split('\t').collect();
            let addr = number(words[0]);
            let said = rust(&file, addr, 3);
            hold(&file, &said, &words);
            let beyond = if said.number == 0 { limit(&file, addr, 3, 64) } else { None };
            assert!(beyond.is_none() || name == "deep" && beyond == Some(13), "{words:?}");
            o.short(addr, 3, 64, &beyond.map_or(said, refused));
            if name == "far8" || name == "tiny1" {
                o.whole(addr, 0, 0, &rust(&file, addr, 0));
                o.whole(addr, 1, 64, &rust(&file, addr, 1));
            }
        }
    }
}
