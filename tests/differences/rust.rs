// What the unchanged Rust answers: a line of standard input is the file's bytes in hexadecimal (`.` for none), ADDRESS,
// OPTIONS and SHIFT, where the file is put so many bytes past a place divisible by 8; a line of output is the refusal's
// number after a question mark, or the frames from the innermost outwards, NAME@DIRECTORY/FILE:LINE, ` < ` between,
// and after tabs the symbol's address and size.
use oracle::gsym::facade;
use oracle::symbolize::CodeInfo;
use oracle::symbolize::ResolvedSym;
use std::io::BufRead as _;

mod out {
    #![allow(dead_code)]
    include!(concat!(env!("ORACLE_SOURCES"), "/lookup/out.rs"));
}

fn printed(bytes: &[u8]) -> String {
    let one = |b: &u8| if (32..127).contains(b) { char::from(*b).to_string() } else { format!("\\x{b:02x}") };
    bytes.iter().map(one).collect()
}

fn frame(name: &str, code: Option<&CodeInfo<'_>>) -> String {
    let name = printed(name.as_bytes());
    match code {
        None => name,
        Some(c) => {
            let dir = printed(c.dir.as_ref().unwrap().as_os_str().as_encoded_bytes());
            let slash = if dir.is_empty() { "" } else { "/" };
            let file = printed(c.file.as_encoded_bytes());
            format!("{name}@{dir}{slash}{file}:{}", c.line.unwrap())
        }
    }
}

fn told(said: Result<Option<ResolvedSym<'_>>, String>) -> String {
    match said {
        Err(text) => format!("?{}", facade::refusal_number(&text)),
        Ok(None) => "?1".into(),
        Ok(Some(sym)) => {
            let inner = sym.inlined.iter().rev().map(|i| frame(&i.name, i.code_info.as_ref()));
            let all: Vec<_> = inner.chain([frame(sym.name, sym.code_info.as_deref())]).collect();
            format!("{}\t{}\t{}", all.join(" < "), sym.addr, sym.size.unwrap())
        }
    }
}

fn main() {
    for line in std::io::stdin().lock().lines() {
        let line = line.unwrap();
        let words: Vec<&str> = line.split(' ').collect();
        let bytes = words[0].trim_matches('.').as_bytes().chunks(2);
        let file = bytes.map(|b| u8::from_str_radix(std::str::from_utf8(b).unwrap(), 16).unwrap()).collect();
        let number = |i: usize| words[i].parse::<u64>().unwrap();
        let (opts, shift) = (number(2), number(3) as usize);
        let moved = [vec![0; shift], file].concat();
        let said = out::aligned(&moved, |m| {
            facade::with_file(&m[shift..], number(1), opts & 1 != 0, opts & 2 != 0, told)
        });
        println!("{said}");
    }
}
