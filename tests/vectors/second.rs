// A second opinion on the vectors: the expected answers of crates/reader_cases/stdin against Rust's standard library,
// for every kind that it has an answer to. Prints what differs, and how many cases it judged and how many it has no
// answer to. Built and run by check.sh.
use std::ffi::CStr;
use std::io::Read as _;

fn bytes(word: &str) -> Vec<u8> {
    if word == "." {
        return Vec::new();
    }
    (0..word.len()).step_by(2).map(|i| u8::from_str_radix(&word[i..i + 2], 16).unwrap()).collect()
}

type Said = (char, u64, u64);
const UNREAD: Said = ('-', 0, 0);

// N bytes at a place, by the standard library's own bounds test.
fn fixed<const N: usize>(data: &[u8], at: u64) -> Option<[u8; N]> {
    let at = usize::try_from(at).ok()?;
    data.get(at..)?.first_chunk::<N>().copied()
}

fn number(found: Option<u64>) -> Option<Said> {
    Some(found.map_or(UNREAD, |v| ('v', v, 0)))
}

// The string at an offset of a table, as the standard library's C strings have it.
fn text(data: &[u8], place: u64, size: u64, offset: u64, utf8: bool) -> Option<Said> {
    let end = place.checked_add(size);
    let table = end.and_then(|end| data.get(place as usize..end as usize));
    let found = table.and_then(|t| t.get(offset as usize..)).and_then(|t| CStr::from_bytes_until_nul(t).ok());
    Some(match found {
        Some(s) if !utf8 || s.to_str().is_ok() => ('v', place + offset, s.to_bytes().len() as u64),
        _ => UNREAD,
    })
}

fn part(data: &[u8], place: u64, len: u64) -> Option<Said> {
    let part = place.checked_add(len).and_then(|end| data.get(place as usize..end as usize)).unwrap_or(&[]);
    Some(('v', part.len() as u64, part.iter().fold(0, |all, b| all << 8 | u64::from(*b))))
}

fn answer(kind: &str, data: &[u8], p: u64, q: u64, r: u64) -> Option<Said> {
    let value = |v: u64| Some(('v', v, 0));
    match kind {
        "b" => number(fixed(data, p).map(u8::from_le_bytes).map(u64::from)),
        "h" => number(fixed(data, p).map(u16::from_le_bytes).map(u64::from)),
        "w" => number(fixed(data, p).map(u32::from_le_bytes).map(u64::from)),
        "d" => number(fixed(data, p).map(u64::from_le_bytes)),
        "r" => value((data.len() as u64).saturating_sub(p)),
        "t" => text(data, p, q, r, false),
        "n" => text(data, p, q, r, true),
        "p" => part(data, p, q),
        "8" => value(u64::from(std::str::from_utf8(data).is_ok())),
        "+" => value((p as i64).wrapping_add(q as i64) as u64),
        "-" => value((p as i64).wrapping_sub(q as i64) as u64),
        "/" if q != 0 => value((p as i64).wrapping_div(q as i64) as u64),
        "%" if q != 0 => value((p as i64).wrapping_rem(q as i64) as u64),
        "6" => value(p.wrapping_add_signed(q as i64)),
        "3" => value(u64::from((p as u32).wrapping_add(q as u32))),
        _ => None,
    }
}

fn main() {
    let mut all = String::new();
    std::io::stdin().read_to_string(&mut all).unwrap();
    let (mut judged, mut differ, mut without) = (0, 0, 0);
    for line in all.lines().filter(|l| !l.starts_with('#') && !l.is_empty()) {
        let w: Vec<&str> = line.split(' ').collect();
        let n = |i: usize| u64::from_str_radix(w[i], 16).unwrap();
        let want = (w[5].chars().next().unwrap(), n(6), n(7));
        match answer(w[0], &bytes(w[1]), n(2), n(3), n(4)) {
            None => without += 1,
            Some(got) => {
                judged += 1;
                if got != want {
                    differ += 1;
                    println!("{line}\n  the standard library answers {got:x?}");
                }
            }
        }
    }
    println!("vectors: Rust's standard library judged {judged}, {differ} differ, no answer to {without}");
    std::process::exit(i32::from(differ != 0 || judged == 0));
}
