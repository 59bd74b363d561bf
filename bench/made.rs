// Files made for rows of the bench: many symbols by name alone, also many at one address, line tables without a row and
// with one that is past the address, names of two-byte letters.

// A file of symbols at 0x1000, `size` bytes apart and so large, `run` of them at each address, in entries of `width`
// bytes, 4 or 8: the string table's bytes, then what stands at each data offset behind it.
fn file(width: u8, size: u32, run: u32, strings: &[u8], data: &[Vec<u8>]) -> Vec<u8> {
    let n = data.len() as u32;
    let mut out = 0x4753_594du32.to_le_bytes().to_vec();
    out.extend([1, 0, width, 0]);
    out.extend(0x1000u64.to_le_bytes());
    out.extend(n.to_le_bytes());
    let strings_at = 48 + u32::from(width) * n + 4 * n + 4 + 8;
    out.extend(strings_at.to_le_bytes());
    out.extend((strings.len() as u32).to_le_bytes());
    out.resize(48, 0);
    (0..n).for_each(|i| out.extend(&u64::from(size * (i / run)).to_le_bytes()[..usize::from(width)]));
    let mut at = strings_at + strings.len() as u32;
    for d in data {
        out.extend(at.to_le_bytes());
        at += d.len() as u32;
    }
    out.extend(1u32.to_le_bytes());
    out.extend([0; 8]);
    out.extend(strings);
    data.iter().for_each(|d| out.extend(d));
    out
}

fn item(kind: u32, bytes: &[u8]) -> Vec<u8> {
    [&kind.to_le_bytes(), &(bytes.len() as u32).to_le_bytes(), bytes].concat()
}

fn info(size: u32, name: u32, items: &[u8]) -> Vec<u8> {
    [&size.to_le_bytes(), &name.to_le_bytes(), items, &[0; 8]].concat()
}

// Symbols of 16 bytes each, names alone, all of them `main`, so many at each address, in entries of 4 or 8 bytes.
pub fn plain(width: u8, n: u32, run: u32) -> Vec<u8> {
    let data: Vec<_> = (0..n).map(|_| info(16, 1, &[])).collect();
    file(width, 16, run, b"\0main\0\0\0", &data)
}

// One symbol with so many line tables, none of which has a row.
pub fn tables(n: usize) -> Vec<u8> {
    file(4, 16, 1, b"\0main\0\0\0", &[info(16, 1, &item(1, &[0, 0, 1, 0]).repeat(n))])
}

// The same, each with one row, 15 bytes past the symbol's start.
pub fn rows(n: usize) -> Vec<u8> {
    file(4, 16, 1, b"\0main\0\0\0", &[info(16, 1, &item(1, &[0, 0, 1, 2, 15, 0]).repeat(n))])
}

// Symbols whose names are so many letters of two bytes each, all different.
pub fn letters(n: u32, each: u32) -> Vec<u8> {
    let (mut strings, mut data) = (vec![0], vec![]);
    for i in 0..n {
        data.push(info(16, strings.len() as u32, &[]));
        let name: String = (0..each).map(|k| char::from_u32(0x80 + (i * 31 + k * 7) % 0x780).unwrap()).collect();
        strings.extend(name.as_bytes());
        strings.push(0);
    }
    strings.resize(strings.len().next_multiple_of(4), 0);
    file(4, 16, 1, &strings, &data)
}
