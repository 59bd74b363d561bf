//! Writes a symbol file from what it is to say: entries, each with items, files, and the strings of both. The feature
//! `write` has it, which links a library of its own, `libgsym_write`: unlike the other it takes memory.
//!
//! ```
//! use gsym::{lookup, write::Builder, Options};
//!
//! let mut builder = Builder::new();
//! let (name, dir, file) = (builder.string(b"main"), builder.string(b"/src"), builder.string(b"a.c"));
//! builder.file(0, 0); // the file 0 of line tables, by which none is named
//! builder.file(dir, file);
//! builder.entry(0x1000, 32, name);
//! builder.item(1, &[0, 0, 7, 1, 1, 2, 0, 0]); // a line table: file 1, line 7
//! let written = builder.finish()?;
//! let answer = lookup(&written, 0x1010, Options::CODE_INFO, &mut []).unwrap();
//! assert_eq!((answer.name.str(&written), answer.position.unwrap().line), (Some("main"), 7));
//! # Ok::<(), gsym::write::WriteError>(())
//! ```
use alloc::collections::BTreeMap;
use alloc::vec::Vec;
use core::fmt;
use core::mem::size_of;

/// An entry as the library has it.
#[repr(C)]
#[derive(Clone, Debug)]
struct RawEntry {
    addr: u64,
    items: u64,
    size: u32,
    name: u32,
}

#[repr(C)]
#[derive(Clone, Debug)]
struct RawItem {
    len: u64,
    kind: u32,
}

#[repr(C)]
#[derive(Clone, Debug)]
struct RawFile {
    directory: u32,
    filename: u32,
}

#[repr(C)]
struct RawWritten {
    len: u64,
    index: u64,
    number: u32,
    of_file: u32,
}

const _: () = assert!(size_of::<usize>() == 8);
const _: () = assert!(size_of::<RawEntry>() == 24 && size_of::<RawItem>() == 16 && size_of::<RawFile>() == 8);
const _: () = assert!(size_of::<RawWritten>() == 24);

extern "C" {
    // include/gsym_write.h, layout 1: a library of another layout doesn't have this name
    #[link_name = "gsym_write_1"]
    fn gsym_write(
        entries: *const RawEntry,
        entry_count: usize,
        items: *const RawItem,
        item_count: usize,
        bytes: *const u8,
        bytes_len: usize,
        files: *const RawFile,
        file_count: usize,
        strings: *const u8,
        strings_len: usize,
        out: *mut u8,
        out_len: usize,
    ) -> RawWritten;
}

/// Why a file is not written. The numbers are those of the C face.
#[non_exhaustive]
#[derive(Clone, Copy, Debug, PartialEq, Eq, Hash, PartialOrd, Ord)]
pub enum WriteError {
    /// An entry's address is not above that of the one before it.
    NotRising {
        /// The lowest such entry, counted from 0.
        entry: usize,
    },
    /// An entry's address and size come to more than 2^64-1.
    SumTooLarge {
        /// The lowest such entry, counted from 0.
        entry: usize,
    },
    /// An entry's name starts outside the strings, no zero byte follows, or it is not UTF-8.
    UnreadName {
        /// The lowest such entry, counted from 0.
        entry: usize,
    },
    /// A file's directory or its name starts outside the strings, or no zero byte follows.
    UnreadFile {
        /// The lowest such file, counted from 0.
        file: usize,
    },
    /// An item has type 0, which would end its list.
    EndItem {
        /// The lowest entry that has one, counted from 0.
        entry: usize,
    },
    /// A count, a place or a length is above 4,294,967,295.
    TooLarge,
    /// The file has more bytes than are lent for it.
    TooLittleRoom {
        /// How many bytes the file has, 2^64-1 where it has more.
        needed: u64,
    },
    /// An item was added before the first entry.
    UnevenRows,
    /// There is no memory.
    NoMemory,
    /// One that this crate has no name for: the library is newer than the crate.
    Other {
        /// Its number.
        number: u32,
    },
}

impl WriteError {
    /// What the library answered, none where it wrote.
    fn of(answer: &RawWritten) -> Option<WriteError> {
        // a library names no entry and no file that it was not given
        let entry = answer.index as usize;
        Some(match (answer.number, answer.of_file) {
            (0, _) => return None,
            (21, _) => WriteError::NotRising { entry },
            (22, _) => WriteError::SumTooLarge { entry },
            (29, 0) => WriteError::UnreadName { entry },
            (29, _) => WriteError::UnreadFile { file: entry },
            (30, _) => WriteError::EndItem { entry },
            (31, _) => WriteError::TooLarge,
            (32, _) => WriteError::TooLittleRoom { needed: answer.len },
            (33, _) => WriteError::UnevenRows,
            (34, _) => WriteError::NoMemory,
            (number, _) => WriteError::Other { number },
        })
    }

    /// Its number.
    pub fn number(self) -> u32 {
        match self {
            WriteError::NotRising { .. } => 21,
            WriteError::SumTooLarge { .. } => 22,
            WriteError::UnreadName { .. } | WriteError::UnreadFile { .. } => 29,
            WriteError::EndItem { .. } => 30,
            WriteError::TooLarge => 31,
            WriteError::TooLittleRoom { .. } => 32,
            WriteError::UnevenRows => 33,
            WriteError::NoMemory => 34,
            WriteError::Other { number } => number,
        }
    }
}

impl fmt::Display for WriteError {
    fn fmt(&self, f: &mut fmt::Formatter<'_>) -> fmt::Result {
        match self {
            WriteError::NotRising { entry } => write!(f, "entry {} is not above the one before it", entry),
            WriteError::SumTooLarge { entry } => write!(f, "entry {}: the symbol ends above 2^64-1", entry),
            WriteError::UnreadName { entry } => write!(f, "entry {}: the name doesn't read, or is not UTF-8", entry),
            WriteError::UnreadFile { file } => write!(f, "file {}: the directory or the file name doesn't read", file),
            WriteError::EndItem { entry } => write!(f, "entry {}: an item of type 0", entry),
            WriteError::TooLarge => f.write_str("a count, a place or a length above 4,294,967,295"),
            WriteError::TooLittleRoom { needed } => write!(f, "too little room: the file has {} bytes", needed),
            WriteError::UnevenRows => f.write_str("rows that don't come out: an item of no entry"),
            WriteError::NoMemory => f.write_str("no memory"),
            WriteError::Other { number } => write!(f, "refused for a reason that this crate doesn't know, {}", number),
        }
    }
}

#[cfg(feature = "std")]
impl std::error::Error for WriteError {}

/// What a file is to say. Entries go in by rising address; nothing is judged before the file is written.
#[derive(Clone, Debug)]
pub struct Builder {
    entries: Vec<RawEntry>,
    items: Vec<RawItem>,
    bytes: Vec<u8>,
    files: Vec<RawFile>,
    strings: Vec<u8>,
    /// The first offset of each string of the table.
    offsets: BTreeMap<Vec<u8>, u32>,
}

impl Default for Builder {
    fn default() -> Builder {
        Builder::new()
    }
}

/// An offset of the table; past what has 32 bits none reads, and the file is refused.
fn offset_of(place: usize) -> u32 {
    u32::try_from(place).unwrap_or(u32::MAX)
}

impl Builder {
    /// No entries and no files, and a string table of one zero byte, so that 0 is the empty string.
    pub fn new() -> Builder {
        Builder::with_strings(alloc::vec![0])
    }

    /// No entries and no files, and this string table, to which strings may be added.
    pub fn with_strings(strings: Vec<u8>) -> Builder {
        let mut offsets = BTreeMap::new();
        let mut start = 0;
        for part in strings.split(|byte| *byte == 0) {
            // the last part has no zero byte behind it
            if start + part.len() < strings.len() {
                offsets.entry(part.to_vec()).or_insert_with(|| offset_of(start));
            }
            start += part.len() + 1;
        }
        Builder { entries: Vec::new(), items: Vec::new(), bytes: Vec::new(), files: Vec::new(), strings, offsets }
    }

    /// The offset of a string, which is added where the table has none that is the same. It ends before its first zero
    /// byte, if it has one. A table that ends without a zero byte gets one first.
    pub fn string(&mut self, text: &[u8]) -> u32 {
        let text = text.split(|byte| *byte == 0).next().unwrap_or(&[]);
        if let Some(offset) = self.offsets.get(text) {
            return *offset;
        }
        if self.strings.last().map_or(false, |byte| *byte != 0) {
            self.strings.push(0);
        }
        let offset = offset_of(self.strings.len());
        self.strings.extend_from_slice(text);
        self.strings.push(0);
        self.offsets.insert(text.to_vec(), offset);
        offset
    }

    /// Adds a file by the offsets of its directory and its name: its index, as line tables and inline trees count
    /// files.
    pub fn file(&mut self, directory: u32, filename: u32) -> u32 {
        let index = offset_of(self.files.len());
        self.files.push(RawFile { directory, filename });
        index
    }

    /// Adds an entry: where the symbol starts, its size in bytes, 0 where it covers everything from its start on, and
    /// the offset of its name. Its address is above those of the entries before it.
    pub fn entry(&mut self, addr: u64, size: u32, name: u32) -> &mut Builder {
        self.entries.push(RawEntry { addr, items: 0, size, name });
        self
    }

    /// Adds an item to the last entry: its type, of which 1 is a line table and 2 an inline tree, and its bytes.
    pub fn item(&mut self, kind: u32, bytes: &[u8]) -> &mut Builder {
        self.items.push(RawItem { len: bytes.len() as u64, kind });
        self.bytes.extend_from_slice(bytes);
        // an item of no entry is refused when the file is written
        if let Some(entry) = self.entries.last_mut() {
            entry.items += 1;
        }
        self
    }

    /// Writes the file to the front of `out`: how many bytes it has. What is behind them stays, and all of `out` where
    /// the file is refused.
    pub fn finish_into(&self, out: &mut [u8]) -> Result<usize, WriteError> {
        // SAFETY: each list is lent with its own length, and the library writes to `out` alone.
        let answer = unsafe {
            gsym_write(
                self.entries.as_ptr(),
                self.entries.len(),
                self.items.as_ptr(),
                self.items.len(),
                self.bytes.as_ptr(),
                self.bytes.len(),
                self.files.as_ptr(),
                self.files.len(),
                self.strings.as_ptr(),
                self.strings.len(),
                out.as_mut_ptr(),
                out.len(),
            )
        };
        match WriteError::of(&answer) {
            Some(error) => Err(error),
            // a library can't have written more than there is room for
            None => Ok(out.len().min(answer.len as usize)),
        }
    }

    /// The bytes of the file.
    pub fn finish(&self) -> Result<Vec<u8>, WriteError> {
        let needed = match self.finish_into(&mut []) {
            Err(WriteError::TooLittleRoom { needed }) => needed,
            other => return other.map(|_| Vec::new()),
        };
        let len = usize::try_from(needed).map_err(|_| WriteError::NoMemory)?;
        let mut file = Vec::new();
        file.try_reserve_exact(len).map_err(|_| WriteError::NoMemory)?;
        file.resize(len, 0);
        self.finish_into(&mut file)?;
        Ok(file)
    }
}
