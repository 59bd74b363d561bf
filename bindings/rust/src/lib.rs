//! What a GSYM symbol file says of an address: the function, its source position, and the calls inlined there.
//!
//! The work is done by a library that is proved against its promises; this crate is a thin and safe face of it. Every
//! call ends, on any bytes, with an answer or with a refusal. [`lookup`] and [`block_frames`] take no heap, nor does
//! [`check`], which judges a whole file before it is shipped; [`Resolver`] owns a file's bytes and answers in the shape
//! of blazesym.
//!
//! An address counts as the file counts it: of an address of a running program subtract where it was loaded, and of a
//! return address one, since the call stands before it.
//!
//! ```
//! use gsym::{lookup, Frame, Options, Refusal};
//!
//! # let path = concat!(env!("CARGO_MANIFEST_DIR"), "/tests/connector.gsym");
//! let file = std::fs::read(path).unwrap();
//! let mut frames = [Frame::default(); 64];
//! let answer = lookup(&file, 0x1155, Options::ALL, &mut frames).unwrap();
//! for call in answer.calls(&file, &frames) {
//!     println!("{} {:?}", call.name, call.line);
//! }
//! assert_eq!(lookup(&file, 1, Options::ALL, &mut frames), Err(Refusal::UnknownAddress));
//! ```
//!
//! Features: `std` (on) has `std::error::Error` for refusals and findings, and opens files; `alloc` has [`Resolver`]
//! over bytes; with neither the crate is `no_std` and takes no heap. `write` (off) has the module of that name, which
//! writes files.
#![no_std]
#![deny(missing_docs)]
#![deny(unsafe_op_in_unsafe_fn)]

#[cfg(feature = "alloc")]
extern crate alloc;
#[cfg(feature = "std")]
extern crate std;

mod finding;
mod library;
mod raw;
mod refusal;
#[cfg(feature = "alloc")]
mod resolver;
#[cfg(feature = "write")]
pub mod write;

pub use finding::{Fault, Finding};
pub use library::{check_library, version, OtherLibrary, VERSION};
pub use refusal::Refusal;
#[cfg(feature = "alloc")]
pub use resolver::{CodeInfo, FindSymOpts, InlinedFn, Reason, ResolvedSym, Resolver};

/// The most frames that a block may have; a longer list is never used further.
pub const MAX_FRAMES: usize = 64;

/// What is asked for beside the symbol's name and extent.
#[derive(Clone, Copy, Debug, Default, PartialEq, Eq)]
pub struct Options {
    /// Directory, file and line.
    pub code_info: bool,
    /// The calls inlined at the address; only together with `code_info`.
    pub inlining: bool,
}

impl Options {
    /// Position and inlined calls.
    pub const ALL: Options = Options { code_info: true, inlining: true };
    /// Position, without inlined calls.
    pub const CODE_INFO: Options = Options { code_info: true, inlining: false };
    /// The symbol alone.
    pub const NAME: Options = Options { code_info: false, inlining: false };
}

/// A string of the file, as its place from the file's start and its length.
#[repr(C)]
#[derive(Clone, Copy, Debug, Default, PartialEq, Eq)]
pub struct Text {
    /// Counted from the file's start, in bytes.
    pub place: u64,
    /// In bytes.
    pub len: u64,
}

impl Text {
    /// That part of the file itself; empty where place and length don't fit it.
    pub fn bytes<'f>(&self, file: &'f [u8]) -> &'f [u8] {
        self.part(file).unwrap_or(&[])
    }

    fn part<'f>(&self, file: &'f [u8]) -> Option<&'f [u8]> {
        let start = usize::try_from(self.place).ok()?;
        let len = usize::try_from(self.len).ok()?;
        file.get(start..start.checked_add(len)?)
    }

    /// The same as text, none where it doesn't fit the file or is not UTF-8: names are, in the file that they were
    /// answered for, and other strings need not be.
    pub fn str<'f>(&self, file: &'f [u8]) -> Option<&'f str> {
        core::str::from_utf8(self.part(file)?).ok()
    }
}

/// A source position.
#[derive(Clone, Copy, Debug, PartialEq, Eq)]
pub struct Position {
    /// The directory; any bytes.
    pub dir: Text,
    /// The file in it; any bytes.
    pub file: Text,
    /// The line.
    pub line: u32,
}

/// What a lookup answers.
#[derive(Clone, Copy, Debug, PartialEq, Eq)]
pub struct Answer {
    /// Where the symbol starts; never above the address asked for.
    pub addr: u64,
    /// Its size; 0 is unknown, and covers everything from its start on.
    pub size: u32,
    /// Its name, in UTF-8.
    pub name: Text,
    /// Its position, if it was asked for and is known.
    pub position: Option<Position>,
    /// How many records were written.
    pub count: usize,
}

/// A record of [`lookup`]: a call inlined into the symbol, and the position that execution had reached in it.
#[repr(C)]
#[derive(Clone, Copy, Debug, Default, PartialEq, Eq)]
pub struct Frame {
    /// The function's name, in UTF-8.
    pub name: Text,
    /// The directory; any bytes.
    pub dir: Text,
    /// The file in it; any bytes.
    pub file: Text,
    /// The line.
    pub line: u32,
}

/// A record of [`block_frames`].
#[repr(C)]
#[derive(Clone, Copy, Debug, Default, PartialEq, Eq)]
pub struct InlineFrame {
    /// The name, as an offset in the string table.
    pub name: u32,
    /// The file of the call, as a row of the file table.
    pub call_file: u32,
    /// The line of the call.
    pub call_line: u32,
}

/// A function at an address, with its strings: an inlined call, or the symbol itself.
#[derive(Clone, Copy, Debug, PartialEq, Eq)]
pub struct Call<'f> {
    /// The function's name.
    pub name: &'f str,
    /// The directory; any bytes, empty where no position is known.
    pub dir: &'f [u8],
    /// The file in it.
    pub file: &'f [u8],
    /// The line, if a position is known.
    pub line: Option<u32>,
}

impl Answer {
    /// The functions at the address, from the innermost inlined call outwards; the symbol itself is the last. `file`
    /// and `frames` are those of the lookup.
    pub fn calls<'f, 'a>(&self, file: &'f [u8], frames: &'a [Frame]) -> impl Iterator<Item = Call<'f>> + 'a
    where
        'f: 'a,
    {
        let answer = *self;
        let inner = frames.iter().take(answer.count).rev().map(move |f| Call {
            name: f.name.str(file).unwrap_or(""),
            dir: f.dir.bytes(file),
            file: f.file.bytes(file),
            line: Some(f.line),
        });
        let symbol = Call {
            name: answer.name.str(file).unwrap_or(""),
            dir: answer.position.map_or(&[], |p| p.dir.bytes(file)),
            file: answer.position.map_or(&[], |p| p.file.bytes(file)),
            line: answer.position.map(|p| p.line),
        };
        inner.chain(core::iter::once(symbol))
    }
}

/// The symbol of an address, with all that `options` ask for.
///
/// Records of inlined calls go to the front of `frames`, the outermost first; room is the smaller of 64 and its length,
/// and counts all frames of the symbol's inline block, one more than there will be records. A refusal changes none, nor
/// does a lookup without inlining, and what is past the count stays.
///
/// Where several symbols stand at one address, the first of them in the file answers, at that address and past it, and
/// it alone: where it doesn't cover the address, that is unknown, even if a later one would.
#[inline]
pub fn lookup(file: &[u8], addr: u64, options: Options, frames: &mut [Frame]) -> Result<Answer, Refusal> {
    let bits = u32::from(options.code_info) | u32::from(options.inlining) << 1;
    // SAFETY: both slices are lent with their own lengths, and the library writes only records of `frames`.
    let r = unsafe { raw::gsym_lookup(file.as_ptr(), file.len(), addr, bits, frames.as_mut_ptr(), frames.len()) };
    match Refusal::of(r.number) {
        Some(refusal) => Err(refusal),
        None => Ok(Answer {
            addr: r.addr,
            size: r.size,
            name: r.name,
            position: (r.has_code != 0).then_some(Position { dir: r.dir, file: r.file, line: r.line }),
            // a library can't have written more than there is room for
            count: frames.len().min(r.count as usize),
        }),
    }
}

/// The frames of a single inline block, for the symbol that it belongs to: how many were written to the front of
/// `frames`.
///
/// They are the named nodes that contain the address and whose ancestors all contain it, each once, parents first, in
/// the file's order. Room is the smaller of 64 and the list's length; a refusal changes none, and what is past the
/// count stays.
///
/// ```
/// let block = [1, 0, 0x20, 1, 1, 0, 0, 0, 0, 0, 1, 4, 8, 0, 5, 0, 0, 0, 1, 10, 0];
/// let mut frames = [gsym::InlineFrame::default(); 4];
/// assert_eq!(gsym::block_frames(&block, 0x1000, 0x1005, &mut frames), Ok(2));
/// assert_eq!((frames[1].name, frames[1].call_file, frames[1].call_line), (5, 1, 10));
/// ```
pub fn block_frames(block: &[u8], symbol: u64, addr: u64, frames: &mut [InlineFrame]) -> Result<usize, Refusal> {
    // SAFETY: as in `lookup`.
    let r = unsafe {
        raw::gsym_block_frames(block.as_ptr(), block.len(), symbol, addr, frames.as_mut_ptr(), frames.len())
    };
    match Refusal::of(r.number) {
        Some(refusal) => Err(refusal),
        None => Ok(frames.len().min(r.count as usize)),
    }
}

/// Checks a whole file, before it is shipped: `Ok` where it passes, else what is found first.
///
/// It passes exactly if it opens, its offset size is 1, 2, 4 or 8, its address table never falls, no symbol ends
/// above 2^64-1, and of each entry the information and the name read, the address data list ends in type 0, and each
/// line table and each inline tree in it reads in full. In a file that passes a lookup with [`Options::NAME`] is
/// answered at any address, or refused with [`Refusal::UnknownAddress`].
///
/// A kernel's file of 20 MiB took 40 milliseconds. But entries may share a name or a list, and it is read for each: in
/// a file that was made to be slow the time grows with the number of entries times the file's length.
///
/// ```
/// use gsym::{check, Fault, Finding, Refusal};
///
/// # let path = concat!(env!("CARGO_MANIFEST_DIR"), "/tests/connector.gsym");
/// let mut file = std::fs::read(path).unwrap();
/// // the name of its last symbol doesn't read, on purpose
/// let found = check(&file).unwrap_err();
/// assert_eq!(found, Finding::Entry { index: 4, fault: Fault::Refused(Refusal::UnreadName) });
/// assert_eq!(found.number(), 6);
///
/// file[6] = 3;
/// assert_eq!(check(&file).unwrap_err().to_string(), "an offset size other than 1, 2, 4 and 8");
/// ```
pub fn check(file: &[u8]) -> Result<(), Finding> {
    // SAFETY: the slice is lent with its own length, and the library writes nothing.
    let r = unsafe { raw::gsym_check(file.as_ptr(), file.len()) };
    Finding::of(r.number, r.entry).map_or(Ok(()), Err)
}
