//! A resolver that owns a file's bytes, in the shape of blazesym's.
use super::{check, lookup, Finding, Frame, Options, Position, Refusal, MAX_FRAMES};
use alloc::boxed::Box;
use alloc::vec::Vec;

/// What is asked for, as blazesym names it.
#[derive(Clone, Copy, Debug, PartialEq, Eq)]
pub enum FindSymOpts {
    /// The symbol alone.
    Basic,
    /// And its source position.
    CodeInfo,
    /// And the calls inlined at the address.
    CodeInfoAndInlined,
}

impl From<FindSymOpts> for Options {
    fn from(opts: FindSymOpts) -> Options {
        match opts {
            FindSymOpts::Basic => Options::NAME,
            FindSymOpts::CodeInfo => Options::CODE_INFO,
            FindSymOpts::CodeInfoAndInlined => Options::ALL,
        }
    }
}

/// Why an address has no symbol, although the file is well.
#[non_exhaustive]
#[derive(Clone, Copy, Debug, PartialEq, Eq, Hash)]
pub enum Reason {
    /// No symbol covers the address.
    UnknownAddr,
}

/// A source position.
#[derive(Clone, Debug, PartialEq, Eq)]
#[non_exhaustive]
pub struct CodeInfo<'src> {
    /// The directory; any bytes.
    pub dir: Option<&'src [u8]>,
    /// The file in it; any bytes.
    pub file: &'src [u8],
    /// The line.
    pub line: Option<u32>,
}

/// A function inlined at the address.
#[derive(Clone, Debug, PartialEq, Eq)]
#[non_exhaustive]
pub struct InlinedFn<'src> {
    /// Its name.
    pub name: &'src str,
    /// The position that execution had reached in it.
    pub code_info: Option<CodeInfo<'src>>,
}

/// A symbol and what is known of the address in it.
#[derive(Clone, Debug, PartialEq, Eq)]
#[non_exhaustive]
pub struct ResolvedSym<'src> {
    /// Its name.
    pub name: &'src str,
    /// Where it starts; never above the address.
    pub addr: u64,
    /// Its size; 0 is unknown, and covers everything from its start on.
    pub size: Option<usize>,
    /// Its position, if it was asked for and is known.
    pub code_info: Option<CodeInfo<'src>>,
    /// The calls inlined at the address, from the outermost to the innermost.
    pub inlined: Box<[InlinedFn<'src>]>,
}

/// A symbol file, with the bytes that it has.
///
/// ```
/// use gsym::{FindSymOpts, Reason, Resolver};
///
/// # let path = concat!(env!("CARGO_MANIFEST_DIR"), "/tests/connector.gsym");
/// let resolver = Resolver::open(path)??;
/// let sym = resolver.find_sym(0x1155, &FindSymOpts::CodeInfoAndInlined)?.unwrap();
/// assert_eq!((sym.name, sym.addr, sym.inlined.len()), ("sync_orders", 0x10a0, 2));
/// assert_eq!(sym.inlined[1].name, "send_request");
/// assert_eq!(resolver.find_sym(1, &FindSymOpts::Basic)?, Err(Reason::UnknownAddr));
/// # Ok::<(), Box<dyn std::error::Error>>(())
/// ```
#[derive(Clone, Debug)]
pub struct Resolver {
    file: Vec<u8>,
}

impl Resolver {
    /// Takes the bytes of a file. Its header and tables are judged here, so that [`find_sym`](Resolver::find_sym) never
    /// refuses for them.
    pub fn new(file: impl Into<Vec<u8>>) -> Result<Resolver, Refusal> {
        let file = file.into();
        match lookup(&file, 0, Options::NAME, &mut []) {
            Err(refusal @ (Refusal::TooFewBytes | Refusal::WrongMagic | Refusal::WrongVersion)) => Err(refusal),
            _ => Ok(Resolver { file }),
        }
    }

    /// Reads a file whole. The outer error is that of reading, the inner one says what is wrong with the bytes.
    #[cfg(feature = "std")]
    pub fn open(path: impl AsRef<std::path::Path>) -> std::io::Result<Result<Resolver, Refusal>> {
        Ok(Resolver::new(std::fs::read(path)?))
    }

    /// The file's bytes.
    pub fn bytes(&self) -> &[u8] {
        &self.file
    }

    /// Checks the whole file: [`check`](crate::check).
    pub fn check(&self) -> Result<(), Finding> {
        check(&self.file)
    }

    /// The symbol of an address. The outer error says that the file is torn, damaged or badly made there, the inner one
    /// that it has no symbol for the address.
    pub fn find_sym(&self, addr: u64, opts: &FindSymOpts) -> Result<Result<ResolvedSym<'_>, Reason>, Refusal> {
        let mut frames = [Frame::default(); MAX_FRAMES];
        let answer = match lookup(&self.file, addr, Options::from(*opts), &mut frames) {
            Ok(answer) => answer,
            Err(Refusal::UnknownAddress) => return Ok(Err(Reason::UnknownAddr)),
            Err(refusal) => return Err(refusal),
        };
        let inlined = frames[..answer.count].iter().map(|f| InlinedFn {
            name: f.name.str(&self.file).unwrap_or(""),
            code_info: Some(self.code_info(Position { dir: f.dir, file: f.file, line: f.line })),
        });
        Ok(Ok(ResolvedSym {
            name: answer.name.str(&self.file).unwrap_or(""),
            addr: answer.addr,
            size: Some(answer.size as usize),
            code_info: answer.position.map(|position| self.code_info(position)),
            inlined: inlined.collect(),
        }))
    }

    fn code_info(&self, position: Position) -> CodeInfo<'_> {
        CodeInfo {
            dir: Some(position.dir.bytes(&self.file)),
            file: position.file.bytes(&self.file),
            line: Some(position.line),
        }
    }
}
