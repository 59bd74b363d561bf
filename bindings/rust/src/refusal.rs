use core::fmt;

/// Why a call gave no answer; the numbers are those of the C face.
///
/// With [`UnreadLineHeader`](Refusal::UnreadLineHeader) and [`UnreadInline`](Refusal::UnreadInline) the bytes of a
/// header or of a block end too early. [`TooWide`](Refusal::TooWide) comes of no cut: the program that wrote the file
/// is at fault, or what changed its bytes since.
#[non_exhaustive]
#[derive(Clone, Copy, Debug, PartialEq, Eq, Hash, PartialOrd, Ord)]
pub enum Refusal {
    /// No symbol covers the address.
    UnknownAddress,
    /// The file ends inside its header or a table.
    TooFewBytes,
    /// Not a GSYM file, or one of the other byte order.
    WrongMagic,
    /// A version other than 1.
    WrongVersion,
    /// The symbol's information doesn't read.
    UnreadInfo,
    /// The name of the symbol or of an inlined call doesn't read, or is not UTF-8.
    UnreadName,
    /// A file index that is not below the file count.
    UnknownFile,
    /// A directory or a file name doesn't read.
    UnreadPath,
    /// The header of a line table doesn't read: it is cut short.
    UnreadLineHeader,
    /// An inline block doesn't read: it is cut short.
    UnreadInline,
    /// An inline range starts or ends above 2^64-1.
    InlineSumTooLarge,
    /// A call file above 4,294,967,295.
    CallFileTooLarge,
    /// Inlined calls on more than 64 levels.
    TooDeep,
    /// More frames than there is room for.
    TooManyFrames,
    /// A number wider than 64 bits: from a broken producer, not a torn file.
    TooWide,
    /// One that this crate has no name for, by its number: from a library that is newer than the crate.
    ///
    /// ```
    /// use gsym::{lookup, Options, Refusal};
    ///
    /// match lookup(&[], 0, Options::NAME, &mut []) {
    ///     Err(Refusal::Other(number)) => println!("a later library refuses, with {number}"),
    ///     told => assert_eq!(told, Err(Refusal::TooFewBytes)),
    /// }
    /// ```
    Other(u32),
}

impl Refusal {
    /// Every refusal that has a name, by its number: the first is 1.
    pub const ALL: &'static [Refusal] = &[
        Refusal::UnknownAddress,
        Refusal::TooFewBytes,
        Refusal::WrongMagic,
        Refusal::WrongVersion,
        Refusal::UnreadInfo,
        Refusal::UnreadName,
        Refusal::UnknownFile,
        Refusal::UnreadPath,
        Refusal::UnreadLineHeader,
        Refusal::UnreadInline,
        Refusal::InlineSumTooLarge,
        Refusal::CallFileTooLarge,
        Refusal::TooDeep,
        Refusal::TooManyFrames,
        Refusal::TooWide,
    ];

    /// The refusal of a number, none for 0.
    pub(crate) fn of(number: u32) -> Option<Refusal> {
        let place = number.checked_sub(1)?;
        Some(*Refusal::ALL.get(place as usize).unwrap_or(&Refusal::Other(number)))
    }

    /// Its number, from 1 on.
    pub fn number(self) -> u32 {
        match self {
            Refusal::Other(number) => number,
            named => Refusal::ALL.iter().position(|r| *r == named).map_or(0, |place| place as u32 + 1),
        }
    }

    /// It in words, as its `Display` and the page of the C face have it.
    pub fn text(self) -> &'static str {
        match self {
            Refusal::UnknownAddress => "no symbol covers the address",
            Refusal::TooFewBytes => "the file ends inside its header or a table",
            Refusal::WrongMagic => "not a GSYM file, or one of the other byte order",
            Refusal::WrongVersion => "a version other than 1",
            Refusal::UnreadInfo => "the symbol's information doesn't read",
            Refusal::UnreadName => "the name of the symbol or of an inlined call doesn't read, or is not UTF-8",
            Refusal::UnknownFile => "a file index that is not below the file count",
            Refusal::UnreadPath => "a directory or a file name doesn't read",
            Refusal::UnreadLineHeader => "the header of a line table doesn't read: it is cut short",
            Refusal::UnreadInline => "an inline block doesn't read: it is cut short",
            Refusal::InlineSumTooLarge => "an inline range starts or ends above 2^64-1",
            Refusal::CallFileTooLarge => "a call file above 4,294,967,295",
            Refusal::TooDeep => "inlined calls on more than 64 levels",
            Refusal::TooManyFrames => "more frames than there is room for",
            Refusal::TooWide => "a number wider than 64 bits: from a broken producer, not a torn file",
            Refusal::Other(_) => "a refusal of a later library",
        }
    }
}

impl fmt::Display for Refusal {
    fn fmt(&self, f: &mut fmt::Formatter<'_>) -> fmt::Result {
        match self {
            Refusal::Other(number) => write!(f, "{}, number {}", self.text(), number),
            _ => f.write_str(self.text()),
        }
    }
}

#[cfg(feature = "std")]
impl std::error::Error for Refusal {}

#[cfg(test)]
mod tests {
    use super::Refusal;

    #[test]
    fn every_number_is_a_refusal_and_kept() {
        assert_eq!(Refusal::of(0), None);
        for number in (1..100).chain([u32::MAX]) {
            let refusal = Refusal::of(number).unwrap();
            assert_eq!(refusal.number(), number);
            assert_eq!(matches!(refusal, Refusal::Other(_)), number > 15);
            assert!(!refusal.text().is_empty());
        }
    }
}
