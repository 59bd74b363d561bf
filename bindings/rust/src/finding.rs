use super::Refusal;
use core::fmt;

/// What is wrong with an entry; the numbers are those of the C face.
#[non_exhaustive]
#[derive(Clone, Copy, Debug, PartialEq, Eq, Hash, PartialOrd, Ord)]
pub enum Fault {
    /// The address table falls here.
    FallingTable,
    /// The symbol ends above 2^64-1.
    SumTooLarge,
    /// A line program is stopped.
    StoppedProgram,
    /// The address data list doesn't end in type 0.
    OpenList,
    /// One that has a refusal's number: 5, 6, 9 to 13, 15.
    Refused(Refusal),
}

impl Fault {
    /// The fault of a number, if this crate has a name for it.
    fn of(number: u32) -> Option<Fault> {
        match (number, Refusal::of(number)?) {
            (21, _) => Some(Fault::FallingTable),
            (22, _) => Some(Fault::SumTooLarge),
            (23, _) => Some(Fault::StoppedProgram),
            (24, _) => Some(Fault::OpenList),
            (_, Refusal::Other(_)) => None,
            (_, refusal) => Some(Fault::Refused(refusal)),
        }
    }

    /// Its number.
    pub fn number(self) -> u32 {
        match self {
            Fault::FallingTable => 21,
            Fault::SumTooLarge => 22,
            Fault::StoppedProgram => 23,
            Fault::OpenList => 24,
            Fault::Refused(refusal) => refusal.number(),
        }
    }

    /// It in words, as its `Display` and the page of the C face have it.
    pub fn text(self) -> &'static str {
        match self {
            Fault::FallingTable => "the address table falls here",
            Fault::SumTooLarge => "the symbol ends above 2^64-1",
            Fault::StoppedProgram => "a line program is stopped",
            Fault::OpenList => "the address data list doesn't end in type 0",
            Fault::Refused(refusal) => refusal.text(),
        }
    }
}

impl fmt::Display for Fault {
    fn fmt(&self, f: &mut fmt::Formatter<'_>) -> fmt::Result {
        match self {
            Fault::Refused(refusal) => refusal.fmt(f),
            _ => f.write_str(self.text()),
        }
    }
}

#[cfg(feature = "std")]
impl std::error::Error for Fault {}

/// Why a file doesn't pass: what [`check`](crate::check) finds first.
#[non_exhaustive]
#[derive(Clone, Copy, Debug, PartialEq, Eq, Hash, PartialOrd, Ord)]
pub enum Finding {
    /// The file doesn't open.
    Tables(Refusal),
    /// An offset size other than 1, 2, 4 and 8.
    OffsetSize,
    /// The lowest entry that is faulty.
    Entry {
        /// Which one, counted from 0.
        index: u32,
        /// Its first fault.
        fault: Fault,
    },
    /// One that this crate has no name for, as the library told it, which is newer than the crate.
    Other {
        /// Its number.
        number: u32,
        /// The entry that was told with it.
        entry: u32,
    },
}

impl Finding {
    /// The finding of a number and an entry, none for 0.
    pub(crate) fn of(number: u32, entry: u32) -> Option<Finding> {
        Some(match (number, Refusal::of(number)?) {
            (20, _) => Finding::OffsetSize,
            (_, refusal @ (Refusal::TooFewBytes | Refusal::WrongMagic | Refusal::WrongVersion)) => {
                Finding::Tables(refusal)
            }
            _ => match Fault::of(number) {
                Some(fault) => Finding::Entry { index: entry, fault },
                None => Finding::Other { number, entry },
            },
        })
    }

    /// Its number, which is the refusal's or the fault's where there is one.
    pub fn number(self) -> u32 {
        match self {
            Finding::Tables(refusal) => refusal.number(),
            Finding::OffsetSize => 20,
            Finding::Entry { fault, .. } => fault.number(),
            Finding::Other { number, .. } => number,
        }
    }
}

impl fmt::Display for Finding {
    fn fmt(&self, f: &mut fmt::Formatter<'_>) -> fmt::Result {
        match self {
            Finding::Tables(refusal) => refusal.fmt(f),
            Finding::OffsetSize => f.write_str("an offset size other than 1, 2, 4 and 8"),
            Finding::Entry { index, fault } => write!(f, "entry {}: {}", index, fault),
            Finding::Other { number, .. } => write!(f, "a finding of a later library, number {}", number),
        }
    }
}

#[cfg(feature = "std")]
impl std::error::Error for Finding {}

#[cfg(test)]
mod tests {
    use super::{Fault, Finding};
    use crate::Refusal;

    #[test]
    fn every_number_is_a_finding_and_kept() {
        assert_eq!(Finding::of(0, 7), None);
        for number in (1..300).chain([u32::MAX]) {
            let finding = Finding::of(number, 7).unwrap();
            assert_eq!(finding.number(), number);
            match finding {
                Finding::Tables(_) => assert!((2..=4).contains(&number)),
                Finding::OffsetSize => assert_eq!(number, 20),
                Finding::Entry { index, fault } => {
                    assert_eq!((index, fault.number()), (7, number));
                    assert_eq!(matches!(fault, Fault::Refused(_)), number <= 15);
                    assert!(number <= 15 || (21..=24).contains(&number));
                    assert!(!(2..=4).contains(&number) && !fault.text().is_empty());
                }
                Finding::Other { number: told, entry } => {
                    assert_eq!((told, entry), (number, 7));
                    assert!(number > 15 && !(20..=24).contains(&number));
                }
            }
        }
        assert_eq!(Fault::of(0), None);
        assert_eq!(Fault::of(14), Some(Fault::Refused(Refusal::TooManyFrames)));
        assert_eq!(Fault::of(15), Some(Fault::Refused(Refusal::TooWide)));
        assert_eq!(Fault::of(16), None);
    }
}
