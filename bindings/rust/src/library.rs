//! Which library is linked.
use super::raw;
use core::fmt;
use core::sync::atomic::{AtomicU32, Ordering};

/// The version of the library that this crate was written for: major * 10000 + minor * 100 + patch.
pub const VERSION: u32 = 200;

/// The linked library is of another minor or major version than this crate was written for.
///
/// Its calls are the right ones all the same: a library whose records lie otherwise in memory has none of these names,
/// and doesn't link. A newer one may refuse for a reason that this crate has no name for,
/// [`Refusal::Other`](crate::Refusal::Other), or find one in a check, [`Finding::Other`](crate::Finding::Other).
#[derive(Clone, Copy, Debug, PartialEq, Eq)]
pub struct OtherLibrary {
    /// The version that was found.
    pub found: u32,
}

impl fmt::Display for OtherLibrary {
    fn fmt(&self, f: &mut fmt::Formatter<'_>) -> fmt::Result {
        write!(f, "libgsym has version {}, and this crate is for {}", self.found, VERSION)
    }
}

#[cfg(feature = "std")]
impl std::error::Error for OtherLibrary {}

/// The version of the library that is linked: major * 10000 + minor * 100 + patch.
///
/// The library is asked once, and the answer is kept.
pub fn version() -> u32 {
    // 0: not asked yet. It is no version, and two threads that ask at once get the same.
    static FOUND: AtomicU32 = AtomicU32::new(0);
    match FOUND.load(Ordering::Relaxed) {
        0 => {
            // SAFETY: the call takes nothing.
            let found = unsafe { raw::gsym_version() };
            FOUND.store(found, Ordering::Relaxed);
            found
        }
        found => found,
    }
}

/// Whether the library is of the version that this crate was written for, patches apart. No call needs it: a program
/// that wants to tell its user asks once, at its start.
///
/// ```
/// gsym::check_library().unwrap();
/// ```
pub fn check_library() -> Result<(), OtherLibrary> {
    let found = version();
    if found / 100 == VERSION / 100 {
        Ok(())
    } else {
        Err(OtherLibrary { found })
    }
}
