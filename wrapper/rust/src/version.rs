//! The version of the library, and that it is the one that this crate was written for.

use std::fmt;
use std::sync::atomic::{AtomicBool, Ordering};

use crate::raw;

/// A version of the library, as `0.14.0`.
#[derive(Clone, Copy, Debug, PartialEq, Eq, PartialOrd, Ord, Hash)]
pub struct Version {
    /// Changes with what the calls mean.
    pub major: u32,
    /// Changes with the boundary.
    pub minor: u32,
    /// Changes with anything else.
    pub patch: u32,
}

/// The version of the library that this crate was written for.
pub const VERSION: Version = Version::from_number(raw::VERSION);

impl Version {
    /// The version of a number: major * 10000 + minor * 100 + patch.
    pub const fn from_number(number: u32) -> Self {
        Self { major: number / 10_000, minor: number / 100 % 100, patch: number % 100 }
    }
}

impl fmt::Display for Version {
    fn fmt(&self, f: &mut fmt::Formatter<'_>) -> fmt::Result {
        write!(f, "{}.{}.{}", self.major, self.minor, self.patch)
    }
}

/// The version of the library that is linked. The other calls ask it once, and panic where it isn't
/// [`VERSION`].
pub fn version() -> Version {
    Version::from_number(raw::version())
}

/// Asked by every other call before it goes to the library.
pub(crate) fn checked() {
    static AGREES: AtomicBool = AtomicBool::new(false);
    if !AGREES.load(Ordering::Relaxed) {
        agree(version());
        AGREES.store(true, Ordering::Relaxed);
    }
}

fn agree(linked: Version) {
    assert!(
        linked == VERSION,
        "the crate pamuklid is written for libpamuklid.a {VERSION}, and {linked} is linked: build \
         the library again (`tools/library`), or take the crate that came with it"
    );
}

#[cfg(test)]
mod tests {
    use super::*;

    #[test]
    fn the_same() {
        agree(VERSION);
    }

    #[test]
    #[should_panic(expected = "written for libpamuklid.a 0.14.0, and 0.14.1 is linked: build the")]
    fn a_later_patch() {
        agree(Version::from_number(1401));
    }

    #[test]
    #[should_panic(expected = "and 1.3.14 is linked")]
    fn another_major() {
        agree(Version { major: 1, minor: 3, patch: 14 });
    }
}
