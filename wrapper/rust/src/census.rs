//! A census: how many dials get each code.

use crate::codes::Code;
use crate::raw::CODES;

/// How many dials of a stretch get each code.
#[derive(Clone, Copy, Debug, PartialEq, Eq)]
pub struct Census {
    counts: [u32; CODES],
}

impl Census {
    pub(crate) const fn of(counts: [u32; CODES]) -> Self {
        Self { counts }
    }

    /// How many dials get a code. [`Code::Unmeasured`] and [`Code::NoDial`] are never met.
    pub const fn count(&self, code: Code) -> u32 {
        self.counts[code.number() as usize - 1]
    }

    /// The counts, that of code 1 first.
    pub const fn counts(&self) -> &[u32; CODES] {
        &self.counts
    }

    /// How many dials were counted.
    pub fn total(&self) -> u32 {
        self.counts.iter().sum()
    }

    /// The codes that some dial gets, with how many.
    pub fn met(&self) -> impl Iterator<Item = (Code, u32)> + '_ {
        let all = Code::ALL.iter().map(|&code| (code, self.count(code)));
        all.filter(|&(_, count)| count != 0)
    }
}
