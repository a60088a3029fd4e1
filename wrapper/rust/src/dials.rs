//! A dial list: its rows, as their bytes have them, and the distance of a dial from it; and the nearest dial
//! at which data is allowed.

use crate::answer::Range;
use crate::codes::{Refusal, Rule};
use crate::raw;

/// The bytes of a dial row.
pub const ROW: usize = raw::ROW;

/// A row of a dial list: a stretch of dials, and the piece of the band that they keep the signal in.
#[derive(Clone, Copy, Debug, PartialEq)]
pub struct DialRow {
    /// The segment, or the part of it.
    pub segment: Range,
    /// The dials, both ends included.
    pub dial: Range,
    /// The band's number in the image.
    pub band: u8,
    /// The rule that the row goes by.
    pub rule: Rule,
}

impl DialRow {
    /// The row that 36 bytes hold, little-endian: segment low, segment high, dial low, dial high (64
    /// bits each), the band's byte, a byte that is 0, and the rule's number (16 bits).
    pub fn from_bytes(bytes: &[u8; ROW]) -> Self {
        let hertz = |at: usize| {
            let mut word = [0; 8];
            word.copy_from_slice(&bytes[at..at + 8]);
            f64::from_bits(u64::from_le_bytes(word))
        };
        Self {
            segment: Range { low_hz: hertz(0), high_hz: hertz(8) },
            dial: Range { low_hz: hertz(16), high_hz: hertz(24) },
            band: bytes[32],
            rule: Rule::from_number(u16::from_le_bytes([bytes[34], bytes[35]])),
        }
    }
}

/// The rows of a dial list, one after the other.
#[derive(Clone, Debug)]
pub struct DialRows<'a> {
    bytes: &'a [u8],
}

impl<'a> DialRows<'a> {
    /// The rows that bytes hold, as [`safe_dials`](crate::safe_dials) left them. Bytes past the last
    /// whole row are not read.
    pub fn new(bytes: &'a [u8]) -> Self {
        Self { bytes: &bytes[..bytes.len() / ROW * ROW] }
    }

    /// The bytes of the rows that are still to come, 36 each.
    pub fn bytes(&self) -> &'a [u8] {
        self.bytes
    }
}

impl Iterator for DialRows<'_> {
    type Item = DialRow;

    fn next(&mut self) -> Option<DialRow> {
        let row: &[u8; ROW] = self.bytes.get(..ROW)?.try_into().ok()?;
        self.bytes = &self.bytes[ROW..];
        Some(DialRow::from_bytes(row))
    }

    fn size_hint(&self) -> (usize, Option<usize>) {
        let rows = self.bytes.len() / ROW;
        (rows, Some(rows))
    }
}

impl ExactSizeIterator for DialRows<'_> {}

/// A finished dial list: its rows, and the two bytes of its image that the distance of a dial asks
/// for.
#[derive(Clone, Copy, Debug)]
pub struct DialList<'a> {
    bytes: &'a [u8],
    flags: u8,
    channel_band: u8,
}

impl<'a> DialList<'a> {
    /// The list of these rows, made by this image. A list by an image that has no such bytes has no
    /// rows, so that none is asked whether it counts.
    pub(crate) fn new(bytes: &'a [u8], image: &[u8]) -> Self {
        let byte = |at: usize| image.get(at).copied().unwrap_or(0);
        let (flags, channel_band) = (byte(raw::IMAGE_FLAGS), byte(raw::IMAGE_CHANNEL_BAND));
        Self { bytes, flags, channel_band }
    }

    /// The rows, by their lower dial.
    pub fn rows(&self) -> DialRows<'a> {
        DialRows::new(self.bytes)
    }

    /// How far a dial stands from the nearest row of the whole list, rows of the channel band (60 m)
    /// left out: see [`Distance`]. Refusal 21 ([`Refusal::StationFigure`]: the dial is not finite or
    /// above 2^40 in size). The list has the rows that it counts, so 23 is not met.
    pub fn distance(&self, dial_hz: f64) -> Result<Distance, Refusal> {
        let count = (self.bytes.len() / ROW) as u32; // the library's own count
        crate::distance(dial_hz, self.flags, self.channel_band, count, self.bytes)
    }
}

/// How far a dial stands from the nearest row of a dial list, rows of the channel band (60 m) left
/// out.
///
/// `Hz(0.0)` says that [`evaluate`](crate::evaluate) allows data at that dial, by the same image,
/// edges, direction and station, and every other answer that it blocks it. This holds for a
/// [`tidy`](crate::tidy) table under [`Policy::Rules`](crate::Policy::Rules), a station in the table's
/// region with control, license and sideband known, all hertz in whole eighths, a width plus twice
/// the margin above 0, and a signal that, with its margin, does not lie in the channel band. It is no
/// verdict: judge every transmission all the same.
#[derive(Clone, Copy, Debug, PartialEq)]
pub enum Distance {
    /// So far below a row's lower dial or above its upper, in hertz, the least of all rows; 0 on a
    /// row's dials and between them. Never negative.
    Hz(f64),
    /// No row counts: the list is empty, or all its rows are of the channel band.
    NoneListed,
}

impl Distance {
    /// The value of its two numbers in an answer; `None` where the first stands for nothing. The
    /// hertz are read only where the first number has a use for them.
    pub const fn from_numbers(listed: u8, distance_hz: f64) -> Option<Self> {
        match listed {
            0 => Some(Self::NoneListed),
            1 => Some(Self::Hz(distance_hz)),
            _ => None,
        }
    }

    /// The first of its numbers.
    pub const fn number(self) -> u8 {
        match self {
            Self::NoneListed => 0,
            Self::Hz(_) => 1,
        }
    }
}

/// Where to move the dial: the answer of [`nearest_dial`](crate::nearest_dial).
#[derive(Clone, Copy, Debug, PartialEq)]
pub enum Nearest {
    /// To this dial, in hertz, a whole number of eighths. It is no verdict: judge every transmission all the
    /// same.
    Dial(f64),
    /// Nowhere: no dial outside the channel band (60 m) allows data.
    NoneAllowed,
    /// Not judged: something that [`nearest_dial`](crate::nearest_dial) needs is not met.
    NotJudged,
}

impl Nearest {
    /// The value of its two numbers in an answer that is not refused; `None` where the first stands for
    /// nothing. The hertz are read only where the first number has a use for them.
    pub const fn from_numbers(answer: u8, dial_hz: f64) -> Option<Self> {
        match answer {
            1 => Some(Self::Dial(dial_hz)),
            2 => Some(Self::NoneAllowed),
            3 => Some(Self::NotJudged),
            _ => None,
        }
    }

    /// The first of its numbers.
    pub const fn number(self) -> u8 {
        match self {
            Self::Dial(_) => 1,
            Self::NoneAllowed => 2,
            Self::NotJudged => 3,
        }
    }
}
