//! The texts of figures, for a panel or a log: digits without a unit, in bytes that are lent.

use crate::codes::{refused, Refusal};
use crate::raw;
use crate::version;

/// The bytes of the longest text.
pub const MOST_TEXT: usize = raw::MOST_TEXT;

/// A frequency in kilohertz, with three decimals: a dial, an edge on the air.
///
/// The digits are those of `hz / 1000.0` by its exact value, to the nearest thousandth, a half to the
/// even one: Rust's `format!("{:.3}", hz / 1000.0)`. A sign `-` is written wherever `hz` has one, of a
/// zero too.
///
/// The text stands at the beginning of the bytes lent; those past it stay as they were, and on a
/// refusal every byte does. [`MOST_TEXT`] bytes have room for every text. Refusals 21
/// ([`Refusal::StationFigure`]: `hz` is not finite or above 2^43, 8796093022208, in size), then 24
/// ([`Refusal::Text`]: the text is longer than the bytes lent).
///
/// ```
/// use pamuklid::{text_at, Refusal, MOST_TEXT};
///
/// let mut room = [0; MOST_TEXT];
/// assert_eq!(text_at(14_097_700.0, &mut room), Ok("14097.700"));
/// assert_eq!(text_at(-0.0, &mut room), Ok("-0.000"));
/// assert_eq!(text_at(14_097_700.0, &mut room[..8]), Err(Refusal::Text));
/// assert_eq!(text_at(f64::NAN, &mut room), Err(Refusal::StationFigure));
/// ```
pub fn text_at(hz: f64, room: &mut [u8]) -> Result<&str, Refusal> {
    version::checked();
    let flat = raw::text_at(hz, room);
    written(&flat, room)
}

/// As [`text_at`], with as many decimals as it needs: none where `hz / 1000.0` is within a millionth of
/// a whole number, one where ten times it is, else three. For the ends of a band or a segment.
///
/// ```
/// use pamuklid::{text_khz, MOST_TEXT};
///
/// let mut room = [0; MOST_TEXT];
/// assert_eq!(text_khz(14_100_000.0, &mut room), Ok("14100"));
/// assert_eq!(text_khz(14_097_700.0, &mut room), Ok("14097.7"));
/// assert_eq!(text_khz(14_097_750.0, &mut room), Ok("14097.750"));
/// ```
pub fn text_khz(hz: f64, room: &mut [u8]) -> Result<&str, Refusal> {
    version::checked();
    let flat = raw::text_khz(hz, room);
    written(&flat, room)
}

/// Whole hertz: a width, a margin, a distance. Rust's `format!("{:.0}", hz)`; bytes and refusals as
/// [`text_at`].
///
/// ```
/// use pamuklid::{text_hertz, MOST_TEXT};
///
/// let mut room = [0; MOST_TEXT];
/// assert_eq!(text_hertz(500.0, &mut room), Ok("500"));
/// assert_eq!(text_hertz(2_300.5, &mut room), Ok("2300"));
/// assert_eq!(text_hertz(-0.5, &mut room), Ok("-0"));
/// ```
pub fn text_hertz(hz: f64, room: &mut [u8]) -> Result<&str, Refusal> {
    version::checked();
    let flat = raw::text_hertz(hz, room);
    written(&flat, room)
}

/// The text that a call left in the bytes lent.
fn written<'a>(flat: &raw::Text, room: &'a [u8]) -> Result<&'a str, Refusal> {
    refused(flat.refusal)?;
    let text = room.get(..flat.length as usize).map(std::str::from_utf8);
    match text {
        Some(Ok(text)) => Ok(text),
        _ => panic!("libpamuklid.a answers a text of {} bytes, which is none", flat.length),
    }
}

#[cfg(test)]
mod tests {
    use super::*;

    fn text(length: u32, refusal: u8) -> raw::Text {
        raw::Text { length, refusal }
    }

    #[test]
    fn answers() {
        assert_eq!(written(&text(3, 0), b"14.700"), Ok("14."));
        assert_eq!(written(&text(0, 21), b""), Err(Refusal::StationFigure));
        assert_eq!(written(&text(0, 24), b"14"), Err(Refusal::Text));
    }

    #[test]
    #[should_panic(expected = "libpamuklid.a answers a text of 3 bytes, which is none")]
    fn longer_than_lent() {
        let _ = written(&text(3, 0), b"14");
    }

    #[test]
    #[should_panic(expected = "libpamuklid.a answers a text of 1 bytes, which is none")]
    fn no_text() {
        let _ = written(&text(1, 0), b"\xff");
    }
}
