//! Amendments with a day: the image that is in force then.

use crate::codes::{refused, Refusal};
use crate::fault::Table;
use crate::write::Record;
use crate::{raw, version};

/// The bytes of an amendment.
pub const AMENDMENT: usize = raw::AMENDMENT;

/// A record of a table that another replaces, from a day on.
#[derive(Clone, Copy, Debug, PartialEq)]
pub struct Amendment {
    /// The table of the record.
    pub table: Table,
    /// Its index in that table, from 0.
    pub index: u16,
    /// The day from which on it is in force: a number, counted from whichever day trustee and caller agree
    /// on.
    pub day: u32,
    /// The record that is in its place then.
    pub record: Record,
}

impl Amendment {
    /// As it stands in a list, little-endian: table and index (16 bits each), day (32 bits), and the 32 bytes
    /// of the record.
    pub fn to_bytes(&self) -> [u8; AMENDMENT] {
        let mut out = [0; AMENDMENT];
        out[..2].copy_from_slice(&u16::from(self.table.number()).to_le_bytes());
        out[2..4].copy_from_slice(&self.index.to_le_bytes());
        out[4..8].copy_from_slice(&self.day.to_le_bytes());
        out[8..].copy_from_slice(&self.record.to_bytes());
        out
    }

    /// The amendment that 40 bytes of a list hold; `None` where its table is above 8.
    pub fn from_bytes(bytes: &[u8; AMENDMENT]) -> Option<Self> {
        let table = u8::try_from(u16::from_le_bytes([bytes[0], bytes[1]])).ok()?;
        let mut record = [0; raw::IMAGE_RECORD];
        record.copy_from_slice(&bytes[8..]);
        Some(Self {
            table: Table::from_number(table)?,
            index: u16::from_le_bytes([bytes[2], bytes[3]]),
            day: u32::from_le_bytes([bytes[4], bytes[5], bytes[6], bytes[7]]),
            record: Record::from_bytes(&record),
        })
    }
}

/// Writes the effective image of a day into the bytes lent, and gives its bytes back: the base `image`, with
/// each record replaced by the amendment of the list that is in force for it. That is the one of the latest day
/// not after `day`, and of equal days the later in the list. With none in force it is the base.
///
/// The list has [`AMENDMENT`] bytes for each, as [`Amendment::to_bytes`] gives them, in any order. No count and
/// no field of the general block changes, so the effective image is as long as the base. Bytes past it stay as
/// they were; on a refusal every byte does.
///
/// Refusals 1 to 14 of the base; 27 ([`Refusal::Amendments`]: the list is not in forties, or anywhere in it, in
/// force or not, there is a table above 8 or an index beyond its table); 28 ([`Refusal::AmendedRoom`]: the
/// image is longer than the bytes lent); then 5 to 10, 12 and 13 of the effective image, as
/// [`check`](crate::check) would have them.
///
/// ```
/// use pamuklid::{amend, raw, write, Amendment, Fields, Record, Refusal, Table, Tables};
///
/// let fields = Fields { edition: 1, data_limit: 2_800.0, ..Fields::default() };
/// let band = Record { low: 14_000_000.0, high: 14_350_000.0, band: 20, ..Record::default() };
/// let segment = Record { high: 14_150_000.0, rule: 7, ..band };
/// let tables = Tables { bands: &[band], segments: &[segment], ..Tables::default() };
/// let (mut base, mut later, mut lent) = ([0; 156], [0; 156], [7; 160]);
/// let base = write(&fields, &tables, &mut base)?;
///
/// // from day 20000 on data may go up to 14,250,000 Hz
/// let wider = Record { high: 14_250_000.0, ..segment };
/// let amendment = Amendment { table: Table::Segments, index: 0, day: 20_000, record: wider };
/// let list = amendment.to_bytes();
/// assert_eq!(amend(base, &list, 19_999, &mut lent)?, base);
/// let tables = Tables { segments: &[wider], ..tables };
/// assert_eq!(amend(base, &list, 20_000, &mut lent)?, write(&fields, &tables, &mut later)?);
/// assert_eq!(lent[156..], [7; 4]);
///
/// // there is no second data segment
/// let list = Amendment { index: 1, ..amendment }.to_bytes();
/// assert_eq!(amend(base, &list, 0, &mut lent), Err(Refusal::Amendments));
/// # Ok::<(), Refusal>(())
/// ```
pub fn amend<'a>(
    image: &[u8],
    list: &[u8],
    day: u32,
    out: &'a mut [u8],
) -> Result<&'a [u8], Refusal> {
    version::checked();
    let flat = raw::amend(image, list, day, out);
    refused(flat.refusal)?;
    Ok(&out[..flat.length as usize])
}

#[cfg(test)]
mod tests {
    use super::*;

    const RECORD: Record = Record {
        low: 1.0,
        high: -2.5,
        figure: 1e300,
        band: 1,
        class: 2,
        emissions: 3,
        flags: 4,
        rule: 0x506,
        second_rule: 0x708,
    };

    /// Every byte at its place.
    #[test]
    fn bytes() {
        let a =
            Amendment { table: Table::PlanAvoid, index: 0x102, day: 0x304_0506, record: RECORD };
        let bytes = a.to_bytes();
        assert_eq!(bytes[..8], [8, 0, 2, 1, 6, 5, 4, 3]);
        for (at, x) in [(8, 1.0f64), (16, -2.5), (24, 1e300)] {
            assert_eq!(bytes[at..at + 8], x.to_bits().to_le_bytes());
        }
        assert_eq!(bytes[32..], [1, 2, 3, 4, 6, 5, 8, 7]);
        assert_eq!(Amendment::from_bytes(&bytes), Some(a));
        assert_eq!(RECORD.to_bytes(), bytes[8..]);
    }

    #[test]
    fn tables() {
        let mut bytes = [0; AMENDMENT];
        for number in 0..=u16::MAX {
            bytes[..2].copy_from_slice(&number.to_le_bytes());
            let table = Amendment::from_bytes(&bytes).map(|a| u16::from(a.table.number()));
            assert_eq!(table, (number < 9).then_some(number));
        }
    }
}
