//! The report of a table: where its records overlap, and where a class has no privilege.

use crate::answer::Range;
use crate::codes::{known, License};
use crate::fault::Table;
use crate::raw;

/// The bytes of a row of a report.
pub const REPORT_ROW: usize = raw::REPORT_ROW;

/// The most rows that a report can have.
pub const MOST_REPORT: usize = raw::MOST_REPORT;

/// A row of a report. Records are named by their index in their table, from 0.
#[derive(Clone, Copy, Debug, PartialEq)]
pub enum ReportRow {
    /// Two records of a table that share a stretch.
    Overlap {
        /// Their table: the bands, the data segments or the privileges.
        table: Table,
        /// Of privileges their class, which is the same.
        license: Option<License>,
        /// The index of the first, which is the smaller.
        first: u16,
        /// The index of the second.
        second: u16,
        /// What they share, of positive length.
        stretch: Range,
    },
    /// A stretch of a data segment that no privilege of the class covers.
    Gap {
        /// The class.
        license: License,
        /// The index of the segment.
        segment: u16,
        /// The stretch, as long as it can be.
        stretch: Range,
    },
}

impl ReportRow {
    /// The row that 24 bytes hold, little-endian: low and high of the stretch (64 bits each), the kind's
    /// byte, the class's byte, the first and the second index (16 bits each), and two bytes that are 0.
    /// `None` where the kind or the class stands for nothing.
    pub fn from_bytes(bytes: &[u8; REPORT_ROW]) -> Option<Self> {
        let hertz = |at: usize| {
            let mut word = [0; 8];
            word.copy_from_slice(&bytes[at..at + 8]);
            f64::from_bits(u64::from_le_bytes(word))
        };
        let index = |at: usize| u16::from_le_bytes([bytes[at], bytes[at + 1]]);
        let stretch = Range { low_hz: hertz(0), high_hz: hertz(8) };
        let (first, second) = (index(18), index(20));
        let class = License::from_number(bytes[17]);
        if bytes[16] == raw::REPORT_GAP {
            return Some(Self::Gap { license: class?, segment: first, stretch });
        }
        let table = Table::from_number(bytes[16])?;
        let license = match table {
            Table::Bands | Table::Segments => None,
            Table::Privileges => Some(class?),
            _ => return None,
        };
        Some(Self::Overlap { table, license, first, second, stretch })
    }

    /// The stretch that it is about.
    pub const fn stretch(&self) -> Range {
        match self {
            Self::Overlap { stretch, .. } | Self::Gap { stretch, .. } => *stretch,
        }
    }
}

/// The report of a table: its rows.
#[derive(Clone, Copy, Debug)]
pub struct Report<'a> {
    bytes: &'a [u8],
}

impl<'a> Report<'a> {
    pub(crate) fn new(bytes: &'a [u8]) -> Self {
        Self { bytes }
    }

    /// The rows: overlaps of bands, of data segments, of privileges, each by the first and the second
    /// index; then the gaps, by segment and from the lowest up.
    pub fn rows(&self) -> ReportRows<'a> {
        ReportRows { bytes: self.bytes }
    }
}

/// The rows of a report, one after the other.
#[derive(Clone, Debug)]
pub struct ReportRows<'a> {
    bytes: &'a [u8],
}

impl<'a> ReportRows<'a> {
    /// The bytes of the rows that are still to come, 24 each.
    pub fn bytes(&self) -> &'a [u8] {
        self.bytes
    }
}

impl Iterator for ReportRows<'_> {
    type Item = ReportRow;

    fn next(&mut self) -> Option<ReportRow> {
        let row: &[u8; REPORT_ROW] = self.bytes.get(..REPORT_ROW)?.try_into().ok()?;
        self.bytes = &self.bytes[REPORT_ROW..];
        Some(known("a report's row of kind", row[16], ReportRow::from_bytes(row)))
    }

    fn size_hint(&self) -> (usize, Option<usize>) {
        let rows = self.bytes.len() / REPORT_ROW;
        (rows, Some(rows))
    }
}

impl ExactSizeIterator for ReportRows<'_> {}

#[cfg(test)]
mod tests {
    use super::*;

    fn row(kind: u8, class: u8) -> [u8; REPORT_ROW] {
        let mut out = [0; REPORT_ROW];
        out[..8].copy_from_slice(&20.0f64.to_bits().to_le_bytes());
        out[8..16].copy_from_slice(&80.0f64.to_bits().to_le_bytes());
        out[16..22].copy_from_slice(&[kind, class, 3, 0, 255, 1]);
        out
    }

    const STRETCH: Range = Range { low_hz: 20.0, high_hz: 80.0 };

    /// Every kind and every class; an index has both its bytes.
    #[test]
    fn kinds_and_classes() {
        for kind in 0..=255 {
            for class in 0..=255 {
                let license = License::from_number(class);
                let overlap = |table, license| {
                    let (first, second, stretch) = (3, 511, STRETCH);
                    Some(ReportRow::Overlap { table, license, first, second, stretch })
                };
                let want = match kind {
                    0 => overlap(Table::Bands, None),
                    1 => overlap(Table::Segments, None),
                    3 => license.and_then(|of| overlap(Table::Privileges, Some(of))),
                    255 => license.map(|license| ReportRow::Gap {
                        license,
                        segment: 3,
                        stretch: STRETCH,
                    }),
                    _ => None,
                };
                let got = ReportRow::from_bytes(&row(kind, class));
                assert_eq!(got, want, "kind {kind}, class {class}");
                assert!(got.map_or(true, |row| row.stretch() == STRETCH));
            }
        }
    }

    #[test]
    fn rows() {
        let bytes = [row(0, 0), row(255, 4)].concat();
        let mut rows = Report::new(&bytes).rows();
        assert_eq!((rows.len(), rows.bytes()), (2, &bytes[..]));
        assert!(matches!(rows.next(), Some(ReportRow::Overlap { table: Table::Bands, .. })));
        assert_eq!(rows.bytes(), &bytes[REPORT_ROW..]);
        assert!(matches!(rows.next(), Some(ReportRow::Gap { license: License::Extra, .. })));
        assert_eq!(rows.next(), None);
    }

    #[test]
    #[should_panic(expected = "libpamuklid.a answers a report's row of kind 2, which the crate")]
    fn no_such_kind() {
        let _ = Report::new(&row(2, 0)).rows().next();
    }
}
