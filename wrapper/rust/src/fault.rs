//! Where a table is wrong.

use std::error::Error;
use std::ops::Range;
use std::str::FromStr;

use crate::codes::{known, numbered, refused, Refusal, UnknownName};
use crate::raw;

numbered! {
    /// The tables of an image, in its order.
    Table: "table" {
        /// The bands.
        Bands = 0 "bands",
        /// The data segments.
        Segments = 1 "segments",
        /// The channels of 60 m.
        Channels = 2 "channels",
        /// The privileges of the license classes.
        Privileges = 3 "privileges",
        /// The automatic segments.
        Automatic = 4 "automatic",
        /// The bands without automatic control.
        Excluded = 5 "excluded",
        /// The power limits.
        Power = 6 "power",
        /// The band plan's areas for data.
        PlanData = 7 "plan_data",
        /// The band plan's areas to avoid.
        PlanAvoid = 8 "plan_avoid",
    }
}

/// A part of an image.
#[derive(Clone, Copy, Debug, PartialEq, Eq, Hash)]
pub enum Place {
    /// The general block.
    General,
    /// A record.
    Record {
        /// Its table.
        table: Table,
        /// Its index in that table, from 0.
        index: u16,
    },
}

impl Place {
    /// Its bytes in the image; `None` where the image has no such place.
    pub fn bytes(self, image: &[u8]) -> Option<Range<usize>> {
        let (start, size) = match self {
            Self::General => (0, general_size(image)),
            Self::Record { table, index } => {
                let trailer = image.len().checked_sub(raw::IMAGE_TRAILER)?;
                let counts =
                    image[trailer..].chunks(2).map(|n| usize::from(n[0]) + 256 * usize::from(n[1]));
                let before: usize = counts.take(table.number().into()).sum();
                let start = general_size(image) + raw::IMAGE_RECORD * (before + usize::from(index));
                (start, raw::IMAGE_RECORD)
            }
        };
        let end = start + size;
        (end <= image.len()).then_some(start..end)
    }
}

/// The bytes of an image's general block: edition 2 has more, by its trailer.
fn general_size(image: &[u8]) -> usize {
    let second = image.len() >= raw::IMAGE_TRAILER && image[image.len() - 6..][..2] == [2, 0];
    raw::IMAGE_GENERAL + if second { raw::IMAGE_WATTS } else { 0 }
}

/// An image's refusal, and where the table is wrong.
#[derive(Clone, Copy, Debug, PartialEq, Eq, Hash)]
pub struct Fault {
    /// The refusal, as [`check`](crate::check) has it.
    pub refusal: Refusal,
    /// The first part that the refusal's own test meets: the general block, or else a record, tables in
    /// the image's order. `None` where no part is to blame: for refusals 1 to 4 (the image's form), 11
    /// (records are missing) and 14 (the general limit).
    pub place: Option<Place>,
}

impl Error for Fault {}

pub(crate) fn fault(f: &raw::Fault) -> Result<(), Fault> {
    refused(f.refusal).map_err(|refusal| Fault { refusal, place: place(f) })
}

fn place(f: &raw::Fault) -> Option<Place> {
    match f.place {
        0 => None,
        1 => Some(Place::General),
        2 => {
            let table = known("table", f.table, Table::from_number(f.table));
            Some(Place::Record { table, index: f.record })
        }
        _ => known("place", f.place, None),
    }
}

#[cfg(test)]
mod tests {
    use super::*;

    fn of(refusal: u8, place: u8, table: u8, record: u16) -> Result<(), Fault> {
        fault(&raw::Fault { record, table, place, refusal })
    }

    #[test]
    fn numbers() {
        assert_eq!(of(0, 0, 255, 65_535), Ok(()));
        let at = |refusal, place| Err(Fault { refusal, place });
        assert_eq!(of(14, 0, 255, 65_535), at(Refusal::GeneralLimit, None));
        assert_eq!(of(5, 1, 255, 65_535), at(Refusal::CodedByte, Some(Place::General)));
        for &table in Table::ALL {
            let place = Place::Record { table, index: 255 };
            assert_eq!(of(6, 2, table.number(), 255), at(Refusal::ImageFigure, Some(place)));
        }
    }

    #[test]
    #[should_panic(
        expected = "libpamuklid.a answers table 9, which the crate pamuklid has no name"
    )]
    fn no_such_table() {
        let _ = of(5, 2, 9, 0);
    }

    #[test]
    #[should_panic(expected = "libpamuklid.a answers place 3")]
    fn no_such_place() {
        let _ = of(5, 3, 255, 65_535);
    }
}
