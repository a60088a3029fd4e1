//! The three calls that give an image, from document 02, 6: what the writer and the two converters refuse, in
//! which order, and the image that they give else. Its bytes are the encoder's (image.rs), its own refusals
//! those of the check. With the feature `stub` this file is built a second time, for the stub.

use super::adapter;
use crate::ffi::Fields;
use crate::image::{self, FIXED_WATTS, Record, Table};

/// The image that a call gives, or the number with which it refuses.
pub type Given = Result<Vec<u8>, u8>;

/// "2,045 records are the most of either edition" (READINGS-02).
pub const MOST: usize = 2045;

/// The table of an image that a converter takes. "a converter meets 3 on an image that already has the edition
/// it converts to", in 3's place: after 1 and 2, before 4 to 14. `checked`: what the check says of it.
fn taken(image: &[u8], checked: u8, edition: u16) -> Result<Table, u8> {
    match checked {
        1 | 2 => Err(checked),
        _ if image::edition_of(image) != Some(edition) => Err(3),
        0 => Ok(image::decode(image)),
        _ => Err(checked),
    }
}

/// "23, last, also meets an output shorter than the image to be written."
fn fitted(image: Vec<u8>, lent: usize) -> Given {
    if lent < image.len() { Err(23) } else { Ok(image) }
}

/// "going up always fills in 100 and 9.15"
pub fn raised(image: &[u8], checked: u8, lent: usize) -> Given {
    let table = taken(image, checked, 1)?;
    fitted(Table { watts: Some(FIXED_WATTS), ..table }.encode(), lent)
}

/// "It refuses (26, after the image checks) to lower an image whose watts differ from those two"
pub fn lowered(image: &[u8], checked: u8, lent: usize) -> Given {
    let table = taken(image, checked, 2)?;
    if table.watts != Some(FIXED_WATTS) {
        return Err(26);
    }
    fitted(Table { watts: None, ..table }.encode(), lent)
}

/// What a writer is given: fields, and for each record three figures, four codes and two rules, table by table.
#[derive(Clone, Debug)]
pub struct Parts {
    pub fields: Fields,
    pub figures: Vec<f64>,
    pub codes: Vec<u8>,
    pub rules: Vec<u16>,
}

impl Parts {
    /// The records that the counts name.
    pub fn records(&self) -> usize {
        self.fields.counts.iter().map(|&count| usize::from(count)).sum()
    }

    /// Whether each run has just what these records need.
    pub fn runs_right(&self) -> bool {
        let n = self.records();
        self.figures.len() == 3 * n && self.codes.len() == 4 * n && self.rules.len() == 2 * n
    }

    /// The table that they are, where the runs are right. The watts of edition 1 are not looked at.
    pub fn table(&self) -> Table {
        let f = &self.fields;
        let mut table = Table {
            data_limit: f.data_limit,
            elsewhere_limit: f.elsewhere_limit,
            width: f.channel_width,
            offset: f.carrier_offset,
            tolerance: f.carrier_tolerance,
            region: f.region,
            reading: f.reading,
            flags: f.flags,
            channel_band: f.channel_band,
            sideband: f.sideband,
            emissions: f.emissions,
            rules: [
                f.data_rule,
                f.elsewhere_rule,
                f.automatic_rule,
                f.channels_rule,
                f.emissions_rule,
                f.privileges_rule,
            ],
            watts: (f.edition == 2).then_some((f.channel_watts, f.segment_watts)),
            tables: Default::default(),
        };
        let mut at = 0;
        for (records, &count) in table.tables.iter_mut().zip(&f.counts) {
            for i in at..at + usize::from(count) {
                records.push(Record {
                    low: self.figures[3 * i],
                    high: self.figures[3 * i + 1],
                    figure: self.figures[3 * i + 2],
                    band: self.codes[4 * i],
                    class: self.codes[4 * i + 1],
                    emissions: self.codes[4 * i + 2],
                    flags: self.codes[4 * i + 3],
                    rule: self.rules[2 * i],
                    second: self.rules[2 * i + 1],
                });
            }
            at += usize::from(count);
        }
        table
    }
}

/// "The writer refuses with the number that its image would get": over 2,045 records 1, another edition than 1
/// and 2 3, a count over 256 4, and 4 too where a run is not as long as the counts say; then 5 to 14, then 23.
pub fn written(parts: &Parts, lent: usize) -> Result<Given, String> {
    if parts.records() > MOST {
        return Ok(Err(1));
    }
    if !matches!(parts.fields.edition, 1 | 2) {
        return Ok(Err(3));
    }
    if parts.fields.counts.iter().any(|&count| count > 256) || !parts.runs_right() {
        return Ok(Err(4));
    }
    let image = parts.table().encode();
    match adapter::prepare(&image)?.refusal {
        0 => Ok(fitted(image, lent)),
        refusal => Ok(Err(refusal)),
    }
}
