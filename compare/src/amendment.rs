//! Amendments with a day, from document 02, 8: what the call refuses, in which order, and the effective image.
//! The image's own refusals are those of the check. With the feature `stub` this file is built a second time,
//! for the stub.

use super::adapter;
use super::edition::Given;
use crate::image::{front_of, u16_at, u32_at};

/// "In the lent list it is 40 bytes: u16 table (0 to 8 in the image's order), u16 index, u32 day, the 32-byte
/// record."
pub const BYTES: usize = 40;

#[derive(Clone, Copy, Debug)]
pub struct Amendment {
    pub table: u16,
    pub index: u16,
    pub day: u32,
    pub record: [u8; 32],
}

impl Amendment {
    pub fn encode(&self) -> [u8; BYTES] {
        let mut out = [0; BYTES];
        out[0..2].copy_from_slice(&self.table.to_le_bytes());
        out[2..4].copy_from_slice(&self.index.to_le_bytes());
        out[4..8].copy_from_slice(&self.day.to_le_bytes());
        out[8..40].copy_from_slice(&self.record);
        out
    }
}

/// The whole amendments of a list.
pub fn listed(list: &[u8]) -> Vec<Amendment> {
    list.chunks_exact(BYTES)
        .map(|a| Amendment {
            table: u16_at(a, 0),
            index: u16_at(a, 2),
            day: u32_at(a, 4),
            record: a[8..40].try_into().expect("32 bytes"),
        })
        .collect()
}

/// How many records each table of an image has that 1 to 4 let pass.
pub fn counts(image: &[u8]) -> [u16; 9] {
    let end = image.len() - 28;
    std::array::from_fn(|table| u16_at(image, end + 2 * table))
}

/// Whether there is such a record: not "a table number above 8 or an index beyond its table".
pub fn named(counts: &[u16; 9], a: &Amendment) -> bool {
    counts.get(usize::from(a.table)).is_some_and(|&count| a.index < count)
}

/// "For a given day, a record is superseded by the latest-day amendment not after that day; on equal days the
/// later in the list counts": those in force, put in the order of their days, one over the other. A stable sort
/// leaves equal days as the list has them. All of them name a record.
pub fn effective(base: &[u8], list: &[Amendment], day: u32) -> Vec<u8> {
    let counts = counts(base);
    let mut in_force: Vec<&Amendment> = list.iter().filter(|a| a.day <= day).collect();
    in_force.sort_by_key(|a| a.day);
    let mut out = base.to_vec();
    for a in in_force {
        let before: usize = counts[..usize::from(a.table)].iter().map(|&n| usize::from(n)).sum();
        let at = front_of(base) + 32 * (before + usize::from(a.index));
        out[at..at + 32].copy_from_slice(&a.record);
    }
    out
}

/// "It must pass every image check too, and where it fails, that check's number is given. It refuses (27, after
/// the base image's checks) a list not in forties, or a table number above 8 or an index beyond its table,
/// anywhere in the list, and (28, next, before the effective image's checks) an output buffer shorter than the
/// image". `checked`: what the check says of the base.
pub fn amended(
    base: &[u8],
    checked: u8,
    list: &[u8],
    day: u32,
    lent: usize,
) -> Result<Given, String> {
    if checked != 0 {
        return Ok(Err(checked));
    }
    let (counts, amendments) = (counts(base), listed(list));
    if !list.len().is_multiple_of(BYTES) || amendments.iter().any(|a| !named(&counts, a)) {
        return Ok(Err(27));
    }
    if lent < base.len() {
        return Ok(Err(28));
    }
    let image = effective(base, &amendments, day);
    match adapter::prepare(&image)?.refusal {
        0 => Ok(Ok(image)),
        refusal => Ok(Err(refusal)),
    }
}
