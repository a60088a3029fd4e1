//! The library's boundary: the wrapper crate's structs and calls (`pamuklid::raw`).

pub use pamuklid::raw::{
    Edges, Fields, MOST_REPORT, MOST_TEXT, REPORT_ROW, Station, Text, airtime, amend, census,
    check, evaluate, fault_of, lower, nearest_dial, raise, report, safe_dials, text_at, text_hertz,
    text_khz, tidy, walk_first, walk_open, walk_step, write,
};

/// A climb with one control frame for all its rungs.
#[inline]
pub fn ceiling(
    s: Station,
    direction: u8,
    control: Edges,
    image: &[u8],
    rungs: &[f64],
    floors: &[u8],
) -> pamuklid::raw::Ceiling {
    pamuklid::raw::ceiling(s, direction, control, control, image, rungs, floors)
}
