//! What documents 01 and 02 say and the Rust doesn't: refusals 1 to 6, 15, 16 and 20 to 24, where a table
//! is wrong, the tidy question, the fresh record, and the parts of an answer that the Rust has only as
//! text. Written from the two documents (quoted) and docs/DECISIONS.md, not from the Rust and not from
//! the Rattle code.

use crate::ffi::{Edges, Fault, Figures, Station};
use crate::image::{
    AUTOMATIC, BANDS, CHANNELS, EXCLUDED, PLAN_AVOID, PLAN_DATA, POWER, PRIVILEGES, SEGMENTS,
};
use crate::image::{FIXED_WATTS, Record, Table, decode, f64_at, front_of, u16_at, u32_at};

/// "not finite or above 2^40 in size"
pub fn out_of_size(x: f64) -> bool {
    !x.is_finite() || x.abs() > 1_099_511_627_776.0
}

/// "Negative zero in edges or station reads as zero."
pub fn read(x: f64) -> f64 {
    if x == 0.0 { 0.0 } else { x }
}

// ------------------------------------------------------------------------------ the image

/// Refusals 1 to 6, in their order, each over the whole image; 0 if none is met.
pub fn image_1_to_6(image: &[u8]) -> u8 {
    let n = image.len();
    // "1 now means under 92 or over 65,552" (document 02)
    if n < 92 || n > 65_552 {
        return 1;
    }
    // "Trailer: nine u16 counts, a u32 distance from the trailer's start back to the first byte,
    // u16 edition 1, and the ASCII letters EDGE."
    let end = n - 28;
    if image[end + 24..] != *b"EDGE" {
        return 2;
    }
    // "3 now passes both editions" (document 02)
    if !matches!(u16_at(image, end + 22), 1 | 2) {
        return 3;
    }
    // "4 a count over 256, or a length or distance that disagrees"
    let counts: Vec<usize> = (0..9).map(|t| u16_at(image, end + 2 * t) as usize).collect();
    if counts.iter().any(|&count| count > 256) {
        return 4;
    }
    // "a length wrong for the edition meets 4" (document 02)
    let begin = front_of(image);
    let front = begin + 32 * counts.iter().sum::<usize>();
    if end != front {
        return 4;
    }
    if u32_at(image, end + 18) as usize != front {
        return 4;
    }
    // "5 a coded byte outside its values, an unused one not zero, or a table of an absent part
    // not empty"
    let block = &image[0..64];
    if !block_is_right(block) {
        return 5;
    }
    if block[42] & 4 == 0 && counts[CHANNELS] != 0 {
        return 5;
    }
    if block[42] & 16 == 0 && counts[PLAN_DATA] + counts[PLAN_AVOID] != 0 {
        return 5;
    }
    let mut places = Vec::new();
    for (table, &count) in counts.iter().enumerate() {
        places.extend(std::iter::repeat_n(table, count));
    }
    for (i, &table) in places.iter().enumerate() {
        if !record_is_right(table, &image[begin + 32 * i..begin + 32 + 32 * i]) {
            return 5;
        }
    }
    // "6 a figure not finite, above 2^40 in size, or negative zero"
    let bad = |at: usize| bad_figure(image, at);
    if (0..5).any(|i| bad(8 * i)) || (64..begin).step_by(8).any(bad) {
        return 6;
    }
    if (0..places.len()).any(|i| (0..3).any(|k| bad(begin + 32 * i + 8 * k))) {
        return 6;
    }
    0
}

/// "6 a figure not finite, above 2^40 in size, or negative zero"
fn bad_figure(b: &[u8], at: usize) -> bool {
    let x = f64_at(b, at);
    out_of_size(x) || x.to_bits() == 1 << 63
}

/// Where the table of an image is wrong that the check refuses with this number, or accepts (0): for 5
/// to 10, 12 and 13 the general block, else the first record that meets the number's own test, tables
/// in the image's order (docs/DECISIONS.md).
pub fn fault(image: &[u8], refusal: u8) -> Fault {
    let nowhere = Fault { record: 65_535, table: 255, place: 0, refusal };
    if !matches!(refusal, 5..=10 | 12 | 13) {
        return nowhere;
    }
    let block_meets = match refusal {
        5 => !block_is_right(&image[..64]),
        6 => [0, 8, 16, 24, 32]
            .into_iter()
            .chain((64..front_of(image)).step_by(8))
            .any(|at| bad_figure(image, at)),
        _ => false,
    };
    if block_meets {
        return Fault { place: 1, ..nowhere };
    }
    let t = decode(image);
    let mut at = front_of(image);
    for (table, records) in t.tables.iter().enumerate() {
        for (record, r) in records.iter().enumerate() {
            if record_meets(refusal, &t, table, r, &image[at..at + 32]) {
                return Fault { record: record as u16, table: table as u8, place: 2, refusal };
            }
            at += 32;
        }
    }
    nowhere
}

/// Whether an image that 1 to 4 let pass meets one of 5 to 14, whatever it meets before.
pub fn meets(image: &[u8], refusal: u8) -> bool {
    let t = decode(image);
    match refusal {
        11 => t.tables[BANDS].is_empty() || t.tables[SEGMENTS].is_empty(),
        14 => t.data_limit <= 0.0,
        _ => fault(image, refusal).place != 0,
    }
}

/// Whether a record meets the test of a refusal, as the list of refusals in document 01 has it.
fn record_meets(refusal: u8, t: &Table, table: usize, r: &Record, bytes: &[u8]) -> bool {
    match (refusal, table) {
        // "a table of an absent part not empty"
        (5, CHANNELS) if t.flags & 4 == 0 => true,
        (5, PLAN_DATA | PLAN_AVOID) if t.flags & 16 == 0 => true,
        (5, _) => !record_is_right(table, bytes),
        (6, _) => [0, 8, 16].iter().any(|&at| bad_figure(bytes, at)),
        (7, BANDS) | (8, SEGMENTS) | (9, AUTOMATIC) | (10, PRIVILEGES) => r.low >= r.high,
        (12, SEGMENTS) => !t.tables[BANDS].iter().any(|b| b.low <= r.low && r.high <= b.high),
        (13, SEGMENTS) => r.flags & 1 != 0 && r.figure <= 0.0,
        _ => false,
    }
}

/// "Unused bytes and fields of absent parts are zero".
fn zero(bytes: &[u8]) -> bool {
    bytes.iter().all(|&b| b == 0)
}

/// "General: 0 data limit, 8 elsewhere limit, 16 channel width, 24 carrier offset, 32 carrier
/// tolerance (f64 each); bytes 40 region, 41 reading (0 power, 1 spectral, 2 wider), 42 flags
/// (bit 0 elsewhere, 1 response required, a field of elsewhere, 2 channels, 3 60 m emissions,
/// 4 plan), 43 channel band, 44 sideband (0 upper, 1 lower), 45 emission bits; u16 rules at 46
/// data, 48 elsewhere, 50 automatic segments, 52 channels, 54 emissions, 56 privileges."
fn block_is_right(b: &[u8]) -> bool {
    let flags = b[42];
    let elsewhere = flags & 1 != 0;
    let response = flags & 2 != 0;
    let channels = flags & 4 != 0;
    let emissions = flags & 8 != 0;
    b[41] <= 2
        && flags < 32
        && b[44] <= 1
        && b[45] < 16
        && zero(&b[58..64])
        && (elsewhere || (!response && zero(&b[8..16]) && zero(&b[48..50])))
        && (channels || (zero(&b[16..40]) && zero(&b[43..45]) && zero(&b[52..54])))
        && (emissions || (b[45] == 0 && zero(&b[54..56])))
}

/// "Record: 0 low, 8 high, 16 figure (f64); bytes 24 band, 25 class, 26 emission bits, 27 flags;
/// u16 at 28 rule, 30 second rule. Tables: bands (low, high, band); data segments (plus figure
/// under flag bit 0, rule, second rule under bit 1); channels (low is the centre); privileges
/// (range, class number, emission bits under flag bit 0, rule under bit 1); automatic segments
/// (range); excluded (band, rule); power (range, figure in watts, class bits under flag bit 0,
/// rule); plan data and plan avoid (range, label number in rule)."
fn record_is_right(table: usize, r: &[u8]) -> bool {
    let (figure, band, class, emissions, flags) = (&r[16..24], r[24], r[25], r[26], r[27]);
    let (rule, second) = (&r[28..30], &r[30..32]);
    match table {
        BANDS => zero(figure) && class == 0 && emissions == 0 && flags == 0 && zero(&r[28..32]),
        SEGMENTS => {
            flags < 4
                && (flags & 1 != 0 || zero(figure))
                && (class == 0 && emissions == 0)
                && (flags & 2 != 0 || zero(second))
        }
        CHANNELS => zero(&r[8..32]),
        PRIVILEGES => {
            (zero(figure) && band == 0)
                && (class <= 4 && flags < 4 && emissions < 16)
                && (flags & 1 != 0 || emissions == 0)
                && (flags & 2 != 0 || zero(rule))
                && zero(&r[30..32])
        }
        AUTOMATIC => zero(&r[16..32]),
        EXCLUDED => zero(&r[0..24]) && class == 0 && zero(&r[26..28]) && zero(&r[30..]),
        POWER => {
            (band == 0 && emissions == 0)
                && (class < 32 && flags < 2)
                && (flags == 1 || class == 0)
                && zero(&r[30..=31])
        }
        PLAN_DATA | PLAN_AVOID => zero(&r[16..28]) && zero(&r[30..][..2]),
        _ => unreachable!(),
    }
}

/// "share a stretch of positive length"
fn two_share(records: &[Record]) -> bool {
    records
        .iter()
        .enumerate()
        .any(|(i, a)| records[..i].iter().any(|b| a.low.max(b.low) < a.high.min(b.high)))
}

/// "A table is *tidy* if each data segment lies in a band of its number, and no two bands, no two
/// segments, and no two privileges of one class share a stretch of positive length."
pub fn tidy(table: &Table) -> bool {
    let at_home = table.tables[SEGMENTS].iter().all(|s| {
        table.tables[BANDS].iter().any(|b| b.band == s.band && s.low >= b.low && s.high <= b.high)
    });
    let class_shares = |class: u8| {
        let of: Vec<Record> =
            table.tables[PRIVILEGES].iter().filter(|p| p.class == class).copied().collect();
        two_share(&of)
    };
    at_home
        && !two_share(&table.tables[BANDS])
        && !two_share(&table.tables[SEGMENTS])
        && !(0..5).any(class_shares)
}

// ----------------------------------------------------------------------- station and signal

/// "Station codes: policy 0 unset, 1 none, 2 rules, 3 broken; control 0 local, 1 remote,
/// 2 automatic; sideband 0 upper, 1 lower; direction 0 originate, 1 respond, 2 operator; kinds as
/// emission bits; 255 for an absent control, licence or sideband. The plan mark is 0 or 1. Dial and
/// power have a presence byte 0 or 1; at 0 the figure isn't looked at." Document 02: "The direction
/// gains the value 3, 'respond to automatic'".
pub fn station_refusal(s: &Station, direction: u8, kind: u8) -> u8 {
    let codes_right = s.policy <= 3
        && (s.control <= 2 || s.control == 255)
        && (s.license <= 4 || s.license == 255)
        && (s.sideband <= 1 || s.sideband == 255)
        && s.band_plan <= 1
        && s.dial_known <= 1
        && s.power_known <= 1
        && direction <= 3
        && kind <= 3;
    if !codes_right {
        return 20;
    }
    // "a lower and an upper margin instead of one [...] and 21 covers each" (document 02)
    if out_of_size(s.margin_lower_hz) || out_of_size(s.margin_upper_hz) {
        return 21;
    }
    if s.dial_known == 1 && out_of_size(s.dial_hz) {
        return 21;
    }
    if s.power_known == 1 && out_of_size(s.power_w) {
        return 21;
    }
    0
}

/// "22 Rules in force and an image of length 0"; "Images are read only under Rules."
/// `refused` is what the image check says, 1 to 14 or 0.
pub fn image_refusal(s: &Station, length: usize, refused: u8) -> u8 {
    if s.policy != 2 {
        return 0;
    }
    if length == 0 {
        return 22;
    }
    refused
}

/// "15 an edge not finite or above 2^40 in size"
pub fn edges_refused(e: &Edges) -> bool {
    e.figures().into_iter().any(out_of_size)
}

/// 15 for a ceiling: both control pairs, and every figure of the rungs. A figure past the last whole
/// four is an edge too (docs/DECISIONS.md).
pub fn ladder_refused(ordinary: &Edges, floor: &Edges, rungs: &[f64]) -> bool {
    edges_refused(ordinary) || edges_refused(floor) || rungs.iter().any(|&x| out_of_size(x))
}

/// "16 rungs not in fours, over 256, or floor bytes not one each of 0 or 1"
pub fn rungs_refused(rungs: &[f64], floors: &[u8]) -> bool {
    let count = rungs.len() / 4;
    rungs.len() % 4 != 0 || count > 256 || floors.len() != count || floors.iter().any(|&f| f > 1)
}

/// "23 the dial list longer than the whole rows lent"
pub fn rows_refused(count: usize, rows_lent_bytes: usize) -> bool {
    count > rows_lent_bytes / 36
}

/// "A fresh station record now has region 2 and margin 50", "50 in each": document 02. Else it follows
/// `Situation`'s `Default`, which keeps region 0 and margin 0: "plan off, the rest absent".
pub const FRESH: Station = Station {
    margin_lower_hz: 50.0,
    margin_upper_hz: 50.0,
    dial_hz: 0.0,
    power_w: 0.0,
    policy: 0,
    control: 255,
    license: 255,
    sideband: 255,
    itu_region: 2,
    band_plan: 0,
    dial_known: 0,
    power_known: 0,
};

// ------------------------------------------------------- parts that the Rust has only as text

/// "`holds` and `overlaps` include both ends."
fn overlaps(r: &Record, low: f64, high: f64) -> bool {
    r.low <= high && low <= r.high
}

/// The margins as they are read, lower and upper: "each used at its own side everywhere", "On lower sideband
/// they still mean the air side." (document 02)
pub fn margins(s: &Station) -> (f64, f64) {
    (read(s.margin_lower_hz), read(s.margin_upper_hz))
}

pub fn margins_differ(s: &Station) -> bool {
    let (lower, upper) = margins(s);
    lower != upper
}

/// For code 10 the band given is the first that the guarded range touches, if any.
pub fn touching(table: &Table, (lo, hi): (f64, f64), (lower, upper): (f64, f64)) -> Option<usize> {
    let (glo, ghi) = (lo - lower, hi + upper);
    table.tables[BANDS].iter().position(|b| overlaps(b, glo, ghi))
}

/// Code 13's overshoot: which segment, and the answer.
#[derive(Clone, Copy, Debug, PartialEq)]
pub struct Overshoot {
    pub segment: usize,
    /// Above 0: beyond the edge by that; 0: merely too close.
    pub by: f64,
    pub upper: bool,
}

/// "Outside every segment: among segments overlapping the guarded range take the least overshoot
/// (unguarded), first at a tie. The answer is either beyond an edge by a distance or merely too
/// close to an edge. Above ≥ below names the upper edge." The nearest goes by the sum of both
/// sides, the distance is the greater side.
pub fn overshoot(
    table: &Table,
    (lo, hi): (f64, f64),
    (lower, upper): (f64, f64),
) -> Option<Overshoot> {
    let (glo, ghi) = (lo - lower, hi + upper);
    let side = |x: f64| if x > 0.0 { x } else { 0.0 };
    let mut best: Option<(f64, Overshoot)> = None;
    for (segment, r) in table.tables[SEGMENTS].iter().enumerate() {
        if !overlaps(r, glo, ghi) {
            continue;
        }
        let (below, above) = (side(r.low - lo), side(hi - r.high));
        let sum = below + above;
        if best.is_none_or(|(least, _)| sum < least) {
            let by = if above >= below { above } else { below };
            best = Some((sum, Overshoot { segment, by, upper: above >= below }));
        }
    }
    best.map(|b| b.1)
}

#[derive(Clone, Copy, Debug, PartialEq)]
pub enum Guidance {
    None,
    Avoid(usize),
    Inside(usize),
    Outside,
}

/// "`advise` gets the unguarded range, except in automatic judging, where the margin is taken off
/// and put back in floats." Taken off the guarded range, that is: (lo − m) + m and (hi + m) − m, each side
/// by its own.
pub fn advised_range(
    automatic: bool,
    (lo, hi): (f64, f64),
    (lower, upper): (f64, f64),
) -> (f64, f64) {
    if automatic { ((lo - lower) + lower, (hi + upper) - upper) } else { (lo, hi) }
}

/// The power records whose note is given: those that touch the range, are meant for the class, and
/// whose watts are strictly below the station's.
pub fn power_notes(
    table: &Table,
    (lo, hi): (f64, f64),
    license: u8,
    watts: Option<f64>,
) -> Vec<usize> {
    let Some(watts) = watts else {
        return Vec::new();
    };
    let given = |r: &Record| {
        let meant = r.flags & 1 == 0 || r.class >> license & 1 == 1;
        meant && overlaps(r, lo, hi) && watts > r.figure
    };
    let records = table.tables[POWER].iter().enumerate();
    records.filter(|(_, r)| given(r)).map(|(i, _)| i).collect()
}

/// Guidance: the first area to avoid that the range touches; else the first data area that holds
/// it; else outside. None where the station doesn't ask or the table has no plan.
pub fn guidance(table: &Table, (lo, hi): (f64, f64), asked: bool) -> Guidance {
    if !asked || table.flags & 16 == 0 {
        return Guidance::None;
    }
    let avoid = &table.tables[PLAN_AVOID];
    if let Some(i) = avoid.iter().position(|r| overlaps(r, lo, hi)) {
        return Guidance::Avoid(i);
    }
    let data = &table.tables[PLAN_DATA];
    let inside = |r: &Record| lo >= r.low && hi <= r.high;
    data.iter().position(inside).map_or(Guidance::Outside, Guidance::Inside)
}

/// "Warnings are strictly above 100 W and 9.15 W." "With other watts the notes and warnings are held to the
/// same definition with those watts in it" (document 02).
pub fn above_channel_watts(table: &Table, watts: Option<f64>) -> bool {
    watts.is_some_and(|w| w > table.limits().0)
}

pub fn above_segment_watts(table: &Table, watts: Option<f64>) -> bool {
    watts.is_some_and(|w| w > table.limits().1)
}

/// Whether the station is judged by a table whose 60 m power limits are others than edition 1's.
pub fn other_watts(table: Option<&Table>, s: &Station) -> bool {
    s.policy == 2 && table.is_some_and(|table| table.limits() != FIXED_WATTS)
}

// ------------------------------------------------------------------------------ number texts

/// "A figure not finite or above 2^43 in size meets 21."
pub fn no_text_of(hz: f64) -> bool {
    !hz.is_finite() || hz.abs() > 8_796_093_022_208.0
}

/// "It refuses (24, after 23) when the lent bytes are too few".
pub fn text_refused(length: usize, room: usize) -> bool {
    room < length
}
