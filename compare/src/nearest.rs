//! The nearest dial, from document 02, 11: what is refused, which premise fails, and of each row that the Rust
//! lists outside the channel band the point next to the present dial. With the feature `stub` this file is built
//! a second time, for the stub.

use super::adapter::{self, Prepared};
use super::expect;
use crate::ffi::{Edges, Figures, Nearest, Station};
use crate::image::{BANDS, HAS_CHANNELS, POWER, Record, Table, f64_at};

/// "hertz figures of at most 2^38 in size"
pub const FAR: f64 = 274_877_906_944.0;

/// An answer: "give the one", "'None' is said", "the answer is 'not judged'".
#[derive(Clone, Copy, Debug, PartialEq)]
pub enum Answer {
    Refused(u8),
    Dial(f64),
    None,
    NotJudged,
}

/// The numbers of an answer; the dial is infinite where there is none.
pub fn flat(answer: Answer) -> Nearest {
    let (answer, refusal, dial_hz) = match answer {
        Answer::Refused(number) => (0, number, f64::INFINITY),
        Answer::Dial(dial) => (1, 0, dial),
        Answer::None => (2, 0, f64::INFINITY),
        Answer::NotJudged => (3, 0, f64::INFINITY),
    };
    Nearest { dial_hz, answer, refusal }
}

/// A premise that fails, a figure by its number (`figures`).
#[derive(Clone, Copy, Debug, PartialEq)]
pub enum Fault {
    Rules,
    Tidy,
    Region,
    Control,
    License,
    Sideband,
    Dial,
    Width,
    OffGrid(usize),
    Far(usize),
}

/// Numbers of figures: the general block's five, three of a record of each table, the edges, the margins, the
/// dial.
pub const RECORDS: usize = 5;
pub const EDGES: usize = RECORDS + 27;
pub const LOWER: usize = EDGES + 4;
pub const UPPER: usize = LOWER + 1;
/// Both margins, where they are one figure.
pub const BOTH: usize = UPPER + 1;
pub const DIAL: usize = BOTH + 1;

/// "Hertz figures are those of image, edges, station record and dial asked; watts are none." Those of the band
/// plan with the plan off too, both pairs of edges; of an absent dial none. Each with its number.
pub fn figures(t: &Table, s: &Station, e: &Edges) -> Vec<(usize, f64)> {
    let block = [t.data_limit, t.elsewhere_limit, t.width, t.offset, t.tolerance];
    let mut out: Vec<(usize, f64)> = block.into_iter().enumerate().collect();
    for (table, records) in t.tables.iter().enumerate() {
        for r in records {
            let own = [r.low, r.high, r.figure];
            // the third figure of a power record is watts
            let hertz = if table == POWER { 2 } else { 3 };
            out.extend((0..hertz).map(|k| (RECORDS + 3 * table + k, own[k])));
        }
    }
    out.extend((EDGES..).zip(e.figures()));
    match expect::margins(s) {
        (lower, upper) if lower == upper => out.push((BOTH, lower)),
        (lower, upper) => out.extend([(LOWER, lower), (UPPER, upper)]),
    }
    if s.dial_known == 1 {
        out.push((DIAL, s.dial_hz));
    }
    out
}

/// "A figure is in eighths if eight times it is whole."
pub fn in_eighths(x: f64) -> bool {
    (8.0 * x).fract() == 0.0
}

/// The edges read.
fn audio(t: &Table, e: &Edges) -> (f64, f64) {
    let [power_low, power_high, low, high] = e.figures().map(expect::read);
    match t.reading {
        0 => (power_low, power_high),
        1 => (low, high),
        _ => (power_low.min(low), power_high.max(high)),
    }
}

/// The premises that fail of a call that isn't refused: "the premises of the nought distance on table, station
/// and signal (the present dial in eighths [...]), and hertz figures of at most 2^38 in size". Those are "a tidy
/// table in force, all hertz figures in eighths, prerequisites met, a positive guarded width".
pub fn faults(p: &Prepared, s: &Station, e: &Edges) -> Vec<Fault> {
    // "A table is in force if the policy is Rules and no image check refuses it."
    let Some(t) = p.table.as_ref().filter(|_| s.policy == 2) else {
        return vec![Fault::Rules];
    };
    let (low, high) = audio(t, e);
    let (lower, upper) = expect::margins(s);
    let tests = [
        (Fault::Tidy, !expect::tidy(t)),
        // "Prerequisites in order: region, control, licence, sideband, dial."
        (Fault::Region, s.itu_region != t.region),
        (Fault::Control, s.control == 255),
        (Fault::License, s.license == 255),
        (Fault::Sideband, s.sideband == 255),
        (Fault::Dial, s.dial_known == 0),
        // "A positive guarded width is now width plus both."
        (Fault::Width, (high - low) + (lower + upper) <= 0.0),
    ];
    let mut out: Vec<Fault> =
        tests.into_iter().filter(|test| test.1).map(|(fault, _)| fault).collect();
    for (number, x) in figures(t, s, e) {
        if !in_eighths(x) {
            out.push(Fault::OffGrid(number));
        }
        if x.abs() > FAR {
            out.push(Fault::Far(number));
        }
    }
    out
}

/// The dials of the Rust's rows "outside the channel band": "rows whose band byte isn't the channel band's
/// number (all rows if flag bit 2 is clear)".
pub fn rows(t: &Table, bytes: &[u8]) -> Vec<(f64, f64)> {
    let counts = |r: &&[u8]| !(t.has(HAS_CHANNELS) && r[32] == t.channel_band);
    bytes.chunks(36).filter(counts).map(|r| (f64_at(r, 16), f64_at(r, 24))).collect()
}

/// "A numbered refusal comes first; otherwise, where one of these premises fails, and only there, the answer is
/// 'not judged'." Else "the one at which data is allowed and no allowed one is closer; of two equally close, the
/// lower", or "none".
pub fn answer(p: &Prepared, s: &Station, direction: u8, e: &Edges) -> Result<Answer, String> {
    let (refusal, bytes) = adapter::safe_dials(p, s, direction, e)?;
    if refusal != 0 {
        return Ok(Answer::Refused(refusal));
    }
    let t = match &p.table {
        Some(t) if faults(p, s, e).is_empty() => t,
        _ => return Ok(Answer::NotJudged),
    };
    let dial = expect::read(s.dial_hz);
    let mut best: Option<f64> = None;
    for (low, high) in rows(t, &bytes) {
        let next = if dial < low {
            low
        } else if dial > high {
            high
        } else {
            dial
        };
        let (far, least) = ((next - dial).abs(), best.map(|x| (x - dial).abs()));
        if least.is_none_or(|least| far < least) || (Some(far) == least && Some(next) < best) {
            best = Some(next);
        }
    }
    Ok(best.map_or(Answer::None, Answer::Dial))
}

/// Whether the channel band holds the guarded range at a dial: "The channel band is every band of byte 43's
/// number, none if flag bit 2 is clear. It holds a range if one of its bands does."
pub fn on_channel_band(t: &Table, s: &Station, e: &Edges, dial: f64) -> bool {
    let (low, high) = audio(t, e);
    let (lower, upper) = expect::margins(s);
    let (lo, hi) = match s.sideband {
        0 => (dial + low, dial + high),
        _ => (dial - high, dial - low),
    };
    let holds =
        |b: &Record| b.band == t.channel_band && b.low <= lo - lower && hi + upper <= b.high;
    t.has(HAS_CHANNELS) && t.tables[BANDS].iter().any(holds)
}
