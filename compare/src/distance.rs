//! The distance of a dial and demand 3, from document 01. The distance of each list found is worked
//! out here and compared; then demand 3's statement is asked of both sides' equal answers: nought
//! exactly if data is allowed. With the feature `stub` this file is built a second time, for the stub.

use super::expect;
use crate::damage;
use crate::draw::Rng;
use crate::ffi::{Distance, Edges, Figures, Station};
use crate::image::{BANDS, HAS_CHANNELS, Record, SEGMENTS, Table, f64_at};

/// What is asked: a dial, bytes 42 and 43 of the list's image, and how many rows it has.
#[derive(Clone, Copy, Debug)]
pub struct Asked {
    pub dial: f64,
    pub flags: u8,
    pub channel_band: u8,
    pub count: u32,
}

impl Asked {
    /// Of a finished list.
    pub fn of(table: &Table, rows: &[u8], dial: f64) -> Self {
        let count = (rows.len() / 36) as u32;
        Self { dial, flags: table.flags, channel_band: table.channel_band, count }
    }

    /// "the least, over rows whose band byte isn't the channel band's number (all rows if flag bit 2
    /// is clear), of how far the dial stands below the row's lower dial or above its upper, 0 on or
    /// between them. With no such row the answer is "none listed"." A dial out of size meets 21, more
    /// rows than were lent 23; a row whose dials aren't in their order, which no list has, doesn't
    /// count (docs/DECISIONS.md).
    pub fn answer(&self, rows: &[u8]) -> Result<Option<f64>, u8> {
        if expect::out_of_size(self.dial) {
            return Err(21);
        }
        let count = self.count as usize;
        if rows.len() / 36 < count {
            return Err(23);
        }
        let dial = expect::read(self.dial);
        let mut least: Option<f64> = None;
        for r in rows.chunks(36).take(count) {
            let (low, high) = (f64_at(r, 16), f64_at(r, 24));
            let channel = self.flags & HAS_CHANNELS != 0 && r[32] == self.channel_band;
            let in_order = low <= high;
            if channel || !in_order {
                continue;
            }
            let far = if dial < low {
                low - dial
            } else if dial > high {
                dial - high
            } else {
                0.0
            };
            if least.is_none_or(|best| far < best) {
                least = Some(far);
            }
        }
        Ok(least)
    }

    /// One that no list leads to: odd dials, wrong counts, damaged rows.
    pub fn odd(rng: &mut Rng, table: &Table, rows: &[u8]) -> (Self, Vec<u8>) {
        let mut a = Self::of(table, rows, some_dial(rng, table, rows));
        let mut rows = rows.to_vec();
        for _ in 0..1 + rng.below(2) {
            match rng.below(7) {
                0 => a.dial = damage::odd_figure(rng),
                1 => a.count += 1 + rng.below(3) as u32,
                2 => a.count = a.count.saturating_sub(1),
                3 => (a.flags, a.channel_band) = (rng.next() as u8, rng.next() as u8),
                4 => rows.extend((0..rng.below(80)).map(|_| rng.next() as u8)),
                5 if !rows.is_empty() => {
                    let at = 36 * rng.below(rows.len() / 36) + rng.pick(&[16, 24]);
                    let x = damage::odd_figure(rng);
                    if let Some(place) = rows.get_mut(at..at + 8) {
                        place.copy_from_slice(&x.to_bits().to_le_bytes());
                    }
                }
                _ if !rows.is_empty() => {
                    let at = rng.below(rows.len());
                    rows[at] ^= 1 << rng.below(8);
                }
                _ => a.dial = -0.0,
            }
        }
        (a, rows)
    }
}

/// An answer's numbers: with none listed, and on a refusal, the distance is infinite
/// (docs/DECISIONS.md).
pub fn flat(answer: Result<Option<f64>, u8>) -> Distance {
    let (refusal, far) = match answer {
        Ok(far) => (0, far),
        Err(refusal) => (refusal, None),
    };
    let listed = u8::from(far.is_some());
    Distance { distance_hz: far.unwrap_or(f64::INFINITY), listed, refusal }
}

/// "A figure is in eighths if eight times it is whole."
fn eighths(x: f64) -> bool {
    (8.0 * x).fract() == 0.0
}

fn table_in_eighths(t: &Table) -> bool {
    // watts are no hertz figure: table 6's third figure apart
    let record = |number: usize, r: &Record| {
        eighths(r.low) && eighths(r.high) && (number == 6 || eighths(r.figure))
    };
    [t.data_limit, t.elsewhere_limit, t.width, t.offset, t.tolerance].into_iter().all(eighths)
        && t.tables.iter().enumerate().all(|(n, records)| records.iter().all(|r| record(n, r)))
}

/// What of a list demand 3 asks, the dial apart: "a tidy table in force, all hertz figures in
/// eighths, prerequisites met, a positive guarded width".
pub fn premises(t: &Table, tidy: bool, s: &Station, e: &Edges) -> bool {
    let f = e.figures();
    let (low, high) = read(t, e);
    tidy && s.policy == 2
        && s.itu_region == t.region
        && [s.control, s.license, s.sideband].iter().all(|&code| code != 255)
        && table_in_eighths(t)
        && f.into_iter().chain([s.margin_lower_hz, s.margin_upper_hz]).all(eighths)
        && high - low + (s.margin_lower_hz + s.margin_upper_hz) > 0.0
}

fn read(t: &Table, e: &Edges) -> (f64, f64) {
    match t.reading {
        0 => (e.power_low, e.power_high),
        1 => (e.spectral_low, e.spectral_high),
        _ => (e.power_low.min(e.spectral_low), e.power_high.max(e.spectral_high)),
    }
}

/// "a dial that the gate doesn't refuse and whose guarded range the channel band doesn't hold": the
/// second half, and that the dial is in eighths. A dial above 2^40 in size is refused.
pub fn dial_premises(t: &Table, s: &Station, e: &Edges, dial: f64) -> bool {
    let (low, high) = read(t, e);
    let (lo, hi) =
        if s.sideband == 0 { (dial + low, dial + high) } else { (dial - high, dial - low) };
    let (glo, ghi) = (lo - s.margin_lower_hz, hi + s.margin_upper_hz);
    let holds = |b: &Record| b.band == t.channel_band && b.low <= glo && ghi <= b.high;
    eighths(dial)
        && !expect::out_of_size(dial)
        && !(t.has(HAS_CHANNELS) && t.tables[BANDS].iter().any(holds))
}

/// A dial worth asking of a list: an end of a row or of a segment, or one beside it.
pub fn some_dial(rng: &mut Rng, t: &Table, rows: &[u8]) -> f64 {
    let x = if !rows.is_empty() && rng.chance(80) {
        f64_at(&rows[36 * rng.below(rows.len() / 36)..], if rng.chance(50) { 16 } else { 24 })
    } else {
        let r = rng.pick(&t.tables[SEGMENTS]);
        if rng.chance(50) { r.low } else { r.high }
    };
    match rng.below(6) {
        0..=2 => x,
        3 => x + 0.125,
        4 => x - 0.125,
        _ => x + rng.below(160) as f64 / 8.0 - 10.0,
    }
}
