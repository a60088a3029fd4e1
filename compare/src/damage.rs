//! What is to be refused: damaged images, and stations, edges and rungs outside their values.

use crate::cases::Ladder;
use crate::draw::{BIG, Rng, UNEQUAL, nudge, plain};
use crate::ffi::{Edges, Figures, Station};
use crate::image::*;
use crate::tables::{World, some_watts, whole};

/// A figure that meets 6, 15 or 21, or just doesn't.
pub fn odd_figure(rng: &mut Rng) -> f64 {
    let sign = rng.next() & 1 << 63;
    let x: f64 = match rng.below(8) {
        0 => f64::INFINITY,
        1 => f64::NAN,
        2 => f64::from_bits(0x7ff0_0000_0000_0001),
        3 => f64::from_bits(0x7fff_ffff_ffff_ffff),
        4 => BIG.next_up(),
        5 => BIG,
        6 => f64::MAX,
        _ => 0.0,
    };
    f64::from_bits(x.to_bits() ^ sign)
}

/// A code outside its values, or just inside.
fn odd_code(rng: &mut Rng) -> u8 {
    rng.pick(&[2, 3, 4, 5, 6, 16, 128, 253, 254, 255])
}

pub fn spoil_station(rng: &mut Rng, s: &mut Station) {
    match rng.below(10) {
        0 => s.policy = odd_code(rng),
        1 => s.control = odd_code(rng),
        2 => s.license = odd_code(rng),
        3 => s.sideband = odd_code(rng),
        4 => s.band_plan = odd_code(rng),
        5 => s.dial_known = odd_code(rng),
        6 => s.power_known = odd_code(rng),
        7 => spoil_margins(rng, s),
        8 => s.dial_hz = odd_figure(rng),
        _ => s.power_w = odd_figure(rng),
    }
}

/// Both margins, or, where they may differ, one.
fn spoil_margins(rng: &mut Rng, s: &mut Station) {
    let x = odd_figure(rng);
    match if UNEQUAL { rng.below(3) } else { 2 } {
        0 => s.margin_lower_hz = x,
        1 => s.margin_upper_hz = x,
        _ => (s.margin_lower_hz, s.margin_upper_hz) = (x, x),
    }
}

pub fn spoil_code(rng: &mut Rng, code: &mut u8) {
    *code = odd_code(rng);
}

/// A direction outside its values, or 2. 3, which was outside until it became "respond to automatic", is 4
/// here, so that a seed's refused cases stay refused.
pub fn spoil_direction(rng: &mut Rng, direction: &mut u8) {
    *direction = match odd_code(rng) {
        3 => 4,
        code => code,
    };
}

pub fn spoil_edges(rng: &mut Rng, e: &mut Edges) {
    let mut f = e.figures();
    f[rng.below(4)] = odd_figure(rng);
    *e = Edges::of(f);
}

/// 15 and 16.
pub fn spoil_ladder(rng: &mut Rng, l: &mut Ladder) {
    match rng.below(8) {
        0 => spoil_edges(rng, &mut l.ordinary),
        1 => spoil_edges(rng, &mut l.floor),
        2 if !l.rungs.is_empty() => {
            let i = rng.below(l.rungs.len() / 4 * 4);
            l.rungs[i] = odd_figure(rng);
        }
        3 => {
            for _ in 0..1 + rng.below(3) {
                let odd = rng.chance(30);
                l.rungs.push(if odd { odd_figure(rng) } else { 1.0 });
            }
        }
        4 if !l.floors.is_empty() => {
            let i = rng.below(l.floors.len());
            l.floors[i] = rng.pick(&[2, 255, 254, 3, 128]);
        }
        5 => l.floors.push(rng.below(2) as u8),
        6 => {
            l.floors.pop();
        }
        _ => {
            let over = rng.pick(&[256, 257, 258, 300]);
            l.rungs.resize(4 * over, 1.0);
            l.floors.resize(over, 0);
            if rng.chance(30) {
                l.rungs[4 * over - 1 - rng.below(8)] = odd_figure(rng);
            }
        }
    }
}

/// Accepted images with every kind of record, one for each set of general flags, whose every bit is
/// to be turned over.
pub fn samples() -> Vec<Vec<u8>> {
    let span = |low: f64, high: f64| Record { low, high, ..Record::default() };
    let mut out = Vec::new();
    for flags in 0..32 {
        if flags & RESPONSE != 0 && flags & ELSEWHERE == 0 {
            continue;
        }
        let mut t = Table {
            data_limit: 3.0,
            region: 2,
            reading: flags % 3,
            flags,
            rules: [7, 0, 9, 0, 0, 12],
            ..Table::default()
        };
        if t.has(ELSEWHERE) {
            (t.elsewhere_limit, t.rules[1]) = (2.0, 8);
        }
        if t.has(HAS_CHANNELS) {
            (t.width, t.offset, t.tolerance) = (4.0, 1.0, 0.5);
            (t.channel_band, t.sideband, t.rules[3]) = (60, flags >> 3 & 1, 10);
            t.tables[CHANNELS].push(Record { low: 5.0, ..Record::default() });
        }
        if t.has(HAS_EMISSIONS) {
            (t.emissions, t.rules[4]) = (3, 11);
        }
        t.tables[BANDS] =
            vec![Record { band: 60, ..span(0.0, 10.0) }, Record { band: 0, ..span(20.0, 40.0) }];
        for flags in 0..4u8 {
            let low = 20.0 + 2.0 * f64::from(flags);
            t.tables[SEGMENTS].push(Record {
                flags,
                figure: f64::from(flags & 1),
                rule: 13,
                second: u16::from(flags & 2),
                ..span(low, low + 1.0)
            });
            t.tables[PRIVILEGES].push(Record {
                class: 4 - flags,
                flags,
                emissions: (flags & 1) * 15,
                rule: u16::from(flags & 2) * 3,
                ..span(0.0, 40.0)
            });
        }
        t.tables[AUTOMATIC].push(span(22.0, 25.0));
        t.tables[EXCLUDED].push(Record { band: 60, rule: 14, ..Record::default() });
        t.tables[POWER] = vec![
            Record { figure: 5.0, rule: 15, ..span(20.0, 30.0) },
            Record { figure: 5.0, rule: 15, flags: 1, class: 3, ..span(20.0, 30.0) },
        ];
        if t.has(HAS_PLAN) {
            t.tables[PLAN_DATA].push(Record { rule: 16, ..span(20.0, 30.0) });
            t.tables[PLAN_AVOID].push(Record { rule: 17, ..span(22.0, 23.0) });
        }
        out.push(t.encode());
    }
    out
}

/// A damaged copy of a world's image, by one to three mistakes.
pub fn damaged(rng: &mut Rng, w: &World) -> Vec<u8> {
    spoilt(rng, w, w.table.clone())
}

fn spoilt(rng: &mut Rng, w: &World, t: Table) -> Vec<u8> {
    let rounds = rng.pick(&[1, 1, 1, 2, 3]);
    let t = spoilt_table(rng, w, t, rounds);
    let mut image = t.encode();
    if rng.chance(60) {
        for _ in 0..rounds {
            spoil_bytes(rng, &mut image, if t.watts.is_some() { 80 } else { 64 });
        }
    }
    image
}

/// A copy of a world's image in edition 2, with watts of its own: damaged in the same ways, by its watts alone,
/// by a length of the other edition, or not at all.
pub fn second(rng: &mut Rng, w: &World) -> Vec<u8> {
    let mut watts = some_watts(rng);
    let mut t = w.table.clone();
    match rng.below(8) {
        0 => {}
        1 | 2 => {
            let x = odd_figure(rng);
            match rng.below(4) {
                0 => watts = (x, odd_figure(rng)),
                1 | 2 => watts.0 = x,
                _ => watts.1 = x,
            }
        }
        3 => return between(rng, t, watts),
        _ => {
            t.watts = Some(watts);
            return spoilt(rng, w, t);
        }
    }
    t.watts = Some(watts);
    t.encode()
}

/// "1 now means under 92 or over 65,552, and a length wrong for the edition meets 4" (document 02): edition 2
/// with fewer bytes than its general block and trailer, and either edition with more than edition 1 can have.
fn between(rng: &mut Rng, mut t: Table, watts: (f64, f64)) -> Vec<u8> {
    let mut image = if rng.chance(50) {
        (t.watts, t.tables) = (Some(watts), Default::default());
        let mut image = t.encode();
        image.drain(..rng.below(18));
        image
    } else {
        t.watts = rng.chance(30).then_some(watts);
        let mut image = t.encode();
        let more = (65_535 + rng.below(20)).saturating_sub(image.len());
        let end = image.len() - 28;
        image.splice(end..end, std::iter::repeat_n(0, more));
        image
    };
    if rng.chance(50) {
        let end = image.len() - 28;
        image[end + 18..end + 22].copy_from_slice(&(end as u32).to_le_bytes());
    }
    image
}

/// A copy of a world's image with one kind of mistake in several records, or in the general block as
/// well: the first of them is where the table is wrong.
pub fn several(rng: &mut Rng, w: &World) -> Vec<u8> {
    let mut t = w.table.clone();
    let refusal = rng.pick(&[5, 5, 5, 6, 6, 6, 7, 8, 9, 10, 12, 13]);
    if refusal == 5 && rng.chance(30) {
        // a part that is absent, with its table
        if rng.chance(50) {
            t.flags &= !HAS_PLAN;
        } else {
            t.flags &= !HAS_CHANNELS;
            (t.width, t.offset, t.tolerance) = (0.0, 0.0, 0.0);
            (t.channel_band, t.sideband, t.rules[3]) = (0, 0, 0);
        }
    }
    for _ in 0..1 + rng.below(4) {
        let table = match refusal {
            5 | 6 => rng.below(9),
            7 => BANDS,
            9 => AUTOMATIC,
            10 => PRIVILEGES,
            _ => SEGMENTS,
        };
        if t.tables[table].is_empty() {
            continue;
        }
        let i = rng.below(t.tables[table].len());
        let r = &mut t.tables[table][i];
        match refusal {
            5 => r.flags |= 128,
            6 => r.low = rng.pick(&[f64::NAN, f64::INFINITY, -0.0, BIG.next_up()]),
            12 => (r.low, r.high) = (-BIG, BIG),
            13 => (r.flags, r.figure) = (r.flags | 1, rng.pick(&[0.0, -1.0])),
            _ => r.high = r.low,
        }
    }
    if rng.chance(10) {
        (t.reading, t.offset) = (rng.pick(&[2, 3]), rng.pick(&[t.offset, f64::NAN]));
    }
    t.encode()
}

/// A table with so many mistakes.
pub fn spoilt_table(rng: &mut Rng, w: &World, mut t: Table, mistakes: usize) -> Table {
    for _ in 0..mistakes {
        spoil_table(rng, w, &mut t);
    }
    t
}

fn spoil_table(rng: &mut Rng, w: &World, t: &mut Table) {
    let a_record = |rng: &mut Rng, t: &Table, table: usize| {
        (!t.tables[table].is_empty()).then(|| rng.below(t.tables[table].len()))
    };
    match rng.below(16) {
        // 7 to 10
        n @ 0..=3 => {
            let table = [BANDS, SEGMENTS, AUTOMATIC, PRIVILEGES][n];
            if let Some(i) = a_record(rng, t, table) {
                let r = &mut t.tables[table][i];
                match rng.below(3) {
                    0 => r.high = r.low,
                    1 => (r.low, r.high) = (r.high, r.low),
                    _ => r.low = plain(r.high.next_up()),
                }
            }
        }
        // 11
        4 => t.tables[BANDS].clear(),
        5 => t.tables[SEGMENTS].clear(),
        // 12
        6 | 7 => {
            if let Some(i) = a_record(rng, t, SEGMENTS) {
                let pool: Vec<f64> = t.tables[BANDS].iter().flat_map(|b| [b.low, b.high]).collect();
                if !pool.is_empty() {
                    let (low, high) = whole(&pool);
                    let r = &mut t.tables[SEGMENTS][i];
                    if rng.chance(50) {
                        r.low = plain(nudge(rng, w.scale, low, 100));
                    } else {
                        r.high = plain(nudge(rng, w.scale, high, 100));
                    }
                }
            }
        }
        // 13
        8 => {
            if let Some(i) = a_record(rng, t, SEGMENTS) {
                let r = &mut t.tables[SEGMENTS][i];
                r.flags |= 1;
                r.figure = rng.pick(&[0.0, -f64::from_bits(1), -0.125, f64::from_bits(1), -BIG]);
            }
        }
        // 14
        9 => t.data_limit = rng.pick(&[0.0, -f64::from_bits(1), -0.125, f64::from_bits(1), -BIG]),
        // 6
        10 => {
            let x = odd_figure(rng);
            let table = rng.below(10);
            match table {
                9 => match (rng.below(if t.watts.is_some() { 7 } else { 5 }), &mut t.watts) {
                    (0, _) => t.data_limit = x,
                    (1, _) => t.elsewhere_limit = x,
                    (2, _) => t.width = x,
                    (3, _) => t.offset = x,
                    (5, Some(watts)) => watts.0 = x,
                    (6, Some(watts)) => watts.1 = x,
                    _ => t.tolerance = x,
                },
                _ => {
                    if let Some(i) = a_record(rng, t, table) {
                        let r = &mut t.tables[table][i];
                        match rng.below(3) {
                            0 => r.low = x,
                            1 => r.high = x,
                            _ => r.figure = x,
                        }
                    }
                }
            }
        }
        // 5: a flag of the general block turned over
        11 => t.flags ^= 1 << rng.below(6),
        // 5: a field of any record
        12 => {
            let table = rng.below(9);
            if let Some(i) = a_record(rng, t, table) {
                let x = 1 << rng.pick(&[0, 1, 2, 2, 3, 4, 5, 5, 6, 7]);
                let r = &mut t.tables[table][i];
                match rng.below(7) {
                    0 => r.band ^= x,
                    1 => r.class ^= x,
                    2 => r.emissions ^= x,
                    3 => r.flags ^= x,
                    4 => r.rule ^= u16::from(x) << rng.pick(&[0, 8]),
                    5 => r.second ^= u16::from(x) << rng.pick(&[0, 8]),
                    _ => r.figure = 1.0,
                }
            }
        }
        // 5: a record in a table that may belong to an absent part
        13 => {
            let table = rng.pick(&[CHANNELS, PLAN_DATA, PLAN_AVOID]);
            t.tables[table].push(Record { low: 1.0, ..Record::default() });
        }
        // 5: a field of the general block, which may belong to an absent part
        _ => match rng.below(10) {
            0 => t.reading = rng.below(5) as u8,
            1 => t.channel_band ^= 1 << rng.below(8),
            2 => t.sideband = rng.below(4) as u8,
            3 => t.emissions ^= 1 << rng.below(5),
            4 => t.region ^= 1 << rng.below(8),
            5 => t.elsewhere_limit = 1.0,
            6 => t.offset = 1.0,
            _ => t.rules[rng.below(6)] ^= 1 << rng.below(16),
        },
    }
}

/// `front`: where the tables begin, 64 or, in edition 2, 80.
fn spoil_bytes(rng: &mut Rng, image: &mut Vec<u8>, front: usize) {
    let n = image.len();
    if n < 92 {
        return;
    }
    let end = n - 28;
    let second = front == 80;
    match rng.below(14) {
        // 1
        0 => {
            let to = rng.pick(if second {
                &[0, 1, 27, 28, 80, 91, 92, 107, 108]
            } else {
                &[0, 1, 27, 28, 63, 64, 91, 90, 92]
            });
            image.drain(..n - to.min(n));
        }
        1 => {
            if rng.chance(15) {
                let most = 65_472 + front;
                let more = most.saturating_sub(n) + rng.pick(&[0, 1, 2, 32, 1000]);
                let at = end;
                image.splice(at..at, std::iter::repeat_n(0, more));
            } else {
                let to = 28 + rng.below(64);
                image.drain(..n - to);
            }
        }
        // 2
        2 => image[end + 24 + rng.below(4)] ^= 1 << rng.below(8),
        // 3
        3 => {
            let other = if second { 1 } else { 2 };
            let edition: u16 = rng.pick(&[0, other, 3, 256, 257, 65535]);
            image[end + 22..end + 24].copy_from_slice(&edition.to_le_bytes());
        }
        // 4
        4 => {
            let at = end + 2 * rng.below(9);
            let count = u16_at(image, at);
            let to = rng.pick(&[
                count.wrapping_add(1),
                count.wrapping_sub(1),
                257,
                256,
                count ^ 0x100,
                count ^ 0x8000,
            ]);
            image[at..at + 2].copy_from_slice(&to.to_le_bytes());
        }
        5 => {
            let far = u32_at(image, end + 18);
            let to = rng.pick(&[
                far.wrapping_add(1),
                far.wrapping_sub(1),
                far.wrapping_add(32),
                far ^ 65_536,
                far ^ 1 << 31,
                0,
                far.wrapping_add(28),
            ]);
            image[end + 18..end + 22].copy_from_slice(&to.to_le_bytes());
        }
        6 => {
            // bytes between the last record and the trailer, the distance with or without them
            let more = rng.pick(&[1, 32, 64, 4]);
            image.splice(end..end, std::iter::repeat_n(0, more));
            if rng.chance(50) {
                let end = image.len() - 28;
                image[end + 18..end + 22].copy_from_slice(&(end as u32).to_le_bytes());
            }
        }
        7 => {
            // counts of 2,048 more in all: 32 times that is 65,536, nought in 16 bits
            let sum: u16 = (0..9).map(|t| u16_at(image, end + 2 * t) & 0x1ff).sum();
            let first = rng.below(9);
            for t in 0..9 {
                let count: u16 = if t == first { sum.min(256) } else { 256 };
                image[end + 2 * t..end + 2 * t + 2].copy_from_slice(&count.to_le_bytes());
            }
            if rng.chance(50) {
                let far = end as u32 + 65_536;
                image[end + 18..end + 22].copy_from_slice(&far.to_le_bytes());
            }
        }
        8 => {
            // a record from one table to another: the sum is right
            let (a, b) = (end + 2 * rng.below(9), end + 2 * rng.below(9));
            if u16_at(image, a) > 0 {
                let to = u16_at(image, a) - 1;
                image[a..a + 2].copy_from_slice(&to.to_le_bytes());
                let to = u16_at(image, b).wrapping_add(1);
                image[b..b + 2].copy_from_slice(&to.to_le_bytes());
            }
        }
        // 5 or 6: a byte of the general block
        9 | 10 => {
            let at = if rng.chance(70) { 40 + rng.below(front - 40) } else { rng.below(front) };
            image[at] =
                if rng.chance(50) { image[at] ^ 1 << rng.below(8) } else { rng.next() as u8 };
        }
        // 5 or 6: a byte of a record
        _ => {
            if end > front {
                let record = rng.below((end - front) / 32);
                let at = if rng.chance(70) { 16 + rng.below(16) } else { rng.below(32) };
                let at = front + 32 * record + at;
                if at < end {
                    image[at] = if rng.chance(50) {
                        image[at] ^ 1 << rng.below(8)
                    } else {
                        rng.next() as u8
                    };
                }
            }
        }
    }
}
