//! Amendments with a day (document 02, 8): lists for tables of both editions, right ones and damaged ones, with
//! days about the one that is asked for, several amendments of a record, replacements that are right and that
//! make the effective image wrong, and lists that 27 refuses. What the call must give is worked out in
//! amendment.rs; every lent byte is compared, and eight on either side of those lent.

use std::process::exit;

use crate::Run;
use crate::compare::{Told, equal, unchanged};
use crate::damage;
use crate::draw::{BIG, Rng, plain};
use crate::editions;
use crate::fixed::{practice, sixty, small, span, wrong};
use crate::image::*;
use crate::oracle::adapter;
use crate::oracle::amendment::{self, Amendment, BYTES};
use crate::oracle::edition::{Given, MOST};
use crate::reach::Key;
use crate::tables::{self, World};
use crate::{expect, ffi};

/// What the calls of a run met: lists, amendments in them, and lists refused.
#[derive(Default)]
pub struct Met {
    pub lists: u64,
    pub amendments: u64,
    pub refused: u64,
}

/// A base image and what the check says of it.
struct Base {
    image: Vec<u8>,
    checked: u8,
}

impl Base {
    fn of(image: Vec<u8>) -> Self {
        let checked = adapter::prepare(&image).map(|p| p.refusal);
        Self { image, checked: checked.unwrap_or_else(|what| wrong("the base's check", &what)) }
    }
}

fn encoded(list: &[Amendment]) -> Vec<u8> {
    list.iter().flat_map(Amendment::encode).collect()
}

fn check(image: &[u8]) -> u8 {
    adapter::prepare(image).map_or(255, |p| p.refusal)
}

/// What an effective image would get of a base that 1 to 4 let pass, amendments that name no record left out.
fn effective_check(base: &[u8], list: &[Amendment], day: u32) -> u8 {
    let counts = amendment::counts(base);
    let named: Vec<Amendment> =
        list.iter().filter(|a| amendment::named(&counts, a)).copied().collect();
    check(&amendment::effective(base, &named, day))
}

/// What is wrong with an amendment that names no record: table 9, a greater one, just the count as its index, a
/// greater index, a table without records.
fn unnamed(counts: &[u16; 9], a: &Amendment) -> u16 {
    match counts.get(usize::from(a.table)) {
        None if a.table == 9 => 1,
        None => 2,
        Some(0) => 5,
        Some(&count) if a.index == count => 3,
        Some(_) => 4,
    }
}

/// Whether a record is one that no table of its number can have, by a glance.
fn plainly_wrong(a: &Amendment) -> bool {
    let (low, high) = (f64_at(&a.record, 0), f64_at(&a.record, 8));
    let ranged = matches!(usize::from(a.table), BANDS | SEGMENTS | PRIVILEGES | AUTOMATIC);
    low.is_nan() || a.record[27] >= 128 || (ranged && low >= high)
}

impl Run {
    fn amend(&mut self, base: &Base, list: &[u8], day: u32, lent: usize, fill: u64) -> Given {
        let Base { image, checked } = base;
        let want = match amendment::amended(image, *checked, list, day, lent) {
            Ok(want) => want,
            Err(what) => wrong("the effective image's check", &what),
        };
        let held = (image.clone(), list.to_vec());
        let told: Told<()> =
            editions::compare(&want, lent, fill, |out| ffi::amend(image, list, day, out))
                .and_then(|()| unchanged(&held.0, image, "image"))
                .and_then(|()| unchanged(&held.1, list, "list"))
                .and_then(|()| match &want {
                    Ok(given) => equal("the check of what was given", ffi::check(given), 0),
                    Err(_) => Ok(()),
                });
        if let Err(what) = told {
            println!(
                "DIFFERENCE (seed {}, list {} of the amendments): {what}\n  day {day}, {lent} bytes lent, base \
                 of {} bytes refused with {checked}: {image:?}",
                self.seed,
                self.amendments.lists,
                image.len()
            );
            for a in amendment::listed(list).iter().take(100) {
                println!("  {a:?}");
            }
            println!("  {} bytes of the list past its forties", list.len() % BYTES);
            exit(1);
        }
        self.amendments.lists += 1;
        let amendments = amendment::listed(list);
        self.amendments.amendments += amendments.len() as u64;
        match want {
            Ok(_) => self.was_amended(image, &amendments, day),
            Err(refusal) => {
                self.amendments.refused += 1;
                self.not_amended(base, refusal, list, day, lent);
            }
        }
        if matches!(want, Ok(_) | Err(28)) {
            self.reach.count("amend bytes lent", editions::how_lent(lent, image.len()), 0);
        }
        want
    }

    /// A refusal, and what else is met: by the base, by the list, by what is lent, by the effective image.
    fn not_amended(&mut self, base: &Base, refusal: u8, list: &[u8], day: u32, lent: usize) {
        let Base { image, checked } = base;
        let amendments = amendment::listed(list);
        let number = u16::from(refusal);
        let form = matches!(checked, 1..=4);
        let counts = if form { [0; 9] } else { amendment::counts(image) };
        let bad: Vec<usize> = (0..amendments.len())
            .filter(|&i| !amendment::named(&counts, &amendments[i]))
            .filter(|&i| !form || amendments[i].table > 8)
            .collect();
        let odd = list.len() % BYTES;
        let later = if form { 255 } else { effective_check(image, &amendments, day) };
        let what = match refusal {
            27 => "amend 27, met too",
            28 => "amend 28, met too",
            _ if *checked != 0 => "amend base refused, met too",
            _ => "amend effective image refused",
        };
        self.reach.count(what, number, number);
        if *checked != 0 && (odd != 0 || !bad.is_empty()) {
            self.reach.count(what, number, 27);
        }
        if (*checked != 0 || refusal == 27) && lent < image.len() {
            self.reach.count(what, number, 28);
        }
        if !form && later != refusal {
            self.reach.count(what, number, later.into());
        }
        if refusal == 27 {
            match bad[..] {
                [] => self.reach.count("amend 27, bytes past forties", odd as u16, 0),
                [i] if odd == 0 => {
                    let (a, n) = (&amendments[i], amendments.len());
                    let in_force = u16::from(a.day <= day);
                    self.reach.count("amend 27 alone by", unnamed(&counts, a), in_force);
                    let at = match i {
                        _ if n == 1 => 0,
                        0 => 1,
                        _ if i + 1 == n => 3,
                        _ => 2,
                    };
                    self.reach.count("amend 27 alone at", at, in_force);
                }
                _ => {}
            }
        }
        if refusal == 12 && *checked == 0 {
            let by = match twelve(image, &amendments, day) {
                (true, _) => 0,
                (false, true) => 1,
                _ => 2,
            };
            self.reach.count("amend 12 by bands, by segments, by both", by, 0);
        }
    }

    /// What an answered list is about.
    fn was_amended(&mut self, image: &[u8], list: &[Amendment], day: u32) {
        let reach = &mut self.reach;
        reach.count("amended, edition", edition_of(image).unwrap_or(0), 0);
        let size = match list.len() {
            0 => 0,
            1 => 1,
            2..1000 => 2,
            _ => 3,
        };
        reach.count("amended, amendments", size, 0);
        let counts = amendment::counts(image);
        if !list.is_empty() && list.iter().all(|a| a.day > day) {
            reach.count("amended, none in force", 0, 0);
        }
        for (at, asked) in [(0, 0), (1, u32::MAX)] {
            if day == asked && list.iter().any(|a| a.day == asked) {
                reach.count("amended, of the day 0, 4294967295", at, 0);
            }
        }
        for (how, apart) in [(0, 0), (1, -1), (2, 1)] {
            if list.iter().any(|a| i64::from(a.day) - i64::from(day) == apart) {
                reach.count("amended, of the day, the day before, the next", how, 0);
            }
        }
        if list.len() > 60 {
            return;
        }
        for (i, a) in list.iter().enumerate() {
            let same = |b: &&Amendment| (b.table, b.index) == (a.table, a.index);
            let counts_before: Vec<&Amendment> =
                list[..i].iter().filter(same).filter(|b| b.day <= day).collect();
            let counts_after: Vec<&Amendment> =
                list[i + 1..].iter().filter(same).filter(|b| b.day <= day).collect();
            let outranked = counts_before.iter().any(|b| b.day > a.day)
                || counts_after.iter().any(|b| b.day >= a.day);
            if a.day > day || outranked {
                if plainly_wrong(a) {
                    reach.count("amended, not in force, outranked", (a.day <= day).into(), 0);
                }
                continue;
            }
            // the one that counts: its rivals
            for b in counts_before.iter().filter(|b| b.record != a.record) {
                reach.count("amended, an earlier in the list", (b.day < a.day).into(), 0);
            }
            if counts_after.iter().any(|b| b.record != a.record) {
                reach.count("amended, before a later in the list", 0, 0);
            }
            let last = counts[usize::from(a.table)] - 1;
            if a.index == 0 {
                reach.count("amended, table's first, last", a.table, 0);
            } else if a.index == last {
                reach.count("amended, table's first, last", a.table, 1);
            }
        }
        if list.iter().any(|a| usize::from(a.table) == SEGMENTS) && twelve(image, list, day).1 {
            reach.count("amended, a segment that only the amended bands hold", 0, 0);
        }
    }
}

/// Whether a base meets 12 with the amendments of its bands alone, and with those of its segments alone.
fn twelve(base: &[u8], list: &[Amendment], day: u32) -> (bool, bool) {
    let with = |table: usize| {
        let list: Vec<Amendment> =
            list.iter().filter(|a| usize::from(a.table) == table).copied().collect();
        expect::meets(&amendment::effective(base, &list, day), 12)
    };
    (with(BANDS), with(SEGMENTS))
}

/// Refusals that an amended record can cause: "5 to 10, 12 and 13" (READINGS-02).
const CAUSED: [u16; 8] = [5, 6, 7, 8, 9, 10, 12, 13];

/// What lists have to meet.
pub fn required() -> Vec<Key> {
    let mut out = Vec::new();
    let base = "amend base refused, met too";
    for b in 1..=14 {
        out.extend([b, 27, 28].map(|other| (base, b, other)));
        // the effective image is accepted, or meets another; 11 and 14 stay, and 11 is met before 12 to 14
        match b {
            1..=4 => {}
            11 => out.extend((5..=10).map(|e| (base, b, e))),
            14 => out.extend(CAUSED.map(|e| (base, b, e))),
            _ => {
                out.extend([(base, b, 0), (base, b, 14)]);
                if b < 11 {
                    out.push((base, b, 11));
                }
                out.extend(CAUSED.iter().filter(|&&e| e != b).map(|&e| (base, b, e)));
            }
        }
    }
    out.extend([("amend 27, met too", 27, 28), ("amend 28, met too", 28, 28)]);
    // the effective image is accepted
    out.extend([("amend 27, met too", 27, 0), ("amend 28, met too", 28, 0)]);
    for e in CAUSED {
        out.push(("amend 27, met too", 27, e));
        out.push(("amend 28, met too", 28, e));
        out.push(("amend effective image refused", e, e));
    }
    out.extend((1..40).map(|odd| ("amend 27, bytes past forties", odd, 0)));
    for in_force in 0..2 {
        out.extend((1..=5).map(|how| ("amend 27 alone by", how, in_force)));
        out.extend((0..4).map(|at| ("amend 27 alone at", at, in_force)));
    }
    out.extend((0..3).map(|by| ("amend 12 by bands, by segments, by both", by, 0)));
    out.push(("amended, a segment that only the amended bands hold", 0, 0));
    out.extend((0..6).map(|how| ("amend bytes lent", how, 0)));
    out.extend([("amended, edition", 1, 0), ("amended, edition", 2, 0)]);
    out.extend((0..4).map(|size| ("amended, amendments", size, 0)));
    out.push(("amended, none in force", 0, 0));
    out.extend((0..2).map(|at| ("amended, of the day 0, 4294967295", at, 0)));
    out.extend((0..3).map(|how| ("amended, of the day, the day before, the next", how, 0)));
    out.extend((0..2).map(|how| ("amended, not in force, outranked", how, 0)));
    out.extend((0..2).map(|how| ("amended, an earlier in the list", how, 0)));
    out.push(("amended, before a later in the list", 0, 0));
    for table in 0..9 {
        out.extend((0..2).map(|which| ("amended, table's first, last", table, which)));
    }
    out
}

// ------------------------------------------------------------------------------------- runs

/// A day to ask for.
fn some_day(rng: &mut Rng) -> u32 {
    match rng.below(8) {
        0 => 0,
        1 => u32::MAX,
        2 => 1 + rng.below(3) as u32,
        3 => u32::MAX - 1 - rng.below(3) as u32,
        4 => rng.pick(&[255, 256, 65_535, 65_536, 1 << 31, (1 << 31) - 1]),
        5 => rng.next() as u32,
        _ => 20_000 + rng.below(1000) as u32,
    }
}

/// The day of an amendment: the asked one, one beside it, another's, the ends, any.
fn day_of(rng: &mut Rng, asked: u32, list: &[Amendment]) -> u32 {
    match rng.below(16) {
        0..=2 => asked,
        3 | 4 => asked.saturating_sub(1),
        5 => asked.saturating_add(1),
        6 => asked.saturating_sub(2 + rng.below(30) as u32),
        7 => asked.saturating_add(2 + rng.below(30) as u32),
        8 => 0,
        9 => u32::MAX,
        10 => rng.next() as u32,
        11 => asked ^ 1 << rng.below(32),
        _ if list.is_empty() => asked,
        12 => list[rng.below(list.len())].day.saturating_add(1),
        _ => list[rng.below(list.len())].day,
    }
}

/// A record of a table: a known one, its last or its first one, or any.
fn place(rng: &mut Rng, counts: &[u16; 9], list: &[Amendment]) -> Option<(u16, u16)> {
    if !list.is_empty() && rng.chance(30) {
        let a = rng.pick(list);
        return amendment::named(counts, &a).then_some((a.table, a.index));
    }
    let table = rng.below(9);
    let count = counts[table];
    let index = match rng.below(6) {
        _ if count == 0 => return None,
        0 => 0,
        1 | 2 => count - 1,
        _ => rng.below(count.into()) as u16,
    };
    Some((table as u16, index))
}

/// A range over a table's own points.
fn some_range(rng: &mut Rng, w: &World) -> (f64, f64) {
    let (low, high) = tables::range_of(rng, &w.targets);
    (plain(low), plain(high))
}

/// A record that may stand there; a band of another range can leave a segment without one.
fn right_record(rng: &mut Rng, w: &World, table: usize, index: u16) -> Record {
    let records = &w.table.tables[table];
    let Some(&own) = records.get(usize::from(index)) else {
        return Record::default();
    };
    let mut r = if table == BANDS && !rng.chance(10) { own } else { rng.pick(records) };
    let (low, high) = some_range(rng, w);
    match table {
        BANDS => match rng.below(4) {
            0 => r.low = plain(r.low - 1.0),
            1 => r.high = plain(r.high + 1.0),
            _ => r.band = rng.next() as u8,
        },
        SEGMENTS => {
            r.rule = rng.next() as u16;
            if r.flags & 1 != 0 {
                r.figure = rng.pick(&[BIG, 1.0, f64::from_bits(1)]);
            }
        }
        CHANNELS => r.low = low,
        PRIVILEGES => {
            if rng.chance(50) {
                (r.low, r.high) = (low, high);
            }
            r.class = rng.below(5) as u8;
        }
        AUTOMATIC => (r.low, r.high) = (low, high),
        EXCLUDED => (r.band, r.rule) = (rng.next() as u8, rng.next() as u16),
        POWER => (r.low, r.figure, r.rule) = (high, tables::watts(rng), rng.next() as u16),
        _ => (r.low, r.rule) = (low, rng.next() as u16),
    }
    r
}

/// A record that makes the image meet this, and where; 12 by a band or by a segment.
fn wrong_record(rng: &mut Rng, w: &World, refusal: u16) -> Option<(u16, u16, Record)> {
    let table = match refusal {
        5 => rng.below(9),
        6 => rng.pick(&[0, 1, 2, 3, 4, 6, 7, 8]),
        7 => BANDS,
        9 => AUTOMATIC,
        10 => PRIVILEGES,
        12 => rng.pick(&[BANDS, SEGMENTS]),
        _ => SEGMENTS,
    };
    let records = &w.table.tables[table];
    let index = match rng.below(4) {
        _ if records.is_empty() => return None,
        0 => records.len() - 1,
        _ => rng.below(records.len()),
    };
    let mut r = records[index];
    match refusal {
        5 => match rng.below(4) {
            0 => r.flags |= 128,
            1 if table != SEGMENTS => r.second = 1,
            2 => r.emissions = 255,
            _ => r.class = 255,
        },
        6 => {
            let x = rng.pick(&[f64::NAN, f64::INFINITY, -f64::INFINITY, -0.0, BIG.next_up()]);
            match rng.below(2) {
                1 if table != CHANNELS => r.high = x,
                _ => r.low = x,
            }
        }
        12 if table == BANDS => match rng.below(3) {
            // only its upper end is left, or it moves by more than its length, or up from a segment's low
            0 => r.low = plain(r.high.next_down()),
            1 => (r.low, r.high) = (plain(r.low - 2.0 * BIG), plain(r.low.next_up())),
            _ => {
                let low = rng.pick(&w.table.tables[SEGMENTS]).low;
                r.low = plain(low.next_up());
            }
        },
        12 => {
            let ends: Vec<f64> =
                w.table.tables[BANDS].iter().flat_map(|b| [b.low, b.high]).collect();
            let (low, high) = tables::whole(&ends);
            match rng.below(3) {
                0 => r.low = plain(low.next_down()),
                1 => r.high = plain(high.next_up()),
                _ => (r.low, r.high) = (-BIG, BIG),
            }
        }
        13 => (r.flags, r.figure) = (r.flags | 1, rng.pick(&[0.0, -1.0, -f64::from_bits(1), -BIG])),
        _ => match rng.below(3) {
            0 => r.high = r.low,
            1 => (r.low, r.high) = (r.high, r.low),
            _ => r.low = plain(r.high.next_up()),
        },
    }
    Some((table as u16, index as u16, r))
}

/// A list for a world's records, all of them right.
fn right_list(rng: &mut Rng, w: &World, counts: &[u16; 9], asked: u32) -> Vec<Amendment> {
    let n = match rng.below(400) {
        0 => 1000 + rng.below(4000),
        1..40 => 0,
        40..160 => 1 + rng.below(2),
        160..360 => 1 + rng.below(8),
        _ => 1 + rng.below(48),
    };
    let mut list: Vec<Amendment> = Vec::new();
    // mostly of days that are in force, or of any
    let early = rng.chance(50);
    for _ in 0..n {
        let mut day = day_of(rng, asked, &list);
        if early && day > asked {
            day = asked - rng.below(3).min(asked as usize) as u32;
        }
        if let Some((table, index)) = place(rng, counts, &list) {
            let record = right_record(rng, w, usize::from(table), index).encode();
            list.push(Amendment { table, index, day, record });
        }
    }
    list
}

/// Another amendment, mostly one that counts, else anywhere.
fn put(
    rng: &mut Rng,
    list: &mut Vec<Amendment>,
    asked: u32,
    (table, index, r): (u16, u16, Record),
) {
    let record = r.encode();
    if rng.chance(75) {
        list.push(Amendment { table, index, day: asked, record });
    } else {
        let day = day_of(rng, asked, list);
        let at = rng.below(list.len() + 1);
        list.insert(at, Amendment { table, index, day, record });
    }
}

/// All bands and all segments on one new range, or all but one.
fn moved(rng: &mut Rng, w: &World, list: &mut Vec<Amendment>, asked: u32) {
    let (low, high) = some_range(rng, w);
    let (low, high) = (plain(low - 16.0), plain(high - 16.0));
    if w.table.tables[BANDS].len() + w.table.tables[SEGMENTS].len() > 12 || low >= high {
        return;
    }
    let left_out = rng.below(16);
    let mut at = 0;
    for table in [BANDS, SEGMENTS] {
        for (index, &r) in w.table.tables[table].iter().enumerate() {
            if at != left_out {
                let record = Record { low, high, ..r }.encode();
                list.push(Amendment {
                    table: table as u16,
                    index: index as u16,
                    day: asked,
                    record,
                });
            }
            at += 1;
        }
    }
}

/// Amendments that put right what is wrong in the records of a damaged table.
fn healing(right: &Table, base: &[u8], asked: u32) -> Vec<Amendment> {
    let damaged = decode(base);
    let mut out = Vec::new();
    for (table, (right, damaged)) in right.tables.iter().zip(&damaged.tables).enumerate() {
        for (index, (right, damaged)) in right.iter().zip(damaged).enumerate() {
            let record = right.encode();
            if record != damaged.encode() {
                out.push(Amendment {
                    table: table as u16,
                    index: index as u16,
                    day: asked,
                    record,
                });
            }
        }
    }
    out
}

/// An amendment that names no record.
fn nameless(rng: &mut Rng, w: &World, counts: &[u16; 9], list: &mut Vec<Amendment>, asked: u32) {
    let table = rng.below(9) as u16;
    let count = counts[usize::from(table)];
    let empty = (0..9).find(|&t| counts[t] == 0);
    let (table, index) = match (rng.below(10), empty) {
        (0, _) => (9, 0),
        (1, _) => (rng.pick(&[10, 255, 256, 257, 264, 65_535, 32_768 | table]), 0),
        (2, _) => (table << 8 | 512, 0),
        (3 | 4, Some(table)) => (table as u16, rng.pick(&[0, 0, 1, 255])),
        (5, _) => (table, rng.pick(&[count + 1, count + 2, 255.max(count), 256.max(count)])),
        (6, _) => (table, rng.pick(&[65_535, 256 | count, 32_768 | count, 257])),
        _ => (table, count),
    };
    let day = if rng.chance(50) { asked } else { day_of(rng, asked, list) };
    let day = if rng.chance(30) { asked.saturating_add(1) } else { day };
    let record = match rng.below(3) {
        0 => [255; 32],
        _ => rng.pick(&w.table.tables[BANDS]).encode(),
    };
    let at = match rng.below(4) {
        0 => 0,
        1 => rng.below(list.len() + 1),
        _ => list.len(),
    };
    list.insert(at, Amendment { table, index, day, record });
}

/// One list on a base: right, with mistakes in its records, and with those that 27 names.
fn one(run: &mut Run, rng: &mut Rng, w: &World, base: &Base, heal: bool) {
    let asked = some_day(rng);
    let counts = match base.checked {
        1..=4 => w.table.tables.each_ref().map(|records| records.len() as u16),
        _ => amendment::counts(&base.image),
    };
    let mut list = right_list(rng, w, &counts, asked);
    if rng.chance(12) {
        moved(rng, w, &mut list, asked);
    }
    if heal && rng.chance(75) {
        list.extend(healing(&w.table, &base.image, asked));
    }
    if rng.chance(55) {
        for _ in 0..rng.pick(&[1, 1, 1, 2, 3]) {
            let refusal = rng.pick(&[5, 6, 7, 8, 9, 10, 12, 12, 12, 13, 13]);
            if let Some(found) = wrong_record(rng, w, refusal) {
                put(rng, &mut list, asked, found);
            }
        }
    }
    let spoilt = rng.chance(if base.checked == 0 { 18 } else { 25 });
    if spoilt && rng.chance(70) {
        for _ in 0..rng.pick(&[1, 1, 1, 2]) {
            nameless(rng, w, &counts, &mut list, asked);
        }
    }
    let mut bytes = encoded(&list);
    if spoilt && rng.chance(35) {
        let odd = 1 + rng.below(39);
        if rng.chance(50) && bytes.len() >= BYTES {
            bytes.truncate(bytes.len() - odd);
        } else {
            bytes.extend((0..odd).map(|_| rng.next() as u8));
        }
    }
    let lent = editions::room(rng, base.image.len());
    let lent = if rng.chance(50) { base.image.len() } else { lent };
    let given = run.amend(base, &bytes, asked, lent, rng.next());
    if let Ok(image) = given
        && rng.chance(10)
    {
        // the effective image under the same list and day
        let again = Base { image, checked: 0 };
        _ = run.amend(&again, &bytes, asked, again.image.len(), rng.next());
    }
}

/// So many lists.
pub fn run(run: &mut Run, lists: u64) {
    let mut turn = 0;
    while run.amendments.lists < lists {
        turn += 1;
        if !run.brief && turn % 5000 == 0 {
            eprintln!("{} lists of amendments", run.amendments.lists);
        }
        let rng = &mut Rng::new(run.seed, turn + (1 << 43));
        let mut w = editions::world(rng);
        if rng.chance(50) {
            w = w.with_watts(tables::some_watts(rng));
        }
        let base = Base::of(w.image.clone());
        let lists = if base.image.len() > 8192 { 2 } else { 8 };
        for _ in 0..lists {
            one(run, rng, &w, &base, false);
        }
        // one kind of mistake in some records, that amendments can put right
        for _ in 0..2 {
            let base = Base::of(damage::several(rng, &w));
            one(run, rng, &w, &base, true);
        }
        let mistakes = 1 + rng.below(2);
        let base = damage::spoilt_table(rng, &w, w.table.clone(), mistakes).encode();
        one(run, rng, &w, &Base::of(base), true);
        let base = match rng.below(2) {
            0 => damage::damaged(rng, &w),
            _ => damage::second(rng, &w),
        };
        one(run, rng, &w, &Base::of(base), false);
    }
}

/// What the papers' words settle, and the longest image with long lists.
pub fn fixed(run: &mut Run) {
    let band = |day: u32, high: f64| Amendment {
        table: 0,
        index: 0,
        day,
        record: Record { band: 1, ..span(0.0, high) }.encode(),
    };
    let high = |given: &Given| match given {
        Ok(image) => Ok(decode(image).tables[BANDS][0].high),
        Err(refusal) => Err(*refusal),
    };
    for t in [small(), sixty(), Table { watts: Some((50.0, 5.0)), ..sixty() }] {
        let base = Base::of(t.encode());
        let n = base.image.len();
        let mut say = |what: &str, list: &[Amendment], day: u32, want: Result<f64, u8>| {
            let given = run.amend(&base, &encoded(list), day, n, 7);
            if high(&given) != want {
                wrong(what, &format!("{:?}", high(&given)));
            }
        };
        say("no amendment", &[], 0, Ok(100.0));
        // "days 2 then 1, asked on day 3: the first"
        let two = [band(2, 102.0), band(1, 101.0)];
        for (day, want) in [(0, 100.0), (1, 101.0), (2, 102.0), (3, 102.0), (u32::MAX, 102.0)] {
            say("days 2 then 1", &two, day, Ok(want));
        }
        // "on equal days the later in the list counts"
        let equal = [band(5, 105.0), band(5, 106.0), band(4, 107.0)];
        for (day, want) in [(3, 100.0), (4, 107.0), (5, 106.0)] {
            say("equal days", &equal, day, Ok(want));
        }
        // the ends of what a day can be
        let ends = [band(u32::MAX, 109.0), band(0, 108.0)];
        for (day, want) in [(0, 108.0), (u32::MAX - 1, 108.0), (u32::MAX, 109.0)] {
            say("day 0 and the last", &ends, day, Ok(want));
        }
        // a record that isn't in force is not looked at, an index that isn't in force is
        let odd = [band(7, f64::NAN), band(3, 103.0)];
        for (day, want) in [(6, Ok(103.0)), (7, Err(6))] {
            say("a wrong record", &odd, day, want);
        }
        let beyond = [Amendment { index: 1, ..band(7, 100.0) }];
        let none = [Amendment { table: 9, ..band(7, 100.0) }];
        for day in [6, 7] {
            say("an index beyond its table", &beyond, day, Err(27));
            say("a table above 8", &none, day, Err(27));
        }
        // a band that moved, and one that moved from a segment that moved
        say("a band that moved", &[band(1, 50.0)], 1, Err(12));
        let record = Record { band: 1, rule: 13, ..span(20.0, 99.0) }.encode();
        let segment = Amendment { table: 1, index: 0, day: 2, record };
        for (day, want) in [(1, Ok(90.0)), (2, Err(12))] {
            say("band and segment", &[band(1, 90.0), segment], day, want);
        }
        say("the segment alone", &[segment], 2, Ok(100.0));
    }
    for watts in [None, Some(FIXED_WATTS)] {
        for t in [practice(), editions::long(MOST), editions::long(MOST + 1)] {
            let t = Table { watts, ..t };
            let base = Base::of(t.encode());
            let n = base.image.len();
            // every record once, from the last to the first, then again and again
            let mut list = Vec::new();
            for (table, records) in t.tables.iter().enumerate() {
                for (index, &r) in records.iter().enumerate() {
                    let mut r = r;
                    match table {
                        BANDS => r.high += 1.0,
                        CHANNELS => r.low += 1.0,
                        EXCLUDED => r.rule += 1,
                        _ => r.high -= 1.0,
                    }
                    let (table, index) = (table as u16, index as u16);
                    list.push(Amendment { table, index, day: 9, record: r.encode() });
                }
            }
            list.reverse();
            while list.len() < 20_000 {
                let more: Vec<Amendment> =
                    list.iter().map(|a| Amendment { day: a.day.saturating_sub(1), ..*a }).collect();
                list.extend(more);
            }
            for day in [0, 5, 8, 9, 10] {
                for lent in [0, n - 1, n, n + 1] {
                    _ = run.amend(&base, &encoded(&list), day, lent, 7);
                }
            }
            list[1].index = 65_535;
            _ = run.amend(&base, &encoded(&list), 9, n, 7);
            _ = run.amend(&base, &encoded(&list), 9, n - 1, 7);
        }
    }
}
