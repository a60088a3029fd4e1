//! Writer and converters (document 02, 6): tables of both editions, right ones and damaged ones, raised, lowered
//! and written from their fields and records, with bytes lent of every kind of length. What each call must give
//! is worked out in edition.rs; every lent byte is compared, and eight on either side of those lent. What was
//! raised is lowered again, what was lowered raised.

use std::process::exit;

use crate::Run;
use crate::compare::{Told, equal, filled, unchanged};
use crate::damage;
use crate::draw::{Rng, Scale};
use crate::expect;
use crate::ffi::{self, Fields, Image};
use crate::fixed::{practice, sixty, small, span, wrong};
use crate::image::*;
use crate::oracle::adapter::Prepared;
use crate::oracle::edition::{self, Given, MOST, Parts};
use crate::reach::Key;
use crate::tables::{self, World};

/// The bytes on either side of those lent, which are looked at too.
const BESIDE: usize = 8;

/// What the calls of a run met: how many, and how many of them were refused.
#[derive(Default)]
pub struct Met {
    pub raised: u64,
    pub lowered: u64,
    pub written: u64,
    pub refused: u64,
}

impl Met {
    pub fn calls(&self) -> u64 {
        self.raised + self.lowered + self.written
    }
}

/// A converter: its names in what is counted, the edition that it takes, and how far its image's length is from
/// the one it takes.
struct Converter {
    refused: &'static str,
    before: &'static str,
    lent: &'static str,
    takes: u16,
    longer: isize,
    call: fn(&[u8], &mut [u8]) -> Image,
    given: fn(&[u8], u8, usize) -> Given,
}

const RAISE: Converter = Converter {
    refused: "raise refused",
    before: "raise refused, met too",
    lent: "raise bytes lent",
    takes: 1,
    longer: 16,
    call: ffi::raise,
    given: edition::raised,
};

const LOWER: Converter = Converter {
    refused: "lower refused",
    before: "lower refused, met too",
    lent: "lower bytes lent",
    takes: 2,
    longer: -16,
    call: ffi::lower,
    given: edition::lowered,
};

const WRITE: [&str; 3] = ["write refused", "write refused, met too", "write bytes lent"];

/// One call that gives an image, in so many lent bytes.
pub fn compare(
    want: &Given,
    lent: usize,
    fill: u64,
    call: impl FnOnce(&mut [u8]) -> Image,
) -> Told<()> {
    let (refusal, image) = match want {
        Ok(image) => (0, image.as_slice()),
        Err(refusal) => (*refusal, [].as_slice()),
    };
    let mut after = filled(fill, BESIDE + lent + BESIDE);
    let mut wanted = after.clone();
    wanted[BESIDE..BESIDE + image.len()].copy_from_slice(image);
    let got = call(&mut after[BESIDE..BESIDE + lent]);
    equal("refusal", got.refusal, refusal)?;
    equal("length", got.length as usize, image.len())?;
    match (0..after.len()).find(|&i| after[i] != wanted[i]) {
        None => Ok(()),
        Some(i) => Err(format!(
            "byte {} of {lent} lent: library {}, expected {}",
            i as isize - BESIDE as isize,
            after[i],
            wanted[i]
        )),
    }
}

/// The length of the image that a writer is asked for, that of the longest where it would be longer.
fn length(parts: &Parts) -> usize {
    let front = if parts.fields.edition == 2 { 80 } else { 64 };
    front + 32 * parts.records().min(MOST) + 28
}

/// How many bytes are lent where so many are needed.
pub fn room(rng: &mut Rng, needed: usize) -> usize {
    match rng.below(10) {
        0..=3 => needed,
        4 => needed + 1,
        5 => needed + 2 + rng.below(40),
        6 => needed.saturating_sub(1),
        7 => needed.saturating_sub(2 + rng.below(40)),
        8 => rng.below(needed.max(1)),
        _ => 0,
    }
}

/// None, one too few, fewer, just enough, one more, more.
pub fn how_lent(lent: usize, needed: usize) -> u16 {
    match lent as isize - needed as isize {
        _ if lent == 0 => 0,
        -1 => 1,
        ..-1 => 2,
        0 => 3,
        1 => 4,
        2.. => 5,
    }
}

/// Which of 5 to 14 an image meets, each by itself.
fn met_5_to_14(image: &[u8]) -> impl Iterator<Item = u8> {
    (5..=14).filter(|&refusal| expect::meets(image, refusal))
}

/// Everything that a converter could refuse an image for, in its order. Where 1 or 4 is met nothing of the table
/// is known.
fn met(image: &[u8], takes: u16, lent: usize, needed: usize) -> Vec<u8> {
    let n = image.len();
    let mut out = Vec::new();
    if n < 92 || n > 65_552 {
        out.push(1);
    }
    if n >= 28 && image[n - 4..] != *b"EDGE" {
        out.push(2);
    }
    let edition = edition_of(image);
    if edition.is_some_and(|edition| edition != takes) {
        out.push(3);
    }
    if out.first() != Some(&1) {
        let mut right = image.to_vec();
        right[n - 4..].copy_from_slice(b"EDGE");
        if !matches!(edition, Some(1 | 2)) {
            right[n - 6..n - 4].copy_from_slice(&takes.to_le_bytes());
        }
        if expect::image_1_to_6(&right) == 4 {
            out.push(4);
        } else {
            out.extend(met_5_to_14(&right));
            if takes == 2 && decode(&right).watts.is_some_and(|watts| watts != FIXED_WATTS) {
                out.push(26);
            }
        }
    }
    if lent < needed {
        out.push(23);
    }
    out
}

/// The same of what a writer is given.
fn met_by(parts: &Parts, lent: usize) -> Vec<u8> {
    let mut out = Vec::new();
    if parts.records() > MOST {
        out.push(1);
    }
    if !matches!(parts.fields.edition, 1 | 2) {
        out.push(3);
    }
    let right = parts.runs_right();
    if parts.fields.counts.iter().any(|&count| count > 256) || !right {
        out.push(4);
    }
    if right {
        let image = parts.table().encode();
        out.extend(met_5_to_14(&image));
        if lent < image.len() {
            out.push(23);
        }
    }
    out
}

impl Run {
    fn gave(&mut self, told: Told<()>, what: &str) {
        if let Err(told) = told {
            let place = self.editions.calls();
            println!(
                "DIFFERENCE (seed {}, call {place} of the editions): {what}: {told}",
                self.seed
            );
            exit(1);
        }
    }

    /// A converter, and where it gave an image the way back.
    fn convert(&mut self, c: &Converter, image: &[u8], p: &Prepared, lent: usize, fill: u64) {
        let needed = image.len().saturating_add_signed(c.longer);
        let want = (c.given)(image, p.refusal, lent);
        let before = image.to_vec();
        let told = compare(&want, lent, fill, |out| (c.call)(image, out))
            .and_then(|()| unchanged(&before, image, "image"));
        let head = &image[..image.len().min(80)];
        let tail = &image[image.len() - image.len().min(28)..];
        self.gave(told, &format!("{}, {} bytes, {head:?} … {tail:?}", c.lent, image.len()));
        match c.takes {
            1 => self.editions.raised += 1,
            _ => self.editions.lowered += 1,
        }
        match &want {
            Ok(given) => {
                let back = if c.takes == 1 { &LOWER } else { &RAISE };
                let told =
                    compare(&Ok(image.to_vec()), image.len(), fill, |out| (back.call)(given, out));
                self.gave(told, "the way back");
                let told = equal("the check of what was given", ffi::check(given), 0);
                self.gave(told, c.lent);
            }
            &Err(refusal) => {
                self.editions.refused += 1;
                self.reach.count(c.refused, refusal.into(), 0);
                self.refused_first(c.before, refusal, &met(image, c.takes, lent, needed));
            }
        }
        if matches!(want, Ok(_) | Err(23)) {
            self.reach.count(c.lent, how_lent(lent, needed), 0);
        }
    }

    fn write(&mut self, parts: &Parts, lent: usize, fill: u64) {
        let want = match edition::written(parts, lent) {
            Ok(want) => want,
            Err(what) => wrong("what the writer gives", &what),
        };
        let Parts { fields, figures, codes, rules } = parts;
        let held = parts.clone();
        let bits = |x: &[f64]| x.iter().map(|x| x.to_bits()).collect::<Vec<u64>>();
        let told =
            compare(&want, lent, fill, |out| ffi::write(*fields, figures, codes, rules, out))
                .and_then(|()| {
                    let same = bits(&held.figures) == bits(figures)
                        && held.codes == *codes
                        && held.rules == *rules;
                    if same { Ok(()) } else { Err("the call changed what it was given".to_owned()) }
                });
        let runs = (figures.len(), codes.len(), rules.len());
        self.gave(told, &format!("write, {fields:?}, runs of {runs:?}, {lent} lent"));
        self.editions.written += 1;
        match &want {
            Ok(given) => {
                let told = equal("the check of what was written", ffi::check(given), 0);
                self.gave(told, "write");
                self.reach.count("write, edition", fields.edition, 0);
                if fields.edition == 1 && expect::out_of_size(fields.channel_watts) {
                    self.reach.count("write, edition 1 with any watts", 0, 0);
                }
                if parts.records() == MOST {
                    self.reach.count("write, the most records", fields.edition, 0);
                }
                if fields.counts.contains(&256) {
                    self.reach.count("write, a count of 256", 0, 0);
                }
            }
            &Err(refusal) => {
                self.editions.refused += 1;
                self.reach.count(WRITE[0], refusal.into(), 0);
                self.refused_first(WRITE[1], refusal, &met_by(parts, lent));
                self.not_written(parts, refusal);
            }
        }
        if matches!(want, Ok(_) | Err(23)) {
            self.reach.count(WRITE[2], how_lent(lent, length(parts)), 0);
        }
    }

    /// A refusal, and all that is met, in the order of the call: it must be the first of them.
    fn refused_first(&mut self, what: &'static str, refusal: u8, met: &[u8]) {
        let first = met.first().copied().unwrap_or(0);
        self.gave(equal("the refusal, and the first that is met", refusal, first), what);
        for &other in met {
            self.reach.count(what, refusal.into(), other.into());
        }
    }

    /// By what the runs and the counts alone refuse.
    fn not_written(&mut self, parts: &Parts, refusal: u8) {
        let n = parts.records();
        if refusal == 1 && n == MOST + 1 && parts.runs_right() {
            self.reach.count("write refused, a record too many", 0, 0);
        }
        if refusal != 4 {
            return;
        }
        let lengths = [(parts.figures.len(), 3), (parts.codes.len(), 4), (parts.rules.len(), 2)];
        let over = parts.fields.counts.iter().any(|&count| count > 256);
        if over && parts.runs_right() {
            self.reach.count("write refused, a count of 257", 0, 0);
        }
        let odd: Vec<usize> = (0..3).filter(|&i| lengths[i].0 != lengths[i].1 * n).collect();
        match odd[..] {
            [i] if !over => {
                let longer = u16::from(lengths[i].0 > lengths[i].1 * n);
                self.reach.count("write refused, one run shorter, longer", i as u16, longer);
            }
            [0, 1, 2] if !over && lengths.iter().all(|(have, each)| have % each == 0) => {
                let longer = u16::from(lengths[0].0 > 3 * n);
                self.reach.count("write refused, all runs shorter, longer", longer, 0);
            }
            _ => {}
        }
    }
}

/// The order of each call's refusals.
const ORDER: [(&str, &[u16]); 3] = [
    (RAISE.before, &[1, 2, 3, 4, 5, 6, 7, 8, 9, 10, 11, 12, 13, 14, 23]),
    (LOWER.before, &[1, 2, 3, 4, 5, 6, 7, 8, 9, 10, 11, 12, 13, 14, 26, 23]),
    (WRITE[1], &[1, 3, 4, 5, 6, 7, 8, 9, 10, 11, 12, 13, 14, 23]),
];

/// What the three calls have to meet.
pub fn required() -> Vec<Key> {
    let mut out = Vec::new();
    for (what, order) in ORDER {
        // each refusal beside each that comes later
        for (i, &first) in order.iter().enumerate() {
            out.push((what, first, first));
            out.extend(order[i + 1..].iter().map(|&later| (what, first, later)));
        }
    }
    out.retain(|&(what, first, later)| first == later || together(what, first, later));
    for what in [RAISE.lent, LOWER.lent, WRITE[2]] {
        out.extend((0..6).map(|how| (what, how, 0)));
    }
    out.extend([("write, edition", 1, 0), ("write, edition", 2, 0)]);
    out.extend([("write, the most records", 1, 0), ("write, the most records", 2, 0)]);
    out.push(("write, edition 1 with any watts", 0, 0));
    out.push(("write, a count of 256", 0, 0));
    out.push(("write refused, a record too many", 0, 0));
    out.push(("write refused, a count of 257", 0, 0));
    for longer in 0..2 {
        out.extend((0..3).map(|run| ("write refused, one run shorter, longer", run, longer)));
        out.push(("write refused, all runs shorter, longer", longer, 0));
    }
    out
}

/// Whether two refusals are counted together: of an image that is too short or too long, or whose counts are
/// wrong, a converter's case knows no table, and an image of edition 1 has no watts.
fn together(what: &str, first: u16, later: u16) -> bool {
    what == WRITE[1] || !matches!((first, later), (1 | 4, 4..=14 | 26) | (3, 26))
}

// ------------------------------------------------------------------------------------- runs

/// The fields and records of a table.
fn parts_of(t: &Table) -> Parts {
    let (channel_watts, segment_watts) = t.watts.unwrap_or((0.0, 0.0));
    let records = || t.tables.iter().flatten();
    let [data_rule, elsewhere_rule, automatic_rule, channels_rule, emissions_rule, privileges_rule] =
        t.rules;
    let mut counts = [0; 9];
    for (count, records) in counts.iter_mut().zip(&t.tables) {
        *count = records.len() as u16;
    }
    Parts {
        fields: Fields {
            data_limit: t.data_limit,
            elsewhere_limit: t.elsewhere_limit,
            channel_width: t.width,
            carrier_offset: t.offset,
            carrier_tolerance: t.tolerance,
            channel_watts,
            segment_watts,
            edition: t.edition(),
            data_rule,
            elsewhere_rule,
            automatic_rule,
            channels_rule,
            emissions_rule,
            privileges_rule,
            counts,
            region: t.region,
            reading: t.reading,
            flags: t.flags,
            channel_band: t.channel_band,
            sideband: t.sideband,
            emissions: t.emissions,
        },
        figures: records().flat_map(|r| [r.low, r.high, r.figure]).collect(),
        codes: records().flat_map(|r| [r.band, r.class, r.emissions, r.flags]).collect(),
        rules: records().flat_map(|r| [r.rule, r.second]).collect(),
    }
}

/// What only a writer can be given: another edition, watts in edition 1, counts that are too high or that the
/// runs don't have, and runs that are too short or too long.
fn spoil_parts(rng: &mut Rng, parts: &mut Parts) {
    let counts = &mut parts.fields.counts;
    match rng.below(8) {
        0 => parts.fields.edition = rng.pick(&[0, 3, 4, 255, 256, 257, 258, 65_535]),
        1 => {
            parts.fields.channel_watts = damage::odd_figure(rng);
            parts.fields.segment_watts = damage::odd_figure(rng);
        }
        2 => {
            let (i, n) = (rng.below(9), counts[rng.below(9)]);
            counts[i] = rng.pick(&[n.wrapping_add(1), n.wrapping_sub(1), 256, 257, 1000, 65_535]);
        }
        3 => {
            // a record from one table to another
            let (a, b) = (rng.below(9), rng.below(9));
            if counts[a] > 0 && counts[b] < 65_535 {
                counts[a] -= 1;
                counts[b] += 1;
            }
        }
        4 => {
            // more records in all than an image can have, no count too high
            counts.fill(if rng.chance(50) { 256 } else { 228 });
            counts[rng.below(9)] = rng.pick(&[0, 221, 222, 256]);
        }
        5 => {
            // every run a record shorter or longer
            let n = parts.records();
            let n = if rng.chance(50) { n.saturating_sub(1) } else { n + 1 };
            parts.figures.resize(3 * n, 1.0);
            parts.codes.resize(4 * n, 0);
            parts.rules.resize(2 * n, 0);
        }
        _ => {
            let by = 1 + rng.below(4);
            let longer = rng.chance(50);
            let to = |n: usize| if longer { n + by } else { n.saturating_sub(by) };
            match rng.below(3) {
                0 => parts.figures.resize(to(parts.figures.len()), 1.0),
                1 => parts.codes.resize(to(parts.codes.len()), 0),
                _ => parts.rules.resize(to(parts.rules.len()), 0),
            }
        }
    }
}

/// A table with one record too many of a kind, or just as many as it can have.
fn crowded(rng: &mut Rng, t: &mut Table) {
    let table = rng.pick(&[BANDS, SEGMENTS, PRIVILEGES, AUTOMATIC]);
    if let Some(&r) = t.tables[table].first() {
        t.tables[table].resize(rng.pick(&[255, 256, 257, 257, 258]), r);
    }
}

/// A table of so many records in all, none of them far from the others.
pub fn long(n: usize) -> Table {
    let mut t = small();
    t.tables[AUTOMATIC] = vec![span(20.0, 80.0); 256];
    t.tables[EXCLUDED] = vec![Record { band: 9, ..Record::default() }; 256];
    t.tables[POWER] = vec![span(20.0, 80.0); 256];
    t.flags |= HAS_CHANNELS | HAS_PLAN;
    for table in [CHANNELS, PLAN_DATA, PLAN_AVOID, BANDS, SEGMENTS, PRIVILEGES] {
        let r = t.tables[table].first().copied().unwrap_or_default();
        let have = t.tables.iter().map(Vec::len).sum::<usize>() - t.tables[table].len();
        t.tables[table].resize(n.saturating_sub(have).clamp(1, 256), r);
    }
    t
}

/// The images that the papers' words settle, the longest ones, and those one record longer.
pub fn fixed(run: &mut Run) {
    // "9.15 is 40224CCCCCCCCCCD"
    let watts = [0, 0, 0, 0, 0, 0, 0x59, 0x40, 0xcd, 0xcc, 0xcc, 0xcc, 0xcc, 0x4c, 0x22, 0x40];
    for t in [small(), sixty(), practice(), long(MOST)] {
        let first = t.encode();
        let second = Table { watts: Some(FIXED_WATTS), ..t.clone() }.encode();
        let n = first.len();
        let same = second.len() == n + 16
            && second[..64] == first[..64]
            && second[64..80] == watts
            && second[80..n - 12] == first[64..n - 28]
            && second[n - 12..n + 6] == first[n - 28..n - 10]
            && u32_at(&second, n + 6) as usize == n - 12
            && second[n + 10..] == *b"\x02\0EDGE";
        if !same {
            wrong("an image of edition 2", &format!("{second:?}"));
        }
        for (image, watts) in [(&first, None), (&second, Some(FIXED_WATTS))] {
            let p = run.image(image);
            for c in [&RAISE, &LOWER] {
                let needed = n.saturating_add_signed(c.longer * isize::from(c.takes == 1));
                for lent in [0, needed - 1, needed, needed + 1, needed + 16] {
                    run.convert(c, image, &p, lent, 7);
                }
            }
            let parts = parts_of(&Table { watts, ..t.clone() });
            for lent in [0, image.len() - 1, image.len(), image.len() + 1] {
                run.write(&parts, lent, 7);
            }
        }
    }
    // "It refuses (26, after the image checks) to lower an image whose watts differ from those two"
    for watts in [(100.0, 9.0), (100.0, 100.0), (50.0, 9.15), (9.15, 9.15), (9.15, 100.0)] {
        let image = Table { watts: Some(watts), ..sixty() }.encode();
        let p = run.image(&image);
        for lent in [image.len() - 16, 0] {
            run.convert(&LOWER, &image, &p, lent, 7);
        }
    }
    for watts in [None, Some(FIXED_WATTS)] {
        let t = Table { watts, ..long(MOST + 1) };
        let image = t.encode();
        let p = run.image(&image);
        run.convert(&RAISE, &image, &p, image.len() + 16, 7);
        run.convert(&LOWER, &image, &p, image.len(), 7);
        run.write(&parts_of(&t), image.len(), 7);
        // 1 before 3, before 4, before those of the table
        let mut parts = parts_of(&t);
        parts.fields.edition = 3;
        run.write(&parts, image.len(), 7);
        parts.figures.pop();
        run.write(&parts, image.len(), 7);
        let changes: [fn(&mut Table); 10] = [
            |t| t.reading = 3,
            |t| t.offset = f64::NAN,
            |t| t.tables[BANDS][1].high = 0.0,
            |t| t.tables[SEGMENTS][1].high = 20.0,
            |t| t.tables[AUTOMATIC][1].high = 20.0,
            |t| t.tables[PRIVILEGES][0].high = 0.0,
            |t| {
                let segments = std::mem::take(&mut t.tables[SEGMENTS]);
                t.tables[BANDS].extend(segments);
            },
            |t| t.tables[SEGMENTS][0].high = 101.0,
            |t| t.tables[SEGMENTS][0].flags = 1,
            |t| t.data_limit = 0.0,
        ];
        for change in changes {
            let mut t = t.clone();
            change(&mut t);
            run.write(&parts_of(&t), image.len(), 7);
            run.write(&parts_of(&t), 0, 7);
        }
    }
}

/// The calls on one image: both converters, the one that takes its edition more often.
fn converted(run: &mut Run, rng: &mut Rng, image: &[u8]) {
    let p = run.image(image);
    let own = if edition_of(image) == Some(2) { &LOWER } else { &RAISE };
    for c in [own, own, if rng.chance(50) { &RAISE } else { &LOWER }] {
        let lent = room(rng, image.len().saturating_add_signed(c.longer));
        run.convert(c, image, &p, lent, rng.next());
    }
}

fn wrote(run: &mut Run, rng: &mut Rng, parts: &Parts) {
    let lent = room(rng, length(parts));
    run.write(parts, lent, rng.next());
}

/// A world to start from, most of them small.
pub fn world(rng: &mut Rng) -> World {
    match rng.below(40) {
        0 => tables::settle(practice(), Scale::Hf, None, 2),
        1 | 2 => tables::settle(sixty(), Scale::Eighths, None, 4),
        _ => tables::world(rng),
    }
}

/// So many calls.
pub fn run(run: &mut Run, calls: u64) {
    let mut turn = 0;
    while run.editions.calls() < calls {
        turn += 1;
        if !run.brief && turn % 20_000 == 0 {
            eprintln!("{} calls of writer and converters", run.editions.calls());
        }
        let rng = &mut Rng::new(run.seed, turn + (1 << 41));
        let w = world(rng);
        let watts = if rng.chance(60) { FIXED_WATTS } else { tables::some_watts(rng) };
        for watts in [None, Some(watts)] {
            let t = Table { watts, ..w.table.clone() };
            converted(run, rng, &t.encode());
            wrote(run, rng, &parts_of(&t));
            // several mistakes at once, so that one is met before another
            let mistakes = 1 + rng.below(5);
            let mut t = damage::spoilt_table(rng, &w, t, mistakes);
            converted(run, rng, &t.encode());
            if rng.below(30) == 0 {
                crowded(rng, &mut t);
            }
            let mut parts = parts_of(&t);
            wrote(run, rng, &parts);
            // mistakes that only a writer can be given, in a right table too
            if rng.chance(30) {
                parts = parts_of(&Table { watts, ..w.table.clone() });
            }
            for _ in 0..1 + rng.below(3) {
                spoil_parts(rng, &mut parts);
            }
            wrote(run, rng, &parts);
        }
        for image in [damage::damaged(rng, &w), damage::second(rng, &w)] {
            converted(run, rng, &image);
        }
    }
}
