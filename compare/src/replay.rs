//! Writes the replay list: some thousand cases with their answers, for a program of the gate that
//! needs no Rust (crates/run_replay). Verdicts, ceilings and dial lists are the Rust's own (those of
//! direction 3, which it has not, are its Originate's; those that document 02, 4 changed are worked out from
//! it, sixty.rs); refusals, and the parts that the Rust has only as text, are worked out from document 01
//! (expect.rs); texts are the Rust's own. Every answer was compared with the linked library's on the way.
//! A list is read again as it is written: each case's inputs are taken, both sides are asked, and the answer
//! must stand there to the byte (`check`). Behind a list that was kept come the cases of edition 2 (`more`),
//! with 100 and 9.15 and with other watts: these are the answers of the Rust's copy with other watts, so that
//! the feature `watts` is needed; without it their pages are passed over when a list is read.
//!
//! All numbers are little-endian; f64 means its 64 bits. No padding. The list is u32 number of
//! pages, then those:
//!
//!     PAGE      u32 number of bytes that follow in the page; u32 length of the image, its bytes; u32
//!               number of cases, the cases
//!     CASE      u8 call, then
//!         0 check and tidy question: u8 the refusal of both (0 accepted, else 1 to 14), u8 tidy (1 or
//!           0; 0 if refused)
//!         1 evaluate: STATION, u8 kind, u8 direction, EDGES; DECISION
//!         2 unmeasured: STATION; DECISION
//!         3 ceiling: STATION, u8 direction, EDGES ordinary, EDGES floor, u16 number of figures, u16
//!           number of floor bytes, the figures (f64 each), the floor bytes; u8 refusal, u8 rung known,
//!           u16 rung (0 if it isn't known: the call answers -1), u8 limit known, DECISION (if it isn't
//!           known: the refusal, verdict 2, all else zero)
//!         4 dial list: STATION, u8 direction, EDGES, u32 bytes lent for rows; u8 refusal, u32 count,
//!           count rows of 36 bytes
//!         5 distance: f64 dial, u8 flags, u8 channel band, u32 count, u32 bytes of rows, those; u8
//!           refusal, u8 listed, f64 distance (infinite if none is listed)
//!         6 where the table is wrong, if the linked library has the call: u8 refusal, u8 place, u8
//!           table, u16 record
//!         7 text, on a last page without an image: u8 which (0 at, 1 khz, 2 hertz), f64 figure, u8 bytes
//!           lent; u8 refusal, u8 length, the text's bytes
//!     STATION   f64 margin (the lower and the upper), dial, power; u8 policy, control, license, sideband, itu_region,
//!               band_plan, dial_known, power_known (32 bytes)
//!     EDGES     f64 power low, power high, spectral low, spectral high (32 bytes)
//!     DECISION  f64 segment_low, segment_high, automatic_low, automatic_high, audio_low,
//!               audio_high, width, air_low, air_high, beyond_hz;
//!               u16 rule, segment_rule, guidance_index;
//!               u8 refusal, verdict, code, rule_known, band_known, band, segment_known,
//!               automatic_known, audio_known, air_known, overshoot, edge, guidance,
//!               note_channel_power, note_shared, note_segment_power, marked; if marked is 1, 256
//!               u8 notes, else they are all zero (103 or 359 bytes)

use std::collections::{BTreeMap, BTreeSet};
use std::process::exit;

use crate::cases::{self, Ladder};
use crate::compare::{Found, Room};
use crate::damage;
use crate::distance::{self, Asked};
use crate::draw::{Rng, Scale, WATTS};
use crate::expect;
use crate::ffi::{Decision, Edges, Figures, Parts, Station, StationParts};
use crate::image::{self, CHANNELS, FIXED_WATTS, SEGMENTS};
use crate::oracle::adapter::{self, Ceiling, Prepared};
use crate::oracle::sixty::{Change, Climb};
use crate::reach::{self, CHANGES, Key};
use crate::tables::{self, World};
use crate::texts::{self, Answered};
use crate::{Run, differences, fixed};

#[derive(Default)]
struct List {
    bytes: Vec<u8>,
    images: u32,
    /// How many cases of each call.
    calls: [u32; 8],
    /// The refusal and the code that each call is there with.
    seen: BTreeSet<(u8, u8, u8)>,
    /// How often each thing worth having is there.
    have: BTreeMap<(u8, u16, u16, u16), u32>,
    /// How many answers of each kind document 02, 4 changed.
    changed: BTreeMap<Key, u32>,
}

impl List {
    /// Whether this thing is still wanted; if so it counts.
    fn wants(&mut self, key: (u8, u16, u16, u16), most: u32) -> bool {
        let n = self.have.entry(key).or_default();
        if *n >= most {
            return false;
        }
        *n += 1;
        true
    }

    fn changes(&mut self, key: Key) {
        *self.changed.entry(key).or_default() += 1;
    }

    fn save(&self, file: &str) {
        let mut out = self.images.to_le_bytes().to_vec();
        out.extend(&self.bytes);
        if let Err(e) = std::fs::write(file, &out) {
            eprintln!("{file}: {e}");
            exit(2);
        }
    }

    fn told(&self) -> String {
        let [checks, verdicts, unmeasured, ceilings, dials, distances, faults, texts] = self.calls;
        format!(
            "{} bytes; {} images, {} cases: {checks} image cases, {verdicts} verdicts, {unmeasured} \
             unmeasured, {ceilings} ceilings, {dials} dial lists, {distances} distances, {faults} faults, \
             {texts} texts",
            4 + self.bytes.len(),
            self.images,
            self.calls.iter().sum::<u32>(),
        )
    }
}

fn station(out: &mut Vec<u8>, s: &Station) {
    let [(_, lower), (_, upper), (_, dial), (_, power)] = s.floats();
    assert_eq!(lower.to_bits(), upper.to_bits(), "a replayed case has one margin");
    for x in [lower, dial, power] {
        out.extend(x.to_bits().to_le_bytes());
    }
    out.extend(s.bytes().map(|b| b.1));
}

fn edges(out: &mut Vec<u8>, e: &Edges) {
    for x in e.figures() {
        out.extend(x.to_bits().to_le_bytes());
    }
}

fn decision(out: &mut Vec<u8>, d: &Decision) {
    for (_, x) in d.floats() {
        out.extend(x.to_bits().to_le_bytes());
    }
    for (_, x) in d.words() {
        out.extend(x.to_le_bytes());
    }
    out.extend(d.bytes().map(|b| b.1));
    let marked = d.notes.contains(&1);
    out.push(u8::from(marked));
    if marked {
        out.extend(d.notes);
    }
}

/// One image with the cases on it; it goes into the list only if a case does.
struct Page<'a> {
    image: &'a [u8],
    p: &'a Prepared,
    cases: u32,
    bytes: Vec<u8>,
}

impl<'a> Page<'a> {
    fn new(image: &'a [u8], p: &'a Prepared) -> Self {
        Self { image, p, cases: 0, bytes: Vec::new() }
    }

    fn add(&mut self, list: &mut List, (call, refusal, code): (u8, u8, u8), bytes: &[u8]) {
        self.cases += 1;
        list.seen.insert((call, refusal, code));
        list.calls[usize::from(call)] += 1;
        self.bytes.push(call);
        self.bytes.extend(bytes);
    }

    fn end(self, list: &mut List) {
        if self.cases > 0 {
            list.images += 1;
            let size = self.image.len() + self.bytes.len() + 8;
            assert!(size <= 163_840, "a page that the program can read");
            for n in [size, self.image.len()] {
                list.bytes.extend((n as u32).to_le_bytes());
            }
            list.bytes.extend(self.image);
            list.bytes.extend(self.cases.to_le_bytes());
            list.bytes.extend(self.bytes);
        }
    }

    fn check(&mut self, list: &mut List, most: u32) {
        let (tidy, refusal) = adapter::tidy(self.p);
        if list.wants((0, u16::from(tidy), u16::from(refusal), 0), most) {
            self.add_check(list);
        }
    }

    fn add_check(&mut self, list: &mut List) {
        let (tidy, refusal) = adapter::tidy(self.p);
        self.add(list, (0, refusal, 0), &[refusal, tidy]);
    }

    fn fault(&mut self, list: &mut List, most: u32) {
        let f = expect::fault(self.image, self.p.refusal);
        let place = u16::from(f.place) * 256 + u16::from(f.table);
        if list.wants((10, u16::from(f.refusal), place, f.record.min(1)), most) {
            self.add_fault(list);
        }
    }

    fn add_fault(&mut self, list: &mut List) {
        let f = expect::fault(self.image, self.p.refusal);
        let [low, high] = f.record.to_le_bytes();
        self.add(list, (6, f.refusal, 0), &[f.refusal, f.place, f.table, low, high]);
    }

    fn verdict(
        &mut self,
        run: &mut Run,
        list: &mut List,
        s: &Station,
        kind: u8,
        direction: u8,
        e: &Edges,
        most: u32,
    ) {
        let (d, change) = run.judged(self.image, self.p, s, kind, direction, e);
        // taken by the Rust's answer, so that a changed one stands where it stood
        let was = change.map_or(d, |change| change.was);
        let shape = u16::from(was.overshoot * 2 + was.edge) * 4 + u16::from(was.guidance);
        let code = u16::from(was.code) * 4 + u16::from(was.verdict);
        let (key, most) = match (was.refusal, was.code) {
            (0, 1..=9) => ((1, code, 0, 0), most),
            (0, _) => {
                let marked = was.notes.contains(&1);
                ((1, code, shape, u16::from(kind) * 2 + u16::from(marked)), most * 2)
            }
            (r, _) => ((2, u16::from(r), 0, 0), most / 2),
        };
        if list.wants(key, most) {
            self.add_verdict(list, s, (kind, direction), e, &(d, change));
        }
    }

    fn add_verdict(
        &mut self,
        list: &mut List,
        s: &Station,
        (kind, direction): (u8, u8),
        e: &Edges,
        (d, change): &(Decision, Option<Change>),
    ) {
        let mut out = Vec::new();
        station(&mut out, s);
        out.extend([kind, direction]);
        edges(&mut out, e);
        decision(&mut out, d);
        self.add(list, (1, d.refusal, d.code), &out);
        if let Some(change) = change {
            list.changes(reach::change_key(change, Some(kind)));
        }
    }

    fn unmeasured(&mut self, run: &mut Run, list: &mut List, s: &Station, most: u32) {
        let d = run.unmeasured(self.image, self.p, s);
        if list.wants((3, u16::from(d.refusal), 0, 0), most) {
            self.add_unmeasured(list, s, &d);
        }
    }

    fn add_unmeasured(&mut self, list: &mut List, s: &Station, d: &Decision) {
        let mut out = Vec::new();
        station(&mut out, s);
        decision(&mut out, d);
        self.add(list, (2, d.refusal, 0), &out);
    }

    fn ceiling(
        &mut self,
        run: &mut Run,
        list: &mut List,
        s: &Station,
        direction: u8,
        l: &Ladder,
        most: u32,
    ) {
        if l.rungs.len() > 48 && !list.wants((4, 0, 0, 0), 2) {
            return;
        }
        let found = run.climbed(self.image, self.p, s, direction, l);
        let was = rusts(&found);
        let limit = was.limit.map_or(0, |d| u16::from(d.code));
        let key = match was.refusal {
            0 => (5, limit, u16::from(was.rung.is_some()), u16::from(l.rungs.is_empty())),
            r => (6, u16::from(r), 0, 0),
        };
        if list.wants(key, most) {
            self.add_ceiling(list, s, direction, l, &found);
        }
    }

    fn add_ceiling(
        &mut self,
        list: &mut List,
        s: &Station,
        direction: u8,
        l: &Ladder,
        (c, climb): &(Ceiling, Option<Climb>),
    ) {
        let mut out = Vec::new();
        station(&mut out, s);
        out.push(direction);
        edges(&mut out, &l.ordinary);
        edges(&mut out, &l.floor);
        out.extend((l.rungs.len() as u16).to_le_bytes());
        out.extend((l.floors.len() as u16).to_le_bytes());
        for x in &l.rungs {
            out.extend(x.to_bits().to_le_bytes());
        }
        out.extend(&l.floors);
        out.extend([c.refusal, u8::from(c.rung.is_some())]);
        out.extend(c.rung.unwrap_or(0).to_le_bytes());
        out.push(u8::from(c.limit.is_some()));
        decision(&mut out, &c.limit_or_none());
        self.add(list, (3, c.refusal, 0), &out);
        if let Some(climb) = climb {
            list.changes(reach::climb_key(c, climb));
        }
    }

    fn dials(
        &mut self,
        run: &mut Run,
        rng: &mut Rng,
        list: &mut List,
        s: &Station,
        direction: u8,
        e: &Edges,
        most: u32,
    ) {
        let found = run.dials(self.image, self.p, s, direction, e, Room::draw(rng, 36), 0);
        let n = found.rows.len() / 36;
        if n > 40 {
            return;
        }
        let key = match found.refusal {
            0 => (7, n.min(6) as u16, 0, u16::from(s.control == 2)),
            r => (8, u16::from(r), 0, 0),
        };
        if list.wants(key, most) {
            self.add_dials(list, s, direction, e, &found);
        }
        if found.refusal == 0 && s.policy == 2 {
            self.distance(run, rng, list, &found.rows, most);
        }
    }

    fn add_dials(&mut self, list: &mut List, s: &Station, direction: u8, e: &Edges, found: &Found) {
        let mut out = Vec::new();
        station(&mut out, s);
        out.push(direction);
        edges(&mut out, e);
        out.extend((found.lent as u32).to_le_bytes());
        out.push(found.refusal);
        out.extend(((found.rows.len() / 36) as u32).to_le_bytes());
        out.extend(&found.rows);
        self.add(list, (4, found.refusal, 0), &out);
    }

    /// The distance of a dial from a list, or from rows that no list wrote.
    fn distance(&mut self, run: &mut Run, rng: &mut Rng, list: &mut List, rows: &[u8], most: u32) {
        let Some(table) = &self.p.table else {
            return;
        };
        let (a, rows) = if rng.chance(60) {
            (Asked::of(table, rows, distance::some_dial(rng, table, rows)), rows.to_vec())
        } else {
            Asked::odd(rng, table, rows)
        };
        let far = run.distance(&a, &rows);
        let class = match far {
            Ok(None) => 0,
            Ok(Some(0.0)) => 1,
            Ok(Some(_)) => 2,
            Err(refusal) => u16::from(refusal),
        };
        if list.wants((9, class, (rows.len() / 36).min(3) as u16, 0), most) {
            self.add_distance(list, &a, &rows, far);
        }
    }

    fn add_distance(
        &mut self,
        list: &mut List,
        a: &Asked,
        rows: &[u8],
        far: Result<Option<f64>, u8>,
    ) {
        let mut out = a.dial.to_bits().to_le_bytes().to_vec();
        out.extend([a.flags, a.channel_band]);
        out.extend(a.count.to_le_bytes());
        out.extend((rows.len() as u32).to_le_bytes());
        out.extend(rows);
        let flat = distance::flat(far);
        out.extend([flat.refusal, flat.listed]);
        out.extend(flat.distance_hz.to_bits().to_le_bytes());
        self.add(list, (5, flat.refusal, 0), &out);
    }

    fn add_text(&mut self, list: &mut List, (call, hz, room, refusal, text): Answered) {
        let mut out = vec![call as u8];
        out.extend(hz.to_bits().to_le_bytes());
        out.extend([room as u8, refusal, text.len() as u8]);
        out.extend(&text);
        self.add(list, (7, refusal, call as u8), &out);
    }
}

pub fn write(run: &mut Run, file: &str) {
    let mut list = List::default();
    let none = run.image(&[]);
    // the practice table, then worlds and damaged images from the seed
    let practice = tables::settle(fixed::practice(), Scale::Hf, None, 2);
    page(run, &mut list, &practice, &practice.image, &none, 60, 20);
    let marks = tables::marks(&mut Rng::new(run.seed, 0));
    page(run, &mut list, &marks, &marks.image, &none, 30, 20);
    let mut long = practice.image.clone();
    let end = long.len() - 28;
    long.splice(end..end, std::iter::repeat_n(0, 65_537 - practice.image.len()));
    page(run, &mut list, &practice, &long, &none, 1, 20);
    for place in 1..=4000 {
        run.place = place;
        let rng = &mut Rng::new(run.seed, place);
        let w = tables::world(rng);
        if w.image.len() > 1000 {
            continue;
        }
        page(run, &mut list, &w, &w.image, &none, 80, 24);
        for _ in 0..2 {
            let image = damage::damaged(rng, &w);
            if image.len() <= 1000 {
                page(run, &mut list, &w, &image, &none, 2, 8);
            }
        }
    }
    let mut last = Page::new(&[], &none);
    texts::sample(run).into_iter().for_each(|text| last.add_text(&mut list, text));
    last.end(&mut list);
    to_automatic(run, &mut list);
    let before = list.changed.clone();
    brushed(run, &mut list);
    let missing: Vec<_> = wanted().into_iter().filter(|k| !list.seen.contains(k)).collect();
    assert!(missing.is_empty(), "every code and every refusal: {missing:?}");
    list.save(file);
    println!("{}; seed {}", list.told(), run.seed);
    println!("changed by document 02, 4, where they stood, and added at the end:");
    for (key, what) in CHANGES.into_iter().filter(|(key, _)| !of_rung(key)) {
        let stood = before.get(&key).copied().unwrap_or(0);
        let all = list.changed.get(&key).copied().unwrap_or(0);
        println!("  {what}: {stood}, {}", all - stood);
    }
}

/// The codes of a verdict under automatic control.
const AUTOMATIC: [u8; 23] =
    [1, 2, 3, 5, 7, 8, 9, 10, 11, 12, 13, 14, 15, 16, 17, 18, 19, 20, 21, 22, 23, 24, 25];

/// Limits of a ceiling, 0 for none, that have to do with automatic control.
const LIMITS: [u8; 5] = [0, 11, 18, 19, 20];

/// Direction 3, "respond to automatic", behind all else, so that what was there before stays: automatic
/// control, with every code that it can have, its own limits, and lists that are and aren't Respond's.
fn to_automatic(run: &mut Run, list: &mut List) {
    on_practice(run, list);
    for place in 4001..=8000 {
        run.place = place;
        let w = tables::world(&mut Rng::new(run.seed, place));
        if w.image.len() > 1000 {
            continue;
        }
        let p = run.image(&w.image);
        let mut page = Page::new(&w.image, &p);
        let rng = &mut Rng::new(run.seed, place + (1 << 32));
        for _ in 0..24 {
            let (signal, s, e, kind, _) =
                crate::draw(rng, &w, |drawn| drawn, |_, _, _, _, _| false);
            let (s, direction) = (Station { control: 2, ..s }, 3);
            let (d, change) = run.judged(page.image, &p, &s, kind, direction, &e);
            let was = change.map_or(d, |change| change.was);
            let most = if was.code == 20 { 3 } else { 1 };
            if was.refusal == 0 && list.wants((11, was.code.into(), was.verdict.into(), 0), most) {
                page.add_verdict(list, &s, (kind, direction), &e, &(d, change));
            }
            let l = cases::ladder(rng, &w, &signal);
            let climbed = run.climbed(page.image, &p, &s, direction, &l);
            let was = rusts(&climbed);
            let limit = was.limit.map_or(0, |d| d.code);
            let short = was.refusal == 0 && (1..=12).contains(&l.floors.len());
            let key = (12, limit.into(), u16::from(was.rung.is_some()), 0);
            if short && LIMITS.contains(&limit) && list.wants(key, 1) {
                page.add_ceiling(list, &s, direction, &l, &climbed);
            }
            let found = run.dials(page.image, &p, &s, direction, &e, Room::More(36), 0);
            let respond = adapter::safe_dials(&p, &s, 1, &e).map_or(0, |(_, rows)| rows.len());
            let n = found.rows.len() / 36;
            let key = (13, n.min(2) as u16, u16::from(respond == found.rows.len()), 0);
            if found.refusal == 0 && s.policy == 2 && n <= 40 && list.wants(key, 1) {
                page.add_dials(list, &s, direction, &e, &found);
            }
        }
        page.end(list);
    }
    let have = |key| list.have.contains_key(&key);
    let code = |code: &u8| (0..3).any(|verdict| have((11, (*code).into(), verdict, 0)));
    assert!(AUTOMATIC.iter().all(code), "every code with direction 3");
    let limit = |limit: &u8| (0..2).any(|rung| have((12, (*limit).into(), rung, 0)));
    assert!(LIMITS.iter().all(limit), "every limit with direction 3");
    assert!((0..6).all(|i| have((13, i / 2, i % 2, 0))), "every list with direction 3");
}

/// Outside and inside an automatic segment of the practice table, with Respond and with a direction that
/// is none beside it.
fn on_practice(run: &mut Run, list: &mut List) {
    let image = fixed::practice().encode();
    let p = run.image(&image);
    let mut page = Page::new(&image, &p);
    let s = Station {
        margin_lower_hz: 50.0,
        margin_upper_hz: 50.0,
        dial_hz: 14_098_000.0,
        policy: 2,
        control: 2,
        license: 2,
        sideband: 0,
        itu_region: 2,
        dial_known: 1,
        ..expect::FRESH
    };
    let pair = |high: f64| [1250.0, high, 1250.0, high];
    let e = Edges::of(pair(1750.0));
    for (dial_hz, direction) in [(14_098_000.0, 3), (14_098_000.0, 1), (14_097_700.0, 3)] {
        let s = Station { dial_hz, ..s };
        let judged = run.judged(&image, &p, &s, 0, direction, &e);
        page.add_verdict(list, &s, (0, direction), &e, &judged);
    }
    let judged = run.judged(&image, &p, &s, 0, 4, &e);
    page.add_verdict(list, &s, (0, 4), &e, &judged);
    let control = Edges::of(pair(1700.0));
    let rungs = [pair(1700.0), pair(1750.0)].concat();
    let l = Ladder { ordinary: control, floor: control, rungs, floors: vec![0, 0] };
    let there = Station { dial_hz: 14_097_750.0, ..s };
    for direction in [3, 1, 4] {
        let climbed = run.climbed(&image, &p, &there, direction, &l);
        page.add_ceiling(list, &there, direction, &l, &climbed);
        let found = run.dials(&image, &p, &s, direction, &e, Room::Rows(4), 0);
        page.add_dials(list, &s, direction, &e, &found);
    }
    page.end(list);
}

/// Document 02, 4, channel against segment, behind all else: two of its stated cases with what stands beside
/// them, then each kind of change, and answers by a channel that stay.
fn brushed(run: &mut Run, list: &mut List) {
    let (mut two, mut swapped) = (fixed::sixty(), fixed::sixty());
    for (t, centres) in [(&mut two, [80.0, 90.0]), (&mut swapped, [90.0, 80.0])] {
        t.tables[SEGMENTS][0].high = 95.0;
        t.tables[CHANNELS] = centres.map(fixed::centre).to_vec();
    }
    let s = Station {
        margin_lower_hz: 0.0,
        margin_upper_hz: 0.0,
        policy: 2,
        control: 0,
        license: 4,
        sideband: 0,
        itu_region: 0,
        dial_known: 1,
        ..expect::FRESH
    };
    let e = Edges::of([0.0, 5.0, 0.0, 5.0]);
    for (table, dials) in [
        (differences::fifty(), vec![39.875, 40.0, 44.875, 45.0, 48.0, 50.0, 50.125, 55.0]),
        (two, vec![85.0]),
        (swapped, vec![85.0]),
    ] {
        let image = table.encode();
        let p = run.image(&image);
        let mut page = Page::new(&image, &p);
        for dial_hz in dials {
            let s = Station { dial_hz, ..s };
            let judged = run.judged(&image, &p, &s, 0, 0, &e);
            page.add_verdict(list, &s, (0, 0), &e, &judged);
        }
        page.end(list);
    }
    for place in 8001..=9000 {
        run.place = place;
        let rng = &mut Rng::new(run.seed, place + (1 << 36));
        let w = tables::brush(rng);
        if w.image.len() > 1000 {
            continue;
        }
        let p = run.image(&w.image);
        let mut page = Page::new(&w.image, &p);
        for _ in 0..if p.refusal == 0 { 24 } else { 0 } {
            let (signal, s, e, kind, direction) =
                crate::draw(rng, &w, |drawn| drawn, |_, _, _, _, _| false);
            let (d, change) = run.judged(&w.image, &p, &s, kind, direction, &e);
            let key = match &change {
                Some(change) => kind_of(reach::change_key(change, Some(kind))),
                None => (15, kind.into(), d.verdict.into(), 0),
            };
            if (change.is_some() || d.code == 24) && list.wants(key, 3) {
                page.add_verdict(list, &s, (kind, direction), &e, &(d, change));
            }
            let l = cases::ladder(rng, &w, &signal);
            let climbed = run.climbed(&w.image, &p, &s, direction, &l);
            if let (c, Some(climb)) = &climbed
                && l.floors.len() <= 12
                && list.wants(kind_of(reach::climb_key(c, climb)), 3)
            {
                page.add_ceiling(list, &s, direction, &l, &climbed);
            }
        }
        page.end(list);
    }
    let all = CHANGES.iter().filter(|(key, _)| !of_rung(key));
    let missing: Vec<_> = all
        .filter(|(key, _)| !list.have.contains_key(&kind_of(*key)))
        .map(|(_, what)| what)
        .collect();
    assert!(missing.is_empty(), "every kind of change: {missing:?}");
}

/// Whether a kind of change is one of rungs: a ceiling is taken by how it ends.
fn of_rung(key: &Key) -> bool {
    key.0.starts_with("changed rung")
}

/// A kind of change as a thing worth having.
fn kind_of(key: Key) -> (u8, u16, u16, u16) {
    let at = CHANGES.iter().position(|(known, _)| *known == key);
    (14, at.expect("a kind of change") as u16, 0, 0)
}

/// The ceiling that the Rust gave, by which a case is taken, so that a changed one stands where it stood.
fn rusts((c, climb): &(Ceiling, Option<Climb>)) -> &Ceiling {
    climb.as_ref().map_or(c, |climb| &climb.was)
}

/// Every code of a verdict (4 is `unmeasured`'s alone), and every refusal that a call's inputs can
/// cause.
fn wanted() -> Vec<(u8, u8, u8)> {
    let mut out: Vec<_> = (1..=25).filter(|&code| code != 4).map(|code| (1, 0, code)).collect();
    let refusals: [&[u8]; 5] =
        [&[], &[15, 20, 21, 22], &[20, 21, 22], &[15, 16, 20, 21, 22], &[15, 20, 21, 22, 23]];
    for (call, more) in (0..).zip(refusals) {
        out.extend((1..=14).chain(more.iter().copied()).map(|refusal| (call, refusal, 0)));
        if call != 1 {
            out.push((call, 0, 0));
        }
    }
    out.extend([(5, 0, 0), (5, 21, 0), (5, 23, 0)]);
    if cfg!(fault) {
        out.extend((0..=14).map(|refusal| (6, refusal, 0)));
    }
    for call in 0..3 {
        out.extend([0, 21, 24].map(|refusal| (7, refusal, call)));
    }
    out
}

/// Cases on one image: `tries` of each call, of which those are taken that are still wanted.
fn page(
    run: &mut Run,
    list: &mut List,
    w: &World,
    image: &[u8],
    none: &Prepared,
    tries: usize,
    most: u32,
) {
    let p = run.image(image);
    let mut page = Page::new(image, &p);
    let mut bare = Page::new(&[], none);
    page.check(list, most / 2);
    if cfg!(fault) {
        page.fault(list, most / 2);
    }
    let rng = &mut Rng::new(run.seed, run.place + (1 << 32));
    for i in 0..tries {
        let (signal, mut s, mut e, mut kind, mut direction) =
            crate::draw(rng, w, |drawn| drawn, |_, _, _, _, _| false);
        if rng.chance(6) {
            match rng.below(4) {
                0 => damage::spoil_code(rng, &mut kind),
                1 => damage::spoil_direction(rng, &mut direction),
                2 => damage::spoil_edges(rng, &mut e),
                _ => damage::spoil_station(rng, &mut s),
            }
        }
        page.verdict(run, list, &s, kind, direction, &e, most);
        if i % 4 == 0 {
            page.unmeasured(run, list, &s, most / 2);
            page.dials(run, rng, list, &s, direction, &e, most / 2);
            let mut l = cases::ladder(rng, w, &signal);
            if rng.chance(10) {
                damage::spoil_ladder(rng, &mut l);
            }
            page.ceiling(run, list, &s, direction, &l, most / 4);
        }
        if rng.below(60) == 0 {
            bare.verdict(run, list, &s, kind, direction, &e, most);
            bare.unmeasured(run, list, &s, most / 2);
            bare.dials(run, rng, list, &s, direction, &e, most / 2);
        }
    }
    page.end(list);
    bare.end(list);
}

// ------------------------------------------------------------------------ a list that was kept

/// Bytes of a list, read one thing after the other.
struct Reader<'a> {
    bytes: &'a [u8],
    at: usize,
}

impl<'a> Reader<'a> {
    fn take(&mut self, n: usize) -> &'a [u8] {
        let taken = &self.bytes[self.at..self.at + n];
        self.at += n;
        taken
    }

    fn byte(&mut self) -> u8 {
        self.take(1)[0]
    }

    fn word(&mut self) -> u16 {
        image::u16_at(self.take(2), 0)
    }

    fn long(&mut self) -> u32 {
        image::u32_at(self.take(4), 0)
    }

    fn figure(&mut self) -> f64 {
        image::f64_at(self.take(8), 0)
    }

    fn station(&mut self) -> Station {
        let [margin, dial_hz, power_w] = [(); 3].map(|()| self.figure());
        let codes = self.take(8);
        Station {
            margin_lower_hz: margin,
            margin_upper_hz: margin,
            dial_hz,
            power_w,
            policy: codes[0],
            control: codes[1],
            license: codes[2],
            sideband: codes[3],
            itu_region: codes[4],
            band_plan: codes[5],
            dial_known: codes[6],
            power_known: codes[7],
        }
    }

    fn edges(&mut self) -> Edges {
        Edges::of([(); 4].map(|()| self.figure()))
    }
}

impl Page<'_> {
    /// The next case of a list, from its inputs: it is added with the answer of both sides.
    fn again(&mut self, run: &mut Run, list: &mut List, from: &mut Reader) {
        match from.byte() {
            0 => self.add_check(list),
            1 => {
                let (s, kind, direction) = (from.station(), from.byte(), from.byte());
                let e = from.edges();
                let judged = run.judged(self.image, self.p, &s, kind, direction, &e);
                self.add_verdict(list, &s, (kind, direction), &e, &judged);
            }
            2 => {
                let s = from.station();
                let d = run.unmeasured(self.image, self.p, &s);
                self.add_unmeasured(list, &s, &d);
            }
            3 => {
                let (s, direction) = (from.station(), from.byte());
                let (ordinary, floor) = (from.edges(), from.edges());
                let (figures, floors) = (from.word(), from.word());
                let rungs = (0..figures).map(|_| from.figure()).collect();
                let floors = from.take(floors.into()).to_vec();
                let l = Ladder { ordinary, floor, rungs, floors };
                let climbed = run.climbed(self.image, self.p, &s, direction, &l);
                self.add_ceiling(list, &s, direction, &l, &climbed);
            }
            4 => {
                let (s, direction, e) = (from.station(), from.byte(), from.edges());
                let room = Room::Bytes(from.long() as usize);
                let found = run.dials(self.image, self.p, &s, direction, &e, room, 0);
                self.add_dials(list, &s, direction, &e, &found);
            }
            5 => {
                let (dial, flags, channel_band) = (from.figure(), from.byte(), from.byte());
                let a = Asked { dial, flags, channel_band, count: from.long() };
                let size = from.long() as usize;
                let rows = from.take(size);
                let far = run.distance(&a, rows);
                self.add_distance(list, &a, rows, far);
            }
            6 => self.add_fault(list),
            _ => {
                let (call, hz, room) = (from.byte().into(), from.figure(), from.byte().into());
                self.add_text(list, texts::answered(run, call, hz, room));
            }
        }
    }
}

/// Reads a list, asks both sides for every case, and ends the run where an answer is another. Up to the first
/// accepted image of edition 2 (`kept`), or whole. Without the feature `watts` the Rust isn't asked about pages
/// with other watts.
fn read(run: &mut Run, file: &str, kept: bool) -> List {
    let bytes = std::fs::read(file).unwrap_or_else(|e| {
        eprintln!("{file}: {e}");
        exit(2)
    });
    let mut from = Reader { bytes: &bytes, at: 0 };
    let (mut list, mut passed) = (List::default(), 0);
    for number in 0..from.long() {
        let start = from.at;
        let size = from.long() as usize;
        let end = from.at + size;
        let length = from.long() as usize;
        let image = from.take(length);
        let p = run.image(image);
        let second = p.table.as_ref().filter(|t| p.refusal == 0 && t.watts.is_some());
        if kept && second.is_some() {
            break;
        }
        if !WATTS && second.is_some_and(|t| t.limits() != FIXED_WATTS) {
            passed += 1;
            list.images += 1;
            list.bytes.extend(&bytes[start..end]);
            from.at = end;
            continue;
        }
        let mut page = Page::new(image, &p);
        for case in 0..from.long() {
            let (begin, made) = (from.at, page.bytes.len());
            page.again(run, &mut list, &mut from);
            let made = &page.bytes[made..];
            if !bytes[begin..end].starts_with(made) {
                println!(
                    "DIFFERENCE: {file}, image {number}, case {case}: the list has another answer"
                );
                exit(1);
            }
            from.at = begin + made.len();
        }
        assert_eq!(from.at, end, "{file}, image {number}: a page has its cases and no more");
        page.end(&mut list);
    }
    if !kept {
        assert!(bytes[4..] == list.bytes, "{file}: the list as it was read");
    }
    println!("{}: {passed} images with other watts were passed over", list.told());
    list
}

/// Every case of a list, beside both sides.
pub fn check(run: &mut Run, file: &str) {
    read(run, file, false);
    println!("no difference");
}

/// The cases of edition 2, behind those of a list that was kept; such cases of an earlier time are made anew.
pub fn more(run: &mut Run, file: &str) {
    let mut list = read(run, file, true);
    let (bytes, images) = (list.bytes.len(), list.images);
    let calls = list.calls;
    list.seen.clear();
    of_edition_2(run, &mut list);
    list.save(file);
    let added: Vec<u32> = list.calls.iter().zip(calls).map(|(all, kept)| all - kept).collect();
    println!(
        "added {} bytes, {} images, {} cases, by call {added:?}",
        list.bytes.len() - bytes,
        list.images - images,
        added.iter().sum::<u32>()
    );
    println!("{}; seed {}", list.told(), run.seed);
}

/// What edition 2 has to be there with: every code of a verdict and every refusal of each call. 3 it passes.
fn wanted_of_edition_2() -> Vec<(u8, u8, u8)> {
    let of = |&(call, refusal, _): &(u8, u8, u8)| refusal != 3 && matches!(call, 0..=4 | 6);
    wanted().into_iter().filter(of).filter(|&(_, refusal, _)| refusal != 22).collect()
}

/// Images of edition 2: "sixty" of docs/DIFFERENCES.md at the edges of its watts, the practice table, worlds with
/// 100 and 9.15 and with other watts in turn, and damaged ones.
fn of_edition_2(run: &mut Run, list: &mut List) {
    let practice = tables::settle(fixed::practice(), Scale::Hf, None, 2).with_watts(FIXED_WATTS);
    second(run, list, &mut Rng::new(run.seed, 1 << 42), &practice, 60);
    at_the_watts(run, list);
    for place in 1..=2000 {
        run.place = place;
        let rng = &mut Rng::new(run.seed, place + (1 << 42));
        let w = if place % 3 == 0 { tables::brush(rng) } else { tables::world(rng) };
        let other = tables::some_watts(rng);
        let w = w.with_watts(if place % 2 == 0 { FIXED_WATTS } else { other });
        if w.image.len() > 700 {
            continue;
        }
        second(run, list, rng, &w, 8);
        let image = damage::second(rng, &w);
        let p = run.image(&image);
        if image.len() <= 700 && p.refusal != 0 {
            refused(run, list, rng, &w, &image, &p);
        }
    }
    let missing: Vec<_> =
        wanted_of_edition_2().into_iter().filter(|k| !list.seen.contains(k)).collect();
    assert!(missing.is_empty(), "every code and every refusal with edition 2: {missing:?}");
}

/// On a channel and in the segment, with a power just at each of the watts and one unit in the last place above.
fn at_the_watts(run: &mut Run, list: &mut List) {
    let s = Station {
        margin_lower_hz: 0.0,
        margin_upper_hz: 0.0,
        policy: 2,
        control: 0,
        license: 4,
        sideband: 0,
        itu_region: 0,
        dial_known: 1,
        power_known: 1,
        ..expect::FRESH
    };
    let e = Edges::of([0.0, 5.0, 0.0, 5.0]);
    for watts in [FIXED_WATTS, (9.15, 100.0), (50.0, 20.0), (0.0, -1.0)] {
        let mut table = fixed::sixty();
        table.watts = Some(watts);
        let image = table.encode();
        let p = run.image(&image);
        let mut page = Page::new(&image, &p);
        for power_w in [watts.0, watts.0.next_up(), watts.1, watts.1.next_up()] {
            for dial_hz in [88.0, 30.0] {
                let s = Station { dial_hz, power_w, ..s };
                let judged = run.judged(&image, &p, &s, 0, 0, &e);
                page.add_verdict(list, &s, (0, 0), &e, &judged);
            }
        }
        page.end(list);
    }
}

/// Cases on an accepted image of edition 2, of which those are taken that are still wanted.
fn second(run: &mut Run, list: &mut List, rng: &mut Rng, w: &World, tries: usize) {
    let p = run.image(&w.image);
    if p.refusal != 0 {
        return;
    }
    let mut page = Page::new(&w.image, &p);
    let (tidy, _) = adapter::tidy(&p);
    if list.wants((20, u16::from(tidy), 0, 0), 2) {
        page.add_check(list);
        page.add_fault(list);
    }
    for _ in 0..tries {
        let (signal, mut s, mut e, mut kind, mut direction) =
            crate::draw(rng, w, |drawn| drawn, |_, _, _, _, _| false);
        if rng.chance(6) {
            match rng.below(4) {
                0 => damage::spoil_code(rng, &mut kind),
                1 => damage::spoil_direction(rng, &mut direction),
                2 => damage::spoil_edges(rng, &mut e),
                _ => damage::spoil_station(rng, &mut s),
            }
        }
        let judged = run.judged(&w.image, &p, &s, kind, direction, &e);
        let d = &judged.0;
        // on 60 m by the warning, the kind and the side of 100 or 9.15
        let fixed = if d.code == 24 { FIXED_WATTS.0 } else { FIXED_WATTS.1 };
        let above = s.power_known == 1 && s.power_w > fixed;
        let shape = match (d.refusal, d.code) {
            (0, 24 | 25) => u16::from(kind) * 2 + u16::from(above) + 1,
            _ => 0,
        };
        let key = (21, u16::from(d.refusal), u16::from(d.code) * 4 + u16::from(d.verdict), shape);
        if list.wants(key, 1) {
            page.add_verdict(list, &s, (kind, direction), &e, &judged);
        }
        let d = run.unmeasured(&w.image, &p, &s);
        if list.wants((22, d.refusal.into(), 0, 0), 1) {
            page.add_unmeasured(list, &s, &d);
        }
        let mut l = cases::ladder(rng, w, &signal);
        if rng.chance(10) {
            damage::spoil_ladder(rng, &mut l);
        }
        if l.rungs.len() <= 24 {
            let climbed = run.climbed(&w.image, &p, &s, direction, &l);
            let c = &climbed.0;
            let limit = c.limit.map_or(0, |d| d.code);
            if list.wants((23, c.refusal.into(), limit.into(), c.rung.is_some().into()), 1) {
                page.add_ceiling(list, &s, direction, &l, &climbed);
            }
        }
        let room = Room::draw(rng, 36);
        let found = run.dials(&w.image, &p, &s, direction, &e, room, 0);
        let n = found.rows.len() / 36;
        let key = (24, found.refusal.into(), n.min(3) as u16, u16::from(s.control == 2));
        if n <= 20 && list.wants(key, 1) {
            page.add_dials(list, &s, direction, &e, &found);
        }
    }
    page.end(list);
}

/// A damaged image of edition 2: its check and where it is wrong, and a call of each kind, which it refuses too.
fn refused(run: &mut Run, list: &mut List, rng: &mut Rng, w: &World, image: &[u8], p: &Prepared) {
    let mut page = Page::new(image, p);
    let (f, watts) = (expect::fault(image, p.refusal), reach::watts_refused(image, p.refusal));
    let place = u16::from(f.place) * 256 + u16::from(f.table);
    // by its watts alone, by each of them and each kind of figure
    if let Some((which, how)) = watts {
        if list.wants((25, which, how, 0), 1) {
            page.add_check(list);
            page.add_fault(list);
        }
    } else if list.wants((26, f.refusal.into(), place, 0), 1) {
        page.add_check(list);
        page.add_fault(list);
    }
    let signal = w.signal(rng);
    let s = Station { policy: 2, ..w.station(rng, &signal) };
    let (e, number) = (w.edges(rng, signal.low, signal.high), u16::from(p.refusal));
    if list.wants((27, number, 1, 0), 1) {
        let judged = run.judged(image, p, &s, 0, 0, &e);
        page.add_verdict(list, &s, (0, 0), &e, &judged);
    }
    if list.wants((27, number, 2, 0), 1) {
        let d = run.unmeasured(image, p, &s);
        page.add_unmeasured(list, &s, &d);
    }
    if list.wants((27, number, 3, 0), 1) {
        let l = Ladder { ordinary: e, floor: e, rungs: e.figures().to_vec(), floors: vec![0] };
        let climbed = run.climbed(image, p, &s, 0, &l);
        page.add_ceiling(list, &s, 0, &l, &climbed);
    }
    if list.wants((27, number, 4, 0), 1) {
        let found = run.dials(image, p, &s, 0, &e, Room::Rows(2), 0);
        page.add_dials(list, &s, 0, &e, &found);
    }
    page.end(list);
}
