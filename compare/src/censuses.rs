//! Censuses of a band (document 02, 14). Every dial of a stretch is asked for by itself, of the library's
//! verdict and of the Rust's, and their codes are added up; the refusals are worked out here.

use std::process::exit;

use crate::compare;
use crate::draw::Rng;
use crate::ffi::{self, Edges, Figures, Station};
use crate::image::SEGMENTS;
use crate::oracle::adapter::Prepared;
use crate::reach::Key;
use crate::{Run, Spoil, damage, expect, fixed, tables};

/// "at most 1,000,000 of them"
const MOST: i64 = 1_000_000;
/// "above 2^40 in size"
const FAR: i64 = 1 << 40;

/// What the censuses of a run met.
#[derive(Default)]
pub struct Met {
    pub stretches: u64,
    pub dials: u64,
    pub refused: u64,
}

/// One question.
#[derive(Clone, Copy)]
struct Asked<'a> {
    image: &'a [u8],
    p: &'a Prepared,
    s: Station,
    kind: u8,
    direction: u8,
    e: Edges,
    first: i64,
    last: i64,
}

impl Asked<'_> {
    /// "It refuses (33, after 15) a first above the last or more dials than that, and (34, next) a first or
    /// last above 2^40 in size." The record's own dial figure is not looked at.
    fn refusal(&self) -> u8 {
        let bare = Station { dial_hz: 0.0, ..self.s };
        let station = expect::station_refusal(&bare, self.direction, self.kind);
        if station != 0 {
            return station;
        }
        let image = expect::image_refusal(&bare, self.image.len(), self.p.refusal);
        if image != 0 {
            return image;
        }
        if expect::edges_refused(&self.e) {
            return 15;
        }
        let dials = i128::from(self.last) - i128::from(self.first) + 1;
        if dials < 1 || dials > i128::from(MOST) {
            return 33;
        }
        let far = |dial: i64| dial.unsigned_abs() > FAR as u64;
        if far(self.first) || far(self.last) { 34 } else { 0 }
    }

    /// The codes of every dial, one by one, added up; or what differs at one of them.
    fn counts(&self) -> Result<[u32; 25], String> {
        let mut counts = [0; 25];
        for dial in self.first..=self.last {
            let there = Station { dial_hz: dial as f64, dial_known: 1, ..self.s };
            let (d, _) =
                compare::verdict(self.image, self.p, &there, self.kind, self.direction, &self.e)
                    .map_err(|what| format!("at dial {dial}: {what}"))?;
            counts[usize::from(d.code) - 1] += 1;
        }
        Ok(counts)
    }

    /// The agreed refusal and counts, or what differs.
    fn compare(&self) -> Result<(u8, [u32; 25]), String> {
        let refusal = self.refusal();
        let want = if refusal == 0 { self.counts()? } else { [0; 25] };
        let lent = self.image.to_vec();
        let got =
            ffi::census(self.s, self.kind, self.direction, self.e, &lent, self.first, self.last);
        if lent != self.image {
            return Err("the image changed".to_owned());
        }
        if got.refusal == refusal && got.counts == want {
            return Ok((refusal, want));
        }
        Err(format!(
            "library:  refusal {}, counts {:?}\n  expected: refusal {refusal}, counts {want:?}",
            got.refusal, got.counts
        ))
    }
}

impl Run {
    fn census(&mut self, a: Asked) -> (u8, [u32; 25]) {
        let (refusal, counts) = a.compare().unwrap_or_else(|what| {
            println!(
                "DIFFERENCE (seed {}, world {}): census from {} to {}\n  {what}\n  {:?}, kind {}, direction {}, \
                 edges {:?}, image {:?}",
                self.seed,
                self.place,
                a.first,
                a.last,
                a.s,
                a.kind,
                a.direction,
                a.e.figures(),
                a.image
            );
            exit(1)
        });
        if refusal != 0 {
            self.censuses.refused += 1;
            self.reach.count("census refused", refusal.into(), 0);
        } else {
            self.censuses.stretches += 1;
            self.censuses.dials += (a.last - a.first + 1) as u64;
            let met = (1..=25).filter(|&code| counts[code - 1] != 0);
            for code in met.clone() {
                self.reach.count("census code", code as u16, 0);
            }
            self.reach.count("census codes", met.count().min(3) as u16, 0);
        }
        (refusal, counts)
    }
}

/// Every code but 4 and 9, stretches of one code, two and more, and the refusals.
pub fn required() -> Vec<Key> {
    let codes = (1..=25).filter(|code| ![4, 9].contains(code)).map(|code| ("census code", code, 0));
    let refusals = [20, 21, 22, 1, 2, 3, 4, 5, 6, 12, 15, 33, 34].map(|n| ("census refused", n, 0));
    codes.chain((1..=3).map(|n| ("census codes", n, 0))).chain(refusals).collect()
}

/// The practice table: a million dials, the ends of what a dial can be, and the record's own dial.
pub fn fixed(run: &mut Run) {
    let table = fixed::practice();
    let image = table.encode();
    let p = run.image(&image);
    let s = Station {
        margin_lower_hz: 50.0,
        margin_upper_hz: 50.0,
        policy: 2,
        control: 0,
        license: 2,
        sideband: 0,
        itu_region: 2,
        ..expect::FRESH
    };
    let e = Edges::of([1_250.0, 1_750.0, 1_250.0, 1_750.0]);
    let some = Asked { image: &image, p: &p, s, kind: 0, direction: 0, e, first: 0, last: 0 };
    let mut say = |what: &str, a: Asked, refusal: u8, code: Option<(usize, u32)>| {
        let (got, counts) = run.census(a);
        if got != refusal || code.is_some_and(|(code, count)| counts[code - 1] != count) {
            fixed::wrong(what, &format!("refusal {got}, counts {counts:?}"));
        }
    };
    let (low, high) = (14_023_800, 14_148_200);
    let million = Asked { first: 13_500_001, last: 14_500_000, ..some };
    say("a million dials", million, 0, Some((16, high - low + 1)));
    say("a million and one", Asked { last: 14_500_001, ..million }, 33, None);
    say("one dial", Asked { first: low.into(), last: low.into(), ..some }, 0, Some((16, 1)));
    say(
        "the dial below",
        Asked { first: i64::from(low) - 1, last: low.into(), ..some },
        0,
        Some((15, 1)),
    );
    for (first, last, refusal) in [
        (1, 0, 33),
        (i64::MAX, i64::MIN, 33),
        (i64::MIN, i64::MAX, 33),
        (0, i64::MAX, 33),
        (-1, i64::MAX, 33),
        (i64::MIN, 0, 33),
        (i64::MIN, -1, 33),
        (i64::MIN, i64::MIN + MOST, 33),
        (i64::MIN, i64::MIN + MOST - 1, 34),
        (i64::MAX - MOST + 1, i64::MAX, 34),
        (i64::MIN, i64::MIN, 34),
        (i64::MAX, i64::MAX, 34),
        (FAR, FAR, 0),
        (-FAR, -FAR, 0),
        (-FAR, 1 - FAR, 0),
        (FAR, FAR + 1, 34),
        (FAR + 1, FAR + 1, 34),
        (-FAR - 1, -FAR, 34),
        (FAR + 1, FAR, 33),
        (-1, 1, 0),
        (0, 0, 0),
    ] {
        say("first and last", Asked { first, last, ..some }, refusal, None);
    }
    let stretch = Asked { first: 14_023_790, last: 14_023_810, ..some };
    for dial_hz in [f64::NAN, f64::INFINITY, -0.0, 1e300, 14_100_000.0] {
        for (dial_known, refusal) in [(0, 0), (1, 0), (2, 20), (255, 20)] {
            let s = Station { dial_hz, dial_known, ..s };
            say("the record's own dial", Asked { s, ..stretch }, refusal, None);
        }
    }
    let none = run.image(&[]);
    let wrong = [&image[..image.len() - 1], b"F"].concat();
    let letters = run.image(&wrong);
    // the other refusals of an image that a run must meet, few of which a thousand stretches draw
    let changed = |at: usize, to: u8| {
        let mut image = image.clone();
        image[at] = to;
        image
    };
    let mut outside = table.clone();
    outside.tables[SEGMENTS][0].high = 2e9;
    let damaged = [
        (1, image[..91].to_vec()),
        (3, changed(image.len() - 6, 3)),
        (4, changed(image.len() - 8, 1)),
        (5, changed(41, 3)),
        (6, changed(7, 0xff)),
        (12, outside.encode()),
    ]
    .map(|(refusal, image)| (refusal, run.image(&image), image));
    let mut refused = |a: Asked, refusal: u8| {
        let got = run.census(a).0;
        if got != refusal {
            fixed::wrong("the order of refusals", &got.to_string());
        }
    };
    let back = Asked { first: 1, last: 0, ..some };
    refused(Asked { image: &[], p: &none, ..back }, 22);
    refused(Asked { image: &wrong, p: &letters, ..back }, 2);
    for (refusal, p, image) in &damaged {
        refused(Asked { image, p, ..back }, *refusal);
    }
    refused(Asked { e: Edges::of([f64::NAN, 1.0, 0.0, 1.0]), ..back }, 15);
    refused(Asked { s: Station { margin_lower_hz: f64::NAN, ..s }, ..back }, 21);
    refused(Asked { kind: 4, ..back }, 20);
    refused(back, 33);
    for (policy, first) in [(0, -3), (1, -3), (3, -3)] {
        refused(Asked { s: Station { policy, ..s }, image: &[], p: &none, first, ..some }, 0);
    }
}

/// Stretches of drawn tables, about the dials of drawn signals.
pub fn run(run: &mut Run, stretches: u64) {
    let none = run.image(&[]);
    while run.censuses.stretches < stretches {
        run.place += 1;
        let rng = &mut Rng::new(run.seed, run.place + (1 << 38));
        run.directions.begin(run.seed, run.place);
        let w = if rng.chance(20) { tables::brush(rng) } else { tables::world(rng) };
        let damaged = rng.chance(10).then(|| damage::damaged(rng, &w));
        let image = damaged.as_deref().unwrap_or(&w.image);
        let p = run.image(image);
        for _ in 0..4 {
            let turn = |drawn| run.directions.turn(drawn);
            let (signal, mut s, mut e, mut kind, mut direction) =
                crate::draw(rng, &w, turn, |_, _, _, _, _| false);
            let spoil = Spoil::draw(rng);
            if spoil.station {
                damage::spoil_station(rng, &mut s);
            }
            if spoil.code && rng.chance(50) {
                damage::spoil_code(rng, &mut kind);
            } else if spoil.code {
                run.directions.spoil(rng, &mut direction);
            }
            if spoil.edges {
                damage::spoil_edges(rng, &mut e);
            }
            let length = rng.pick(&[1, 2, 60, 400]);
            let first = signal.dial.floor() as i64 - rng.below(length) as i64;
            let last = match rng.below(200) {
                0 => first - 1,
                1 => first + MOST,
                _ => first + rng.below(length) as i64,
            };
            let (image, p) = crate::or_none(rng, image, &p, &none);
            run.census(Asked { image, p, s, kind, direction, e, first, last });
        }
    }
}
