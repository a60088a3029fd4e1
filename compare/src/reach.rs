//! What a run reached. A count of 0 for anything that can be reached fails the run.

use std::collections::BTreeMap;

use crate::draw::{BIG, WATTS};
use crate::expect;
use crate::ffi::{Decision, Station};
use crate::image::{self, FIXED_WATTS, Table};
use crate::oracle::adapter::Ceiling;
use crate::oracle::sixty::{Change, Climb};
use crate::{airtimes, amendments, censuses, editions, nearests, reports, texts, walks};

pub type Key = (&'static str, u16, u16);

#[derive(Default)]
pub struct Reach {
    counts: BTreeMap<Key, u64>,
}

const CALLS: [(&str, &[u16]); 6] = [
    ("check refused", &[1, 2, 3, 4, 5, 6, 7, 8, 9, 10, 11, 12, 13, 14]),
    ("tidy refused", &[1, 2, 3, 4, 5, 6, 7, 8, 9, 10, 11, 12, 13, 14]),
    ("verdict refused", &[1, 2, 3, 4, 5, 6, 7, 8, 9, 10, 11, 12, 13, 14, 15, 20, 21, 22]),
    ("unmeasured refused", &[1, 2, 3, 4, 5, 6, 7, 8, 9, 10, 11, 12, 13, 14, 20, 21, 22]),
    ("ceiling refused", &[1, 2, 3, 4, 5, 6, 7, 8, 9, 10, 11, 12, 13, 14, 15, 16, 20, 21, 22]),
    ("dial list refused", &[1, 2, 3, 4, 5, 6, 7, 8, 9, 10, 11, 12, 13, 14, 15, 20, 21, 22, 23]),
];

/// Every code in every verdict that it can have: 0 legal, 1 warning, 2 blocked.
const VERDICTS: [(u16, &[u16]); 25] = [
    (1, &[2]),
    (2, &[2]),
    (3, &[0]),
    (4, &[2]),
    (5, &[2]),
    (6, &[2]),
    (7, &[2]),
    (8, &[2]),
    (9, &[2]),
    (10, &[2]),
    (11, &[2]),
    (12, &[2]),
    (13, &[2]),
    (14, &[2]),
    (15, &[2]),
    (16, &[0, 1]),
    (17, &[0, 1]),
    (18, &[2]),
    (19, &[2]),
    (20, &[2]),
    (21, &[0, 1]),
    (22, &[2]),
    (23, &[2]),
    (24, &[0, 1, 2]),
    (25, &[0, 1]),
];

/// Codes that the limit of a ceiling can have: the blocked ones for data, 4 apart.
const LIMITS: [u16; 19] = [1, 2, 5, 6, 7, 8, 9, 10, 11, 12, 13, 14, 15, 18, 19, 20, 22, 23, 24];

pub const OTHER: [Key; 48] = [
    // 1 beyond, 2 too close; edge 0 lower, 1 upper. "Too close" never names the lower edge.
    ("overshoot, edge", 1, 0),
    ("overshoot, edge", 1, 1),
    ("overshoot, edge", 2, 1),
    // code 10: a band touched or none
    ("touching band", 0, 0),
    ("touching band", 1, 0),
    // guidance (none, avoid, inside, outside) for the three codes that can have it
    ("code, guidance", 16, 0),
    ("code, guidance", 16, 1),
    ("code, guidance", 16, 2),
    ("code, guidance", 16, 3),
    ("code, guidance", 17, 0),
    ("code, guidance", 17, 1),
    ("code, guidance", 17, 2),
    ("code, guidance", 17, 3),
    ("code, guidance", 21, 0),
    ("code, guidance", 21, 1),
    ("code, guidance", 21, 2),
    ("code, guidance", 21, 3),
    // power notes for the three codes
    ("power note", 16, 0),
    ("power note", 17, 0),
    ("power note", 21, 0),
    // 60 m notes
    ("mark channel power", 0, 0),
    ("mark shared", 0, 0),
    ("mark segment power", 0, 0),
    // code 15 with rule 1, rule 6, and the general block's
    ("code 15 by rule", 1, 0),
    ("code 15 by rule", 6, 0),
    ("code 15 by rule", 7, 0),
    // kinds of code 16
    ("code 16 by kind", 0, 0),
    ("code 16 by kind", 1, 0),
    ("code 16 by kind", 2, 0),
    ("code 16 by kind", 3, 0),
    // code 12 off 60 m (no segment) and on it (segment)
    ("code 12, segment", 0, 0),
    ("code 12, segment", 1, 0),
    // ceilings: rung known, limit known
    ("ceiling rung, limit", 0, 0),
    ("ceiling rung, limit", 0, 1),
    ("ceiling rung, limit", 1, 0),
    ("ceiling rung, limit", 1, 1),
    ("ceiling at rung 255", 0, 0),
    // dial lists: rows none, one, several, more than 16 bits count
    ("dial list rows", 0, 0),
    ("dial list rows", 1, 0),
    ("dial list rows", 2, 0),
    ("dial list rows", 3, 0),
    // distances: none listed, nought, some; and refused
    ("distance", 0, 0),
    ("distance", 1, 0),
    ("distance", 2, 0),
    ("distance refused", 21, 0),
    ("distance refused", 23, 0),
    // tidy or not
    ("tidy", 0, 0),
    ("tidy", 1, 0),
];

/// Where a table can be wrong, by the refusal: in the general block, and in these tables. The figures of
/// an excluded band (5) are unused, so that 6 is not met there.
const FAULTS: [(u16, bool, &[u16]); 8] = [
    (5, true, &[0, 1, 2, 3, 4, 5, 6, 7, 8]),
    (6, true, &[0, 1, 2, 3, 4, 6, 7, 8]),
    (7, false, &[0]),
    (8, false, &[1]),
    (9, false, &[4]),
    (10, false, &[3]),
    (12, false, &[1]),
    (13, false, &[1]),
];

/// What document 02, 4 changes: verdicts by the kind of emission and the rungs of ceilings, each with the
/// verdict before and after, and how a ceiling with such a rung ends.
pub const CHANGES: [(Key, &str); 16] = [
    (("changed data 24 to 25", 2, 0), "data, blocked 24 to legal 25"),
    (("changed data 24 to 25", 2, 1), "data, blocked 24 to warning 25"),
    (("changed data 24 to 12", 2, 2), "data, blocked 24 to too_wide"),
    (("changed test 24 to 25", 2, 0), "test, blocked 24 to legal 25"),
    (("changed test 24 to 25", 2, 1), "test, blocked 24 to warning 25"),
    (("changed CW 24 to 25", 2, 0), "CW, blocked 24 to legal 25"),
    (("changed CW 24 to 25", 2, 1), "CW, blocked 24 to warning 25"),
    (("changed CW 24 to 25", 0, 0), "CW, legal 24 to legal 25"),
    (("changed CW 24 to 25", 0, 1), "CW, legal 24 to warning 25"),
    (("changed CW 24 to 25", 1, 1), "CW, warning 24 to warning 25"),
    (("changed rung 24 to 25", 2, 0), "rung, blocked 24 to legal 25"),
    (("changed rung 24 to 25", 2, 1), "rung, blocked 24 to warning 25"),
    (("changed rung 24 to 12", 2, 2), "rung, blocked 24 to too_wide"),
    (("changed ceiling", 0, 0), "ceiling, limit 24 to none"),
    (("changed ceiling", 1, 0), "ceiling, limit 24 to too_wide at the changed rung"),
    (("changed ceiling", 2, 0), "ceiling, limit 24 to a later rung's"),
];

/// The kind of a changed answer; no emission: a rung.
pub fn change_key(change: &Change, kind: Option<u8>) -> Key {
    let what = match (kind, change.now.code) {
        (Some(0), 25) => "changed data 24 to 25",
        (Some(0), _) => "changed data 24 to 12",
        (Some(1), 25) => "changed CW 24 to 25",
        (Some(2), 25) => "changed test 24 to 25",
        (None, 25) => "changed rung 24 to 25",
        (None, _) => "changed rung 24 to 12",
        // none can be: reached, it shows in the counts
        _ => "changed otherwise",
    };
    (what, change.was.verdict.into(), change.now.verdict.into())
}

/// The kind of a changed ceiling.
pub fn climb_key(now: &Ceiling, climb: &Climb) -> Key {
    let end = match &now.limit {
        None => 0,
        Some(_) if climb.changes.last().is_some_and(|change| change.now.verdict == 2) => 1,
        Some(_) => 2,
    };
    ("changed ceiling", end, 0)
}

/// What each direction must meet: 0 originate, 1 respond, 2 operator, 3 respond to automatic. Code 20 is met
/// under automatic control outside automatic segments, by what isn't a plain Respond.
const BY_DIRECTION: [(&str, &[u16], &[u16]); 7] = [
    ("verdict by direction", &[0, 1, 2, 3], &[0]),
    ("code 20 by direction", &[0, 3], &[0]),
    ("ceiling by direction", &[0, 1, 2, 3], &[0]),
    ("ceiling limit 20 by direction", &[0, 3], &[0]),
    ("dial list by direction", &[0, 1, 2, 3], &[0]),
    // under automatic control: rows none, one, several
    ("automatic list by direction", &[0, 1, 2, 3], &[0, 1, 2]),
    ("list by direction, Respond's is another", &[3], &[0]),
];

/// Calls that must meet 20 with each direction that is none, 4 to 255.
const NO_DIRECTION: [&str; 3] =
    ["no direction, verdict", "no direction, ceiling", "no direction, dial list"];

/// Watts of edition 2 that meet 6: a NaN, the infinities, above 2^40 in size, negative zero.
fn odd_watts(x: f64) -> Option<u16> {
    match x {
        _ if x.is_nan() => Some(0),
        f64::INFINITY => Some(1),
        f64::NEG_INFINITY => Some(2),
        _ if x > BIG => Some(3),
        _ if x < -BIG => Some(4),
        _ if x.to_bits() == 1 << 63 => Some(5),
        _ => None,
    }
}

/// Watts that don't: zero, negative, subnormal, 2^40 and its negative, others.
fn plain_watts(x: f64) -> u16 {
    match x {
        0.0 => 0,
        _ if x == -BIG => 1,
        _ if x < 0.0 => 2,
        _ if x.is_subnormal() => 3,
        _ if x == BIG => 4,
        _ => 5,
    }
}

/// What edition 2 has to meet: each refusal but 3, which it passes, and none; the lengths that only one of the
/// editions can have; each watt figure that is refused, alone, and each kind that isn't.
fn of_edition_2() -> Vec<Key> {
    let mut out: Vec<Key> =
        (0..=14).filter(|&n| n != 3).map(|n| ("edition 2 checked", n, 0)).collect();
    out.extend([("edition 2 under 108 bytes", 4, 0), ("edition 1 over 65,536 bytes", 4, 0)]);
    for watts in 0..2 {
        out.extend((0..6).map(|how| ("watts refused", watts, how)));
        out.extend((0..6).map(|how| ("watts accepted", watts, how)));
    }
    out
}

/// What other watts have to meet on 60 m: answers by a channel and by the segment, with the station's power on
/// both sides of each of the two figures; with and without their warning, for each kind of emission; with a
/// power one unit in the last place beside the figure and just it; where 100 or 9.15 would say otherwise, both
/// ways; with each kind of figure; and by document 02, 4 also from a warning to legal.
fn of_other_watts() -> Vec<Key> {
    let mut out = vec![("changed CW 24 to 25", 1, 0)];
    for what in ON_SIXTY {
        out.extend((0..4).map(|sides| (what.sides, sides / 2, sides % 2)));
        out.extend((0..6).map(|n| (what.kind, n / 2, n % 2)));
        out.extend((0..3).map(|n| (what.beside, n, 0)));
        out.extend((0..2).map(|n| (what.otherwise, n, 0)));
        out.extend((0..6).map(|n| (what.figure, n, 0)));
    }
    out
}

/// The names of what an answer by a channel and one by the segment meet.
struct Named {
    sides: &'static str,
    kind: &'static str,
    beside: &'static str,
    otherwise: &'static str,
    figure: &'static str,
}

const ON_SIXTY: [Named; 2] = [
    Named {
        sides: "channel, power above channel watts, segment watts",
        kind: "channel, kind, warned",
        beside: "channel, power next below, at, next above its watts",
        otherwise: "channel, warned, not by 100 W",
        figure: "channel, its watts",
    },
    Named {
        sides: "segment, power above channel watts, segment watts",
        kind: "segment, kind, warned",
        beside: "segment, power next below, at, next above its watts",
        otherwise: "segment, warned, not by 9.15 W",
        figure: "segment, its watts",
    },
];

impl Reach {
    pub fn count(&mut self, what: &'static str, a: u16, b: u16) {
        self.add((what, a, b), 1);
    }

    /// So many at once; none leaves it not reached.
    pub fn add(&mut self, key: Key, n: u64) {
        if n > 0 {
            *self.counts.entry(key).or_default() += n;
        }
    }

    pub fn decision(&mut self, d: &Decision, kind: u8) {
        let code = u16::from(d.code);
        self.count("code, verdict", code, u16::from(d.verdict));
        match d.code {
            10 => self.count("touching band", u16::from(d.band_known), 0),
            12 => self.count("code 12, segment", u16::from(d.segment_known), 0),
            13 => self.count("overshoot, edge", u16::from(d.overshoot), u16::from(d.edge)),
            15 => self.count("code 15 by rule", d.rule.min(7), 0),
            _ => {}
        }
        if d.code == 16 {
            self.count("code 16 by kind", u16::from(kind), 0);
        }
        if kind == 0 && matches!(d.code, 16 | 17 | 21) {
            self.count("code, guidance", code, u16::from(d.guidance));
            if d.guidance == 1 || d.guidance == 2 {
                self.count("guidance, index", u16::from(d.guidance), d.guidance_index);
            }
            for i in (0..256).filter(|&i| d.notes[i] != 0) {
                self.count("note at", i as u16, 0);
                self.count("power note", code, 0);
            }
        }
        if d.note_channel_power != 0 {
            self.count("mark channel power", 0, 0);
        }
        if d.note_shared != 0 {
            self.count("mark shared", 0, 0);
        }
        if d.note_segment_power != 0 {
            self.count("mark segment power", 0, 0);
        }
    }

    /// What the check says of an image, by the edition that it names.
    pub fn edition(&mut self, image: &[u8], refusal: u8) {
        let (edition, number) = (image::edition_of(image), u16::from(refusal));
        if edition == Some(1) && (65_537..=65_552).contains(&image.len()) {
            self.count("edition 1 over 65,536 bytes", number, 0);
        }
        if edition != Some(2) {
            return;
        }
        self.count("edition 2 checked", number, 0);
        if (92..108).contains(&image.len()) {
            self.count("edition 2 under 108 bytes", number, 0);
        }
        if refusal == 0 {
            for (place, at) in [(0, 64), (1, 72)] {
                self.count("watts accepted", place, plain_watts(image::f64_at(image, at)));
            }
        }
        if let Some((which, how)) = watts_refused(image, refusal) {
            self.count("watts refused", which, how);
        }
    }

    /// An answer on 60 m that isn't blocked, of a station whose power is known.
    pub fn watts(&mut self, d: &Decision, t: &Table, s: &Station, kind: u8) {
        let place = match (d.code, d.verdict) {
            (24, 0 | 1) => 0,
            (25, _) => 1,
            _ => return,
        };
        if s.power_known != 1 || !expect::other_watts(Some(t), s) {
            return;
        }
        let (power, limits) = (expect::read(s.power_w), [t.limits().0, t.limits().1]);
        let (what, own) = (&ON_SIXTY[place], limits[place]);
        let fixed = [FIXED_WATTS.0, FIXED_WATTS.1][place];
        let warned = u16::from(d.verdict);
        self.count(what.sides, u16::from(power > limits[0]), u16::from(power > limits[1]));
        self.count(what.kind, kind.into(), warned);
        if let Some(n) = [own.next_down(), own, own.next_up()].iter().position(|&x| x == power) {
            self.count(what.beside, n as u16, 0);
        }
        if u16::from(power > fixed) != warned {
            self.count(what.otherwise, warned, 0);
        }
        self.count(what.figure, plain_watts(own), 0);
    }

    pub fn verdict_by_direction(&mut self, d: &Decision, s: &Station, direction: u8) {
        self.count("verdict by direction", direction.into(), 0);
        if d.code == 20 && s.control == 2 && d.automatic_known == 0 {
            self.count("code 20 by direction", direction.into(), 0);
        }
    }

    /// A direction that is none, and meets 20.
    pub fn no_direction(&mut self, call: &'static str, direction: u8, refusal: u8) {
        if direction >= 4 && refusal == 20 {
            self.count(call, direction.into(), 0);
        }
    }

    /// How often this was reached.
    pub fn met(&self, key: Key) -> u64 {
        self.counts.get(&key).copied().unwrap_or(0)
    }

    /// `only`: the one direction that was drawn.
    fn required(only: Option<u8>) -> Vec<Key> {
        let mut out = OTHER.to_vec();
        out.extend(CHANGES.map(|(key, _)| key));
        for (what, directions, cases) in BY_DIRECTION {
            for &d in directions.iter().filter(|d| only.is_none_or(|only| u16::from(only) == **d)) {
                out.extend(cases.iter().map(|&case| (what, d, case)));
            }
        }
        for call in NO_DIRECTION {
            out.extend((4..256).map(|d| (call, d, 0)));
        }
        for (call, numbers) in CALLS {
            out.extend(numbers.iter().map(|&n| (call, n, 0)));
        }
        for (code, verdicts) in VERDICTS {
            out.extend(verdicts.iter().map(|&v| ("code, verdict", code, v)));
        }
        out.extend(LIMITS.map(|code| ("ceiling limit", code, 0)));
        out.extend(of_edition_2());
        if WATTS {
            // verdicts, ceilings and lists alone
            out.extend(of_other_watts());
        } else {
            out.extend(texts::required());
            out.extend(reports::required());
            out.extend(airtimes::required());
            out.extend(editions::required());
            out.extend(amendments::required());
            if only.is_none() {
                out.extend(censuses::required());
                out.extend(walks::required());
                out.extend(nearests::required());
            }
        }
        out.extend([0, 1, 2, 3, 4, 11, 14].map(|number| ("fault without a place", number, 0)));
        for (number, general, tables) in FAULTS {
            if general {
                out.push(("fault in the general block", number, 0));
            }
            for &table in tables {
                out.push(("fault in record 0", number, table));
                out.push(("fault in a later record", number, table));
            }
        }
        out.extend((0..256).map(|i| ("note at", i, 0)));
        for guidance in [1, 2] {
            out.extend((0..256).map(|i| ("guidance, index", guidance, i)));
        }
        out
    }

    pub fn missing(&self, only: Option<u8>) -> Vec<Key> {
        Self::required(only).into_iter().filter(|k| !self.counts.contains_key(k)).collect()
    }

    /// Every count, except the long runs of notes, indices, directions and classes, of which the least is
    /// given.
    pub fn print(&self) {
        let mut long: BTreeMap<(&str, u16), (u64, u64)> = BTreeMap::new();
        for (&(what, a, b), &n) in &self.counts {
            match what {
                "note at" | "report, no class" => {
                    let e = long.entry((what, 0)).or_insert((0, u64::MAX));
                    *e = (e.0 + 1, e.1.min(n));
                }
                _ if NO_DIRECTION.contains(&what) => {
                    let e = long.entry((what, 0)).or_insert((0, u64::MAX));
                    *e = (e.0 + 1, e.1.min(n));
                }
                "guidance, index" => {
                    let e = long.entry((what, a)).or_insert((0, u64::MAX));
                    *e = (e.0 + 1, e.1.min(n));
                }
                _ => println!("  {what} {a} {b}: {n}"),
            }
        }
        for ((what, a), (places, least)) in long {
            println!("  {what} ({a}): {places} places, the least reached {least} times");
        }
    }
}

/// Where an image of edition 2 meets 6 by one of its watts and nothing else: which, and what is wrong with it.
pub fn watts_refused(image: &[u8], refusal: u8) -> Option<(u16, u16)> {
    if refusal != 6 || image::edition_of(image) != Some(2) {
        return None;
    }
    let which = match [64, 72].map(|at| odd_watts(image::f64_at(image, at))) {
        [Some(how), None] => (0, how),
        [None, Some(how)] => (1, how),
        _ => return None,
    };
    let mut plain = image.to_vec();
    plain[64..80].fill(0);
    (expect::image_1_to_6(&plain) == 0).then_some(which)
}
