//! Nearest dials (document 02, 11): tables in eighths, mostly tidy, signals that fit them, present dials in rows,
//! beside them, between two and on the channel band (grid.rs). What the call must give is worked out in nearest.rs.
//! Where it judged, the verdict is asked too, of library and Rust: at the dial given data must be allowed; one eighth
//! nearer, just as far on the lower side and at some dials nearer it must be blocked, or the guarded range on the
//! channel band; and so, with "none", anywhere.

use std::ops::Range;

use crate::Run;
use crate::compare::{self, Call, Told};
use crate::damage;
use crate::draw::{BIG, Rng, Scale, UNEQUAL};
use crate::expect;
use crate::ffi::{Edges, Figures, Station};
use crate::fixed::{self, wrong};
use crate::grid::{self, Area, Sent, dial_for, minus_zero, some};
use crate::image::*;
use crate::oracle::adapter::{self, Prepared};
use crate::oracle::nearest::{self, Answer, FAR, Fault};
use crate::reach::Key;
use crate::tables::{self, World};

/// What the nearest dials of a run met.
#[derive(Default)]
pub struct Met {
    pub asked: u64,
    pub dials: u64,
    pub none: u64,
    pub not_judged: u64,
    pub refused: u64,
    pub verdicts: u64,
}

/// One question.
#[derive(Clone, Copy)]
struct Asked<'a> {
    image: &'a [u8],
    p: &'a Prepared,
    s: Station,
    direction: u8,
    e: Edges,
    watts: Option<(f64, f64)>,
}

/// What is counted of each hertz figure, by its number in nearest.rs; "" is none.
const FIGURES: [&str; 40] = [
    "nearest, data limit",
    "nearest, elsewhere limit",
    "nearest, channel width",
    "nearest, carrier offset",
    "nearest, carrier tolerance",
    "nearest, band low",
    "nearest, band high",
    "",
    "nearest, segment low",
    "nearest, segment high",
    "nearest, segment limit",
    "nearest, channel centre",
    "",
    "",
    "nearest, privilege low",
    "nearest, privilege high",
    "",
    "nearest, automatic low",
    "nearest, automatic high",
    "",
    "",
    "",
    "",
    "nearest, power low",
    "nearest, power high",
    "",
    "nearest, plan data low",
    "nearest, plan data high",
    "",
    "nearest, plan avoid low",
    "nearest, plan avoid high",
    "",
    "nearest, power edge low",
    "nearest, power edge high",
    "nearest, spectral edge low",
    "nearest, spectral edge high",
    "nearest, lower margin",
    "nearest, upper margin",
    "nearest, both margins",
    "nearest, dial",
];

/// What can be met of a figure: off the grid alone; above 2^38 alone, positive and negative; at 2^38 and judged,
/// likewise.
const OFF_GRID: (u16, u16) = (0, 0);
const ABOVE: u16 = 1;
const AT: u16 = 2;

/// The signs that a figure can have, positive 0 and negative 1, where it alone is above 2^38 in size, and where it
/// is just that. Limits are positive. A band, automatic or privilege that begins above 2^38 ends there too, and the
/// other way round; so does the band of a segment.
fn signs(number: usize) -> (Range<u16>, Range<u16>) {
    let (none, positive, negative, either) = (0..0, 0..1, 1..2, 0..2);
    let record = number.wrapping_sub(nearest::RECORDS);
    match (record / 3, record % 3) {
        _ if number == 0 => (positive.clone(), positive),
        (SEGMENTS, 0) => (none, negative),
        (SEGMENTS, 1) => (none, positive),
        (SEGMENTS, _) => (positive.clone(), positive),
        (BANDS | PRIVILEGES | AUTOMATIC, 0) => (negative.clone(), negative),
        (BANDS | PRIVILEGES | AUTOMATIC, _) => (positive.clone(), positive),
        // equal margins that are that far below nought leave no guarded width
        _ if number == nearest::BOTH => (positive.clone(), positive),
        _ => (either.clone(), either),
    }
}

/// Whether a figure is one of this run: margins are drawn apart, or are one.
fn drawn(number: usize) -> bool {
    match number {
        nearest::LOWER | nearest::UPPER => UNEQUAL,
        nearest::BOTH => !UNEQUAL,
        _ => !FIGURES[number].is_empty(),
    }
}

/// The first refusals of an order, with what comes behind them: 1 is any of the image's, 99 a premise that fails.
const ORDER: [(u16, &[u16]); 5] = [
    (20, &[21, 22, 1, 15, 99]),
    (21, &[22, 1, 15, 99]),
    (22, &[15, 99]),
    (1, &[15, 99]),
    (15, &[99]),
];

/// What nearest dials have to reach.
pub fn required() -> Vec<Key> {
    let mut out: Vec<Key> = (0..4).map(|n| ("nearest answer", n, 0)).collect();
    out.extend((1..=15).chain(20..=22).map(|n| ("nearest refused", n, 0)));
    for (first, later) in ORDER {
        out.extend(later.iter().map(|&n| ("nearest, refused before", first, n)));
    }
    // each premise alone: rules in force under each other policy, with an image that is right, empty and refused
    for policy in [0, 1, 3] {
        out.extend((0..3).map(|image| ("nearest, policy alone, image", policy, image)));
    }
    // tidy (a segment's band, bands, segments, privileges of the class, of another)
    out.extend((0..5).map(|how| ("nearest, untidy alone", how, 0)));
    out.extend((2..7).map(|n| ("nearest, prerequisite alone", n, 0)));
    // no guarded width, and one below nought
    out.extend((0..2).map(|n| ("nearest, guarded width alone", n, 0)));
    for number in (0..FIGURES.len()).filter(|&n| drawn(n)) {
        let (above, at) = signs(number);
        out.push((FIGURES[number], OFF_GRID.0, OFF_GRID.1));
        out.extend(above.map(|sign| (FIGURES[number], ABOVE, sign)));
        out.extend(at.map(|sign| (FIGURES[number], AT, sign)));
    }
    // where the dial given lies: on the present one, above, below; of two equally close
    out.extend((0..3).map(|n| ("nearest, dial by place", n, 0)));
    out.push(("nearest, two equally close", 0, 0));
    // among how many rows: one, two, some, 100 or more
    out.extend((1..=4).map(|n| ("nearest, rows", n, 0)));
    // the present dial on the channel band, data blocked and allowed there: a dial, none
    for allowed in 0..2 {
        out.extend([1, 2].map(|n| ("nearest, present on the channel band", allowed, n)));
    }
    // a nearer one there, blocked and allowed
    out.extend((0..2).map(|n| ("nearest, nearer on the channel band", n, 0)));
    for direction in 0..4 {
        for sideband in 0..2 {
            out.push(("nearest, direction, sideband", direction, sideband));
        }
        // none and a dial under automatic control
        out.extend([1, 2].map(|n| ("nearest, automatic, direction", direction, n)));
    }
    out.extend((0..3).map(|control| ("nearest, control", control, 0)));
    out.extend([16, 17, 21].map(|code| ("nearest, code there", code, 0)));
    // lower and upper margin negative, nought, positive
    for lower in 0..3 {
        let upper = if UNEQUAL { 0..3 } else { lower..lower + 1 };
        out.extend(upper.map(|upper| ("nearest, margins", lower, upper)));
    }
    out.extend((0..2).map(|sideband| ("nearest, low above high", sideband, 0)));
    out.extend((0..3).map(|reading| ("nearest, reading", reading, 0)));
    // beyond 2^38, above and below
    out.extend((0..2).map(|n| ("nearest, dial beyond 2^38", n, 0)));
    // negative noughts: the present dial, a margin, an edge
    out.extend((0..3).map(|n| ("nearest, negative zero", n, 0)));
    // lent in edition 2, with other watts
    out.push(("nearest, other watts", 0, 0));
    out
}

impl Asked<'_> {
    /// The tests of a call by themselves, in their order, and a premise on the station.
    fn met(&self) -> Vec<u16> {
        let s = &self.s;
        let plain = Station {
            policy: 0,
            control: 0,
            license: 0,
            sideband: 0,
            band_plan: 0,
            dial_known: u8::from(s.dial_known == 1),
            power_known: u8::from(s.power_known == 1),
            ..*s
        };
        let image = expect::image_refusal(s, self.image.len(), self.p.refusal);
        let absent = [s.control, s.license, s.sideband].contains(&255) || s.dial_known == 0;
        let tests = [
            (20, expect::station_refusal(s, self.direction, 0) == 20),
            (21, expect::station_refusal(&plain, 0, 0) == 21),
            (22, image == 22),
            (1, matches!(image, 1..=14)),
            (15, expect::edges_refused(&self.e)),
            (99, absent),
        ];
        tests.into_iter().filter(|test| test.1).map(|test| test.0).collect()
    }

    fn there(&self, dial: f64) -> Station {
        Station { dial_hz: dial, dial_known: 1, ..self.s }
    }

    /// Whether data is allowed at a dial, and with which code; whether its guarded range is on the channel band.
    fn judged(&self, t: &Table, dial: f64) -> Told<(bool, u8, bool)> {
        let there = self.there(dial);
        let (d, _) = compare::verdict(self.image, self.p, &there, 0, self.direction, &self.e)
            .map_err(|what| format!("at dial {dial:?}: {what}"))?;
        let on = nearest::on_channel_band(t, &self.s, &self.e, dial);
        Ok((d.refusal == 0 && d.verdict != 2, d.code, on))
    }

    /// "the dial given is in eighths, isn't refused, its guarded range isn't held by the channel band, and
    /// [the verdict] allows data there; every dial with those properties is at least as far, and further or higher
    /// if it is another": the code there.
    fn hold(&self, run: &mut Run, rng: &mut Rng, t: &Table, to: f64) -> Told<u8> {
        let dial = expect::read(self.s.dial_hz);
        let (allowed, code, on) = self.judged(t, to)?;
        if !allowed || on || !nearest::in_eighths(to) {
            return Err(format!("dial {to:?} is given: allowed {allowed}, code {code}, 60 m {on}"));
        }
        run.nearests.verdicts += 1;
        if to == dial {
            return Ok(code);
        }
        // in eighths: 2^43 at the most
        let far = (8.0 * (to - dial).abs()) as usize;
        let mut nearer = vec![to + if to > dial { -0.125 } else { 0.125 }];
        if to > dial {
            nearer.push(dial - (to - dial));
        }
        for _ in 0..3 {
            // most of them about the dial, the dial given and its like on the other side
            let k = match rng.below(4) {
                0 => rng.below(far.min(100)),
                1 => far - 1 - rng.below(far.min(100)),
                _ => rng.below(far),
            };
            let k = k as f64 / 8.0;
            nearer.push(if rng.chance(50) { dial + k } else { dial - k });
        }
        for x in nearer {
            self.blocked(run, t, x)?;
        }
        Ok(code)
    }

    /// A dial that may not be given.
    fn blocked(&self, run: &mut Run, t: &Table, x: f64) -> Told<()> {
        let (allowed, code, on) = self.judged(t, x)?;
        if allowed && !on {
            return Err(format!("another dial, {x:?}, is to be preferred: allowed, code {code}"));
        }
        run.nearests.verdicts += 1;
        if on {
            run.reach.count("nearest, nearer on the channel band", allowed.into(), 0);
        }
        Ok(())
    }

    /// "none": some dials at which a signal could lie at the ends of records, and about them.
    fn nowhere(&self, run: &mut Run, rng: &mut Rng, t: &Table) -> Told<()> {
        for _ in 0..4 {
            let number = rng.pick(&[BANDS, SEGMENTS, SEGMENTS]);
            let r = rng.pick(&t.tables[number]);
            let target = if rng.chance(50) { r.low } else { r.high };
            let x = dial_for(rng, &self.s, &self.e, target) + some(rng, 40) / 8.0;
            self.blocked(run, t, x)?;
        }
        Ok(())
    }
}

/// Which of -, 0 and + a figure is.
fn sign(x: f64) -> u16 {
    match x {
        0.0 => 1,
        _ if x < 0.0 => 0,
        _ => 2,
    }
}

/// How a table is untidy, if in one way alone: 0 a segment in no band of its number, 1 bands, 2 segments, 3
/// privileges of this class, 4 of another.
fn untidiness(t: &Table, license: u8) -> Option<u16> {
    let shares = |records: &[Record]| {
        let two = |i: usize, j: usize| {
            let (a, b) = (&records[i], &records[j]);
            a.low < b.high && b.low < a.high
        };
        (0..records.len()).any(|i| (0..i).any(|j| two(i, j)))
    };
    let class = |n: u8| -> Vec<Record> {
        t.tables[PRIVILEGES].iter().filter(|p| p.class == n).copied().collect()
    };
    let at_home = |s: &Record| {
        let home = |b: &Record| b.band == s.band && b.low <= s.low && s.high <= b.high;
        t.tables[BANDS].iter().any(home)
    };
    let met = [
        !t.tables[SEGMENTS].iter().all(at_home),
        shares(&t.tables[BANDS]),
        shares(&t.tables[SEGMENTS]),
        shares(&class(license)),
        (0..5).any(|n| n != license && shares(&class(n))),
    ];
    let how: Vec<usize> = (0..5).filter(|&i| met[i]).collect();
    (how.len() == 1).then(|| how[0] as u16)
}

impl Run {
    /// One question, compared and held to verdicts.
    fn nearest(&mut self, rng: &mut Rng, a: &Asked) -> Answer {
        let call = || Call::Nearest { direction: a.direction, e: a.e, watts: a.watts };
        let told = compare::nearest(a.image, a.p, &a.s, a.direction, &a.e, a.watts);
        let answer = self.or_end(told, a.image, &a.s, call());
        self.nearests.asked += 1;
        self.reach.count("nearest answer", nearest::flat(answer).answer.into(), 0);
        match (answer, &a.p.table) {
            (Answer::Refused(number), _) => self.nearest_refused(a, number),
            (Answer::NotJudged, _) => self.not_judged(a),
            (Answer::Dial(to), Some(t)) => {
                self.nearests.dials += 1;
                let held = a.hold(self, rng, t, to);
                let code = self.or_end(held, a.image, &a.s, call());
                self.reach.count("nearest, code there", code.into(), 0);
                self.nearest_dial(a, t, to);
            }
            (_, Some(t)) => {
                self.nearests.none += 1;
                let held = a.nowhere(self, rng, t);
                self.or_end(held, a.image, &a.s, call());
                self.nearest_judged(a, t, 2);
            }
            (_, None) => wrong("a nearest dial", "judged without a table"),
        }
        answer
    }

    fn nearest_refused(&mut self, a: &Asked, number: u8) {
        self.nearests.refused += 1;
        self.reach.count("nearest refused", number.into(), 0);
        let met = a.met();
        let first = if matches!(number, 1..=14) { 1 } else { number.into() };
        if met.first() != Some(&first) {
            wrong("the order of refusals", &format!("{number} of {met:?}"));
        }
        for &later in &met[1..] {
            self.reach.count("nearest, refused before", first, later);
        }
    }

    fn not_judged(&mut self, a: &Asked) {
        self.nearests.not_judged += 1;
        let [fault] = nearest::faults(a.p, &a.s, &a.e)[..] else {
            return;
        };
        match (fault, &a.p.table) {
            (Fault::Rules, _) => {
                let image = match a.p.refusal {
                    0 => 0,
                    _ if a.image.is_empty() => 1,
                    _ => 2,
                };
                self.reach.count("nearest, policy alone, image", a.s.policy.into(), image);
            }
            (Fault::Tidy, Some(t)) => {
                if let Some(how) = untidiness(t, a.s.license) {
                    self.reach.count("nearest, untidy alone", how, 0);
                }
            }
            (Fault::Region, _) => self.reach.count("nearest, prerequisite alone", 2, 0),
            (Fault::Control, _) => self.reach.count("nearest, prerequisite alone", 3, 0),
            (Fault::License, _) => self.reach.count("nearest, prerequisite alone", 4, 0),
            (Fault::Sideband, _) => self.reach.count("nearest, prerequisite alone", 5, 0),
            (Fault::Dial, _) => self.reach.count("nearest, prerequisite alone", 6, 0),
            (Fault::Width, Some(t)) => {
                let f = a.e.figures();
                let (low, high) = match t.reading {
                    0 => (f[0], f[1]),
                    1 => (f[2], f[3]),
                    _ => (f[0].min(f[2]), f[1].max(f[3])),
                };
                let width = high - low + a.s.margin_lower_hz + a.s.margin_upper_hz;
                self.reach.count("nearest, guarded width alone", u16::from(width < 0.0), 0);
            }
            (Fault::OffGrid(number), _) => {
                self.reach.count(FIGURES[number], OFF_GRID.0, OFF_GRID.1);
            }
            (Fault::Far(number), Some(t)) => {
                let above = |&(n, x): &(usize, f64)| n == number && x.abs() > FAR;
                if let Some((_, x)) = nearest::figures(t, &a.s, &a.e).into_iter().find(above) {
                    self.reach.count(FIGURES[number], ABOVE, u16::from(x < 0.0));
                }
            }
            _ => {}
        }
    }

    /// A dial, or none.
    fn nearest_judged(&mut self, a: &Asked, t: &Table, answer: u16) {
        let s = &a.s;
        for (number, x) in nearest::figures(t, s, &a.e) {
            if x.abs() == FAR {
                self.reach.count(FIGURES[number], AT, u16::from(x < 0.0));
            }
        }
        let dial = expect::read(s.dial_hz);
        if nearest::on_channel_band(t, s, &a.e, dial) {
            let judged = a.judged(t, dial);
            let call = Call::Verdict { kind: 0, direction: a.direction, e: a.e };
            let (allowed, _, _) = self.or_end(judged, a.image, s, call);
            self.reach.count("nearest, present on the channel band", allowed.into(), answer);
        }
        if s.control == 2 {
            self.reach.count("nearest, automatic, direction", a.direction.into(), answer);
        }
        if a.watts.is_some() {
            self.reach.count("nearest, other watts", 0, 0);
        }
    }

    fn nearest_dial(&mut self, a: &Asked, t: &Table, to: f64) {
        self.nearest_judged(a, t, 1);
        let (s, dial) = (&a.s, expect::read(a.s.dial_hz));
        let place = match to {
            _ if to == dial => 0,
            _ if to > dial => 1,
            _ => 2,
        };
        self.reach.count("nearest, dial by place", place, 0);
        let listed = adapter::safe_dials(a.p, s, a.direction, &a.e).map_or(Vec::new(), |x| x.1);
        let rows = nearest::rows(t, &listed);
        let many = if rows.len() < 100 { rows.len().min(3) as u16 } else { 4 };
        self.reach.count("nearest, rows", many, 0);
        let like = dial + (dial - to);
        if to < dial && rows.iter().any(|&(low, high)| low <= like && like <= high) {
            self.reach.count("nearest, two equally close", 0, 0);
        }
        self.reach.count("nearest, direction, sideband", a.direction.into(), s.sideband.into());
        self.reach.count("nearest, control", s.control.into(), 0);
        let (lower, upper) = expect::margins(s);
        self.reach.count("nearest, margins", sign(lower), sign(upper));
        let f = a.e.figures();
        if (t.reading != 1 && f[0] > f[1]) || (t.reading == 1 && f[2] > f[3]) {
            self.reach.count("nearest, low above high", s.sideband.into(), 0);
        }
        self.reach.count("nearest, reading", t.reading.into(), 0);
        if to.abs() > FAR {
            self.reach.count("nearest, dial beyond 2^38", u16::from(to < 0.0), 0);
        }
        let minus = |x: f64| x.to_bits() == 1 << 63;
        let zeros = [
            minus(s.dial_hz),
            minus(s.margin_lower_hz) || minus(s.margin_upper_hz),
            f.into_iter().any(minus),
        ];
        for n in (0..3).filter(|&n| zeros[n]) {
            self.reach.count("nearest, negative zero", n as u16, 0);
        }
    }
}

// ------------------------------------------------------------------------------------- drawing

/// A station that sends a signal, the dial apart.
fn station(rng: &mut Rng, w: &World, sent: &Sent) -> Station {
    let power_known = rng.below(2) as u8;
    let watts = if power_known == 1 { 0.1 } else { f64::NAN };
    let lower = minus_zero(rng, sent.margin.0);
    let upper = minus_zero(rng, sent.margin.1);
    Station {
        margin_lower_hz: lower,
        margin_upper_hz: if UNEQUAL { upper } else { lower },
        dial_hz: 0.0,
        power_w: rng.pick(&[9.15, 100.0, BIG, watts]),
        policy: 2,
        control: rng.pick(&[0, 0, 1, 2, 2]),
        license: if rng.chance(95) { w.class } else { rng.below(5) as u8 },
        sideband: rng.below(2) as u8,
        itu_region: w.table.region,
        band_plan: rng.below(2) as u8,
        dial_known: 1,
        power_known,
    }
}

/// The questions on one table.
fn questions(run: &mut Run, rng: &mut Rng, w: &World, sent: &Sent, area: &Area, none: &Prepared) {
    let only = run.directions.only;
    let mut t = w.table.clone();
    let breaking = rng.chance(15);
    match rng.below(100) {
        _ if breaking => grid::break_figure(rng, &mut t),
        0..=4 => grid::untidy(rng, &mut t, w.class),
        _ => {}
    }
    let image = if rng.chance(4) { damage::damaged(rng, w) } else { t.encode() };
    let p = run.image(&image);
    for _ in 0..6 {
        // most are drawn again, up to three times, where no row is listed
        let mut tries = 0;
        let (mut s, mut e, mut direction, listed) = loop {
            let sent = match rng.below(4) {
                0 => {
                    let r = rng.pick(&w.table.tables[SEGMENTS]);
                    Sent::draw(rng, r.high - r.low)
                }
                _ => *sent,
            };
            let (s, e) = (station(rng, w, &sent), grid::edges(rng, w.table.reading, &sent));
            let direction = only.unwrap_or(rng.below(4) as u8);
            let listed = match p.refusal {
                0 => adapter::safe_dials(&p, &s, direction, &e).map_or(Vec::new(), |list| list.1),
                _ => Vec::new(),
            };
            tries += 1;
            let dull = nearest::rows(&w.table, &listed).is_empty();
            if !dull || tries == 4 || rng.chance(25) {
                break (s, e, direction, listed);
            }
        };
        s.dial_hz = grid::present(rng, &w.table, &s, &e, &listed, area);
        if !breaking && rng.chance(20) {
            grid::break_signal(rng, &w.table, &mut s, &mut e);
        }
        if rng.chance(6) {
            grid::spoil(rng, &mut s, &mut direction, &mut e);
        }
        let (image, p) = match rng.below(40) {
            0..=3 if s.policy != 2 => (&[][..], none),
            0 if rng.chance(20) => (&[][..], none),
            _ => (&image[..], &p),
        };
        let other = |rng: &mut Rng| rng.pick(&[0.1, 9.15, -3.0, 0.0, BIG, FAR + 0.0625]);
        let watts = rng.chance(15).then(|| (other(rng), other(rng)));
        run.nearest(rng, &Asked { image, p, s, direction, e, watts });
    }
}

/// So many questions.
pub fn run(run: &mut Run, asked: u64) {
    let none = run.image(&[]);
    let mut turn = 0;
    while run.nearests.asked < asked {
        turn += 1;
        run.place += 1;
        if !run.brief && turn % 5000 == 0 {
            eprintln!("{} nearest dials", run.nearests.asked);
        }
        let rng = &mut Rng::new(run.seed, turn + (1 << 45));
        let class = rng.below(5) as u8;
        let area = Area::draw(rng);
        let (table, sent) = grid::table(rng, &area, class);
        let w = match rng.below(100) {
            // tables of the other parts, of any scale
            0..=7 => tables::world(rng),
            8 | 9 => tables::brush(rng),
            _ => tables::settle(table, Scale::Eighths, None, class),
        };
        if adapter::prepare(&w.image).is_ok_and(|p| p.refusal == 0) {
            questions(run, rng, &w, &sent, &area, &none);
        } else {
            run.reach.count("nearest, tables refused", 0, 0);
        }
    }
}

// -------------------------------------------------------------------------------- stated answers

/// READINGS-02, 11, and others worked out by hand.
pub fn fixed(run: &mut Run) {
    let rng = &mut Rng::new(1, 1 << 45);
    let s = Station {
        margin_lower_hz: 0.0,
        margin_upper_hz: 0.0,
        policy: 2,
        control: 0,
        license: 4,
        sideband: 0,
        itu_region: 0,
        dial_known: 1,
        ..expect::FRESH
    };
    let five = Edges::of([0.0, 5.0, 0.0, 5.0]);
    let mut say = |what: &str, t: &Table, s: Station, direction: u8, e: Edges, want: Answer| {
        let image = t.encode();
        let p = run.image(&image);
        let got = run.nearest(rng, &Asked { image: &image, p: &p, s, direction, e, watts: None });
        if got != want {
            wrong(what, &format!("{got:?}, by hand {want:?}"));
        }
    };
    let at = |dial_hz: f64| Station { dial_hz, ..s };
    let (small, sixty, practice) = (fixed::small(), fixed::sixty(), fixed::practice());
    for (dial, to) in [(10.0, 20.0), (30.0, 30.0), (100.0, 75.0), (20.0, 20.0), (75.125, 75.0)] {
        say("small", &small, at(dial), 0, five, Answer::Dial(to));
    }
    let mut two = small.clone();
    two.tables[SEGMENTS] = vec![
        Record { band: 1, ..fixed::span(20.0, 40.0) },
        Record { band: 1, ..fixed::span(60.0, 80.0) },
    ];
    for (dial, to) in [(47.5, 35.0), (47.625, 60.0), (47.375, 35.0), (60.0, 60.0), (0.0, 20.0)] {
        say("two segments", &two, at(dial), 0, five, Answer::Dial(to));
    }
    say("sixty", &sixty, at(88.0), 0, five, Answer::None);
    let mut second = sixty.clone();
    second.tables[BANDS].push(Record { band: 2, ..fixed::span(200.0, 300.0) });
    second.tables[SEGMENTS].push(Record { band: 2, ..fixed::span(200.0, 300.0) });
    second.tables[PRIVILEGES].push(Record { class: 4, ..fixed::span(200.0, 300.0) });
    say("sixty and another band", &second, at(88.0), 0, five, Answer::Dial(200.0));
    say("dial 30.0625", &small, at(30.0625), 0, five, Answer::NotJudged);
    let mut plan = small.clone();
    plan.flags |= HAS_PLAN;
    plan.tables[PLAN_DATA].push(fixed::span(0.0625, 1.0));
    say("a plan edge, plan off", &plan, at(30.0), 0, five, Answer::NotJudged);
    let mut watts = small.clone();
    watts.tables[POWER].push(Record { figure: 9.15, ..fixed::span(0.0, 100.0) });
    say("9.15 W", &watts, at(10.0), 0, five, Answer::Dial(20.0));
    // lower sideband: 20 + 5 to 80; margins of 2 on both sides, and low above high
    let lower = |dial: f64| Station { sideband: 1, ..at(dial) };
    say("lower sideband", &small, lower(10.0), 0, five, Answer::Dial(25.0));
    say("lower sideband", &small, lower(100.0), 0, five, Answer::Dial(80.0));
    let margins = |s: Station, margin_lower_hz: f64, margin_upper_hz: f64| Station {
        margin_lower_hz,
        margin_upper_hz,
        ..s
    };
    say("margins", &small, margins(at(0.0), 2.0, 2.0), 0, five, Answer::Dial(22.0));
    say("margins", &small, margins(lower(100.0), -1.0, -1.0), 0, five, Answer::Dial(81.0));
    let reversed = Edges::of([5.0, 0.0, 5.0, 0.0]);
    say("low above high", &small, margins(at(0.0), 3.0, 3.0), 0, reversed, Answer::Dial(18.0));
    say("no guarded width", &small, margins(at(0.0), 2.5, 2.5), 0, reversed, Answer::NotJudged);
    if UNEQUAL {
        say("two margins", &small, margins(at(0.0), 2.0, 3.0), 0, five, Answer::Dial(22.0));
        say("two margins", &small, margins(at(100.0), 2.0, 3.0), 0, five, Answer::Dial(72.0));
        say("two margins", &small, margins(lower(0.0), 2.0, 3.0), 0, five, Answer::Dial(27.0));
        say("two margins", &small, margins(lower(99.0), 2.0, 3.0), 0, five, Answer::Dial(77.0));
        say("no guarded width", &small, margins(at(0.0), 2.0, -7.0), 0, five, Answer::NotJudged);
        // the farthest that a row can lie: one dial
        let mut last = small.clone();
        let end = fixed::span(FAR - 0.125, FAR);
        last.tables[BANDS] = vec![Record { band: 1, ..end }];
        last.tables[SEGMENTS] = vec![Record { band: 1, ..end }];
        last.tables[PRIVILEGES] = vec![Record { class: 4, ..end }];
        let e = Edges::of([-FAR; 4]);
        let far = margins(at(-FAR), FAR, 0.125 - FAR);
        say("the farthest row", &last, far, 0, e, Answer::Dial(3.0 * FAR - 0.125));
    }
    // the practice table: 14,023,800 to 14,148,200 for a General; under automatic control 14,093,800 to
    // 14,097,700 and 14,099,300 to 14,110,200
    let general = |dial: f64, control: u8| Station {
        license: 2,
        itu_region: 2,
        control,
        ..margins(at(dial), 50.0, 50.0)
    };
    let audio = Edges::of([1_250.0, 1_750.0, 1_250.0, 1_750.0]);
    for (dial, control, direction, to) in [
        (14_000_000.0, 0, 0, 14_023_800.0),
        (14_200_000.0, 0, 0, 14_148_200.0),
        (5_330_550.0, 0, 0, 14_023_800.0),
        (14_098_500.0, 2, 0, 14_097_700.0),
        (14_098_500.125, 2, 0, 14_099_300.0),
        (14_098_500.0, 2, 3, 14_097_700.0),
        (14_098_500.0, 2, 1, 14_098_500.0),
        (14_098_500.0, 2, 2, 14_098_500.0),
    ] {
        let s = general(dial, control);
        say("the practice table", &practice, s, direction, audio, Answer::Dial(to));
    }
    order(run, rng, at(10.0), five);
}

/// The small table, damaged so that it meets each of 1 to 14.
fn refused_images() -> Vec<(u8, Vec<u8>)> {
    let t = fixed::small();
    let image = t.encode();
    let end = image.len();
    let byte = |at: usize, to: u8| {
        let mut image = image.clone();
        image[at] = to;
        image
    };
    let table = |change: fn(&mut Table)| {
        let mut t = t.clone();
        change(&mut t);
        t.encode()
    };
    vec![
        (1, image[..91].to_vec()),
        (2, byte(end - 1, b'F')),
        (3, byte(end - 6, 3)),
        (4, byte(end - 8, 1)),
        (5, byte(41, 3)),
        (6, byte(7, 0xff)),
        (7, table(|t| t.tables[BANDS][0].low = 100.0)),
        (8, table(|t| t.tables[SEGMENTS][0].low = 80.0)),
        (9, table(|t| t.tables[AUTOMATIC].push(fixed::span(1.0, 1.0)))),
        (10, table(|t| t.tables[PRIVILEGES][0].low = 200.0)),
        (11, table(|t| t.tables[SEGMENTS].clear())),
        (12, table(|t| t.tables[SEGMENTS][0].high = 100.125)),
        (13, table(|t| t.tables[SEGMENTS][0].flags = 1)),
        (14, table(|t| t.data_limit = -1.0)),
    ]
}

/// Each refusal of an image, before 15 and "not judged"; then every set of what is refused, and of a premise that
/// fails, on the small table: 20, 21, 22 or 2, 15, "not judged".
fn order(run: &mut Run, rng: &mut Rng, s: Station, e: Edges) {
    for (number, image) in refused_images() {
        let p = run.image(&image);
        for (control, spectral_low) in [(0, e.spectral_low), (0, f64::NAN), (255, e.spectral_low)] {
            let (s, e) = (Station { control, ..s }, Edges { spectral_low, ..e });
            let asked = Asked { image: &image, p: &p, s, direction: 0, e, watts: None };
            let got = run.nearest(rng, &asked);
            if got != Answer::Refused(number) {
                wrong("an image's refusal", &format!("{got:?}, by hand {number}"));
            }
        }
    }
    let right = fixed::small().encode();
    let letters = [&right[..right.len() - 1], b"F"].concat();
    for n in 0..48 {
        let (image, number) = [(&right[..], 0), (&[], 22), (&letters[..], 2)][n / 16];
        let p = run.image(image);
        let bit = |i: usize| n >> i & 1 == 1;
        let s = Station {
            band_plan: if bit(0) { 2 } else { 0 },
            dial_hz: if bit(1) { f64::INFINITY } else { s.dial_hz },
            control: if bit(2) { 255 } else { 0 },
            ..s
        };
        let e = if bit(3) { Edges { spectral_low: f64::NAN, ..e } } else { e };
        let want = match () {
            () if bit(0) => Answer::Refused(20),
            () if bit(1) => Answer::Refused(21),
            () if number != 0 => Answer::Refused(number),
            () if bit(3) => Answer::Refused(15),
            () if bit(2) => Answer::NotJudged,
            () => Answer::Dial(20.0),
        };
        let got = run.nearest(rng, &Asked { image, p: &p, s, direction: 0, e, watts: None });
        if got != want {
            wrong("the order of refusals", &format!("{got:?}, by hand {want:?}"));
        }
    }
}
