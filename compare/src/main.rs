//! Runs the Rust, unchanged, beside the proved library, and compares every part of every answer.
//!
//!     pamuklid-compare [--verdicts N] [--ceilings N] [--dials N] [--texts N] [--reports N]
//!                      [--airtimes N] [--censuses N] [--editions N] [--amendments N] [--walks N]
//!                      [--nearests N] [--direction D] [--seed S] [--few] [--brief]
//!     pamuklid-compare --replay FILE [--seed S]
//!     pamuklid-compare --replay-check FILE | --replay-more FILE [--seed S]
//!
//! Exit 0: no difference, and everything that can be reached was; 1: a difference, printed with all
//! its inputs and then made smaller; 2: wrong arguments; 3: no difference, but something was never
//! reached. With --direction every drawn case has that direction (but for values outside, which are
//! refused), and so many of each call are drawn besides the fixed cases. With --few, for a run of few
//! cases, what was not reached is counted and 3 doesn't happen; with --brief neither, and a difference
//! is one line: for mutate.py.

mod airtime;
mod airtimes;
mod amendments;
mod cases;
mod censuses;
mod compare;
mod damage;
mod differences;
mod distance;
mod draw;
mod editions;
mod expect;
mod ffi;
mod fixed;
mod grid;
mod image;
mod nearests;
mod oracle;
#[cfg(feature = "stub")]
mod original;
mod reach;
mod replay;
mod report;
mod reports;
#[cfg(feature = "stub")]
mod stub;
mod tables;
mod texts;
mod walks;

use std::process::exit;

use cases::Ladder;
use compare::{Call, Case, Found, Room, Told};
use draw::{Rng, UNEQUAL, WATTS};
use ffi::{Decision, Edges, Figures, Parts, Station, StationParts};
use oracle::adapter::{self, Prepared};
use oracle::sixty::{self, Change, Climb};
use reach::Reach;
use tables::{Signal, World};

/// The directions of drawn cases: 0 to 3 alike, or one alone. 3 takes the place of one of the others by a
/// stream of its own, so that a seed's other draws go on as before there was a 3.
pub struct Directions {
    rng: Rng,
    only: Option<u8>,
}

impl Directions {
    fn new(only: Option<u8>) -> Self {
        Self { rng: Rng::new(0, 0), only }
    }

    /// The stream of a world.
    fn begin(&mut self, seed: u64, place: u64) {
        self.rng = Rng::new(seed, place + (1 << 35));
    }

    /// The direction of a case, from one of 0 to 2 that was drawn.
    fn turn(&mut self, drawn: u8) -> u8 {
        match self.only {
            Some(direction) => direction,
            None if self.rng.below(4) == 0 => 3,
            None => drawn,
        }
    }

    fn spoil(&self, rng: &mut Rng, direction: &mut u8) {
        damage::spoil_direction(rng, direction);
        if *direction <= 3 {
            *direction = self.only.unwrap_or(*direction);
        }
    }
}

/// A run: what was compared, and where it stands in its seed.
pub struct Run {
    pub seed: u64,
    pub place: u64,
    pub reach: Reach,
    pub verdicts: u64,
    pub unmeasured: u64,
    pub ceilings: u64,
    pub dials: u64,
    pub rows: u64,
    pub distances: u64,
    /// Demand 3: premises met, and of those the distance nought.
    pub demand_3: (u64, u64),
    pub images: u64,
    pub refused: u64,
    /// Verdicts and ceilings that document 02, 4 changes, for which the Rust is no yardstick; and how many
    /// of them came before the cases made for it.
    pub changed: (u64, u64),
    pub left: (u64, u64),
    /// Verdicts, ceilings and dial lists whose margins differ.
    pub apart: [u64; 3],
    /// Verdicts and ceilings by a table whose watts are others than edition 1's.
    pub other_watts: [u64; 2],
    pub texts: texts::Met,
    pub reports: reports::Met,
    pub airtimes: airtimes::Met,
    pub censuses: censuses::Met,
    pub editions: editions::Met,
    pub amendments: amendments::Met,
    pub walks: walks::Met,
    pub nearests: nearests::Met,
    directions: Directions,
    brief: bool,
}

impl Run {
    fn new(seed: u64, only: Option<u8>, brief: bool) -> Self {
        Self {
            seed,
            place: 0,
            reach: Reach::default(),
            verdicts: 0,
            unmeasured: 0,
            ceilings: 0,
            dials: 0,
            rows: 0,
            distances: 0,
            demand_3: (0, 0),
            images: 0,
            refused: 0,
            changed: (0, 0),
            left: (0, 0),
            apart: [0; 3],
            other_watts: [0; 2],
            texts: texts::Met::default(),
            reports: reports::Met::default(),
            airtimes: airtimes::Met::default(),
            censuses: censuses::Met::default(),
            editions: editions::Met::default(),
            amendments: amendments::Met::default(),
            walks: walks::Met::default(),
            nearests: nearests::Met::default(),
            directions: Directions::new(only),
            brief,
        }
    }

    /// The agreed answer; else the report of the difference and the end of the run.
    fn or_end<T>(&self, told: Told<T>, image: &[u8], s: &Station, call: Call) -> T {
        let what = match told {
            Ok(answer) => return answer,
            Err(what) => what,
        };
        println!("DIFFERENCE (seed {}, world {}): {what}", self.seed, self.place);
        if self.brief {
            exit(1);
        }
        let case = Case { image: image.to_vec(), s: *s, call };
        case.dump();
        let small = case.smaller();
        println!("A smaller case that differs:");
        println!("{}", small.difference().unwrap_or_default());
        small.dump();
        exit(1)
    }

    /// The check, the tidy question, and where the table is wrong.
    pub fn image(&mut self, image: &[u8]) -> Prepared {
        let (p, f) = self.or_end(compare::image(image), image, &expect::FRESH, Call::Image);
        self.images += 1;
        let (tidy, refusal) = adapter::tidy(&p);
        if p.refusal == 0 {
            self.reach.count("tidy", u16::from(tidy), 0);
        } else {
            self.reach.count("check refused", u16::from(p.refusal), 0);
            self.reach.count("tidy refused", u16::from(refusal), 0);
        }
        self.reach.edition(image, p.refusal);
        let number = u16::from(f.refusal);
        match f.place {
            0 => self.reach.count("fault without a place", number, 0),
            1 => self.reach.count("fault in the general block", number, 0),
            _ if f.record == 0 => self.reach.count("fault in record 0", number, f.table.into()),
            _ => self.reach.count("fault in a later record", number, f.table.into()),
        }
        p
    }

    /// Where a table is wrong: refusal, place, table, record.
    pub fn fault(&mut self, image: &[u8]) -> (u8, u8, u8, u16) {
        let p = self.image(image);
        let f = expect::fault(image, p.refusal);
        (f.refusal, f.place, f.table, f.record)
    }

    pub fn verdict(
        &mut self,
        image: &[u8],
        p: &Prepared,
        s: &Station,
        kind: u8,
        direction: u8,
        e: &Edges,
    ) -> Decision {
        self.judged(image, p, s, kind, direction, e).0
    }

    /// A verdict, and what of it document 02, 4 changed.
    pub fn judged(
        &mut self,
        image: &[u8],
        p: &Prepared,
        s: &Station,
        kind: u8,
        direction: u8,
        e: &Edges,
    ) -> (Decision, Option<Change>) {
        let told = compare::verdict(image, p, s, kind, direction, e);
        let (d, change) = self.or_end(told, image, s, Call::Verdict { kind, direction, e: *e });
        if let Some(change) = &change {
            self.changed.0 += 1;
            self.reach.add(reach::change_key(change, Some(kind)), 1);
        }
        if d.refusal == 0 {
            self.verdicts += 1;
            self.apart[0] += u64::from(expect::margins_differ(s));
            self.other_watts[0] += u64::from(expect::other_watts(p.table.as_ref(), s));
            self.reach.decision(&d, kind);
            if let Some(table) = p.table.as_ref().filter(|_| WATTS) {
                self.reach.watts(&d, table, s, kind);
            }
            self.reach.verdict_by_direction(&d, s, direction);
        } else {
            self.refused += 1;
            self.reach.count("verdict refused", u16::from(d.refusal), 0);
            self.reach.no_direction("no direction, verdict", direction, d.refusal);
        }
        (d, change)
    }

    pub fn unmeasured(&mut self, image: &[u8], p: &Prepared, s: &Station) -> Decision {
        let d = self.or_end(compare::unmeasured(image, p, s), image, s, Call::Unmeasured);
        if d.refusal == 0 {
            self.unmeasured += 1;
            self.reach.decision(&d, 0);
        } else {
            self.refused += 1;
            self.reach.count("unmeasured refused", u16::from(d.refusal), 0);
        }
        d
    }

    pub fn ceiling(
        &mut self,
        image: &[u8],
        p: &Prepared,
        s: &Station,
        direction: u8,
        l: &Ladder,
    ) -> adapter::Ceiling {
        self.climbed(image, p, s, direction, l).0
    }

    /// A ceiling, and what of it document 02, 4 changed.
    pub fn climbed(
        &mut self,
        image: &[u8],
        p: &Prepared,
        s: &Station,
        direction: u8,
        l: &Ladder,
    ) -> (adapter::Ceiling, Option<Climb>) {
        let told = compare::ceiling(image, p, s, direction, l);
        let (c, climb) = match told {
            Ok(told) => told,
            told => self.or_end(told, image, s, Call::Ceiling { direction, ladder: l.clone() }),
        };
        if let Some(climb) = &climb {
            self.changed.1 += 1;
            self.reach.add(reach::climb_key(&c, climb), 1);
            for change in &climb.changes {
                self.reach.add(reach::change_key(change, None), 1);
            }
        }
        if c.refusal == 0 {
            self.ceilings += 1;
            self.apart[1] += u64::from(expect::margins_differ(s));
            self.other_watts[1] += u64::from(expect::other_watts(p.table.as_ref(), s));
            let known = |x: bool| u16::from(x);
            self.reach.count(
                "ceiling rung, limit",
                known(c.rung.is_some()),
                known(c.limit.is_some()),
            );
            if let Some(limit) = &c.limit {
                self.reach.count("ceiling limit", u16::from(limit.code), 0);
            }
            if c.rung == Some(255) {
                self.reach.count("ceiling at rung 255", 0, 0);
            }
            self.reach.count("ceiling by direction", direction.into(), 0);
            if s.control == 2 && c.limit.is_some_and(|limit| limit.code == 20) {
                self.reach.count("ceiling limit 20 by direction", direction.into(), 0);
            }
        } else {
            self.refused += 1;
            self.reach.count("ceiling refused", u16::from(c.refusal), 0);
            self.reach.no_direction("no direction, ceiling", direction, c.refusal);
        }
        (c, climb)
    }

    #[allow(clippy::too_many_arguments)]
    pub fn dials(
        &mut self,
        image: &[u8],
        p: &Prepared,
        s: &Station,
        direction: u8,
        e: &Edges,
        room: Room,
        fill: u64,
    ) -> Found {
        let told = compare::dials(image, p, s, direction, e, room, fill);
        let found = self.or_end(told, image, s, Call::Dials { direction, e: *e, room, fill });
        if found.refusal == 0 {
            let count = found.rows.len() / 36;
            self.dials += 1;
            self.apart[2] += u64::from(expect::margins_differ(s));
            self.rows += count as u64;
            let size = match count {
                0 => 0,
                1 => 1,
                2..=65_535 => 2,
                _ => 3,
            };
            self.reach.count("dial list rows", size, 0);
            self.reach.count("dial list by direction", direction.into(), 0);
            if s.control == 2 && s.policy == 2 {
                self.reach.count("automatic list by direction", direction.into(), size.min(2));
                let other = |(_, rows): (u8, Vec<u8>)| rows != found.rows;
                if direction == 3 && adapter::safe_dials(p, s, 1, e).is_ok_and(other) {
                    self.reach.count("list by direction, Respond's is another", 3, 0);
                }
            }
        } else {
            self.refused += 1;
            self.reach.count("dial list refused", u16::from(found.refusal), 0);
            self.reach.no_direction("no direction, dial list", direction, found.refusal);
        }
        found
    }

    /// The distance of a dial.
    pub fn distance(&mut self, a: &distance::Asked, rows: &[u8]) -> Result<Option<f64>, u8> {
        self.distances += 1;
        match compare::distance(a, rows) {
            Ok(far) => {
                match far {
                    Ok(None) => self.reach.count("distance", 0, 0),
                    Ok(Some(0.0)) => self.reach.count("distance", 1, 0),
                    Ok(Some(_)) => self.reach.count("distance", 2, 0),
                    Err(refusal) => self.reach.count("distance refused", u16::from(refusal), 0),
                }
                far
            }
            Err(what) => {
                println!("DIFFERENCE (seed {}, world {}): {what}", self.seed, self.place);
                println!("  {a:?}, rows {rows:?}");
                exit(1)
            }
        }
    }

    /// Demand 3 on a list and some dials: "the distance … is nought exactly when the gate allows
    /// data at that dial".
    fn demand_3(
        &mut self,
        rng: &mut Rng,
        (image, p): (&[u8], &Prepared),
        s: &Station,
        direction: u8,
        e: &Edges,
        rows: &[u8],
    ) {
        let Some(table) = &p.table else {
            return;
        };
        let (a, odd) = distance::Asked::odd(rng, table, rows);
        let _ = self.distance(&a, &odd);
        let met = distance::premises(table, adapter::tidy(p) == (1, 0), s, e);
        for _ in 0..if met { 4 } else { 1 } {
            let dial = distance::some_dial(rng, table, rows);
            let far = self.distance(&distance::Asked::of(table, rows, dial), rows).unwrap_or(None);
            if !met || !distance::dial_premises(table, s, e, dial) {
                continue;
            }
            let there = Station { dial_hz: dial, dial_known: 1, ..*s };
            let d = self.verdict(image, p, &there, 0, direction, e);
            self.demand_3.0 += 1;
            self.demand_3.1 += u64::from(far == Some(0.0));
            if (far == Some(0.0)) != (d.verdict != 2) {
                println!("DIFFERENCE: demand 3 at dial {dial:?}: distance {far:?}, {}", d.text());
                exit(1);
            }
        }
    }
}

/// Where something is to be spoilt: each part with its own chance.
struct Spoil {
    station: bool,
    code: bool,
    edges: bool,
}

impl Spoil {
    fn draw(rng: &mut Rng) -> Self {
        if !rng.chance(4) {
            return Self { station: false, code: false, edges: false };
        }
        Self { station: rng.chance(50), code: rng.chance(20), edges: rng.chance(50) }
    }
}

/// A signal and a station that sends it, its direction as `turn` has it. Most are drawn again, up to three
/// times, while `dull` finds nothing in them: else half of all cases would end at the first test.
fn draw(
    rng: &mut Rng,
    w: &World,
    mut turn: impl FnMut(u8) -> u8,
    dull: impl Fn(&mut Rng, &Station, &Edges, u8, u8) -> bool,
) -> (Signal, Station, Edges, u8, u8) {
    let mut tries = 0;
    loop {
        let signal = w.signal(rng);
        let s = w.station(rng, &signal);
        let e = w.edges(rng, signal.low, signal.high);
        let kind = rng.pick(&[0, 0, 0, 0, 1, 1, 2, 3]);
        let direction = turn(rng.below(3) as u8);
        tries += 1;
        if tries == 4 || rng.chance(25) || !dull(rng, &s, &e, kind, direction) {
            return (signal, s, e, kind, direction);
        }
    }
}

/// Now and then no image at all.
fn or_none<'a>(
    rng: &mut Rng,
    image: &'a [u8],
    p: &'a Prepared,
    none: &'a Prepared,
) -> (&'a [u8], &'a Prepared) {
    if rng.below(400) == 0 { (&[], none) } else { (image, p) }
}

fn one_verdict(run: &mut Run, rng: &mut Rng, w: &World, (image, p): (&[u8], &Prepared)) {
    let early = |d: Decision| matches!(d.code, 0 | 10) || (d.code == 15 && d.rule != 6);
    let turn = |drawn| run.directions.turn(drawn);
    let (_, mut s, mut e, mut kind, mut direction) =
        draw(rng, w, turn, |_, s, e, kind, direction| {
            adapter::evaluate(p, s, kind, direction, e).is_ok_and(early)
        });
    let spoil = Spoil::draw(rng);
    if spoil.station {
        damage::spoil_station(rng, &mut s);
    }
    if spoil.code {
        if rng.chance(50) {
            damage::spoil_code(rng, &mut kind);
        } else {
            run.directions.spoil(rng, &mut direction);
        }
    }
    if spoil.edges {
        damage::spoil_edges(rng, &mut e);
    }
    run.verdict(image, p, &s, kind, direction, &e);
    if rng.chance(3) {
        run.unmeasured(image, p, &s);
    }
}

fn one_ceiling(run: &mut Run, rng: &mut Rng, w: &World, (image, p): (&[u8], &Prepared)) {
    let turn = |drawn| run.directions.turn(drawn);
    let (signal, mut s, _, _, mut direction) = draw(rng, w, turn, |_, s, e, _, direction| {
        adapter::evaluate(p, s, 0, direction, e).is_ok_and(|d| d.verdict == 2)
    });
    let mut l = cases::ladder(rng, w, &signal);
    let spoil = Spoil::draw(rng);
    if spoil.station {
        damage::spoil_station(rng, &mut s);
    }
    if spoil.code {
        run.directions.spoil(rng, &mut direction);
    }
    if spoil.edges || rng.chance(3) {
        for _ in 0..1 + rng.below(2) {
            damage::spoil_ladder(rng, &mut l);
        }
    }
    run.ceiling(image, p, &s, direction, &l);
}

fn one_list(run: &mut Run, rng: &mut Rng, w: &World, (image, p): (&[u8], &Prepared)) {
    let turn = |drawn| run.directions.turn(drawn);
    let (_, mut s, mut e, _, mut direction) = draw(rng, w, turn, |_, s, e, _, direction| {
        adapter::safe_dials(p, s, direction, e).is_ok_and(|(_, rows)| rows.is_empty())
    });
    let spoil = Spoil::draw(rng);
    if spoil.station {
        damage::spoil_station(rng, &mut s);
    }
    if spoil.code {
        run.directions.spoil(rng, &mut direction);
    }
    if spoil.edges {
        damage::spoil_edges(rng, &mut e);
    }
    let (room, fill) = (Room::draw(rng, 36), rng.next());
    let found = run.dials(image, p, &s, direction, &e, room, fill);
    if found.refusal == 0 && s.policy == 2 {
        run.demand_3(rng, (image, p), &s, direction, &e, &found.rows);
    }
}

/// With the feature `watts` most worlds are of edition 2, with watts from a stream of their own.
fn amended(run: &Run, w: World) -> World {
    let rng = &mut Rng::new(run.seed, run.place + (1 << 39));
    if WATTS && !rng.chance(5) { w.with_watts(tables::some_watts(rng)) } else { w }
}

/// An image of edition 2, mostly a damaged one, and a call on it where it is refused: under Rules that call
/// is refused too.
fn second(run: &mut Run, rng: &mut Rng, w: &World) {
    let image = damage::second(rng, w);
    let p = run.image(&image);
    if p.refusal == 0 {
        return;
    }
    let signal = w.signal(rng);
    let s = Station { policy: 2, ..w.station(rng, &signal) };
    let e = w.edges(rng, signal.low, signal.high);
    let direction = rng.below(4) as u8;
    match rng.below(8) {
        0 => _ = run.verdict(&image, &p, &s, rng.below(4) as u8, direction, &e),
        1 => _ = run.unmeasured(&image, &p, &s),
        2 => _ = run.ceiling(&image, &p, &s, direction, &cases::ladder(rng, w, &signal)),
        3 => _ = run.dials(&image, &p, &s, direction, &e, Room::draw(rng, 36), rng.next()),
        _ => {}
    }
}

/// Document 02, 4, channel against segment, behind all other cases: stated ones, then tables made for it by a
/// stream of their own, most of whose cases it changes. A fiftieth of the verdicts and of the ceilings.
fn brushes(run: &mut Run, wanted: &Wanted) {
    run.left = run.changed;
    differences::changes(run);
    let (verdicts, ceilings) =
        (run.verdicts + wanted.verdicts / 50, run.ceilings + wanted.ceilings / 50);
    let changes = |p: &Prepared, s: &Station, kind, direction, e: &Edges| {
        sixty::change(p, s, kind, direction, e).is_some()
    };
    while run.verdicts < verdicts || run.ceilings < ceilings {
        run.place += 1;
        let rng = &mut Rng::new(run.seed, run.place + (1 << 36));
        run.directions.begin(run.seed, run.place);
        let w = amended(run, tables::brush(rng));
        let p = run.image(&w.image);
        if p.refusal != 0 {
            run.reach.count("worlds refused", u16::from(p.refusal), 0);
            continue;
        }
        for _ in 0..20 {
            let turn = |drawn| run.directions.turn(drawn);
            let (_, s, e, kind, direction) =
                draw(rng, &w, turn, |_, s, e, kind, direction| !changes(&p, s, kind, direction, e));
            run.verdict(&w.image, &p, &s, kind, direction, &e);
        }
        for _ in 0..2 {
            let turn = |drawn| run.directions.turn(drawn);
            let (signal, s, _, _, direction) =
                draw(rng, &w, turn, |_, s, e, _, direction| !changes(&p, s, 0, direction, e));
            let l = cases::ladder(rng, &w, &signal);
            run.ceiling(&w.image, &p, &s, direction, &l);
        }
    }
}

struct Wanted {
    verdicts: u64,
    ceilings: u64,
    dials: u64,
    texts: u64,
    reports: u64,
    airtimes: u64,
    censuses: u64,
    editions: u64,
    amendments: u64,
    walks: u64,
    nearests: u64,
}

fn run_all(run: &mut Run, wanted: &Wanted) {
    if ffi::version() != ffi::VERSION {
        println!("DIFFERENCE: the library's version is {}", ffi::version());
        exit(1);
    }
    let f = ffi::fresh();
    let same =
        f.floats().iter().zip(expect::FRESH.floats()).all(|(a, b)| a.1.to_bits() == b.1.to_bits())
            && f.bytes().iter().zip(expect::FRESH.bytes()).all(|(a, b)| a.1 == b.1);
    if !same {
        println!("DIFFERENCE: the fresh record is {f:?}");
        exit(1);
    }
    fixed::run(run);
    // with the feature `watts` verdicts, ceilings and lists alone: nothing else reads them
    if !WATTS {
        texts::fixed(run);
        texts::run(run, wanted.texts);
        airtimes::fixed(run);
        airtimes::run(run, wanted.airtimes);
    }
    let none = run.image(&[]);
    // of one direction alone as many are drawn: the fixed cases have theirs
    let fixed = match run.directions.only {
        Some(_) => (run.verdicts, run.ceilings, run.dials),
        None => (0, 0, 0),
    };
    let wanted = Wanted {
        verdicts: wanted.verdicts + fixed.0,
        ceilings: wanted.ceilings + fixed.1,
        dials: wanted.dials + fixed.2,
        ..*wanted
    };
    // verdicts, ceilings and lists of one world, in the proportion asked for
    let worlds = (wanted.verdicts / 40).max(wanted.ceilings / 4).max(wanted.dials / 4).max(1);
    let share = |n: u64, place: u64| (n * (place + 1)).div_ceil(worlds);
    loop {
        let left = run.verdicts < wanted.verdicts
            || run.ceilings < wanted.ceilings
            || run.dials < wanted.dials;
        if !left {
            break;
        }
        run.place += 1;
        if !run.brief && run.place % 5000 == 0 {
            eprintln!("{} verdicts, {} ceilings, {} lists", run.verdicts, run.ceilings, run.dials);
        }
        let rng = &mut Rng::new(run.seed, run.place);
        run.directions.begin(run.seed, run.place);
        let long = run.place % 20_000 == 501;
        let w = match run.place % 100 {
            _ if long => tables::long_list(rng),
            25 | 50 | 75 => tables::marks(rng),
            _ => tables::world(rng),
        };
        let w = amended(run, w);
        let p = run.image(&w.image);
        if p.refusal != 0 {
            run.reach.count("worlds refused", u16::from(p.refusal), 0);
            continue;
        }
        if long {
            let s = Station {
                margin_lower_hz: 0.0,
                margin_upper_hz: 0.0,
                policy: 2,
                control: 2,
                license: 4,
                sideband: 0,
                itu_region: 2,
                ..expect::FRESH
            };
            let e = Edges::of([0.25, 0.5, 0.25, 0.5]);
            for _ in 0..3 {
                let (room, fill) = (Room::draw(rng, 36), rng.next());
                let direction = run.directions.turn(0);
                run.dials(&w.image, &p, &s, direction, &e, room, fill);
            }
            continue;
        }
        let place = run.place;
        while run.verdicts < share(wanted.verdicts, place).min(wanted.verdicts) {
            let given = or_none(rng, &w.image, &p, &none);
            one_verdict(run, rng, &w, given);
        }
        while run.ceilings < share(wanted.ceilings, place).min(wanted.ceilings) {
            let given = or_none(rng, &w.image, &p, &none);
            one_ceiling(run, rng, &w, given);
        }
        while run.dials < share(wanted.dials, place).min(wanted.dials) {
            let given = or_none(rng, &w.image, &p, &none);
            one_list(run, rng, &w, given);
        }
        for _ in 0..2 {
            let image = damage::damaged(rng, &w);
            let p = run.image(&image);
            match rng.below(6) {
                0 => one_verdict(run, rng, &w, (&image, &p)),
                1 => one_ceiling(run, rng, &w, (&image, &p)),
                2 => one_list(run, rng, &w, (&image, &p)),
                3 => {
                    let signal = w.signal(rng);
                    let s = w.station(rng, &signal);
                    run.unmeasured(&image, &p, &s);
                }
                _ => {}
            }
        }
        run.image(&damage::several(&mut Rng::new(run.seed, run.place + (1 << 33)), &w));
        second(run, &mut Rng::new(run.seed, place + (1 << 40)), &w);
    }
    brushes(run, &wanted);
    if !WATTS {
        reports::run(run, wanted.reports);
        censuses::fixed(run);
        censuses::run(run, wanted.censuses);
        editions::fixed(run);
        editions::run(run, wanted.editions);
        amendments::fixed(run);
        amendments::run(run, wanted.amendments);
        walks::fixed(run);
        walks::run(run, wanted.walks);
        nearests::fixed(run);
        nearests::run(run, wanted.nearests);
    }
}

/// Every bit of the sample images of both editions turned over, one at a time: the check, the tidy question,
/// and where the table is wrong.
fn every_bit(run: &mut Run) {
    for sample in damage::samples().into_iter().flat_map(|first| [image::raised(&first), first]) {
        let p = run.image(&sample);
        assert_eq!(p.refusal, 0, "a sample is accepted");
        for at in 0..8 * sample.len() {
            let mut image = sample.clone();
            image[at / 8] ^= 1 << (at % 8);
            run.image(&image);
        }
    }
}

fn usage() -> ! {
    eprintln!(
        "usage: pamuklid-compare [--verdicts N] [--ceilings N] [--dials N] [--texts N] \
         [--reports N] [--airtimes N] [--censuses N] [--editions N] [--amendments N] [--walks N] \
         [--nearests N] [--direction D] [--seed S] [--few] [--brief]\n\
         \x20      pamuklid-compare --replay FILE [--seed S]\n\
         \x20      pamuklid-compare --replay-check FILE | --replay-more FILE [--seed S]"
    );
    exit(2)
}

fn main() {
    let mut wanted = Wanted {
        verdicts: 1_000_000,
        ceilings: 100_000,
        dials: 100_000,
        texts: 10_000_000,
        reports: 1_000_000,
        airtimes: 1_000_000,
        censuses: 1_000,
        editions: 1_000_000,
        amendments: 200_000,
        walks: 100_000,
        nearests: 1_000_000,
    };
    let (mut seed, mut only, mut few, mut brief, mut replay) = (1, None, false, false, None);
    let mut args = std::env::args().skip(1);
    while let Some(arg) = args.next() {
        let mut number = || args.next().and_then(|n| n.parse().ok()).unwrap_or_else(|| usage());
        match arg.as_str() {
            "--verdicts" => wanted.verdicts = number(),
            "--ceilings" => wanted.ceilings = number(),
            "--dials" => wanted.dials = number(),
            "--texts" => wanted.texts = number(),
            "--reports" => wanted.reports = number(),
            "--airtimes" => wanted.airtimes = number(),
            "--censuses" => wanted.censuses = number(),
            "--editions" => wanted.editions = number(),
            "--amendments" => wanted.amendments = number(),
            "--walks" => wanted.walks = number(),
            "--nearests" => wanted.nearests = number(),
            "--direction" => match number() {
                direction @ 0..=3 => only = Some(direction as u8),
                _ => usage(),
            },
            "--seed" => seed = number(),
            "--few" => few = true,
            "--brief" => brief = true,
            "--replay" | "--replay-check" | "--replay-more" => {
                replay = Some((arg, args.next().unwrap_or_else(|| usage())));
            }
            _ => usage(),
        }
    }
    let mut run = Run::new(seed, only, brief);
    if let Some((how, file)) = replay {
        match how.as_str() {
            "--replay" => replay::write(&mut run, &file),
            "--replay-more" if WATTS => replay::more(&mut run, &file),
            "--replay-more" => {
                eprintln!("--replay-more has cases with other watts: it needs compare/run --watts");
                exit(2)
            }
            _ => replay::check(&mut run, &file),
        }
        return;
    }
    let start = std::time::Instant::now();
    run_all(&mut run, &wanted);
    every_bit(&mut run);
    println!("seed {seed}, {} worlds, {:.0} s", run.place, start.elapsed().as_secs_f64());
    println!(
        "compared: {} verdicts, {} unmeasured, {} ceilings, {} dial lists with {} rows, {} images; \
         {} calls refused",
        run.verdicts, run.unmeasured, run.ceilings, run.dials, run.rows, run.images, run.refused
    );
    let by = |call| run.reach.met((call, 3, 0));
    println!(
        "direction 3: {} verdicts, {} of them code 20; {} ceilings; {} dial lists, {} of them others \
         than Respond's",
        by("verdict by direction"),
        by("code 20 by direction"),
        by("ceiling by direction"),
        by("dial list by direction"),
        by("list by direction, Respond's is another")
    );
    if UNEQUAL {
        let [verdicts, ceilings, lists] = run.apart;
        println!(
            "margins that differ: {verdicts} verdicts, {ceilings} ceilings, {lists} dial lists"
        );
    }
    if WATTS {
        let [verdicts, ceilings] = run.other_watts;
        println!("other watts than 100 and 9.15: {verdicts} verdicts, {ceilings} ceilings");
    }
    println!(
        "changed by document 02, 4, and held to its words: {} of the verdicts, {} of the ceilings; {} and {} \
         of them not on tables made for it",
        run.changed.0, run.changed.1, run.left.0, run.left.1
    );
    for (key, what) in reach::CHANGES {
        println!("  {what}: {}", run.reach.met(key));
    }
    let (met, nought) = run.demand_3;
    println!(
        "fault: {}",
        if cfg!(fault) { format!("{} compared", run.images) } else { "not compared".into() }
    );
    println!(
        "distance: {} compared; demand 3: {met} dials with its premises met, {nought} of them nought",
        run.distances
    );
    if !WATTS {
        println!(
            "texts: {} figures compared, each in three texts; {} calls refused",
            run.texts.figures, run.texts.refused
        );
        println!(
            "reports: {} compared, with {} rows, {} of them overlaps and {} gaps; {} calls refused",
            run.reports.reports,
            run.reports.rows,
            run.reports.overlaps,
            run.reports.gaps,
            run.reports.refused
        );
        println!(
            "time on the air: {} logs compared, with {} records; {} calls refused",
            run.airtimes.logs, run.airtimes.records, run.airtimes.refused
        );
        println!(
            "censuses: {} stretches compared, with {} dials; {} calls refused",
            run.censuses.stretches, run.censuses.dials, run.censuses.refused
        );
        println!(
            "writer and converters: {} images written, {} raised, {} lowered; {} of these calls refused",
            run.editions.written, run.editions.raised, run.editions.lowered, run.editions.refused
        );
        println!(
            "amendments: {} lists compared, with {} amendments; {} of these calls refused",
            run.amendments.lists, run.amendments.amendments, run.amendments.refused
        );
        println!(
            "walks: {} sequences of {} calls compared, {} of them steps that were answered, {} refused; {} walks \
             and {} steps before their end equal to one call of the ceiling",
            run.walks.sequences,
            run.walks.calls,
            run.walks.steps,
            run.walks.refused,
            run.walks.equal,
            run.walks.so_far
        );
        println!(
            "nearest dials: {} asked, {} of them given a dial, {} none, {} not judged, {} refused; held to {} \
             verdicts",
            run.nearests.asked,
            run.nearests.dials,
            run.nearests.none,
            run.nearests.not_judged,
            run.nearests.refused,
            run.nearests.verdicts
        );
    }
    run.texts.count(&mut run.reach);
    let missing = run.reach.missing(only);
    if !brief && !few {
        run.reach.print();
    }
    if few && !missing.is_empty() {
        println!("never reached in so few cases: {} of what there is to reach", missing.len());
    } else if !brief && !missing.is_empty() {
        println!("never reached: {missing:?}");
        println!("no difference, but not everything was reached");
        exit(3);
    }
    println!("no difference");
}
