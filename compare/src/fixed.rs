//! Cases with answers that document 01 states or that were worked out from it by hand: its practice
//! table, answers to another robot (document 02), places where a table is wrong, the nearest segment, and
//! the differences (differences.rs). Both sides are run on them as on every other case, and the code, the
//! verdict and what else is stated must be the one that stands here.

use std::process::exit;

use crate::Run;
use crate::cases::Ladder;
use crate::compare::Room;
use crate::differences;
use crate::draw::{Rng, WATTS};
use crate::expect;
use crate::ffi::{Decision, Edges, Figures, Parts, Station};
use crate::image::*;
use crate::oracle::adapter::Ceiling;
use crate::oracle::sixty::{Change, Climb};
use crate::tables;

pub fn span(low: f64, high: f64) -> Record {
    Record { low, high, ..Record::default() }
}

pub fn centre(low: f64) -> Record {
    Record { low, ..Record::default() }
}

/// "Region 2, Wider, general limit 2,800. Band 20: 14,000,000–14,350,000; segment 14,000,000–
/// 14,150,000; General 14,025,000–14,150,000, all emissions; automatic 14,095,000–14,099,500 and
/// 14,100,500–14,112,000; elsewhere 500, response required. Band 60, its General privilege alike:
/// 5,330,000–5,407,000; segment 5,351,500–5,366,500; channel centre 5,332,000, width 2,800, offset
/// 1,500, tolerance 50, upper; emissions data, cw. No power or plan records."
pub fn practice() -> Table {
    let mut t = Table {
        data_limit: 2800.0,
        elsewhere_limit: 500.0,
        width: 2800.0,
        offset: 1500.0,
        tolerance: 50.0,
        region: 2,
        reading: 2,
        flags: ELSEWHERE | RESPONSE | HAS_CHANNELS | HAS_EMISSIONS,
        channel_band: 60,
        emissions: 3,
        rules: [7, 8, 9, 10, 11, 12],
        ..Table::default()
    };
    t.tables[BANDS].push(Record { band: 20, ..span(14_000_000.0, 14_350_000.0) });
    t.tables[BANDS].push(Record { band: 60, ..span(5_330_000.0, 5_407_000.0) });
    t.tables[SEGMENTS].push(Record { band: 20, rule: 13, ..span(14_000_000.0, 14_150_000.0) });
    t.tables[SEGMENTS].push(Record { band: 60, rule: 14, ..span(5_351_500.0, 5_366_500.0) });
    t.tables[CHANNELS].push(centre(5_332_000.0));
    t.tables[PRIVILEGES].push(Record { class: 2, ..span(14_025_000.0, 14_150_000.0) });
    t.tables[PRIVILEGES].push(Record { class: 2, ..span(5_330_000.0, 5_407_000.0) });
    t.tables[AUTOMATIC].push(span(14_095_000.0, 14_099_500.0));
    t.tables[AUTOMATIC].push(span(14_100_500.0, 14_112_000.0));
    t
}

/// docs/DIFFERENCES.md's small table: band 1 is 0–100, its segment 20–80, an Extra's privilege 0–100,
/// general limit 10.
pub fn small() -> Table {
    let mut t =
        Table { data_limit: 10.0, reading: 2, rules: [7, 0, 9, 0, 0, 12], ..Table::default() };
    t.tables[BANDS].push(Record { band: 1, ..span(0.0, 100.0) });
    t.tables[SEGMENTS].push(Record { band: 1, rule: 13, ..span(20.0, 80.0) });
    t.tables[PRIVILEGES].push(Record { class: 4, ..span(0.0, 100.0) });
    t
}

/// Its "sixty": the same with band 1 as the channel band: a channel at 90, width 10, offset 2,
/// tolerance 1.
pub fn sixty() -> Table {
    let mut t = small();
    t.flags = HAS_CHANNELS;
    (t.channel_band, t.width, t.offset, t.tolerance, t.rules[3]) = (1, 10.0, 2.0, 1.0, 10);
    t.tables[CHANNELS].push(centre(90.0));
    t
}

/// What is asked of one table.
pub struct Asked<'a> {
    pub run: &'a mut Run,
    pub table: Table,
    pub s: Station,
    pub kind: u8,
    pub direction: u8,
    pub edges: (f64, f64),
}

impl Asked<'_> {
    fn edges(&self) -> Edges {
        let (low, high) = self.edges;
        Edges::of([low, high, low, high])
    }

    /// The same on both sides.
    pub fn margin(&mut self, hz: f64) {
        (self.s.margin_lower_hz, self.s.margin_upper_hz) = (hz, hz);
    }

    pub fn verdict(&mut self, dial: f64) -> Decision {
        self.judged(dial).0
    }

    /// A verdict, and what of it document 02, 4 changed.
    pub fn judged(&mut self, dial: f64) -> (Decision, Option<Change>) {
        let image = self.table.encode();
        let p = self.run.image(&image);
        self.s.dial_hz = dial;
        let e = self.edges();
        self.run.judged(&image, &p, &self.s, self.kind, self.direction, &e)
    }

    /// A ceiling of rungs from 0 up to these, all with ordinary control frames of no width.
    pub fn climbed(&mut self, dial: f64, highs: &[f64]) -> (Ceiling, Option<Climb>) {
        let image = self.table.encode();
        let p = self.run.image(&image);
        self.s.dial_hz = dial;
        let control = Edges::of([0.0; 4]);
        let rungs = highs.iter().flat_map(|&high| [0.0, high, 0.0, high]).collect();
        let l = Ladder { ordinary: control, floor: control, rungs, floors: vec![0; highs.len()] };
        self.run.climbed(&image, &p, &self.s, self.direction, &l)
    }

    /// The verdict's number (0 legal, 1 warning, 2 blocked) and the code.
    pub fn gives(&mut self, what: &str, dial: f64, verdict: u8, code: u8) -> Decision {
        let d = self.verdict(dial);
        if (d.verdict, d.code) != (verdict, code) {
            wrong(what, &format!("{} {}", d.verdict, d.code));
        }
        d
    }

    /// The bytes of the listed rows, with room for so many.
    pub fn rows(&mut self, room: usize) -> Vec<u8> {
        let image = self.table.encode();
        let p = self.run.image(&image);
        let e = self.edges();
        let found = self.run.dials(&image, &p, &self.s, self.direction, &e, Room::Rows(room), 0);
        if found.refusal != 0 {
            wrong("a list that fits", &found.refusal.to_string());
        }
        found.rows
    }

    fn lists(&mut self, what: &str, want: &[(f64, f64)]) {
        let rows = self.rows(want.len());
        let rows: Vec<_> = rows.chunks(36).map(|r| (f64_at(r, 16), f64_at(r, 24))).collect();
        if rows != want {
            wrong(what, &format!("{rows:?}"));
        }
    }
}

pub fn wrong(what: &str, got: &str) -> ! {
    println!("DIFFERENCE: the papers say {what:?}; the answer is {got}");
    exit(1)
}

pub fn asked(
    run: &mut Run,
    table: Table,
    license: u8,
    region: u8,
    margin: f64,
    edges: (f64, f64),
) -> Asked<'_> {
    let s = Station {
        margin_lower_hz: margin,
        margin_upper_hz: margin,
        policy: 2,
        control: 0,
        license,
        sideband: 0,
        itu_region: region,
        dial_known: 1,
        ..expect::FRESH
    };
    Asked { run, table, s, kind: 0, direction: 0, edges }
}

pub fn run(run: &mut Run) {
    document_01(run);
    another_robot(run);
    faults(run);
    nearest(run);
    differences::run(run);
    if WATTS {
        differences::other_watts(run);
    }
    every_mark(run);
}

fn document_01(run: &mut Run) {
    let mut a = asked(run, practice(), 2, 2, 50.0, (1250.0, 1750.0));
    a.gives("14,023,800 permitted", 14_023_800.0, 0, 16);
    a.gives("14,023,799.875 privilege", 14_023_799.875, 2, 15);
    a.gives("14,148,200 permitted", 14_148_200.0, 0, 16);
    let d = a.gives("14,148,200.125 too close, upper", 14_148_200.125, 2, 13);
    if (d.overshoot, d.edge, d.beyond_hz) != (2, 1, 0.0) {
        wrong("too close, upper", &d.text());
    }
    let d = a.gives("14,148,500 beyond upper by 250", 14_148_500.0, 2, 13);
    if (d.overshoot, d.edge, d.beyond_hz) != (1, 1, 250.0) {
        wrong("beyond upper by 250", &d.text());
    }
    a.gives("14,149,000 no_data_here", 14_149_000.0, 2, 14);
    a.edges = (100.0, 2900.0);
    a.gives("edges 100–2,900 permitted", 14_100_000.0, 0, 16);
    a.edges = (100.0, 2900.125);
    a.gives("100–2,900.125 too_wide", 14_100_000.0, 2, 12);
    a.edges = (1250.0, 1750.0);
    a.s.control = 2;
    a.gives("14,097,700 automatic_segment", 14_097_700.0, 0, 17);
    a.gives("originating automatic_originate", 14_098_000.0, 2, 20);
    a.direction = 1;
    a.gives("responding automatic_response", 14_098_000.0, 0, 21);
    a.direction = 0;
    let rows = [(14_093_800.0, 14_097_700.0), (14_099_300.0, 14_110_200.0)];
    a.lists("14,093,800–14,097,700, then 14,099,300–14,110,200", &rows);
    a.s.control = 0;
    a.gives("5,330,550 legal 24", 5_330_550.0, 0, 24);
    a.gives("5,330,550.125 blocked 24", 5_330_550.125, 2, 24);
    a.kind = 2;
    a.gives("test kind 22", 5_330_550.0, 2, 22);
    a.kind = 0;
    (a.s.power_known, a.s.power_w) = (1, 100.0);
    a.gives("100 W legal", 5_330_550.0, 0, 24);
    a.s.power_w = 100.125;
    a.gives("100.125 W warning", 5_330_550.0, 1, 24);
    (a.s.power_known, a.s.power_w) = (0, 0.0);
    a.s.dial_hz = 14_100_000.0;
    let image = a.table.encode();
    let p = a.run.image(&image);
    let pair = |low, high| [low, high, low, high];
    let mut l = Ladder {
        ordinary: Edges::of(pair(1250.0, 1750.0)),
        floor: Edges::of(pair(1250.0, 1750.0)),
        rungs: [pair(1250.0, 1750.0), pair(1000.0, 2000.0), pair(0.0, 2900.0)].concat(),
        floors: vec![0, 0, 0],
    };
    let c = a.run.ceiling(&image, &p, &a.s, 0, &l);
    if c.rung != Some(1) || c.limit.is_none_or(|d| d.code != 12) {
        wrong("rung 1, limit too_wide", &format!("{:?}", c.rung));
    }
    (l.rungs, l.floors) = (Vec::new(), Vec::new());
    let c = a.run.ceiling(&image, &p, &a.s, 0, &l);
    if c.rung.is_some() || c.limit.is_some() {
        wrong("No rungs: neither", &format!("{:?}", c.rung));
    }
}

/// "The direction gains the value 3, 'respond to automatic', and the elsewhere rule counts only a plain
/// Respond, in verdicts, ceiling and dial list alike" (document 02, 3), on the practice table.
fn another_robot(run: &mut Run) {
    let mut a = asked(run, practice(), 2, 2, 50.0, (1250.0, 1750.0));
    a.s.control = 2;
    for (direction, verdict, code) in [(0, 2, 20), (1, 0, 21), (2, 0, 16), (3, 2, 20)] {
        a.direction = direction;
        a.gives("14,098,000, outside automatic segments", 14_098_000.0, verdict, code);
    }
    a.gives("14,097,700, inside one", 14_097_700.0, 0, 17);
    a.gives("14,148,500 beyond the segment", 14_148_500.0, 2, 13);
    a.edges = (1250.0, 1750.125);
    a.gives("wider than elsewhere", 14_098_000.0, 2, 19);
    a.edges = (1250.0, 1750.0);
    let rows = [(14_093_800.0, 14_097_700.0), (14_099_300.0, 14_110_200.0)];
    a.lists("the automatic segments alone", &rows);
    // rung 0 ends at the segment's end with its margin, rung 1 is 50 longer
    let pair = |high: f64| [1250.0, high, 1250.0, high];
    let image = a.table.encode();
    let p = a.run.image(&image);
    let l = Ladder {
        ordinary: Edges::of(pair(1700.0)),
        floor: Edges::of(pair(1700.0)),
        rungs: [pair(1700.0), pair(1750.0)].concat(),
        floors: vec![0, 0],
    };
    a.s.dial_hz = 14_097_750.0;
    for (direction, rung, limit) in [(0, 0, Some(20)), (1, 1, None), (2, 1, None), (3, 0, Some(20))]
    {
        let c = a.run.ceiling(&image, &p, &a.s, direction, &l);
        if (c.rung, c.limit.map(|d| d.code)) != (Some(rung), limit) {
            wrong("a ceiling by direction", &format!("{direction}: {:?}", c.rung));
        }
    }
    let e = a.edges();
    for direction in 4..=255 {
        let d = a.run.verdict(&image, &p, &a.s, 0, direction, &e);
        let c = a.run.ceiling(&image, &p, &a.s, direction, &l);
        let found = a.run.dials(&image, &p, &a.s, direction, &e, Room::Rows(4), 0);
        if (d.refusal, c.refusal, found.refusal) != (20, 20, 20) {
            wrong("no such direction: 20", &direction.to_string());
        }
    }
    // local control: 3 changes nothing
    (a.direction, a.s.control) = (3, 0);
    a.gives("local control", 14_098_000.0, 0, 16);
    a.gives("a channel", 5_330_550.0, 0, 24);
    a.s.control = 2;
    a.gives("a channel, automatic control", 5_330_550.0, 0, 24);
}

/// Where the practice table is wrong, once it is spoilt in one place or two: the refusal, the place, the
/// table and the record.
fn faults(run: &mut Run) {
    type Spoilt = fn(&mut Table);
    let cases: [(Spoilt, (u8, u8, u8, u16)); 22] = [
        (|_| {}, (0, 0, 255, 65_535)),
        (|t| t.reading = 3, (5, 1, 255, 65_535)),
        (|t| t.tables[BANDS][1].class = 1, (5, 2, 0, 1)),
        (|t| t.tables[PRIVILEGES][1].class = 5, (5, 2, 3, 1)),
        (|t| (t.tables[PRIVILEGES][1].class, t.reading) = (5, 3), (5, 1, 255, 65_535)),
        (|t| t.tables[PLAN_DATA].push(span(0.0, 1.0)), (5, 2, 7, 0)),
        (|t| t.tables[PLAN_AVOID] = vec![span(0.0, 1.0); 2], (5, 2, 8, 0)),
        (|t| t.offset = f64::NAN, (6, 1, 255, 65_535)),
        (|t| t.tables[CHANNELS][0].low = -0.0, (6, 2, 2, 0)),
        (|t| t.tables[AUTOMATIC][1].high = f64::INFINITY, (6, 2, 4, 1)),
        (|t| (t.tables[AUTOMATIC][1].high, t.data_limit) = (2e12, 2e12), (6, 1, 255, 65_535)),
        (|t| t.tables[BANDS][1].low = 5_407_000.0, (7, 2, 0, 1)),
        (|t| t.tables[SEGMENTS][1].low = 5_366_500.0, (8, 2, 1, 1)),
        (|t| t.tables[AUTOMATIC][1].low = 14_112_000.0, (9, 2, 4, 1)),
        (|t| t.tables[PRIVILEGES][0].low = 14_150_001.0, (10, 2, 3, 0)),
        (|t| t.tables[BANDS].clear(), (11, 0, 255, 65_535)),
        (|t| t.tables[SEGMENTS][1].low = 5_329_999.0, (12, 2, 1, 1)),
        (|t| t.tables[SEGMENTS][0].low = 1.0, (12, 2, 1, 0)),
        (|t| (t.tables[SEGMENTS][1].flags, t.tables[SEGMENTS][1].figure) = (1, 0.0), (13, 2, 1, 1)),
        (|t| t.data_limit = 0.0, (14, 0, 255, 65_535)),
        // an own limit of nought and a segment in no band: 12 comes first, with its own record
        (|t| (t.tables[SEGMENTS][0].flags, t.tables[SEGMENTS][1].low) = (1, 1.0), (12, 2, 1, 1)),
        // both segments in no band: the first
        (|t| t.tables[BANDS] = vec![span(1.0, 2.0)], (12, 2, 1, 0)),
    ];
    for (spoil, want) in cases {
        let mut table = practice();
        spoil(&mut table);
        let image = table.encode();
        let f = run.fault(&image);
        if f != want {
            wrong(&format!("refusal, place, table, record {want:?}"), &format!("{f:?}"));
        }
    }
    // the form has no place
    let image = practice().encode();
    for (at, byte, refusal) in [(377, b'F', 2), (374, 3, 3), (352, 3, 4)] {
        let mut image = image.clone();
        image[at] = byte;
        let f = run.fault(&image);
        if f != (refusal, 0, 255, 65_535) {
            wrong(&format!("refusal {refusal}, no place"), &format!("{f:?}"));
        }
    }
}

/// "take the least overshoot (unguarded), first at a tie": by the sum of both sides. "Low above high is
/// accepted."
fn nearest(run: &mut Run) {
    let mut t = small();
    t.data_limit = 1000.0;
    t.tables[SEGMENTS] = vec![
        Record { band: 1, rule: 13, ..span(40.0, 60.0) },
        Record { band: 1, rule: 14, ..span(20.0, 44.0) },
    ];
    let mut a = asked(run, t, 4, 0, 0.0, (0.0, 37.0));
    let d = a.gives("segments 40–60 and 20–44, signal 30–67: beyond lower by 10", 30.0, 2, 13);
    if (d.segment_low, d.overshoot, d.edge, d.beyond_hz) != (40.0, 1, 0, 10.0) {
        wrong("the first, beyond lower by 10", &d.text());
    }
    let mut a = asked(run, small(), 4, 0, 0.0, (90.0, 10.0));
    let d = a.gives("dial 0, edges 90–10: permitted", 0.0, 0, 16);
    if d.width != -80.0 {
        wrong("width −80", &d.text());
    }
    a.lists("−70–70 is listed", &[(-70.0, 70.0)]);
}

/// Each of 256 power records, plan areas and areas to avoid, once at least.
fn every_mark(run: &mut Run) {
    let w = tables::marks(&mut Rng::new(run.seed, 0));
    let p = run.image(&w.image);
    let class = w.table.tables[PRIVILEGES][0].class;
    let mut a = asked(run, w.table.clone(), class, 2, 0.25, (1.0, 2.0));
    a.s.band_plan = 1;
    (a.s.power_known, a.s.power_w) = (1, 1e6);
    let e = a.edges();
    for (control, direction) in [(0, 0), (2, 1)] {
        a.s.control = control;
        for table in [POWER, PLAN_DATA, PLAN_AVOID] {
            for i in 0..256 {
                a.s.dial_hz = w.table.tables[table][i].low;
                let d = a.run.verdict(&w.image, &p, &a.s, 0, direction, &e);
                let met = match table {
                    POWER => d.notes[i] == 1,
                    PLAN_DATA => (d.guidance, d.guidance_index) == (2, i as u16),
                    _ => (d.guidance, d.guidance_index) == (1, i as u16),
                };
                if !met {
                    wrong("a mark for each of 256", &format!("table {table}, {i}: {}", d.text()));
                }
            }
        }
    }
}
