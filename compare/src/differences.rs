//! docs/DIFFERENCES.md on both sides: each item's input, and the whole answer that the Rust gives,
//! worked out by hand from document 01 and that page's table. Rust and library are compared on each
//! as on every other case; then the agreed answer must be the one written here, every part of it. Where
//! document 02 changed an answer, the Rust's and the library's are both written here.

use crate::Run;
use crate::distance::Asked as Asking;
use crate::ffi::{Decision, NOTHING, Parts};
use crate::fixed::{Asked, asked, centre, practice, sixty, small, span, wrong};
use crate::image::*;

const LEGAL: u8 = 0;
const WARNING: u8 = 1;
const BLOCKED: u8 = 2;
const UPPER: u8 = 1;

/// A verdict's parts, put together one by one.
#[derive(Clone, Copy)]
struct Answer(Decision);

/// Verdict, code and rule; the audio edges, and those on the air.
fn answer(verdict: u8, code: u8, rule: u16, audio: (f64, f64), air: (f64, f64)) -> Answer {
    Answer(Decision {
        verdict,
        code,
        rule,
        rule_known: 1,
        audio_known: 1,
        audio_low: audio.0,
        audio_high: audio.1,
        width: audio.1 - audio.0,
        air_known: 1,
        air_low: air.0,
        air_high: air.1,
        ..NOTHING
    })
}

impl Answer {
    fn band(self, band: u8) -> Self {
        Self(Decision { band_known: 1, band, ..self.0 })
    }

    fn segment(self, low: f64, high: f64, rule: u16) -> Self {
        let d = Decision { segment_low: low, segment_high: high, ..self.0 };
        Self(Decision { segment_known: 1, segment_rule: rule, ..d })
    }

    fn automatic(self, low: f64, high: f64) -> Self {
        Self(Decision { automatic_known: 1, automatic_low: low, automatic_high: high, ..self.0 })
    }

    fn too_close(self, edge: u8) -> Self {
        Self(Decision { overshoot: 2, edge, ..self.0 })
    }

    fn shared(self) -> Self {
        Self(Decision { note_shared: 1, ..self.0 })
    }

    fn above_channel_watts(self) -> Self {
        Self(Decision { note_channel_power: 1, ..self.0 })
    }

    fn above_segment_watts(self) -> Self {
        Self(Decision { note_segment_power: 1, ..self.0 })
    }

    /// The note on the first power record.
    fn noted(self) -> Self {
        let mut d = self.0;
        d.notes[0] = 1;
        Self(d)
    }
}

fn verdict(a: &mut Asked, what: &str, dial: f64, want: Answer) {
    let (got, change) = a.judged(dial);
    if let Some(part) = got.difference(&want.0) {
        wrong(what, &format!("{part} (where \"library\" is the agreed answer)"));
    }
    if change.is_some() {
        wrong(what, "changed by document 02, 4");
    }
}

/// An answer that document 02, 4 changed: the Rust's, and the library's.
fn changed(a: &mut Asked, what: &str, dial: f64, was: Answer, now: Answer) {
    let (got, change) = a.judged(dial);
    let Some(change) = change else {
        wrong(what, "not changed by document 02, 4");
    };
    if let Some(part) = change.was.difference(&was.0) {
        wrong(what, &format!("{part} (where \"library\" is the Rust)"));
    }
    if let Some(part) = got.difference(&now.0) {
        wrong(what, &part);
    }
}

/// A row: segment, dials, band, rule.
type Row = (f64, f64, f64, f64, u8, u16);

fn list(a: &mut Asked, what: &str, want: &[Row]) -> Vec<u8> {
    let mut bytes = Vec::new();
    for &(segment_low, segment_high, dial_low, dial_high, band, rule) in want {
        for x in [segment_low, segment_high, dial_low, dial_high] {
            bytes.extend(x.to_bits().to_le_bytes());
        }
        bytes.extend([band, 0]);
        bytes.extend(rule.to_le_bytes());
    }
    let rows = a.rows(want.len());
    if rows != bytes {
        wrong(what, &format!("{rows:?}"));
    }
    rows
}

/// The distance of a dial from that list: demand 3 holds or, where a premise is dropped, doesn't.
fn distance(a: &mut Asked, what: &str, rows: &[u8], dial: f64, want: Option<f64>) {
    let got = a.run.distance(&Asking::of(&a.table, rows, dial), rows);
    if got.map(|far| far.map(f64::to_bits)) != Ok(want.map(f64::to_bits)) {
        wrong(what, &format!("{got:?}"));
    }
}

/// Extra, region 0, local, upper sideband, originating data: that page's station.
fn on(run: &mut Run, table: Table, margin: f64, edges: (f64, f64)) -> Asked<'_> {
    asked(run, table, 4, 0, margin, edges)
}

const SHORT: (f64, f64) = (0.0, 5.0);
const SEGMENT_ROW: Row = (20.0, 80.0, 20.0, 75.0, 1, 13);
const CHANNEL_ROW: Row = (85.0, 95.0, 88.0, 88.0, 1, 10);

/// The signal 0–5 at dial 88 on the channel 85–95.
fn on_channel(verdict: u8) -> Answer {
    let a = answer(verdict, 24, 10, SHORT, (88.0, 93.0)).band(1).segment(85.0, 95.0, 10);
    if verdict == BLOCKED { a } else { a.shared() }
}

/// The signal 0–5 at dial 30 in the segment 20–80.
fn in_segment(verdict: u8, code: u8, rule: u16) -> Answer {
    answer(verdict, code, rule, SHORT, (30.0, 35.0)).band(1).segment(20.0, 80.0, 13)
}

pub fn run(run: &mut Run) {
    edges_and_control(run);
    channel_rows(run);
    widths_and_kinds(run);
    untidy(run);
    ends_and_grid(run);
    believed(run);
    more_on_sixty(run);
    either_sign(run);
    data_alone(run);
    region(run);
    demand_3(run);
}

/// 20 to 24, what document 02, 4 changed: behind the drawn cases, so that a seed's draws stay as they were.
pub fn changes(run: &mut Run) {
    brushed(run);
    brushed_by_cw(run);
    first_channel(run);
    brushed_rungs(run);
}

/// 1 and 2.
fn edges_and_control(run: &mut Run) {
    let mut a = on(run, small(), 2.0, SHORT);
    let want = answer(BLOCKED, 13, 13, SHORT, (21.0, 26.0)).band(1).segment(20.0, 80.0, 13);
    verdict(&mut a, "1: too close, upper", 21.0, want.too_close(UPPER));

    let mut a = on(run, sixty(), 0.0, SHORT);
    a.s.control = 2;
    verdict(&mut a, "2: automatic on a channel", 88.0, on_channel(LEGAL));
    list(&mut a, "2: no row", &[]);
    a.table.tables[EXCLUDED].push(Record { band: 1, rule: 20, ..Record::default() });
    let want = answer(BLOCKED, 11, 20, SHORT, (88.0, 93.0)).band(1);
    verdict(&mut a, "2: unless the band is excluded", 88.0, want);
}

/// 3 and 4.
fn channel_rows(run: &mut Run) {
    let mut lower = sixty();
    lower.sideband = 1;
    let mut a = on(run, lower, 0.0, SHORT);
    verdict(&mut a, "3: channels on lower, upper sent", 88.0, on_channel(BLOCKED));
    list(&mut a, "3: listed on upper", &[SEGMENT_ROW, CHANNEL_ROW]);
    a.s.sideband = 1;
    a.edges = (-5.0, 0.0);
    let want = answer(LEGAL, 24, 10, (-5.0, 0.0), (88.0, 93.0)).band(1).segment(85.0, 95.0, 10);
    verdict(&mut a, "3: channels on lower, lower sent", 88.0, want.shared());
    list(&mut a, "3: not listed on lower", &[SEGMENT_ROW]);

    let mut a = on(run, sixty(), 0.0, SHORT);
    for (dial, far) in [(86.875, BLOCKED), (87.0, LEGAL), (89.0, LEGAL), (89.125, BLOCKED)] {
        let want = on_channel(far).0;
        let want = Decision { air_low: dial, air_high: dial + 5.0, ..want };
        verdict(&mut a, "3: the verdict allows the tolerance", dial, Answer(want));
    }
    list(&mut a, "3: a channel row is one dial", &[SEGMENT_ROW, CHANNEL_ROW]);

    a.table.tables[CHANNELS].push(centre(500.0));
    let second = (495.0, 505.0, 498.0, 498.0, 1, 10);
    list(&mut a, "4: both channels", &[SEGMENT_ROW, CHANNEL_ROW, second]);
    let want = answer(BLOCKED, 10, 1, SHORT, (498.0, 503.0));
    verdict(&mut a, "4: the second is in no band", 498.0, want);
}

/// 5 and 6.
fn widths_and_kinds(run: &mut Run) {
    let mut a = on(run, sixty(), 0.0, SHORT);
    a.table.data_limit = 1.0;
    verdict(&mut a, "5: no width test on a channel", 88.0, on_channel(LEGAL));
    list(&mut a, "5: the list has one", &[]);
    let mut a = on(run, sixty(), 0.0, SHORT);
    (a.table.tables[SEGMENTS][0].flags, a.table.tables[SEGMENTS][0].figure) = (1, 3.0);
    verdict(&mut a, "5: own limit 3, general 10: verdict", 30.0, in_segment(LEGAL, 25, 13));
    list(&mut a, "5: own limit 3, general 10: list", &[CHANNEL_ROW]);
    a.table.tables[SEGMENTS][0].figure = 20.0;
    a.edges = (0.0, 15.0);
    let want = answer(BLOCKED, 12, 7, (0.0, 15.0), (30.0, 45.0)).band(1).segment(20.0, 80.0, 13);
    verdict(&mut a, "5: own limit 20, general 10: verdict", 30.0, want);
    list(&mut a, "5: own limit 20, general 10: list", &[(20.0, 80.0, 20.0, 65.0, 1, 13)]);

    let mut a = on(run, sixty(), 0.0, (-10.0, 10.0));
    a.kind = 1;
    let wide = |v| answer(v, 24, 10, (-10.0, 10.0), (80.0, 100.0)).band(1).segment(85.0, 95.0, 10);
    verdict(&mut a, "6: CW needs only its centre", 90.0, wide(LEGAL).shared());
    a.kind = 2;
    verdict(&mut a, "6: a test emission doesn't", 90.0, wide(BLOCKED));
    a.edges = SHORT;
    verdict(&mut a, "6: it is judged as data is", 88.0, on_channel(LEGAL));
}

/// 7.
fn untidy(run: &mut Run) {
    let mut a = on(run, small(), 0.0, SHORT);
    let cw_only = Record { class: 4, flags: 1, emissions: 2, ..span(0.0, 100.0) };
    a.table.tables[PRIVILEGES].insert(0, cw_only);
    verdict(&mut a, "7: the first holding privilege", 30.0, in_segment(BLOCKED, 15, 6));
    list(&mut a, "7: any that allows data", &[SEGMENT_ROW]);

    let mut a = on(run, small(), 0.0, SHORT);
    a.s.control = 2;
    a.table.tables[SEGMENTS][0].band = 2;
    a.table.tables[AUTOMATIC].push(span(0.0, 100.0));
    a.table.tables[EXCLUDED].push(Record { band: 2, rule: 20, ..Record::default() });
    let want = in_segment(LEGAL, 17, 9).automatic(0.0, 100.0);
    verdict(&mut a, "7: band 2 excluded: verdict", 30.0, want);
    list(&mut a, "7: band 2 excluded: list", &[]);
    a.table.tables[EXCLUDED][0].band = 1;
    let want = answer(BLOCKED, 11, 20, SHORT, (30.0, 35.0)).band(1);
    verdict(&mut a, "7: band 1 excluded: verdict", 30.0, want);
    list(&mut a, "7: band 1 excluded: list", &[(20.0, 80.0, 20.0, 75.0, 2, 9)]);
}

/// 8 and 9.
fn ends_and_grid(run: &mut Run) {
    let mut a = on(run, small(), 0.0, (0.0, 0.0));
    a.table.tables[PRIVILEGES][0].high = 20.0;
    let want = answer(LEGAL, 16, 13, (0.0, 0.0), (20.0, 20.0)).band(1).segment(20.0, 80.0, 13);
    verdict(&mut a, "8: one point is held", 20.0, want);
    list(&mut a, "8: no row", &[]);

    let edges = (0.3, 0.7);
    let mut a = on(run, small(), 12.200000000000001, edges);
    a.table.data_limit = 1000.0;
    // (20 − 0.3) + m and (80 − 0.7) − m; but (31.9 + 0.3) − m is 19.999999999999993
    list(&mut a, "9: listed from 31.9", &[(20.0, 80.0, 31.9, 67.1, 1, 13)]);
    let air = (32.199999999999996, 32.6);
    let want = answer(BLOCKED, 13, 13, edges, air).band(1).segment(20.0, 80.0, 13);
    verdict(&mut a, "9: 31.9 is blocked", 31.9, want.too_close(UPPER));
    a.margin(2.4000000000000004);
    // 22.1 is the figure above 22.099999999999998; (22.099999999999998 + 0.3) − m is 20
    list(&mut a, "9: listed from 22.1", &[(20.0, 80.0, 22.1, 76.89999999999999, 1, 13)]);
    let air = (22.4, 22.799999999999997);
    let want = answer(LEGAL, 16, 13, edges, air).band(1).segment(20.0, 80.0, 13);
    verdict(&mut a, "9: 22.099999999999998 is allowed", 22.099999999999998, want);
}

/// 10.
fn believed(run: &mut Run) {
    for class in 0..5 {
        let mut a = on(run, small(), 0.0, SHORT);
        a.s.license = class;
        a.table.tables[PRIVILEGES][0] =
            Record { class, flags: 3, emissions: 2, rule: 30, ..span(0.0, 100.0) };
        verdict(&mut a, "10: rule 6 for every class", 30.0, in_segment(BLOCKED, 15, 6));
    }

    let mut a = on(run, small(), 0.0, SHORT);
    a.s.control = 2;
    a.table.flags = ELSEWHERE | RESPONSE;
    (a.table.elsewhere_limit, a.table.rules[1]) = (10.0, 8);
    verdict(&mut a, "10: originating", 30.0, in_segment(BLOCKED, 20, 8));
    a.direction = 1;
    verdict(&mut a, "10: any Respond is believed", 30.0, in_segment(LEGAL, 21, 8));
    a.direction = 3;
    verdict(&mut a, "10: respond to automatic", 30.0, in_segment(BLOCKED, 20, 8));
    list(&mut a, "10: respond to automatic, no row", &[]);

    let mut a = on(run, sixty(), 0.0, SHORT);
    (a.s.power_known, a.s.power_w) = (1, 100.0);
    verdict(&mut a, "10: 100 W as given", 88.0, on_channel(LEGAL));
    a.s.power_w = 100.00000000000001;
    verdict(&mut a, "10: above 100 W", 88.0, on_channel(WARNING).above_channel_watts());
    a.s.power_w = 9.15;
    verdict(&mut a, "10: 9.15 W as given", 30.0, in_segment(LEGAL, 25, 13));
    a.s.power_w = 9.150000000000002;
    let want = in_segment(WARNING, 25, 13).above_segment_watts();
    verdict(&mut a, "10: above 9.15 W", 30.0, want);
}

/// 11 to 14: where list and verdict part on 60 m besides.
fn more_on_sixty(run: &mut Run) {
    let mut a = on(run, sixty(), 0.0, SHORT);
    a.table.flags |= HAS_EMISSIONS;
    (a.table.emissions, a.table.rules[4]) = (2, 11);
    let want = answer(BLOCKED, 22, 11, SHORT, (88.0, 93.0)).band(1);
    verdict(&mut a, "11: data isn't among the emissions", 88.0, want);
    list(&mut a, "11: the list doesn't ask", &[SEGMENT_ROW, CHANNEL_ROW]);

    let mut a = on(run, sixty(), 0.0, SHORT);
    let cw_only = Record { class: 4, flags: 1, emissions: 2, ..span(0.0, 100.0) };
    a.table.tables[PRIVILEGES][0] = cw_only;
    verdict(&mut a, "12: a privilege's emissions aren't read", 88.0, on_channel(LEGAL));
    list(&mut a, "12: the list reads them", &[]);

    let mut a = on(run, fifty(), 0.0, SHORT);
    let want = by_channel(BLOCKED, SHORT, (46.0, 51.0));
    verdict(&mut a, "13: a channel that holds the signal comes first", 46.0, want);
    let channel = (45.0, 55.0, 48.0, 48.0, 1, 10);
    list(&mut a, "13: the segment's row isn't cut", &[SEGMENT_ROW, channel]);

    let mut a = on(run, sixty(), 2.0, SHORT);
    a.table.tables[PRIVILEGES][0].low = 30.0;
    let want = answer(LEGAL, 25, 13, SHORT, (31.0, 36.0)).band(1).segment(20.0, 80.0, 13);
    verdict(&mut a, "14: the privilege holds the signal alone", 31.0, want);
    let want = answer(BLOCKED, 15, 1, SHORT, (29.875, 34.875)).band(1);
    verdict(&mut a, "14: it must hold the signal", 29.875, want);
    let row = (30.0, 80.0, 32.0, 73.0, 1, 13);
    list(&mut a, "14: the row keeps the margin", &[row, CHANNEL_ROW]);
}

/// 15 and 16.
fn either_sign(run: &mut Run) {
    let edges = (0.0, 10.0);
    let mut a = on(run, small(), -3.0, edges);
    let want = answer(LEGAL, 16, 13, edges, (18.0, 28.0)).band(1).segment(20.0, 80.0, 13);
    verdict(&mut a, "15: a margin below nought", 18.0, want);
    list(&mut a, "15: its row", &[(20.0, 80.0, 17.0, 73.0, 1, 13)]);

    let mut a = on(run, small(), 0.0, (90.0, 10.0));
    let want = answer(LEGAL, 16, 13, (90.0, 10.0), (90.0, 10.0)).band(1);
    verdict(&mut a, "16: low above high", 0.0, want.segment(20.0, 80.0, 13));
    list(&mut a, "16: its row", &[(20.0, 80.0, -70.0, 70.0, 1, 13)]);
    a.edges = (200.0, -200.0);
    let want = answer(LEGAL, 16, 13, (200.0, -200.0), (200.0, -200.0)).band(1);
    verdict(&mut a, "16: neither edge in a band", 0.0, want.segment(20.0, 80.0, 13));
}

/// 17 and 18.
fn data_alone(run: &mut Run) {
    let lawful = |rule| answer(LEGAL, 16, rule, SHORT, (30.0, 35.0)).band(1);
    let mut a = on(run, small(), 0.0, SHORT);
    a.table.tables[POWER].push(Record { figure: 10.0, rule: 21, ..span(0.0, 100.0) });
    (a.s.power_known, a.s.power_w) = (1, 1000.0);
    verdict(&mut a, "17: data is warned", 30.0, in_segment(WARNING, 16, 13).noted());
    a.kind = 1;
    verdict(&mut a, "17: CW isn't", 30.0, lawful(3));
    a.kind = 2;
    verdict(&mut a, "17: a test emission isn't", 30.0, lawful(4));
    let mut a = on(run, sixty(), 0.0, SHORT);
    a.table.tables[POWER].push(Record { figure: 5.0, rule: 21, ..span(0.0, 100.0) });
    (a.s.power_known, a.s.power_w) = (1, 50.0);
    verdict(&mut a, "17: data on a channel isn't", 88.0, on_channel(LEGAL));
    a.s.power_w = 9.0;
    verdict(&mut a, "17: data in the 60 m segment isn't", 30.0, in_segment(LEGAL, 25, 13));

    let mut a = on(run, small(), 0.0, SHORT);
    a.s.control = 2;
    verdict(&mut a, "18: automatic data", 30.0, in_segment(BLOCKED, 18, 9));
    for (kind, rule) in [(1, 3), (2, 4), (3, 1)] {
        a.kind = kind;
        verdict(&mut a, "18: automatic CW, test and nothing", 30.0, lawful(rule));
    }
    a.table.tables[EXCLUDED].push(Record { band: 1, rule: 20, ..Record::default() });
    for kind in 0..4 {
        a.kind = kind;
        let want = answer(BLOCKED, 11, 20, SHORT, (30.0, 35.0)).band(1);
        verdict(&mut a, "18: unless the band is excluded", 30.0, want);
    }
}

/// 19, which drops a premise of demand 3 as well: the prerequisites.
fn region(run: &mut Run) {
    let mut a = on(run, small(), 0.0, SHORT);
    a.s.itu_region = 9;
    let want = answer(BLOCKED, 5, 1, SHORT, (30.0, 35.0));
    verdict(&mut a, "19: another region", 30.0, want);
    let rows = list(&mut a, "19: the list doesn't ask", &[SEGMENT_ROW]);
    distance(&mut a, "19: nought, but blocked", &rows, 30.0, Some(0.0));
}

/// Demand 3 with its premises met, and an input that breaks it once one is dropped.
fn demand_3(run: &mut Run) {
    let mut a = on(run, small(), 0.0, SHORT);
    let rows = list(&mut a, "demand 3: the row", &[SEGMENT_ROW]);
    for (dial, code, far) in
        [(20.0, 16, 0.0), (75.0, 16, 0.0), (75.125, 13, 0.125), (5.0, 14, 15.0)]
    {
        distance(&mut a, "demand 3: the distance", &rows, dial, Some(far));
        a.gives("demand 3: nought exactly if allowed", dial, if far == 0.0 { 0 } else { 2 }, code);
    }
    a.s.license = 0;
    let rows = list(&mut a, "demand 3: no privilege, no row", &[]);
    distance(&mut a, "demand 3: none listed", &rows, 30.0, None);
    a.gives("demand 3: none listed, blocked", 30.0, 2, 15);
    // "14,093,800–14,097,700, then 14,099,300–14,110,200"
    let mut a = asked(run, practice(), 2, 2, 50.0, (1250.0, 1750.0));
    a.s.control = 2;
    let rows = a.rows(2);
    for (dial, code, far) in
        [(14_097_700.0, 17, 0.0), (14_098_000.0, 20, 300.0), (14_099_000.0, 20, 300.0)]
    {
        distance(&mut a, "demand 3: practice table", &rows, dial, Some(far));
        a.gives("demand 3: practice table", dial, if far == 0.0 { 0 } else { 2 }, code);
    }
    // tidy dropped: item 7
    let mut a = on(run, small(), 0.0, SHORT);
    let cw_only = Record { class: 4, flags: 1, emissions: 2, ..span(0.0, 100.0) };
    a.table.tables[PRIVILEGES].insert(0, cw_only);
    let rows = list(&mut a, "untidy: listed", &[SEGMENT_ROW]);
    distance(&mut a, "untidy: nought", &rows, 30.0, Some(0.0));
    a.gives("untidy: but blocked", 30.0, 2, 15);
    // eighths dropped: item 9
    let mut a = on(run, small(), 12.200000000000001, (0.3, 0.7));
    let rows = list(&mut a, "off the grid: listed", &[(20.0, 80.0, 31.9, 67.1, 1, 13)]);
    distance(&mut a, "off the grid: nought", &rows, 31.9, Some(0.0));
    a.gives("off the grid: but blocked", 31.9, 2, 13);
    // the positive guarded width dropped: item 8
    let mut a = on(run, small(), 0.0, (0.0, 0.0));
    a.table.tables[PRIVILEGES][0].high = 20.0;
    let rows = list(&mut a, "no width: no row", &[]);
    distance(&mut a, "no width: none listed", &rows, 20.0, None);
    a.gives("no width: but allowed", 20.0, 0, 16);
    // off the channel band dropped: item 2
    let mut a = on(run, sixty(), 0.0, SHORT);
    let rows = list(&mut a, "channel band: listed", &[SEGMENT_ROW, CHANNEL_ROW]);
    distance(&mut a, "channel band: its rows don't count", &rows, 88.0, None);
    a.gives("channel band: but allowed", 88.0, 0, 24);
}

/// "Sixty" with its channel at 50 instead of 90, inside the segment 20–80: 45–55, its carrier 48.
pub fn fifty() -> Table {
    let mut t = sixty();
    t.tables[CHANNELS][0] = centre(50.0);
    t
}

/// By the channel 45–55.
fn by_channel(verdict: u8, audio: (f64, f64), air: (f64, f64)) -> Answer {
    let a = answer(verdict, 24, 10, audio, air).band(1).segment(45.0, 55.0, 10);
    if verdict == BLOCKED { a } else { a.shared() }
}

/// By the segment 20–80.
fn by_segment(verdict: u8, audio: (f64, f64), air: (f64, f64)) -> Answer {
    let a = answer(verdict, 25, 13, audio, air).band(1).segment(20.0, 80.0, 13);
    if verdict == WARNING { a.above_segment_watts() } else { a }
}

/// 20 to 22: data and test emissions that brush a channel.
fn brushed(run: &mut Run) {
    let air = (40.0, 45.0);
    let mut a = on(run, fifty(), 0.0, SHORT);
    let (was, now) = (by_channel(BLOCKED, SHORT, air), by_segment(LEGAL, SHORT, air));
    changed(&mut a, "20: data that touches a channel", 40.0, was, now);
    let off = by_segment(LEGAL, SHORT, (39.875, 44.875));
    verdict(&mut a, "20: data beside a channel", 39.875, off);
    a.kind = 2;
    changed(&mut a, "20: a test emission", 40.0, was, now);
    a.s.control = 2;
    changed(&mut a, "20: under automatic control", 40.0, was, now);
    // privilege, kind nothing and the emission test come before
    a.kind = 3;
    let keyed = answer(LEGAL, 16, 1, SHORT, air).band(1);
    verdict(&mut a, "20: keying alone comes before", 40.0, keyed);
    a.kind = 0;
    a.table.tables[PRIVILEGES][0].low = 40.125;
    let want = answer(BLOCKED, 15, 1, SHORT, air).band(1);
    verdict(&mut a, "20: the privilege comes before", 40.0, want);
    // it holds the signal, 40–43, not the guarded range, 38–45
    a.margin(2.0);
    (a.table.tables[PRIVILEGES][0].low, a.edges) = (40.0, (0.0, 3.0));
    let short = (40.0, 43.0);
    let (old, new) = (by_channel(BLOCKED, a.edges, short), by_segment(LEGAL, a.edges, short));
    changed(&mut a, "20: the privilege holds the signal alone", 40.0, old, new);
    a.margin(0.0);
    (a.table.tables[PRIVILEGES][0].low, a.edges) = (0.0, SHORT);
    a.table.flags |= HAS_EMISSIONS;
    (a.table.emissions, a.table.rules[4]) = (2, 11);
    let want = answer(BLOCKED, 22, 11, SHORT, air).band(1);
    verdict(&mut a, "20: the emission test comes before", 40.0, want);
    a.table.tables[EXCLUDED].push(Record { band: 1, rule: 20, ..Record::default() });
    let want = answer(BLOCKED, 11, 20, SHORT, air).band(1);
    verdict(&mut a, "20: an excluded band comes before", 40.0, want);

    let mut a = on(run, fifty(), 0.0, SHORT);
    a.s.power_known = 1;
    for (watts, verdict) in [(9.15, LEGAL), (9.150000000000002, WARNING), (200.0, WARNING)] {
        a.s.power_w = watts;
        for kind in [0, 2] {
            a.kind = kind;
            let now = by_segment(verdict, SHORT, air);
            changed(&mut a, "21: above 9.15 W", 40.0, was, now);
        }
    }

    let (audio, air) = ((0.0, 15.0), (30.0, 45.0));
    let mut a = on(run, fifty(), 0.0, audio);
    let was = by_channel(BLOCKED, audio, air);
    let wide = answer(BLOCKED, 12, 7, audio, air).band(1).segment(20.0, 80.0, 13);
    changed(&mut a, "22: wider than the general limit", 30.0, was, wide);
    // the general limit alone, and data alone
    (a.table.tables[SEGMENTS][0].flags, a.table.tables[SEGMENTS][0].figure) = (1, 20.0);
    changed(&mut a, "22: an own limit isn't read", 30.0, was, wide);
    a.kind = 2;
    changed(&mut a, "22: a test emission", 30.0, was, by_segment(LEGAL, audio, air));
}

/// Document 02, 6, with the feature `watts`: on the tables of "sixty" and "fifty" with other watts, each limit by
/// itself and both.
pub fn other_watts(run: &mut Run) {
    let mut a = on(run, sixty(), 0.0, SHORT);
    a.s.power_known = 1;
    for (watts, power, channel, segment) in [
        (FIXED_WATTS, 9.15, LEGAL, LEGAL),
        (FIXED_WATTS, 100.0, LEGAL, WARNING),
        (FIXED_WATTS, 100.00000000000001, WARNING, WARNING),
        ((9.15, 100.0), 9.150000000000002, WARNING, LEGAL),
        ((9.15, 100.0), 100.0, WARNING, LEGAL),
        ((100.0, 50.0), 50.0, LEGAL, LEGAL),
        ((100.0, 50.0), 50.00000000000001, LEGAL, WARNING),
        ((50.0, 9.15), 50.00000000000001, WARNING, WARNING),
        ((200.0, 150.0), 150.0, LEGAL, LEGAL),
        ((0.0, 0.0), 0.0, LEGAL, LEGAL),
        ((0.0, 0.0), f64::from_bits(1), WARNING, WARNING),
        ((0.0, -1.0), -0.0, LEGAL, WARNING),
        ((-3.0, -5.0), -4.0, LEGAL, WARNING),
        ((1_099_511_627_776.0, 1_099_511_627_776.0), 1_099_511_627_776.0, LEGAL, LEGAL),
    ] {
        (a.table.watts, a.s.power_w) = (Some(watts), power);
        let mut want = on_channel(channel);
        if channel == WARNING {
            want = want.above_channel_watts();
        }
        verdict(&mut a, "other watts: on a channel", 88.0, want);
        let mut want = in_segment(segment, 25, 13);
        if segment == WARNING {
            want = want.above_segment_watts();
        }
        verdict(&mut a, "other watts: in the segment", 30.0, want);
    }
    // 23 of that page, a CW carrier on a channel's centre, wider than the channel
    let (audio, air) = ((-10.0, 10.0), (40.0, 60.0));
    let mut a = on(run, fifty(), 0.0, audio);
    (a.kind, a.s.power_known, a.s.power_w) = (1, 1, 20.0);
    for (watts, channel, segment) in [
        ((20.0, 20.0), LEGAL, LEGAL),
        ((19.0, 20.0), WARNING, LEGAL),
        ((20.0, 19.0), LEGAL, WARNING),
        ((19.0, 19.0), WARNING, WARNING),
    ] {
        a.table.watts = Some(watts);
        let mut was = by_channel(channel, audio, air);
        if channel == WARNING {
            was = was.above_channel_watts();
        }
        let now = by_segment(segment, audio, air);
        changed(&mut a, "other watts: CW on the centre", 50.0, was, now);
    }
}

/// 23: a CW carrier on a channel's centre, wider than the channel; and off the centre.
fn brushed_by_cw(run: &mut Run) {
    let (audio, air) = ((-10.0, 10.0), (40.0, 60.0));
    let mut a = on(run, fifty(), 0.0, audio);
    a.kind = 1;
    let (was, now) = (by_channel(LEGAL, audio, air), by_segment(LEGAL, audio, air));
    changed(&mut a, "23: CW on the centre", 50.0, was, now);
    a.s.power_known = 1;
    for (watts, channel, segment) in [
        (9.15, LEGAL, LEGAL),
        (9.150000000000002, LEGAL, WARNING),
        (50.0, LEGAL, WARNING),
        (100.0, LEGAL, WARNING),
        (100.00000000000001, WARNING, WARNING),
    ] {
        a.s.power_w = watts;
        let mut was = by_channel(channel, audio, air);
        if channel == WARNING {
            was = was.above_channel_watts();
        }
        let now = by_segment(segment, audio, air);
        changed(&mut a, "23: CW on the centre, by its watts", 50.0, was, now);
    }
    a.s.power_known = 0;
    // tolerance 1, and the next figure of the grid off it
    for (dial, channel) in [(51.0, LEGAL), (51.125, BLOCKED), (48.875, BLOCKED)] {
        let air = (dial - 10.0, dial + 10.0);
        let was = by_channel(channel, audio, air);
        changed(&mut a, "23: CW by its centre", dial, was, by_segment(LEGAL, audio, air));
        (a.s.power_known, a.s.power_w) = (1, 50.0);
        changed(&mut a, "23: the same at 50 W", dial, was, by_segment(WARNING, audio, air));
        a.s.power_known = 0;
    }
    // a channel that holds the range decides, and so does one where no segment holds it
    a.edges = (-5.0, 5.0);
    let held = by_channel(LEGAL, a.edges, (45.0, 55.0));
    verdict(&mut a, "23: CW that the channel holds", 50.0, held);
    a.edges = (-40.0, 40.0);
    let want = by_channel(LEGAL, a.edges, (10.0, 90.0));
    verdict(&mut a, "23: CW that no segment holds", 50.0, want);
}

/// 20: which channel counts, and which segment.
fn first_channel(run: &mut Run) {
    let mut t = sixty();
    t.tables[SEGMENTS][0].high = 95.0;
    t.tables[CHANNELS] = vec![centre(80.0), centre(90.0)];
    let mut a = on(run, t.clone(), 0.0, SHORT);
    let air = (85.0, 90.0);
    let at = |code, rule| answer(LEGAL, code, rule, SHORT, air).band(1);
    let channel =
        |low| Answer(Decision { verdict: BLOCKED, ..at(24, 10).segment(low, low + 10.0, 10).0 });
    let now = at(25, 13).segment(20.0, 95.0, 13);
    changed(&mut a, "20: the first overlapping channel", 85.0, channel(75.0), now);
    a.table.tables[CHANNELS].swap(0, 1);
    verdict(&mut a, "20: the two channels swapped", 85.0, channel(85.0));
    a.table.tables[CHANNELS] = vec![centre(90.0)];
    let want = Decision { air_low: 86.0, air_high: 91.0, ..channel(85.0).0 };
    verdict(&mut a, "20: held by both", 86.0, Answer(want));
    let mut a = on(run, fifty(), 0.0, SHORT);
    for dial in [45.0, 46.875, 47.0, 49.0, 49.125, 50.0] {
        let on_carrier = (47.0..=49.0).contains(&dial);
        let there = if on_carrier { LEGAL } else { BLOCKED };
        let want = by_channel(there, SHORT, (dial, dial + 5.0));
        verdict(&mut a, "20: held by both, to the channel's ends", dial, want);
    }
    for dial in [44.875, 50.125, 55.0] {
        let air = (dial, dial + 5.0);
        let (was, now) = (by_channel(BLOCKED, SHORT, air), by_segment(LEGAL, SHORT, air));
        changed(&mut a, "20: past the channel's ends", dial, was, now);
    }
    let off = by_segment(LEGAL, SHORT, (55.125, 60.125));
    verdict(&mut a, "20: beside the channel", 55.125, off);

    // of the channel band's number, the first that holds the guarded range
    let other = Record { band: 2, rule: 14, ..span(20.0, 80.0) };
    let more = Record { band: 1, rule: 15, ..span(30.0, 80.0) };
    let air = (40.0, 45.0);
    let was = by_channel(BLOCKED, SHORT, air);
    let mut a = on(run, fifty(), 0.0, SHORT);
    a.table.tables[SEGMENTS][0] = other;
    verdict(&mut a, "20: a segment of another number", 40.0, was);
    a.table.tables[SEGMENTS].push(more);
    let now = answer(LEGAL, 25, 15, SHORT, air).band(1).segment(30.0, 80.0, 15);
    changed(&mut a, "20: behind one of another number", 40.0, was, now);
    a.table.tables[SEGMENTS].insert(0, Record { band: 1, rule: 13, ..span(40.0, 45.0) });
    let now = answer(LEGAL, 25, 13, SHORT, air).band(1).segment(40.0, 45.0, 13);
    changed(&mut a, "20: the first that holds the range", 40.0, was, now);
    // the guarded range, not the signal
    a.margin(0.125);
    let now = answer(LEGAL, 25, 15, SHORT, air).band(1).segment(30.0, 80.0, 15);
    changed(&mut a, "20: the guarded range", 40.0, was, now);
}

/// 24: ceilings that judge such a signal.
fn brushed_rungs(run: &mut Run) {
    let mut a = on(run, fifty(), 0.0, SHORT);
    let was = by_channel(BLOCKED, SHORT, (40.0, 45.0));
    let wide = answer(BLOCKED, 12, 7, (0.0, 15.0), (40.0, 55.0)).band(1).segment(20.0, 80.0, 13);
    let past = by_channel(BLOCKED, (0.0, 45.0), (40.0, 85.0));
    for (limit, highs, rung, want) in [
        (10.0, vec![2.0, 5.0, 8.0], 2, None),
        (10.0, vec![2.0, 5.0, 15.0], 1, Some(wide)),
        (100.0, vec![2.0, 5.0, 45.0], 1, Some(past)),
    ] {
        a.table.data_limit = limit;
        let (got, climb) = a.climbed(40.0, &highs);
        let Some(climb) = climb else {
            wrong("24: a changed ceiling", &format!("{highs:?}"));
        };
        let same = |d: Option<Decision>, want: Option<Answer>| match (d, want) {
            (Some(d), Some(want)) => d.difference(&want.0).is_none(),
            (d, want) => d.is_none() && want.is_none(),
        };
        if climb.was.rung != Some(0) || !same(climb.was.limit, Some(was)) {
            wrong("24: the Rust's rung 0, limit 24", &format!("{:?}", climb.was.rung));
        }
        if got.rung != Some(rung) || !same(got.limit, want) {
            wrong("24: the rungs", &format!("{highs:?}: {:?}", got.rung));
        }
    }
    // rung 0 itself; and one that nothing changes
    let wide = answer(BLOCKED, 12, 7, (0.0, 15.0), (30.0, 45.0)).band(1).segment(20.0, 80.0, 13);
    a.table.data_limit = 10.0;
    let (got, climb) = a.climbed(30.0, &[15.0]);
    let limit = got.limit.and_then(|d| d.difference(&wide.0));
    if got.rung.is_some() || got.limit.is_none() || limit.is_some() || climb.is_none() {
        wrong("24: no rung, too_wide", &format!("{:?} {limit:?}", got.rung));
    }
    let (got, climb) = a.climbed(46.0, &[2.0, 5.0]);
    if got.rung.is_some() || got.limit.is_none_or(|d| d.code != 24) || climb.is_some() {
        wrong("24: held by both, as before", &format!("{:?}", got.rung));
    }
}
