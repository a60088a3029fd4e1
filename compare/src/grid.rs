//! Tables in eighths, mostly tidy, with signals that fit them, dials about the rows of their lists, and what breaks
//! one premise of the nearest dial (document 02, 11) or just doesn't.

use crate::damage;
use crate::draw::{BIG, Rng, UNEQUAL};
use crate::ffi::{Edges, Figures, Station};
use crate::image::*;
use crate::oracle::nearest::{self, FAR};
use crate::tables;

/// A whole number of either sign, up to so many.
pub fn some(rng: &mut Rng, most: usize) -> f64 {
    rng.below(2 * most + 1) as f64 - most as f64
}

/// A dial that puts an end of the signal, with its margin or without, on a target.
pub fn dial_for(rng: &mut Rng, s: &Station, e: &Edges, target: f64) -> f64 {
    let f = e.figures();
    let (low, high) = if rng.chance(50) { (f[0], f[1]) } else { (f[2], f[3]) };
    let (lower, upper) =
        if rng.chance(80) { (s.margin_lower_hz, s.margin_upper_hz) } else { (0.0, 0.0) };
    match (s.sideband, rng.below(2)) {
        (0, 0) => target - low + lower,
        (0, _) => target - high - upper,
        (_, 0) => target + high + lower,
        _ => target + low - upper,
    }
}

/// Where the figures of a table lie: from, how many steps, and how long one is; and how many records a table may
/// have, few or 256.
pub struct Area {
    from: f64,
    steps: usize,
    step: f64,
    many: bool,
}

impl Area {
    pub fn draw(rng: &mut Rng) -> Self {
        let step = rng.pick(&[0.125, 0.125, 0.5, 1.0, 2.5]);
        if rng.below(300) == 0 {
            let from = rng.pick(&[0.0, -1000.0 * step, FAR - 2000.0 * step]);
            return Self { from, steps: 2000, step, many: true };
        }
        let (from, steps, step) = match rng.below(12) {
            0..=3 => (0.0, 300, step),
            4 | 5 => (-150.0 * step, 300, step),
            6 | 7 => (14_000_000.0, 3000, step),
            // up to 2^38, down to it, and all between
            8 => (FAR - 300.0 * step, 300, step),
            9 => (-FAR, 300, step),
            10 => (-FAR, 1 << 9, 1_073_741_824.0),
            _ => (-FAR, 1 << 42, 0.125),
        };
        Self { from, steps, step, many: false }
    }

    fn records(&self, rng: &mut Rng) -> usize {
        if self.many { 256 } else { 1 + rng.below(4) }
    }

    fn end(&self) -> f64 {
        self.from + self.steps as f64 * self.step
    }

    fn point(&self, rng: &mut Rng) -> f64 {
        self.from + rng.below(self.steps + 1) as f64 * self.step
    }

    /// Different figures in their order, mostly with both ends of the area.
    fn pool(&self, rng: &mut Rng) -> Vec<f64> {
        let count = if self.many { 1500 } else { 4 + rng.below(14) };
        let mut out: Vec<f64> = (0..count).map(|_| self.point(rng)).collect();
        if rng.chance(70) {
            out.extend([self.from, self.end()]);
        }
        if out.len() < 12 && rng.chance(30) {
            // the same distances again
            let by = self.step * rng.below(40) as f64;
            out.extend(out.clone().iter().map(|x| (x + by).min(self.end())));
        }
        out.sort_by(f64::total_cmp);
        out.dedup();
        if out.len() < 2 {
            return vec![self.from, self.end()];
        }
        out
    }
}

/// Ranges between some of these figures that share no stretch; some touch.
fn apart(rng: &mut Rng, pool: &[f64], most: usize) -> Vec<Record> {
    let mut out = Vec::new();
    let mut at = if pool.len() > 2 { rng.below(2) } else { 0 };
    while out.len() < most && at + 1 < pool.len() {
        let to = (at + 1 + rng.below(4)).min(pool.len() - 1);
        out.push(Record { low: pool[at], high: pool[to], ..Record::default() });
        at = to + if rng.chance(40) { 0 } else { 1 + rng.below(2) };
    }
    out
}

/// In another order.
fn shuffle(rng: &mut Rng, records: &mut [Record]) {
    for i in (1..records.len()).rev() {
        records.swap(i, rng.below(i + 1));
    }
}

/// A signal in eighths: audio edges and margins.
#[derive(Clone, Copy)]
pub struct Sent {
    pub low: f64,
    pub high: f64,
    pub margin: (f64, f64),
}

impl Sent {
    /// One that fits into a range of this length, mostly.
    pub fn draw(rng: &mut Rng, length: f64) -> Self {
        let eighths = (8.0 * length) as usize;
        let width = match rng.below(12) {
            0 => length,
            1 => length + 0.125,
            2 => 0.125 + rng.below(eighths) as f64 / 8.0,
            3..=9 => 0.125 + rng.below(eighths.min(80)) as f64 / 8.0,
            10 => 0.0,
            _ => -(rng.below(40) as f64) / 8.0,
        };
        let low = match rng.below(10) {
            0..=3 => 0.0,
            4..=6 => some(rng, 80) / 8.0,
            7 => rng.pick(&[1250.0, 300.0, 100.5]),
            8 => rng.pick(&[FAR - width, -FAR, -FAR / 2.0]),
            _ => -width,
        };
        let (low, high) = (low.clamp(-FAR, FAR), (low + width).clamp(-FAR, FAR));
        let lower = Self::margin(rng, width);
        let mut upper = if UNEQUAL { Self::margin(rng, width) } else { lower };
        if UNEQUAL && rng.chance(4) {
            upper = 0.125 - width - lower;
        }
        Self { low, high, margin: (lower, upper) }
    }

    fn margin(rng: &mut Rng, width: f64) -> f64 {
        let eighth = |x: f64| (8.0 * x).ceil() / 8.0;
        match rng.below(12) {
            // a positive guarded width where the signal has none of its own
            _ if width <= 0.0 => eighth((0.125 - width) / 2.0) + rng.below(8) as f64 / 8.0,
            0..=5 => 0.0,
            6..=8 => rng.below(40) as f64 / 8.0,
            9 => -eighth(width / rng.pick(&[4.0, 8.0])) + 0.125,
            10 => eighth((0.125 - width) / 2.0),
            _ => rng.pick(&[50.0, -width, FAR]),
        }
    }
}

/// A tidy table in eighths, and a signal for it.
pub fn table(rng: &mut Rng, area: &Area, class: u8) -> (Table, Sent) {
    let pool = area.pool(rng);
    let mut t = Table {
        region: rng.pick(&[0, 1, 2, 2, 255]),
        reading: rng.below(3) as u8,
        ..Table::default()
    };
    for i in 0..6 {
        t.rules[i] = rng.below(30) as u16;
    }
    let numbers: [u8; 3] = rng.pick(&[[1, 2, 3], [20, 60, 40], [0, 255, 1], [7, 7, 8]]);
    let (low, high) = tables::whole(&pool);
    let bands = match rng.chance(35) {
        true => vec![Record { low, high, ..Record::default() }],
        false => {
            let most = area.records(rng);
            apart(rng, &pool, most)
        }
    };
    t.tables[BANDS].extend(bands.into_iter().map(|r| Record { band: rng.pick(&numbers), ..r }));
    for b in t.tables[BANDS].clone() {
        let inside: Vec<f64> =
            pool.iter().copied().filter(|x| b.low <= *x && *x <= b.high).collect();
        let most = area.records(rng).min(256 - t.tables[SEGMENTS].len());
        for r in apart(rng, &inside, most) {
            t.tables[SEGMENTS].push(Record { band: b.band, rule: rng.below(50) as u16, ..r });
        }
    }
    let some_segment = rng.pick(&t.tables[SEGMENTS]);
    let sent = Sent::draw(rng, some_segment.high - some_segment.low);
    let width = (sent.high - sent.low).abs().max(0.125);
    let limit = |rng: &mut Rng| match rng.below(8) {
        0 => width,
        1 => (width - 0.125).max(0.125),
        2 => (width + 0.125).min(FAR),
        3 => rng.pick(&[0.125, 10.0, 2800.0]),
        _ => FAR,
    };
    t.data_limit = limit(rng).min(FAR);
    for i in 0..t.tables[SEGMENTS].len() {
        if rng.chance(20) {
            let figure = limit(rng).min(FAR);
            let r = &mut t.tables[SEGMENTS][i];
            (r.flags, r.figure) = (1, figure);
        }
    }
    for of in [class, (class + 1 + rng.below(4) as u8) % 5] {
        let wide = Record { low, high, ..Record::default() };
        let most = area.records(rng).min(256 - t.tables[PRIVILEGES].len());
        let ranges = if rng.chance(55) { vec![wide] } else { apart(rng, &pool, most) };
        for r in ranges {
            if t.tables[PRIVILEGES].len() == 256 {
                break;
            }
            let mut r = Record { class: of, ..r };
            if rng.chance(15) {
                (r.flags, r.emissions) = (1, rng.below(16) as u8);
            }
            t.tables[PRIVILEGES].push(r);
        }
    }
    for _ in 0..rng.below(4) {
        let (low, high) = tables::range_of(rng, &pool);
        t.tables[AUTOMATIC].push(Record { low, high, ..Record::default() });
    }
    if rng.chance(20) {
        t.tables[EXCLUDED].push(Record { band: rng.pick(&numbers), ..Record::default() });
    }
    for _ in 0..rng.below(2) {
        let (low, high) = (rng.pick(&pool), rng.pick(&pool));
        let figure = rng.pick(&[9.15, 100.0, 0.1, BIG, 1500.0]);
        t.tables[POWER].push(Record { low, high, figure, ..Record::default() });
    }
    if rng.chance(30) {
        t.flags |= HAS_PLAN;
        for number in [PLAN_DATA, PLAN_AVOID] {
            for _ in 0..rng.below(3) {
                let (low, high) = (rng.pick(&pool), rng.pick(&pool));
                t.tables[number].push(Record { low, high, ..Record::default() });
            }
        }
    }
    if rng.chance(60) {
        t.flags |= ELSEWHERE | if rng.chance(55) { RESPONSE } else { 0 };
        t.elsewhere_limit = if rng.chance(5) { -1.0 } else { limit(rng).min(FAR) };
    } else {
        t.rules[1] = 0;
    }
    if rng.chance(50) {
        t.flags |= HAS_CHANNELS;
        let home = rng.pick(&t.tables[BANDS]);
        t.channel_band = if rng.chance(80) { home.band } else { rng.pick(&numbers) };
        t.sideband = rng.below(2) as u8;
        t.width = (2.0 * width).min(FAR);
        t.tolerance = rng.pick(&[0.0, 1.0, 50.0, FAR]);
        for _ in 0..1 + rng.below(3) {
            let any = rng.pick(&pool);
            let low = rng.pick(&[home.low, home.high, any]);
            t.tables[CHANNELS].push(Record { low, ..Record::default() });
        }
        t.offset = rng.pick(&[0.0, 1.5, (sent.low + sent.high) / 2.0]);
        t.offset = (8.0 * t.offset).round() / 8.0;
        t.offset = t.offset.clamp(-FAR, FAR);
    } else {
        t.rules[3] = 0;
    }
    if rng.chance(20) {
        t.flags |= HAS_EMISSIONS;
        t.emissions = rng.below(16) as u8;
    } else {
        t.rules[4] = 0;
    }
    for number in [BANDS, SEGMENTS, PRIVILEGES] {
        shuffle(rng, &mut t.tables[number]);
    }
    (t, sent)
}

/// One more record, or another number, that makes a table untidy.
pub fn untidy(rng: &mut Rng, t: &mut Table, class: u8) {
    let how = rng.below(5);
    match how {
        0 => {
            let i = rng.below(t.tables[SEGMENTS].len());
            let r = &mut t.tables[SEGMENTS][i];
            r.band = r.band.wrapping_add(100);
        }
        1..=3 => {
            let number = [BANDS, SEGMENTS, PRIVILEGES][how - 1];
            if t.tables[number].is_empty() {
                return;
            }
            let mut r = rng.pick(&t.tables[number]);
            if number != SEGMENTS && rng.chance(60) {
                r.low = r.high - (r.high - r.low).min(0.125);
                r.high += 1.0;
            }
            t.tables[number].push(r);
        }
        _ => {
            let of = (class + 1) % 5;
            let r = Record { class: of, ..rng.pick(&t.tables[BANDS]) };
            let r = Record { band: 0, ..r };
            t.tables[PRIVILEGES].extend([r, r]);
        }
    }
}

/// A figure off the grid, above 2^38 or at it, beside the one that stands there: up where `up` says so, else down.
fn odd(rng: &mut Rng, x: f64, up: bool) -> f64 {
    let sign = if up { 1.0 } else { -1.0 };
    match rng.below(10) {
        0 | 1 => x + sign * 0.0625,
        2 if up => x.next_up(),
        2 => x.next_down(),
        3..=5 => sign * (FAR + 0.125),
        6 => sign * rng.pick(&[FAR + 1.0, BIG, FAR + 0.0625]),
        _ => sign * FAR,
    }
}

/// One figure of a table that fails a premise, or just doesn't; a part that is absent comes with it.
pub fn break_figure(rng: &mut Rng, t: &mut Table) {
    let up = rng.chance(50);
    let number = rng.below(22);
    match number {
        0 => t.data_limit = odd(rng, t.data_limit, true),
        1 => {
            t.flags |= ELSEWHERE;
            t.elsewhere_limit = odd(rng, t.elsewhere_limit, up);
        }
        2..=4 => {
            t.flags |= HAS_CHANNELS;
            let x = [&mut t.width, &mut t.offset, &mut t.tolerance];
            let x = x.into_iter().nth(number - 2).expect("one of three");
            *x = odd(rng, *x, up);
        }
        5 => {
            let i = rng.below(t.tables[SEGMENTS].len());
            let r = &mut t.tables[SEGMENTS][i];
            (r.flags, r.figure) = (r.flags | 1, odd(rng, 2800.0, true));
        }
        _ => {
            let table =
                [BANDS, SEGMENTS, CHANNELS, PRIVILEGES, AUTOMATIC, POWER, PLAN_DATA, PLAN_AVOID]
                    [(number - 6) / 2];
            match table {
                CHANNELS => t.flags |= HAS_CHANNELS,
                PLAN_DATA | PLAN_AVOID => t.flags |= HAS_PLAN,
                _ => {}
            }
            let low_end = table == CHANNELS || rng.chance(50);
            break_end(rng, table, &mut t.tables[table], low_end, up);
        }
    }
}

/// An end of a record. Bands and privileges mostly get the outermost one moved outwards, so that no two meet; a
/// range that is checked stays one.
fn break_end(rng: &mut Rng, table: usize, records: &mut Vec<Record>, low_end: bool, up: bool) {
    if records.is_empty() {
        let high = if table == CHANNELS { 0.0 } else { 8.0 };
        records.push(Record { high, ..Record::default() });
    }
    let mut i = rng.below(records.len());
    if matches!(table, BANDS | PRIVILEGES) && rng.chance(80) {
        let by_low = |a: &usize, b: &usize| records[*a].low.total_cmp(&records[*b].low);
        let by_high = |a: &usize, b: &usize| records[*a].high.total_cmp(&records[*b].high);
        let outermost = match low_end {
            true => (0..records.len()).min_by(by_low),
            false => (0..records.len()).max_by(by_high),
        };
        i = outermost.unwrap_or(i);
    }
    let outwards = matches!(table, BANDS | PRIVILEGES | AUTOMATIC);
    let r = &mut records[i];
    match low_end {
        true => r.low = odd(rng, r.low, up && !outwards),
        false => r.high = odd(rng, r.high, up || outwards),
    }
}

/// A premise of station or signal that fails, or just doesn't.
pub fn break_signal(rng: &mut Rng, t: &Table, s: &mut Station, e: &mut Edges) {
    let up = rng.chance(50);
    match rng.below(14) {
        0 => s.policy = rng.pick(&[0, 1, 3]),
        1 => s.itu_region = s.itu_region.wrapping_add(1),
        2 => s.control = 255,
        3 => s.license = 255,
        4 => s.sideband = 255,
        5 => {
            s.dial_known = 0;
            s.dial_hz = rng.pick(&[s.dial_hz, 0.0, f64::NAN, f64::INFINITY, 2.0 * BIG, 0.3]);
        }
        6 => s.dial_hz = odd(rng, s.dial_hz, up),
        7 | 8 => {
            let x = odd(rng, s.margin_lower_hz, up);
            match if UNEQUAL { rng.below(2) } else { 2 } {
                0 => s.margin_lower_hz = x,
                1 => s.margin_upper_hz = x,
                _ => (s.margin_lower_hz, s.margin_upper_hz) = (x, x),
            }
            // where the other can make up for it
            match UNEQUAL && x <= -FAR {
                true if s.margin_lower_hz == x => s.margin_upper_hz = FAR,
                true => s.margin_lower_hz = FAR,
                false => {}
            }
        }
        9..=11 => {
            let mut f = e.figures();
            let i = rng.below(4);
            f[i] = odd(rng, f[i], up);
            *e = Edges::of(f);
        }
        _ => {
            // no guarded width, or one below nought
            let f = e.figures();
            let (low, high) = match t.reading {
                0 => (f[0], f[1]),
                1 => (f[2], f[3]),
                _ => (f[0].min(f[2]), f[1].max(f[3])),
            };
            let less = if rng.chance(50) { 0.0 } else { rng.below(20) as f64 / 8.0 };
            let half = (4.0 * (high - low)).floor() / 8.0;
            match UNEQUAL {
                true => s.margin_upper_hz = -(high - low) - s.margin_lower_hz - less,
                false => (s.margin_lower_hz, s.margin_upper_hz) = (-half - less, -half - less),
            }
        }
    }
}

/// Edges that are read as this pair; the other mostly like it.
pub fn edges(rng: &mut Rng, reading: u8, sent: &Sent) -> Edges {
    let (low, high) = (sent.low, sent.high);
    let other = match rng.below(4) {
        0 => [some(rng, 80) / 8.0, some(rng, 80) / 8.0],
        1 => [low + 0.125, high],
        _ => [low, high],
    };
    let f = match reading {
        0 => [low, high, other[0], other[1]],
        1 => [other[0], other[1], low, high],
        _ => match rng.below(3) {
            0 => [low, high, low.max(other[0]), high.min(other[1])],
            1 => [low.max(other[0]), high.min(other[1]), low, high],
            _ => [low, high.min(other[1]), low.max(other[0]), high],
        },
    };
    Edges::of(f.map(|x| minus_zero(rng, x)))
}

/// Now and then a zero is the negative one.
pub fn minus_zero(rng: &mut Rng, x: f64) -> f64 {
    if x == 0.0 && rng.chance(20) { -0.0 } else { x }
}

/// A present dial for a list: in a row, on its end, beside it, between two rows, on the channel band, far away.
pub fn present(rng: &mut Rng, t: &Table, s: &Station, e: &Edges, bytes: &[u8], area: &Area) -> f64 {
    let mut rows = nearest::rows(t, bytes);
    rows.sort_by(|a, b| a.0.total_cmp(&b.0));
    let grid = |x: f64| (8.0 * x).floor() / 8.0;
    let x = match rng.below(16) {
        0..=3 if rows.len() > 1 => {
            // the middle of what is between two rows, or an eighth beside it
            let mut gaps = Vec::new();
            let mut top = rows[0].1;
            for &(low, high) in &rows[1..] {
                if low > top {
                    gaps.push((top, low));
                }
                top = top.max(high);
            }
            match gaps.is_empty() {
                true => top,
                false => {
                    let (below, above) = rng.pick(&gaps);
                    let middle = grid((below + above) / 2.0);
                    if rng.chance(60) { middle } else { middle + 0.125 }
                }
            }
        }
        0..=7 if !rows.is_empty() => {
            let (low, high) = rng.pick(&rows);
            match rng.below(6) {
                0 => low,
                1 => high,
                2 => low - 0.125,
                3 => high + 0.125,
                4 => low + rng.below((8.0 * (high - low)) as usize + 1) as f64 / 8.0,
                _ => {
                    let far = 1 + rng.below(2000);
                    if rng.chance(50) { low - far as f64 } else { high + far as f64 }
                }
            }
        }
        8 | 9 => {
            // a signal on the channel band, if there is one
            let of = |b: &&Record| b.band == t.channel_band;
            let home = t.tables[BANDS].iter().find(of).copied().unwrap_or(t.tables[BANDS][0]);
            let centre = t.tables[CHANNELS].first().map(|c| c.low - t.offset);
            match centre {
                Some(x) if rng.chance(50) => x,
                _ if rng.chance(50) => dial_for(rng, s, e, home.low),
                _ => dial_for(rng, s, e, grid((home.low + home.high) / 2.0)),
            }
        }
        10 => rng.pick(&[0.0, FAR, -FAR, 0.125, -0.125]),
        11 => 0.0,
        12 => rng.pick(&t.tables[SEGMENTS]).low,
        _ => area.point(rng),
    };
    minus_zero(rng, x.clamp(-FAR, FAR))
}

/// What is to be refused, in one way or more.
pub fn spoil(rng: &mut Rng, s: &mut Station, direction: &mut u8, e: &mut Edges) {
    for _ in 0..rng.pick(&[1, 1, 2, 3]) {
        match rng.below(6) {
            0 | 1 => damage::spoil_station(rng, s),
            2 => damage::spoil_direction(rng, direction),
            3 => match rng.below(4) {
                0 => s.control = 255,
                1 => s.license = 255,
                2 => s.sideband = 255,
                _ => s.dial_known = 0,
            },
            _ => damage::spoil_edges(rng, e),
        }
    }
    if !UNEQUAL {
        // the Rust has one margin
        s.margin_upper_hz = s.margin_lower_hz;
    }
}
