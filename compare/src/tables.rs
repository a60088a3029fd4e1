//! Tables to judge by. Their figures are drawn from a few points that many ranges share, so that
//! ranges touch, overlap and repeat; most are built around one signal, with edges on its own edges,
//! on its guarded ones, and one unit in the last place beside them.

use crate::draw::{BIG, Rng, Scale, UNEQUAL, nudge, plain, point, unit};
use crate::image::*;

/// A signal: what a station with this dial, sideband and margins, lower and upper, sends.
#[derive(Clone, Copy, Debug)]
pub struct Signal {
    pub dial: f64,
    pub low: f64,
    pub high: f64,
    pub margin: (f64, f64),
    pub sideband: u8,
}

impl Signal {
    fn air(&self) -> (f64, f64) {
        if self.sideband == 0 {
            (self.dial + self.low, self.dial + self.high)
        } else {
            (self.dial - self.high, self.dial - self.low)
        }
    }
}

/// A table with what the cases on it are aimed at.
pub struct World {
    pub scale: Scale,
    pub table: Table,
    pub image: Vec<u8>,
    /// Edges of its records.
    pub targets: Vec<f64>,
    /// Its limits, and stretches between targets.
    pub widths: Vec<f64>,
    /// The signal that it was built around.
    pub base: Option<Signal>,
    /// The class that most of its privileges are for.
    pub class: u8,
}

impl World {
    /// The same in edition 2, with these watts.
    pub fn with_watts(mut self, watts: (f64, f64)) -> Self {
        self.table.watts = Some(watts);
        self.image = self.table.encode();
        self
    }
}

fn rule(rng: &mut Rng) -> u16 {
    match rng.below(10) {
        0..=3 => rng.below(8) as u16,
        4..=6 => 7 + rng.below(40) as u16,
        7 => rng.pick(&[255, 256, 257, 65535, 65280]),
        _ => rng.next() as u16,
    }
}

pub fn range_of(rng: &mut Rng, pool: &[f64]) -> (f64, f64) {
    for _ in 0..20 {
        let (a, b) = (rng.pick(pool), rng.pick(pool));
        if a != b {
            return (a.min(b), a.max(b));
        }
    }
    whole(pool)
}

pub fn whole(pool: &[f64]) -> (f64, f64) {
    let low = pool.iter().copied().fold(f64::INFINITY, f64::min);
    let high = pool.iter().copied().fold(f64::NEG_INFINITY, f64::max);
    (low, high)
}

fn some_margin(rng: &mut Rng, scale: Scale) -> f64 {
    let u = unit(rng, scale);
    match rng.below(10) {
        0..=2 => 0.0,
        3..=6 => u * (1 + rng.below(16)) as f64,
        7 => -u * (1 + rng.below(8)) as f64,
        8 => point(
            rng,
            if scale == Scale::Hf || scale == Scale::Huge { Scale::Eighths } else { scale },
        )
        .abs(),
        _ => rng.pick(&[50.0, 1.0, 0.1, 2.4000000000000004, 0.3]),
    }
}

/// Lower and upper: the same where the Rust is asked.
pub fn some_margins(rng: &mut Rng, scale: Scale) -> (f64, f64) {
    let lower = some_margin(rng, scale);
    (lower, if UNEQUAL { some_margin(rng, scale) } else { lower })
}

pub fn some_audio(rng: &mut Rng, scale: Scale) -> f64 {
    let small = match scale {
        Scale::Hf | Scale::Huge => Scale::Eighths,
        other => other,
    };
    match rng.below(6) {
        0 => 0.0,
        1 => unit(rng, scale) * rng.below(40) as f64,
        2 => -unit(rng, scale) * rng.below(40) as f64,
        3 if scale == Scale::Hf => rng.pick(&[1250.0, 300.0, 100.0, 1000.5]),
        _ => point(rng, small),
    }
}

fn base_signal(rng: &mut Rng, scale: Scale) -> Signal {
    let low = some_audio(rng, scale);
    let mut high = some_audio(rng, scale);
    if high < low && rng.chance(85) {
        high = low + (low - high);
    }
    Signal {
        dial: point(rng, scale),
        low,
        high,
        margin: some_margins(rng, scale),
        sideband: rng.below(2) as u8,
    }
}

/// A small table whose ranges touch, overlap and repeat.
fn small_table(rng: &mut Rng, scale: Scale, base: Option<Signal>, class: u8) -> Table {
    let mut pool = Vec::new();
    let mut lengths = Vec::new();
    if let Some(s) = base {
        let (lo, hi) = s.air();
        let (glo, ghi) = (lo - s.margin.0, hi + s.margin.1);
        pool.extend([glo, ghi]);
        for x in [lo, hi, glo + s.margin.0, ghi - s.margin.1, s.dial] {
            if rng.chance(50) {
                pool.push(x);
            }
        }
        for _ in 0..rng.below(4) {
            let x = rng.pick(&pool);
            pool.push(nudge(rng, scale, x, 100));
        }
        let w = s.high - s.low;
        lengths.extend([w, w, w.next_down(), w + (s.margin.0 + s.margin.1)]);
        let far = unit(rng, scale) * (1 + rng.below(200)) as f64;
        pool.push(glo.min(ghi) - far);
        pool.push(glo.max(ghi) + far);
    }
    for _ in 0..2 + rng.below(6) {
        let x = point(rng, scale);
        pool.push(x);
        if rng.chance(25) {
            pool.push(nudge(rng, scale, x, 100));
        }
    }
    for x in &mut pool {
        *x = plain(*x);
    }
    if whole(&pool).0 == whole(&pool).1 {
        let x = pool[0];
        pool.push(if x >= BIG { x - 1.0 } else { plain(x.next_up()) });
    }
    for _ in 0..6 {
        let (a, b) = range_of(rng, &pool);
        lengths.push(b - a);
    }
    let numbers: [u8; 3] = rng.pick(&[[1, 2, 3], [20, 60, 40], [0, 255, 1], [7, 7, 8]]);
    let mut t = Table {
        region: rng.pick(&[0, 1, 2, 2, 3, 255]),
        reading: rng.below(3) as u8,
        ..Table::default()
    };
    for i in 0..6 {
        t.rules[i] = rule(rng);
    }
    let tables = &mut t.tables;
    for _ in 0..1 + rng.below(3) {
        let (low, high) = if rng.chance(55) { whole(&pool) } else { range_of(rng, &pool) };
        let band = rng.pick(&numbers);
        tables[BANDS].push(Record { low, high, band, ..Record::default() });
    }
    for _ in 0..1 + rng.below(4) {
        let home = rng.pick(&tables[BANDS]);
        let inside: Vec<f64> =
            pool.iter().copied().filter(|x| *x >= home.low && *x <= home.high).collect();
        let (low, high) =
            if rng.chance(15) { (home.low, home.high) } else { range_of(rng, &inside) };
        let mut r = Record {
            low,
            high,
            band: if rng.chance(80) { home.band } else { rng.pick(&numbers) },
            flags: rng.pick(&[0, 0, 0, 1, 1, 2, 3, 3]),
            rule: rule(rng),
            ..Record::default()
        };
        if r.flags & 1 != 0 {
            r.figure = limit(rng, scale, &lengths);
        }
        if r.flags & 2 != 0 {
            r.second = rule(rng);
        }
        tables[SEGMENTS].push(r);
    }
    for _ in 0..rng.below(7) {
        let (low, high) = if rng.chance(35) { whole(&pool) } else { range_of(rng, &pool) };
        let mut r = Record {
            low,
            high,
            class: if rng.chance(75) { class } else { rng.below(5) as u8 },
            flags: rng.pick(&[0, 0, 0, 1, 2, 3]),
            ..Record::default()
        };
        if r.flags & 1 != 0 {
            r.emissions = rng.below(16) as u8;
        }
        if r.flags & 2 != 0 {
            r.rule = rule(rng);
        }
        tables[PRIVILEGES].push(r);
    }
    if rng.chance(55) {
        // a friendly table: one band, one privilege, perhaps one segment over everything
        let (low, high) = whole(&pool);
        (tables[BANDS][0].low, tables[BANDS][0].high) = (low, high);
        let at = rng.below(tables[PRIVILEGES].len() + 1);
        tables[PRIVILEGES].insert(at, Record { low, high, class, ..Record::default() });
        if rng.chance(50) {
            let at = rng.below(tables[SEGMENTS].len() + 1);
            let band = tables[BANDS][0].band;
            tables[SEGMENTS]
                .insert(at, Record { low, high, band, rule: rule(rng), ..Record::default() });
        }
    }
    for _ in 0..rng.below(4) {
        let (low, high) = if rng.chance(20) { whole(&pool) } else { range_of(rng, &pool) };
        tables[AUTOMATIC].push(Record { low, high, ..Record::default() });
    }
    if rng.chance(30) {
        for _ in 0..1 + rng.below(2) {
            let band = rng.pick(&numbers);
            tables[EXCLUDED].push(Record { band, rule: rule(rng), ..Record::default() });
        }
    }
    for _ in 0..rng.below(4) {
        let (low, high) = free_range(rng, &pool);
        let mut r = Record {
            low,
            high,
            figure: watts(rng),
            flags: rng.below(2) as u8,
            rule: rule(rng),
            ..Record::default()
        };
        if r.flags & 1 != 0 {
            r.class = if rng.chance(50) { 1 << class } else { rng.below(32) as u8 };
        }
        tables[POWER].push(r);
    }
    if rng.chance(60) {
        t.flags |= HAS_PLAN;
        for table in [PLAN_DATA, PLAN_AVOID] {
            for _ in 0..rng.below(if table == PLAN_DATA { 4 } else { 3 }) {
                let (low, high) = free_range(rng, &pool);
                t.tables[table].push(Record { low, high, rule: rule(rng), ..Record::default() });
            }
        }
    }
    if rng.chance(60) {
        t.flags |= ELSEWHERE;
        t.elsewhere_limit =
            plain(if rng.chance(5) { -unit(rng, scale) } else { limit(rng, scale, &lengths) });
        if rng.chance(55) {
            t.flags |= RESPONSE;
        }
    } else {
        t.rules[1] = 0;
    }
    if rng.chance(50) {
        t.flags |= HAS_CHANNELS;
        t.channel_band =
            if rng.chance(85) { rng.pick(&t.tables[BANDS]).band } else { rng.pick(&numbers) };
        t.sideband = rng.below(2) as u8;
        channels(rng, scale, base, &pool, &lengths, &mut t);
    } else {
        t.rules[3] = 0;
    }
    if rng.chance(45) {
        t.flags |= HAS_EMISSIONS;
        t.emissions = rng.below(16) as u8;
    } else {
        t.rules[4] = 0;
    }
    t.data_limit = limit(rng, scale, &lengths);
    t
}

/// A range that nothing checks: mostly low below high, sometimes a point or reversed.
fn free_range(rng: &mut Rng, pool: &[f64]) -> (f64, f64) {
    match rng.below(10) {
        0 => {
            let x = rng.pick(pool);
            (x, x)
        }
        1 => {
            let (a, b) = range_of(rng, pool);
            (b, a)
        }
        2 => whole(pool),
        _ => range_of(rng, pool),
    }
}

/// A positive limit: a length that a signal may have exactly, or one beside it, or far above.
fn limit(rng: &mut Rng, scale: Scale, lengths: &[f64]) -> f64 {
    let x = match rng.below(10) {
        0..=3 => BIG,
        4..=8 => {
            let x = rng.pick(lengths);
            nudge(rng, scale, x, 20)
        }
        _ => unit(rng, scale),
    };
    if x > 0.0 { x.min(BIG) } else { f64::from_bits(1 + rng.below(3) as u64) }
}

pub fn watts(rng: &mut Rng) -> f64 {
    let x: f64 = rng.pick(&[0.0, 5.0, 9.15, 100.0, 200.0, 1500.0, -3.0, 0.1]);
    plain(match rng.below(6) {
        0 => x.next_up(),
        1 => x.next_down(),
        _ => x,
    })
}

/// A 60 m power limit: as stations have it, one unit in the last place beside that, zero, negative, tiny, up
/// to 2^40.
fn power_limit(rng: &mut Rng) -> f64 {
    plain(match rng.below(8) {
        0 => 0.0,
        1 => -rng.pick(&[f64::from_bits(1), 0.125, 3.0, 100.0, BIG]),
        2 => f64::from_bits(1 + rng.below(3) as u64),
        3 => rng.pick(&[BIG, BIG.next_down(), 1e9, f64::MIN_POSITIVE]),
        _ => watts(rng),
    })
}

/// The watts of a table of edition 2, of a channel and of the segment: any two, one figure twice, and edition
/// 1's, both, alone or exchanged.
pub fn some_watts(rng: &mut Rng) -> (f64, f64) {
    let (channel, segment) = FIXED_WATTS;
    match rng.below(12) {
        0 => (channel, segment),
        1 => (segment, channel),
        2 | 3 => (channel, power_limit(rng)),
        4 | 5 => (power_limit(rng), segment),
        6 => {
            let x = power_limit(rng);
            (x, x)
        }
        _ => (power_limit(rng), power_limit(rng)),
    }
}

fn channels(
    rng: &mut Rng,
    scale: Scale,
    base: Option<Signal>,
    pool: &[f64],
    lengths: &[f64],
    t: &mut Table,
) {
    let u = unit(rng, scale);
    for _ in 0..rng.below(4) {
        let mut centre = rng.pick(pool);
        if rng.chance(40) {
            let (a, b) = range_of(rng, pool);
            centre = (a + b) / 2.0;
        }
        t.tables[CHANNELS].push(Record { low: plain(centre), ..Record::default() });
    }
    let centre = t.tables[CHANNELS].first().map_or(rng.pick(pool), |c| c.low);
    t.width = match rng.below(8) {
        0 => -rng.pick(lengths),
        1 => 3.0 * u,
        2 | 3 => {
            let x = rng.pick(pool);
            2.0 * (x - centre).abs()
        }
        4 => rng.pick(lengths) * 2.0,
        _ => rng.pick(lengths),
    };
    t.offset = match rng.below(4) {
        0 => u * rng.below(20) as f64,
        1 => -u * rng.below(20) as f64,
        2 => centre - rng.pick(pool),
        _ => 0.0,
    };
    t.tolerance = match rng.below(6) {
        0 => 0.0,
        1 => BIG,
        2 => -u,
        3 => (rng.pick(pool) - rng.pick(pool)).abs(),
        _ => u * rng.below(10) as f64,
    };
    if let Some(s) = base {
        let (lo, hi) = s.air();
        let (glo, ghi) = (lo - s.margin.0, hi + s.margin.1);
        if rng.chance(50) {
            t.width = plain(2.0 * (centre - glo).max(ghi - centre));
        }
        if rng.chance(60) {
            t.offset = centre - s.dial;
            t.offset = nudge(rng, scale, t.offset, 30);
        }
        if rng.chance(60) {
            let carrier = centre - t.offset;
            let middle = (lo + hi) / 2.0;
            t.tolerance =
                if rng.chance(50) { (s.dial - carrier).abs() } else { (middle - centre).abs() };
            t.tolerance = nudge(rng, scale, t.tolerance, 30);
        }
    }
    t.width = nudge(rng, scale, t.width, 15);
    (t.width, t.offset, t.tolerance) = (plain(t.width), plain(t.offset), plain(t.tolerance));
}

/// A table like Part 97's for HF. The figures are of its kind, not quoted from it.
fn hf_table(rng: &mut Rng) -> Table {
    let khz = |x: f64| x * 1000.0;
    let span = |low: f64, high: f64| Record { low: khz(low), high: khz(high), ..Record::default() };
    let mut t = Table {
        data_limit: 2800.0,
        elsewhere_limit: 500.0,
        width: 2800.0,
        offset: 1500.0,
        tolerance: 50.0,
        region: 2,
        reading: 2,
        flags: 31,
        channel_band: 60,
        sideband: 0,
        emissions: 3,
        rules: [7, 8, 9, 10, 11, 12],
        ..Table::default()
    };
    let bands: [(u8, f64, f64, f64, f64); 11] = [
        (160, 1800.0, 2000.0, 1800.0, 2000.0),
        (80, 3500.0, 4000.0, 3500.0, 3600.0),
        (60, 5330.5, 5407.0, 5351.5, 5366.5),
        (40, 7000.0, 7300.0, 7000.0, 7125.0),
        (30, 10100.0, 10150.0, 10100.0, 10150.0),
        (20, 14000.0, 14350.0, 14000.0, 14150.0),
        (17, 18068.0, 18168.0, 18068.0, 18110.0),
        (15, 21000.0, 21450.0, 21000.0, 21200.0),
        (12, 24890.0, 24990.0, 24890.0, 24930.0),
        (10, 28000.0, 29700.0, 28000.0, 28300.0),
        (6, 50000.0, 54000.0, 50100.0, 54000.0),
    ];
    for (i, (band, low, high, data_low, data_high)) in bands.into_iter().enumerate() {
        if rng.chance(8) {
            continue;
        }
        t.tables[BANDS].push(Record { band, ..span(low, high) });
        let mut s = Record { band, rule: 20 + i as u16, ..span(data_low, data_high) };
        if band == 6 {
            (s.flags, s.figure, s.second) = (3, 20_000.0, 19);
        }
        t.tables[SEGMENTS].push(s);
        t.tables[PRIVILEGES].push(Record { class: 4, ..span(low, high) });
        let upper = if band == 60 || band == 30 { 0.0 } else { 25.0 };
        for class in [3, 2] {
            t.tables[PRIVILEGES]
                .push(Record { class, ..span(low + upper, data_high.max(low + 30.0)) });
        }
    }
    for (low, high, data) in [
        (3525.0, 3600.0, false),
        (7025.0, 7125.0, false),
        (21025.0, 21200.0, false),
        (28000.0, 28300.0, true),
        (28300.0, 28500.0, false),
    ] {
        for class in [1, 0] {
            let emissions = if data { 3 } else { 2 };
            t.tables[PRIVILEGES].push(Record {
                class,
                flags: 3,
                emissions,
                rule: 6,
                ..span(low, high)
            });
        }
    }
    for (low, high) in [
        (3585.0, 3600.0),
        (7100.0, 7105.0),
        (10140.0, 10150.0),
        (14095.0, 14099.5),
        (14100.5, 14112.0),
        (18105.0, 18110.0),
        (21090.0, 21100.0),
        (24925.0, 24930.0),
        (28120.0, 28189.0),
        (50100.0, 50200.0),
    ] {
        t.tables[AUTOMATIC].push(span(low, high));
    }
    if rng.chance(60) {
        t.tables[EXCLUDED].push(Record { band: 60, rule: 13, ..Record::default() });
    }
    for centre in [5332.0, 5348.0, 5373.0, 5405.0] {
        t.tables[CHANNELS].push(Record { low: khz(centre), ..Record::default() });
    }
    t.tables[POWER].push(Record {
        figure: 200.0,
        flags: 1,
        class: 3,
        rule: 14,
        ..span(3500.0, 28500.0)
    });
    t.tables[POWER].push(Record { figure: 200.0, rule: 15, ..span(10100.0, 10150.0) });
    t.tables[POWER].push(Record { figure: 1500.0, rule: 16, ..span(1800.0, 54000.0) });
    for (low, high) in [
        (3570.0, 3600.0),
        (7070.0, 7125.0),
        (10130.0, 10150.0),
        (14070.0, 14112.0),
        (18100.0, 18110.0),
        (21070.0, 21110.0),
        (28070.0, 28150.0),
    ] {
        t.tables[PLAN_DATA].push(Record { rule: 50, ..span(low, high) });
    }
    for (low, high) in
        [(14099.5, 14100.5), (18109.5, 18110.5), (7074.0, 7077.0), (14074.0, 14077.0)]
    {
        t.tables[PLAN_AVOID].push(Record { rule: 60, ..span(low, high) });
    }
    if rng.chance(30) {
        t.flags &= !RESPONSE;
    }
    if rng.chance(10) {
        t.reading = rng.below(3) as u8;
    }
    if rng.chance(15) {
        t.sideband = 1;
    }
    t
}

/// Many records, so that marks and indices go up to 255.
fn crowd(rng: &mut Rng, t: &mut Table, scale: Scale) {
    let grow = |rng: &mut Rng, t: &mut Table, table: usize, to: usize| {
        let have = t.tables[table].clone();
        if have.is_empty() {
            return;
        }
        while t.tables[table].len() < to {
            let mut r = rng.pick(&have);
            match table {
                POWER => {
                    r.figure = watts(rng);
                    r.rule = rule(rng);
                }
                PLAN_DATA | PLAN_AVOID => {
                    r.low = plain(nudge(rng, scale, r.low, 50));
                    r.high = plain(nudge(rng, scale, r.high, 50));
                }
                SEGMENTS => r.rule = rule(rng),
                _ => {}
            }
            let at = rng.below(t.tables[table].len() + 1);
            t.tables[table].insert(at, r);
        }
    };
    let all = [BANDS, SEGMENTS, CHANNELS, PRIVILEGES, AUTOMATIC, POWER, PLAN_DATA, PLAN_AVOID];
    if rng.chance(50) {
        let table = rng.pick(&[POWER, POWER, PLAN_DATA, PLAN_AVOID, BANDS, CHANNELS, AUTOMATIC]);
        let any = 128 + rng.below(128);
        let to = rng.pick(&[256, 256, 255, any]);
        grow(rng, t, table, to);
    } else {
        for _ in 0..1 + rng.below(3) {
            let table = rng.pick(&all);
            let to = 8 + rng.below(30);
            grow(rng, t, table, to);
        }
    }
}

/// As many records as an image can have, most of them far from everything: the others come late.
fn vast(rng: &mut Rng, t: &mut Table) {
    let far = |from: f64| Record { low: from - BIG, high: from + 1.0 - BIG, ..Record::default() };
    let most = rng.pick(&[227, 227, 200, 256]);
    let mut left = 2045 - t.tables.iter().map(Vec::len).sum::<usize>();
    let order = rng.below(9);
    for n in 0..9 {
        let table = (n + order) % 9;
        if (table == CHANNELS && !t.has(HAS_CHANNELS)) || (table >= PLAN_DATA && !t.has(HAS_PLAN)) {
            continue;
        }
        let more = left.min(most - t.tables[table].len().min(most));
        left -= more;
        let dummy = match table {
            BANDS => Record { band: 99, ..far(0.0) },
            SEGMENTS => Record { band: 99, rule: 99, ..far(0.0) },
            CHANNELS => Record { low: 5.0 - BIG, ..Record::default() },
            PRIVILEGES => Record { class: rng.below(5) as u8, ..far(2.0) },
            EXCLUDED => Record { band: 98, rule: 98, ..Record::default() },
            POWER => Record { rule: 97, ..far(4.0) },
            _ => far(4.0),
        };
        let at = rng.pick(&[0, 0, t.tables[table].len()]);
        t.tables[table].splice(at..at, std::iter::repeat_n(dummy, more));
    }
    if t.tables[SEGMENTS].iter().any(|s| s.band == 99)
        && !t.tables[BANDS].iter().any(|b| b.band == 99)
    {
        t.tables[SEGMENTS].retain(|s| s.band != 99);
    }
}

pub fn world(rng: &mut Rng) -> World {
    let scale = rng.pick(&[
        Scale::Eighths,
        Scale::Eighths,
        Scale::Eighths,
        Scale::Hf,
        Scale::Hf,
        Scale::Decimal,
        Scale::Decimal,
        Scale::Wild,
        Scale::Huge,
        Scale::Tiny,
        Scale::Mixed,
    ]);
    let base = rng.chance(60).then(|| base_signal(rng, scale));
    let class = rng.below(5) as u8;
    if rng.chance(8) {
        let mut table = hf_table(rng);
        if rng.chance(4) {
            vast(rng, &mut table);
        }
        return settle(table, Scale::Hf, None, class);
    }
    let mut table = small_table(rng, scale, base, class);
    if rng.chance(4) {
        crowd(rng, &mut table, scale);
    }
    if rng.below(200) == 0 && scale != Scale::Huge && scale != Scale::Mixed {
        vast(rng, &mut table);
    }
    settle(table, scale, base, class)
}

/// A world for channel against segment: on the channel band, a segment about a signal's guarded range, and
/// channels that touch, cross or hold it, and stand off it.
pub fn brush(rng: &mut Rng) -> World {
    let scale = rng.pick(&[
        Scale::Eighths,
        Scale::Eighths,
        Scale::Hf,
        Scale::Decimal,
        Scale::Wild,
        Scale::Huge,
        Scale::Tiny,
        Scale::Mixed,
    ]);
    let base = base_signal(rng, scale);
    let class = rng.below(5) as u8;
    let mut t = small_table(rng, scale, Some(base), class);
    let (lo, hi) = base.air();
    let (glo, ghi) = (lo - base.margin.0, hi + base.margin.1);
    let (low, high) = (glo.min(ghi), glo.max(ghi));
    let u = unit(rng, scale);
    let far = u * (4 + rng.below(60)) as f64;
    let number = rng.pick(&t.tables[BANDS]).band;
    let whole = Record { low: plain(low - far), high: plain(high + far), ..Record::default() };
    t.tables[BANDS].insert(0, Record { band: number, ..whole });
    let at = rng.below(t.tables[PRIVILEGES].len() + 1);
    t.tables[PRIVILEGES].insert(at, Record { class, ..whole });
    // segments: of the band or of another number, each about the range or up to one of its ends
    for _ in 0..1 + rng.below(3) {
        let mut r = Record { band: number, rule: rule(rng), ..whole };
        if rng.chance(60) {
            (r.low, r.high) = (plain(low - u * rng.below(4) as f64), plain(high));
        }
        if rng.chance(40) {
            r.high = plain(high + u * rng.below(4) as f64);
        }
        (r.low, r.high) = (r.low.max(whole.low), r.high.min(whole.high));
        if rng.chance(25) {
            r.band = number.wrapping_add(1);
        }
        let at = rng.below(t.tables[SEGMENTS].len() + 1);
        t.tables[SEGMENTS].insert(at, r);
    }
    t.flags |= HAS_CHANNELS;
    (t.channel_band, t.sideband, t.rules[3]) = (number, rng.below(2) as u8, rule(rng));
    let long = high - low;
    t.width = match rng.below(6) {
        0 => long,
        1 => long / 2.0,
        2 => long * 2.0,
        3 => long - u,
        _ => u * (1 + rng.below(30)) as f64,
    };
    t.width = plain(nudge(rng, scale, t.width, 20));
    let half = t.width / 2.0;
    t.tables[CHANNELS].clear();
    for _ in 0..1 + rng.below(4) {
        let x = match rng.below(8) {
            0 => low - half,
            1 => high + half,
            2 | 3 => (low + high) / 2.0,
            4 => low,
            5 => high,
            6 => low - half + u * rng.below(9) as f64,
            _ => high + t.width,
        };
        let low = plain(nudge(rng, scale, x, 20));
        t.tables[CHANNELS].push(Record { low, ..Record::default() });
    }
    let centre = t.tables[CHANNELS][0].low;
    t.offset = if rng.chance(60) { centre - base.dial } else { u * rng.below(20) as f64 };
    t.tolerance = match rng.below(4) {
        0 => BIG,
        1 => u * rng.below(4) as f64,
        2 => ((lo + hi) / 2.0 - centre).abs(),
        _ => far,
    };
    t.tolerance = nudge(rng, scale, t.tolerance, 20);
    (t.offset, t.tolerance) = (plain(t.offset), plain(t.tolerance));
    if rng.chance(75) {
        t.flags &= !HAS_EMISSIONS;
        (t.emissions, t.rules[4]) = (0, 0);
    }
    if rng.chance(75) {
        t.tables[EXCLUDED].clear();
    }
    settle(t, scale, Some(base), class)
}

/// A world whose dial list is longer than 16 bits can count: 256 segments, 257 or more pieces each.
pub fn long_list(rng: &mut Rng) -> World {
    let wide = |high: f64| Record { low: 0.0, high, ..Record::default() };
    let mut t = Table {
        data_limit: 1000.0,
        reading: 2,
        region: 2,
        rules: [7, 0, 9, 0, 0, 12],
        ..Table::default()
    };
    t.tables[BANDS].push(Record { band: 1, ..wide(100_000.0) });
    for i in 0..256 {
        let low = (i * 3) as f64;
        t.tables[SEGMENTS].push(Record {
            low,
            high: low + 2.0,
            band: 1,
            rule: 20 + i as u16,
            ..Record::default()
        });
    }
    for _ in 0..128 + rng.below(8) {
        t.tables[PRIVILEGES].push(Record { class: 4, ..wide(2000.0) });
    }
    for _ in 0..2 {
        t.tables[AUTOMATIC].push(wide(1000.0));
    }
    settle(t, Scale::Eighths, None, 4)
}

/// A world with 256 power records and 256 of each plan table, small ones side by side, so that every
/// mark and every index is met.
pub fn marks(rng: &mut Rng) -> World {
    let class = rng.below(5) as u8;
    let span = |low: f64, high: f64| Record { low, high, ..Record::default() };
    let mut t = Table {
        data_limit: 40.0,
        elsewhere_limit: 20.0,
        region: 2,
        reading: rng.below(3) as u8,
        flags: ELSEWHERE | HAS_PLAN,
        rules: [7, 8, 9, 0, 0, 12],
        ..Table::default()
    };
    t.tables[BANDS].push(Record { band: 20, ..span(-100.0, 9000.0) });
    t.tables[SEGMENTS].push(Record { band: 20, rule: 13, ..span(-50.0, 8000.0) });
    t.tables[PRIVILEGES].push(Record { class, ..span(-50.0, 8500.0) });
    t.tables[AUTOMATIC].push(span(0.0, 4000.0));
    for i in 0..256 {
        let low = 30.0 * i as f64;
        let mut r = Record { figure: watts(rng), rule: rule(rng), ..span(low, low + 12.0) };
        if rng.chance(20) {
            (r.flags, r.class) = (1, rng.below(32) as u8 | 1 << class);
        }
        t.tables[POWER].push(r);
        t.tables[PLAN_DATA].push(Record { rule: rule(rng), ..span(low, low + 15.0) });
        t.tables[PLAN_AVOID].push(Record { rule: rule(rng), ..span(low + 20.0, low + 22.0) });
    }
    for table in [POWER, PLAN_DATA, PLAN_AVOID] {
        let by = rng.below(256);
        t.tables[table].rotate_left(by);
    }
    settle(t, Scale::Eighths, None, class)
}

pub fn settle(table: Table, scale: Scale, base: Option<Signal>, class: u8) -> World {
    let mut targets = Vec::new();
    let mut widths = vec![table.data_limit];
    if table.has(ELSEWHERE) {
        widths.push(table.elsewhere_limit);
    }
    for (number, records) in table.tables.iter().enumerate() {
        for r in records {
            match number {
                EXCLUDED => {}
                CHANNELS => {
                    let carrier = r.low - table.offset;
                    targets.extend([
                        r.low,
                        carrier,
                        carrier - table.tolerance,
                        carrier + table.tolerance,
                        r.low - table.width / 2.0,
                        r.low + table.width / 2.0,
                    ]);
                }
                _ => targets.extend([r.low, r.high]),
            }
            if number == SEGMENTS && r.flags & 1 != 0 {
                widths.extend([r.figure, r.figure]);
            }
        }
    }
    targets.sort_by(f64::total_cmp);
    targets.dedup();
    let image = table.encode();
    World { scale, table, image, targets, widths, base, class }
}
