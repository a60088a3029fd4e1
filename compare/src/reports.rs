//! Reports of tables (document 02, 5): tables whose ranges share stretches, ends or nothing, for every class
//! and for bytes that are none, with room for the rows, for one too few and for some more. The rows are
//! worked out in report.rs; every lent byte is compared, and eight on either side of those lent; and the
//! tidy question must agree with the overlaps.

use crate::Run;
use crate::compare::{self, Call, Reported, Room};
use crate::damage;
use crate::draw::{BIG, Rng, Scale, nudge, plain, point};
use crate::expect;
use crate::fixed::{practice, small, span, wrong};
use crate::image::*;
use crate::oracle::adapter::Prepared;
use crate::reach::Key;
use crate::report::{self, GAP, ROW, Row};
use crate::tables::{self, range_of, settle, whole};

/// What the reports of a run met.
#[derive(Default)]
pub struct Met {
    pub reports: u64,
    pub rows: u64,
    pub overlaps: u64,
    pub gaps: u64,
    pub refused: u64,
}

impl Run {
    pub fn report(
        &mut self,
        image: &[u8],
        p: &Prepared,
        class: u8,
        room: Room,
        fill: u64,
    ) -> Reported {
        let told = compare::report(image, p, class, room, fill);
        let found = self.or_end(told, image, &expect::FRESH, Call::Report { class, room, fill });
        if class > 4 {
            self.reach.count("report refused 20, image", p.refusal.into(), 0);
            self.reach.count("report, no class", class.into(), 0);
        }
        if found.refusal != 0 {
            self.reports.refused += 1;
            self.reach.count("report refused", found.refusal.into(), 0);
        } else if let Some(table) = &p.table {
            self.reports.reports += 1;
            self.reports.rows += found.rows.len() as u64;
            self.reported(table, class, &found.rows);
        }
        if found.refusal == 0 || found.refusal == 25 {
            self.room(&found);
        }
        found
    }

    fn room(&mut self, found: &Reported) {
        let needed = ROW * found.needed;
        let how = match found.lent as i64 - needed as i64 {
            0 if needed == 0 => 0,
            _ if found.lent == 0 => 1,
            -1 => 2,
            -24 => 3,
            0 => 4,
            1..=23 => 5,
            24.. => 6,
            _ => return,
        };
        self.reach.count("report bytes lent", how, 0);
    }

    /// What an answered report is about.
    fn reported(&mut self, t: &Table, class: u8, rows: &[Row]) {
        let reach = &mut self.reach;
        let size = match rows.len() {
            0 => 0,
            1 => 1,
            2..=65_535 => 2,
            65_536..=131_071 => 3,
            _ => 4,
        };
        reach.count("report rows", size, 0);
        let (overlaps, gaps) = rows.split_at(rows.iter().filter(|row| row.is_overlap()).count());
        self.reports.overlaps += overlaps.len() as u64;
        self.reports.gaps += gaps.len() as u64;
        let overlapping = u16::from(!overlaps.is_empty());
        reach.count("report and tidy", overlapping, report::at_home(t).into());
        for row in rows.iter().take(64) {
            reach.count("report row, class", row.kind.into(), row.class.into());
        }
        for row in overlaps.iter().take(64) {
            let of = &t.tables[usize::from(row.kind)];
            let (a, b) = (of[usize::from(row.first)], of[usize::from(row.second)]);
            let how = match ((a.low, a.high), (b.low, b.high)) {
                (a, b) if a == b => 0,
                (a, b) if a.0 == b.0 || a.1 == b.1 => 1,
                (a, b) if (a.0 < b.0) != (a.1 < b.1) => 2,
                _ => 3,
            };
            reach.count("report pair", row.kind.into(), how);
            if row.kind == PRIVILEGES as u8 && row.class != class {
                reach.count("report pair of another class", row.class.into(), 0);
            }
        }
        let privileges = |row: &&Row| row.kind == PRIVILEGES as u8;
        let of: Vec<u8> =
            overlaps.iter().filter(privileges).map(|row| row.class).take(64).collect();
        // one class, another, and the first again
        if of.windows(2).filter(|pair| pair[0] != pair[1]).count() > 1 {
            reach.count("report classes in turn", 0, 0);
        }
        if t.tables.iter().map(Vec::len).sum::<usize>() < 64 {
            self.touching(t, class);
            self.gaps(t, class, gaps);
        }
    }

    /// Ranges that touch, which is no row.
    fn touching(&mut self, t: &Table, class: u8) {
        for table in [BANDS, SEGMENTS, PRIVILEGES] {
            let of = &t.tables[table];
            let touch = |a: &Record, b: &Record| a.high == b.low && a.class == b.class;
            if of.iter().any(|a| of.iter().any(|b| touch(a, b))) {
                self.reach.count("report touching", table as u16, 0);
            }
        }
        let held: Vec<&Record> = t.tables[PRIVILEGES].iter().filter(|p| p.class == class).collect();
        let joint = |x: f64| held.iter().any(|p| p.high == x) && held.iter().any(|p| p.low == x);
        for s in &t.tables[SEGMENTS] {
            let inside = |x: f64| s.low < x && x < s.high;
            if held.iter().any(|p| inside(p.low) && joint(p.low)) {
                self.reach.count("report privileges that touch in a segment", 0, 0);
            }
        }
    }

    fn gaps(&mut self, t: &Table, class: u8, gaps: &[Row]) {
        let reach = &mut self.reach;
        for (i, s) in t.tables[SEGMENTS].iter().enumerate() {
            let of: Vec<&Row> = gaps.iter().filter(|row| usize::from(row.first) == i).collect();
            let how = of.iter().map(|row| match (row.low == s.low, row.high == s.high) {
                (true, true) => 1,
                (true, false) => 2,
                (false, true) => 3,
                (false, false) => 4,
            });
            how.for_each(|how| reach.count("report gap", how, 0));
            if of.is_empty() {
                reach.count("report gap", 0, 0);
            }
            if of.len() > 2 {
                reach.count("report gap", 5, 0);
            }
        }
        let shared =
            |a: &Row| gaps.iter().any(|b| b.first != a.first && (b.low, b.high) == (a.low, a.high));
        if gaps.iter().any(shared) {
            reach.count("report gap", 6, 0);
        }
        // a privilege whose list lacks data covers all the same
        let silent = |p: &Record| p.class == class && p.flags & 1 != 0 && p.emissions & 1 == 0;
        if gaps.is_empty() && t.tables[PRIVILEGES].iter().any(silent) {
            reach.count("report gap", 7, 0);
        }
    }
}

/// What reports have to meet.
pub fn required() -> Vec<Key> {
    let mut out = Vec::new();
    let mut all = |what, a: u16, bs: &[u16]| out.extend(bs.iter().map(|&b| (what, a, b)));
    for number in (1..=14).chain([20, 25]) {
        all("report refused", number, &[0]);
    }
    for number in 0..=14 {
        all("report refused 20, image", number, &[0]);
    }
    for class in 5..=255 {
        all("report, no class", class, &[0]);
    }
    // none, one, several, more than 16 bits count, the most
    for size in 0..=4 {
        all("report rows", size, &[0]);
    }
    // none needed and none lent; of some: none lent, a byte too few, a row too few, enough, some bytes more,
    // a row and more
    for how in 0..=6 {
        all("report bytes lent", how, &[0]);
    }
    // with and without an overlap: a segment in no band of its number, and all at home
    all("report and tidy", 0, &[0, 1]);
    all("report and tidy", 1, &[0, 1]);
    let classes = [0, 1, 2, 3, 4];
    all("report row, class", BANDS as u16, &[0]);
    all("report row, class", SEGMENTS as u16, &[0]);
    all("report row, class", PRIVILEGES as u16, &classes);
    all("report row, class", GAP.into(), &classes);
    for table in [BANDS, SEGMENTS, PRIVILEGES] {
        // alike, one end in common, one inside the other, crossing
        all("report pair", table as u16, &[0, 1, 2, 3]);
        all("report touching", table as u16, &[0]);
    }
    for class in classes {
        all("report pair of another class", class, &[0]);
    }
    all("report classes in turn", 0, &[0]);
    all("report privileges that touch in a segment", 0, &[0]);
    // none in a segment, the whole of it, at its lower end, at its upper, between, more than two, one that
    // two segments share, none beside a privilege that lists no data
    for how in 0..=7 {
        all("report gap", how, &[0]);
    }
    out
}

// ------------------------------------------------------------------------------------ tables

const SCALES: [Scale; 9] = [
    Scale::Eighths,
    Scale::Eighths,
    Scale::Hf,
    Scale::Hf,
    Scale::Decimal,
    Scale::Wild,
    Scale::Huge,
    Scale::Tiny,
    Scale::Mixed,
];

/// Some points, all different, from the lowest up, many with one beside them.
fn points(rng: &mut Rng, scale: Scale, most: usize) -> Vec<f64> {
    let mut out = Vec::new();
    for _ in 0..2 + rng.below(most) {
        let x = point(rng, scale);
        out.push(plain(x));
        if rng.chance(30) {
            out.push(plain(nudge(rng, scale, x, 100)));
        }
    }
    let x = out[0];
    out.push(if x >= BIG { x - 1.0 } else { plain(x.next_up()) });
    out.sort_by(f64::total_cmp);
    out.dedup();
    out
}

fn privilege(rng: &mut Rng, (low, high): (f64, f64), class: u8) -> Record {
    let mut r = Record { low, high, class, ..Record::default() };
    if rng.chance(15) {
        (r.flags, r.emissions) = (1, rng.below(16) as u8);
    }
    r
}

/// Tables that a report does not look at, with ranges over one another.
fn others(rng: &mut Rng, t: &mut Table, pool: &[f64]) {
    for table in [AUTOMATIC, POWER, PLAN_DATA, PLAN_AVOID] {
        for _ in 0..rng.below(3) {
            let (low, high) = range_of(rng, pool);
            t.tables[table].push(Record { low, high, ..Record::default() });
        }
    }
    t.flags = HAS_PLAN;
}

/// Ranges at random over a few points that they share.
fn slips(rng: &mut Rng) -> Table {
    let scale = rng.pick(&SCALES);
    let most = 2 + rng.below(10);
    let pool = points(rng, scale, most);
    let mut t = Table { data_limit: 1.0, ..Table::default() };
    others(rng, &mut t, &pool);
    let numbers: u8 = rng.pick(&[1, 2, 3]);
    let number = |rng: &mut Rng| rng.below(numbers.into()) as u8;
    for _ in 0..1 + rng.below(5) {
        let (low, high) = if rng.chance(25) { whole(&pool) } else { range_of(rng, &pool) };
        let band = number(rng);
        t.tables[BANDS].push(Record { low, high, band, ..Record::default() });
    }
    for _ in 0..1 + rng.below(5) {
        let home = rng.pick(&t.tables[BANDS]);
        let inside: Vec<f64> =
            pool.iter().copied().filter(|x| home.low <= *x && *x <= home.high).collect();
        let (low, high) = range_of(rng, &inside);
        let band = if rng.chance(70) { home.band } else { number(rng) };
        t.tables[SEGMENTS].push(Record { low, high, band, ..Record::default() });
    }
    let class = rng.below(5) as u8;
    for _ in 0..rng.below(12) {
        let class = if rng.chance(60) { class } else { rng.below(5) as u8 };
        let range = if rng.chance(10) { whole(&pool) } else { range_of(rng, &pool) };
        let r = privilege(rng, range, class);
        t.tables[PRIVILEGES].push(r);
    }
    t
}

/// Ranges over some of the points that do not overlap; many touch.
fn apart(rng: &mut Rng, pool: &[f64]) -> Vec<(f64, f64)> {
    let mut out = Vec::new();
    let mut at = rng.below(2);
    while at + 1 < pool.len() {
        let to = (at + 1 + rng.below(3)).min(pool.len() - 1);
        out.push((pool[at], pool[to]));
        at = to + rng.pick(&[0, 0, 1]);
    }
    out
}

fn shuffled<T>(rng: &mut Rng, mut of: Vec<T>) -> Vec<T> {
    for i in (1..of.len()).rev() {
        of.swap(i, rng.below(i + 1));
    }
    of
}

/// A tidy table, its records in no order.
fn tidy(rng: &mut Rng) -> Table {
    let scale = rng.pick(&SCALES);
    let most = 4 + rng.below(20);
    let pool = points(rng, scale, most);
    let mut t = Table { data_limit: 1.0, ..Table::default() };
    others(rng, &mut t, &pool);
    let mut bands = apart(rng, &pool);
    if bands.is_empty() || rng.chance(30) {
        bands = vec![whole(&pool)];
    }
    for (band, (low, high)) in bands.into_iter().enumerate() {
        let band = band as u8;
        t.tables[BANDS].push(Record { low, high, band, ..Record::default() });
        let inside: Vec<f64> = pool.iter().copied().filter(|x| low <= *x && *x <= high).collect();
        let segments = if rng.chance(30) { vec![(low, high)] } else { apart(rng, &inside) };
        for (low, high) in segments {
            if rng.chance(80) {
                t.tables[SEGMENTS].push(Record { low, high, band, ..Record::default() });
            }
        }
    }
    if t.tables[SEGMENTS].is_empty() {
        let Record { low, high, band, .. } = t.tables[BANDS][0];
        t.tables[SEGMENTS].push(Record { low, high, band, ..Record::default() });
    }
    for class in 0..5 {
        if rng.chance(60) {
            for range in apart(rng, &pool) {
                if rng.chance(85) {
                    let r = privilege(rng, range, class);
                    t.tables[PRIVILEGES].push(r);
                }
            }
        }
    }
    for table in [BANDS, SEGMENTS, PRIVILEGES] {
        t.tables[table] = shuffled(rng, std::mem::take(&mut t.tables[table]));
    }
    t
}

/// A tidy table with one end moved a little, or one number changed.
fn nearly_tidy(rng: &mut Rng) -> Table {
    let mut t = tidy(rng);
    let table = rng.pick(&[BANDS, SEGMENTS, PRIVILEGES]);
    if t.tables[table].is_empty() {
        return t;
    }
    let i = rng.below(t.tables[table].len());
    let r = &mut t.tables[table][i];
    match rng.below(4) {
        0 => r.high = plain(r.high.next_up()),
        1 => r.low = plain(r.low.next_down()),
        2 if table == PRIVILEGES => r.class = rng.below(5) as u8,
        2 => r.band ^= 1,
        _ => {
            let twin = *r;
            let at = rng.below(t.tables[table].len() + 1);
            if t.tables[table].len() < 256 {
                t.tables[table].insert(at, twin);
            }
        }
    }
    t
}

/// As many records of the three tables as there can be, most of them apart: few rows, with late indices.
fn long(rng: &mut Rng) -> Table {
    let mut t = Table { data_limit: 1.0, ..Table::default() };
    let step = |i: usize| span(10.0 * i as f64, 10.0 * i as f64 + 10.0);
    for table in [BANDS, SEGMENTS, PRIVILEGES] {
        let class = if table == PRIVILEGES { rng.below(5) as u8 } else { 0 };
        t.tables[table] = (0..256).map(|i| Record { class, ..step(i) }).collect();
    }
    for _ in 0..1 + rng.below(6) {
        let (table, i) = (rng.pick(&[BANDS, SEGMENTS, PRIVILEGES]), rng.below(256));
        let r = &mut t.tables[table][i];
        match rng.below(3) {
            0 => r.high -= 1.0 + rng.below(8) as f64,
            1 if table != SEGMENTS => r.low -= 1.0 + rng.below(30) as f64,
            _ if table == PRIVILEGES => r.class = rng.below(5) as u8,
            _ => {}
        }
    }
    // a segment whose band was cut lies in no band
    t.tables[BANDS][0].high = 2560.0;
    if rng.chance(50) {
        for table in [SEGMENTS, PRIVILEGES] {
            t.tables[table] = shuffled(rng, std::mem::take(&mut t.tables[table]));
        }
    }
    t
}

/// So many alike bands and alike segments, and privileges of a class that lie side by side: with 256 of each
/// the most rows that there are.
fn most(count: usize, class: u8) -> Table {
    let mut t = Table { data_limit: 1.0, ..Table::default() };
    t.tables[BANDS] = vec![span(0.0, 10_000.0); count];
    t.tables[SEGMENTS] = vec![span(10.0, 5_500.0); count];
    t.tables[PRIVILEGES] = (0..count)
        .map(|i| Record { class, ..span(20.0 * (i + 1) as f64, 20.0 * (i + 1) as f64 + 10.0) })
        .collect();
    t
}

// -------------------------------------------------------------------------------------- runs

/// A class to ask for: one of the five, now and then one that the table has, rarely none.
fn some_class(rng: &mut Rng, t: &Table) -> u8 {
    match rng.below(20) {
        0 => 5 + rng.below(251) as u8,
        1..=9 if !t.tables[PRIVILEGES].is_empty() => rng.pick(&t.tables[PRIVILEGES]).class,
        _ => rng.below(5) as u8,
    }
}

/// So many reports that are answered; and some that are refused.
pub fn run(run: &mut Run, reports: u64) {
    stated(run);
    let begin = run.place;
    while run.reports.reports < reports {
        run.place += 1;
        let turn = run.place - begin;
        let rng = &mut Rng::new(run.seed, turn + (1 << 37));
        if !run.brief && turn % 20_000 == 0 {
            eprintln!("{} reports", run.reports.reports);
        }
        let t = match turn % 100 {
            1 if turn % 20_000 == 1 => most(200 + rng.below(57), rng.below(5) as u8),
            2 if turn % 1_000 == 2 => long(rng),
            3..=44 => slips(rng),
            45..=64 => tidy(rng),
            65..=84 => nearly_tidy(rng),
            _ => tables::world(rng).table,
        };
        let w = settle(t, Scale::Eighths, None, 0);
        let p = run.image(&w.image);
        let asked = if w.image.len() > 10_000 { 3 } else { 6 };
        for _ in 0..asked {
            let class = some_class(rng, &w.table);
            let (room, fill) = (Room::draw(rng, ROW), rng.next());
            run.report(&w.image, &p, class, room, fill);
        }
        if turn % 4 == 0 {
            let image = damage::damaged(rng, &w);
            let p = run.image(&image);
            let class = if rng.chance(80) { rng.below(5) } else { 5 + rng.below(251) } as u8;
            let (room, fill) = (Room::draw(rng, ROW), rng.next());
            run.report(&image, &p, class, room, fill);
        }
    }
}

fn row(kind: u8, class: u8, (first, second): (u16, u16), (low, high): (f64, f64)) -> Row {
    Row { low, high, kind, class, first, second }
}

/// Reports worked out by hand, and every byte that is no class.
fn stated(run: &mut Run) {
    let (bands, privileges) = (BANDS as u8, PRIVILEGES as u8);
    let mut states = |what: &str, t: Table, class: u8, want: &[Row]| {
        let image = t.encode();
        let p = run.image(&image);
        let found = run.report(&image, &p, class, Room::More(30), 1);
        if (found.refusal, &found.rows[..]) != (0, want) {
            wrong(what, &format!("refusal {}, {:?}", found.refusal, found.rows));
        }
    };
    let gap = |class, i, low, high| row(GAP, class, (i, i), (low, high));
    let general = [gap(2, 0, 14_000_000.0, 14_025_000.0)];
    states("the practice table's gap for General", practice(), 2, &general);
    for class in [0, 1, 3, 4] {
        let all =
            [gap(class, 0, 14_000_000.0, 14_150_000.0), gap(class, 1, 5_351_500.0, 5_366_500.0)];
        states("the practice table's segments, whole", practice(), class, &all);
    }
    states("the small table has no gap for an Extra", small(), 4, &[]);
    states("and one for a Novice", small(), 0, &[gap(0, 0, 20.0, 80.0)]);
    let mut t = small();
    t.tables[BANDS].push(Record { band: 2, ..span(100.0, 200.0) });
    t.tables[PRIVILEGES].push(Record { class: 3, ..span(0.0, 40.0) });
    t.tables[PRIVILEGES].push(Record { class: 3, ..span(40.0, 60.0) });
    states(
        "touching shares nothing and leaves no gap between",
        t.clone(),
        3,
        &[gap(3, 0, 60.0, 80.0)],
    );
    t.tables[BANDS].push(Record { band: 2, ..span(90.0, 110.0) });
    t.tables[PRIVILEGES].push(Record { class: 4, ..span(50.0, 120.0) });
    t.tables[PRIVILEGES].push(Record { class: 3, ..span(30.0, 50.0) });
    states(
        "pairs of every class, by their indices",
        t,
        2,
        &[
            row(bands, 0, (0, 2), (90.0, 100.0)),
            row(bands, 0, (1, 2), (100.0, 110.0)),
            row(privileges, 4, (0, 3), (50.0, 100.0)),
            row(privileges, 3, (1, 4), (30.0, 40.0)),
            row(privileges, 3, (2, 4), (40.0, 50.0)),
            gap(2, 0, 20.0, 80.0),
        ],
    );
    // 2 times 256 * 255 / 2 pairs, and 257 gaps of 256 segments
    let image = most(256, 3).encode();
    let p = run.image(&image);
    for (room, refusal) in [(Room::More(0), 0), (Room::More(23), 0), (Room::Fewer(1), 25)] {
        let found = run.report(&image, &p, 3, room, 5);
        if (found.refusal, found.needed) != (refusal, 131_072) {
            wrong("the most rows are 131,072", &format!("{}, {}", found.refusal, found.needed));
        }
    }
    let image = practice().encode();
    let (p, none) = (run.image(&image), run.image(&[]));
    for class in 5..=255 {
        let of = [
            run.report(&image, &p, class, Room::Rows(2), 2),
            run.report(&[], &none, class, Room::Rows(0), 3),
        ];
        if of.iter().any(|found| found.refusal != 20) {
            wrong("a class above 4 meets 20", &format!("class {class}"));
        }
    }
    for class in 0..5 {
        let found = run.report(&[], &none, class, Room::Rows(1), 4);
        if found.refusal != 1 {
            wrong("an empty image meets 1", &format!("{}", found.refusal));
        }
    }
}
