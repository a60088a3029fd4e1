//! One call on both sides. Every function gives the agreed answer or says what differs; every byte
//! lent is held against what it was.

use std::fmt::Display;

use crate::cases::Ladder;
use crate::distance;
use crate::draw::Rng;
use crate::expect;
use crate::ffi::{self, Decision, Edges, Fault, Figures, Parts, Station, StationParts};
use crate::image::{self, Table};
use crate::oracle::adapter::{self, Prepared};
use crate::oracle::nearest::{self, Answer};
use crate::oracle::sixty::{self, Change, Climb};
use crate::report::{self, Row};

pub type Told<T> = Result<T, String>;

pub fn unchanged(before: &[u8], after: &[u8], what: &str) -> Told<()> {
    if before == after {
        return Ok(());
    }
    Err(format!("the call changed its {what}"))
}

pub fn equal<T: PartialEq + Display>(what: &str, library: T, expected: T) -> Told<()> {
    if library == expected {
        return Ok(());
    }
    Err(format!("{what}: library {library}, expected {expected}"))
}

fn odd(x: f64) -> bool {
    x.is_nan() || x.to_bits() == 1 << 63
}

pub fn agreed(want: Told<Decision>, got: &Decision) -> Told<Decision> {
    let want = want?;
    // "With that, no answer and no row ever holds a negative zero."
    if let Some((name, _)) = want.floats().into_iter().find(|f| odd(f.1)) {
        return Err(format!("the Rust answers a negative zero or a NaN: {name}"));
    }
    match got.difference(&want) {
        None => Ok(want),
        Some(what) => {
            Err(format!("{what}\n  library:  {}\n  expected: {}", got.text(), want.text()))
        }
    }
}

/// What the library is lent of an image: of about a third of the accepted ones of edition 1 their form of
/// edition 2, which must get the same answers ("Gate answers are the same for an edition 1 image and its raised
/// form", document 02), else the image.
fn lend(image: &[u8], p: &Prepared) -> Vec<u8> {
    let odd = image.iter().fold(0u8, |sum, &b| sum.wrapping_mul(31).wrapping_add(b)) % 3 == 0;
    if p.refusal == 0 && odd && image::front_of(image) == 64 {
        image::raised(image)
    } else {
        image.to_vec()
    }
}

/// The check, the tidy question and, where the library has the call, where the table is wrong.
pub fn image(image: &[u8]) -> Told<(Prepared, Fault)> {
    let p = adapter::prepare(image)?;
    let lent = image.to_vec();
    equal("check", ffi::check(&lent), p.refusal)?;
    let (got, (tidy, refusal)) = (ffi::tidy(&lent), adapter::tidy(&p));
    equal("tidy", got.tidy, tidy)?;
    equal("tidy's refusal", got.refusal, refusal)?;
    let fault = expect::fault(image, p.refusal);
    #[cfg(fault)]
    {
        let got = ffi::fault_of(&lent);
        equal("fault's refusal", got.refusal, fault.refusal)?;
        equal("fault's place", got.place, fault.place)?;
        equal("fault's table", got.table, fault.table)?;
        equal("fault's record", got.record, fault.record)?;
    }
    unchanged(image, &lent, "image")?;
    if p.refusal == 0 && image::front_of(image) == 64 {
        let raised = image::raised(image);
        equal("check of the raised image", ffi::check(&raised), 0)?;
        equal("tidy of the raised image", ffi::tidy(&raised).tidy, tidy)?;
    }
    Ok((p, fault))
}

pub fn verdict(
    image: &[u8],
    p: &Prepared,
    s: &Station,
    kind: u8,
    direction: u8,
    e: &Edges,
) -> Told<(Decision, Option<Change>)> {
    let before = lend(image, p);
    let lent = before.clone();
    let got = ffi::evaluate(*s, kind, direction, *e, &lent);
    let (want, change) = sixty::evaluate(p, s, kind, direction, e)?;
    let want = agreed(Ok(want), &got)?;
    unchanged(&before, &lent, "image")?;
    Ok((want, change))
}

pub fn unmeasured(image: &[u8], p: &Prepared, s: &Station) -> Told<Decision> {
    let before = lend(image, p);
    let lent = before.clone();
    let got = ffi::unmeasured(*s, &lent);
    let want = agreed(adapter::unmeasured(p, s), &got)?;
    unchanged(&before, &lent, "image")?;
    Ok(want)
}

pub fn ceiling(
    image: &[u8],
    p: &Prepared,
    s: &Station,
    direction: u8,
    l: &Ladder,
) -> Told<(adapter::Ceiling, Option<Climb>)> {
    let before = lend(image, p);
    let (lent, rungs, floors) = (before.clone(), l.rungs.clone(), l.floors.clone());
    let got = ffi::ceiling(*s, direction, l.ordinary, l.floor, &lent, &rungs, &floors);
    let (want, climb) =
        sixty::ceiling(p, s, direction, &l.ordinary, &l.floor, &l.rungs, &l.floors)?;
    equal("refusal", got.refusal, want.refusal)?;
    equal("rung", got.rung, want.rung_number())?;
    equal("limit_known", got.limit_known, want.limit.is_some().into())?;
    agreed(Ok(want.limit_or_none()), &got.limit)?;
    unchanged(&before, &lent, "image")?;
    unchanged(&l.floors, &floors, "floor bytes")?;
    let bits = |x: &[f64]| x.iter().flat_map(|x| x.to_bits().to_le_bytes()).collect::<Vec<u8>>();
    unchanged(&bits(&l.rungs), &bits(&rungs), "rungs")?;
    Ok((want, climb))
}

/// How many bytes are lent for the rows of a list or a report, and what they hold before.
#[derive(Clone, Copy, Debug)]
pub enum Room {
    Rows(usize),
    /// So many bytes more than the list needs.
    More(usize),
    /// So many fewer, none at the least.
    Fewer(usize),
    Bytes(usize),
}

impl Room {
    /// Exact; a few bytes more; whole rows more; a row or a byte too short; none at all. A row has so many
    /// bytes.
    pub fn draw(rng: &mut Rng, row: usize) -> Self {
        match rng.below(12) {
            0..=4 => Self::More(0),
            5 => Self::More(1 + rng.below(row - 1)),
            6 => Self::More(row * (1 + rng.below(4))),
            7 => Self::More(row * rng.below(3) + rng.below(row)),
            8 => Self::Fewer(1),
            9 => Self::Fewer(row),
            10 => Self::Fewer(1 + rng.below(row)),
            _ => Self::Rows(0),
        }
    }

    /// The bytes lent where so many are needed.
    fn bytes(self, needed: usize, row: usize) -> usize {
        match self {
            Self::Rows(n) => row * n,
            Self::More(n) => needed + n,
            Self::Fewer(n) => needed.saturating_sub(n),
            Self::Bytes(n) => n,
        }
    }
}

/// Bytes that hold anything.
pub fn filled(fill: u64, n: usize) -> Vec<u8> {
    let mut rng = Rng::new(fill, 0);
    (0..n).map(|_| rng.next() as u8).collect()
}

/// A dial list: the refusal, the rows' bytes (none on a refusal), and how many bytes were lent.
pub struct Found {
    pub refusal: u8,
    pub rows: Vec<u8>,
    pub lent: usize,
}

pub fn dials(
    image: &[u8],
    p: &Prepared,
    s: &Station,
    direction: u8,
    e: &Edges,
    room: Room,
    fill: u64,
) -> Told<Found> {
    let (refusal, rows) = adapter::safe_dials(p, s, direction, e)?;
    if rows.chunks(36).any(|r| (0..4).any(|i| odd(image::f64_at(r, 8 * i)))) {
        return Err("the Rust lists a negative zero or a NaN".to_owned());
    }
    let lent = room.bytes(rows.len(), 36);
    let before = filled(fill, lent);
    let mut after = before.clone();
    let held = lend(image, p);
    let tables = held.clone();
    let got = ffi::safe_dials(*s, direction, *e, &tables, &mut after);
    let refusal = match refusal {
        0 if expect::rows_refused(rows.len() / 36, lent) => 23,
        other => other,
    };
    let rows = if refusal == 0 { rows } else { Vec::new() };
    equal("refusal", got.refusal, refusal)?;
    equal("count", got.count as usize, rows.len() / 36)?;
    let n = rows.len();
    if let Some(i) = (0..n / 36).find(|i| after[36 * i..36 * i + 36] != rows[36 * i..36 * i + 36]) {
        let row = |of: &[u8]| row_text(&of[36 * i..36 * i + 36]);
        return Err(format!("row {i}: library {}, expected {}", row(&after), row(&rows)));
    }
    unchanged(&before[n..], &after[n..], "bytes past the rows")?;
    unchanged(&held, &tables, "image")?;
    Ok(Found { refusal, rows, lent })
}

/// A table's report: the refusal, the rows (none on a refusal), how many the table has, and how many bytes
/// were lent.
pub struct Reported {
    pub refusal: u8,
    pub rows: Vec<Row>,
    pub needed: usize,
    pub lent: usize,
}

/// The bytes on either side of those lent for a report, which are looked at too.
const BESIDE: usize = 8;

pub fn report(image: &[u8], p: &Prepared, class: u8, room: Room, fill: u64) -> Told<Reported> {
    let refusal = report::refusal(p.refusal, class);
    let rows = match &p.table {
        Some(table) if refusal == 0 => report::rows(table, class),
        _ => Vec::new(),
    };
    let needed = rows.len();
    let lent = room.bytes(report::ROW * needed, report::ROW);
    let (refusal, rows) = match refusal {
        0 if report::too_few(needed, lent) => (25, Vec::new()),
        _ => (refusal, rows),
    };
    let mut after = filled(fill, BESIDE + lent + BESIDE);
    let mut want = after.clone();
    for (place, row) in want[BESIDE..].chunks_mut(report::ROW).zip(&rows) {
        place.copy_from_slice(&row.encode());
    }
    let held = lend(image, p);
    let tables = held.clone();
    let got = ffi::report(&tables, class, &mut after[BESIDE..BESIDE + lent]);
    equal("the report's refusal", got.refusal, refusal)?;
    equal("the report's count", got.count as usize, rows.len())?;
    if after != want {
        let bytes = |of: &[u8], i: usize| {
            let at = BESIDE + report::ROW * i;
            of[at..at + report::ROW].to_vec()
        };
        if let Some(i) = (0..rows.len()).find(|&i| bytes(&after, i) != bytes(&want, i)) {
            let got = report_text(&bytes(&after, i));
            return Err(format!(
                "row {i}: library {got}, expected {}",
                report_text(&bytes(&want, i))
            ));
        }
        let i = (0..after.len()).find(|&i| after[i] != want[i]).unwrap_or(0);
        return Err(format!("the call changed byte {} of {lent} lent", i as i64 - BESIDE as i64));
    }
    unchanged(&held, &tables, "image")?;
    if let Some(table) = p.table.as_ref().filter(|_| refusal == 0) {
        // "Tidy shall follow from no overlap rows in bands, segments and all classes plus the band test."
        let tidy = !rows.iter().any(Row::is_overlap) && report::at_home(table);
        equal("tidy, by the report", ffi::tidy(&tables).tidy, tidy.into())?;
    }
    Ok(Reported { refusal, rows, needed, lent })
}

fn report_text(r: &[u8]) -> String {
    format!(
        "{:?} to {:?}, kind {}, class {}, first {}, second {}, zero {:?}",
        image::f64_at(r, 0),
        image::f64_at(r, 8),
        r[16],
        r[17],
        image::u16_at(r, 18),
        image::u16_at(r, 20),
        &r[22..]
    )
}

/// The distance of a dial.
pub fn distance(a: &distance::Asked, rows: &[u8]) -> Told<Result<Option<f64>, u8>> {
    let answer = a.answer(rows);
    let lent = rows.to_vec();
    let got = ffi::distance(a.dial, a.flags, a.channel_band, a.count, &lent);
    let want = distance::flat(answer);
    equal("distance's refusal", got.refusal, want.refusal)?;
    equal("listed", got.listed, want.listed)?;
    if got.distance_hz.to_bits() != want.distance_hz.to_bits() {
        let (got, want) = (got.distance_hz, want.distance_hz);
        return Err(format!("distance_hz: library {got:?}, expected {want:?}"));
    }
    unchanged(rows, &lent, "rows")?;
    Ok(answer)
}

/// The nearest dial. `watts`: the library is lent the table in edition 2 with these, which change nothing here.
pub fn nearest(
    image: &[u8],
    p: &Prepared,
    s: &Station,
    direction: u8,
    e: &Edges,
    watts: Option<(f64, f64)>,
) -> Told<Answer> {
    let before = match (watts, &p.table) {
        (Some(_), Some(t)) if p.refusal == 0 => Table { watts, ..t.clone() }.encode(),
        _ => lend(image, p),
    };
    let lent = before.clone();
    let got = ffi::nearest_dial(*s, direction, *e, &lent);
    let answer = nearest::answer(p, s, direction, e)?;
    let want = nearest::flat(answer);
    let same = (got.answer, got.refusal) == (want.answer, want.refusal)
        && got.dial_hz.to_bits() == want.dial_hz.to_bits();
    if !same {
        return Err(format!("library: {got:?}, expected {want:?}"));
    }
    unchanged(&before, &lent, "image")?;
    Ok(answer)
}

fn row_text(r: &[u8]) -> String {
    let f = |i: usize| image::f64_at(r, 8 * i);
    format!(
        "segment {:?} to {:?}, dial {:?} to {:?}, band {}, zero {}, rule {}",
        f(0),
        f(1),
        f(2),
        f(3),
        r[32],
        r[33],
        image::u16_at(r, 34)
    )
}

/// A call with its inputs, for the report of a difference.
#[derive(Clone)]
pub enum Call {
    Image,
    Verdict { kind: u8, direction: u8, e: Edges },
    Unmeasured,
    Ceiling { direction: u8, ladder: Ladder },
    Dials { direction: u8, e: Edges, room: Room, fill: u64 },
    Report { class: u8, room: Room, fill: u64 },
    Nearest { direction: u8, e: Edges, watts: Option<(f64, f64)> },
}

#[derive(Clone)]
pub struct Case {
    pub image: Vec<u8>,
    pub s: Station,
    pub call: Call,
}

impl Case {
    /// What differs, if anything does.
    pub fn difference(&self) -> Option<String> {
        let p = match adapter::prepare(&self.image) {
            Ok(p) => p,
            Err(what) => return Some(what),
        };
        match &self.call {
            Call::Image => image(&self.image).err(),
            Call::Verdict { kind, direction, e } => {
                verdict(&self.image, &p, &self.s, *kind, *direction, e).err()
            }
            Call::Unmeasured => unmeasured(&self.image, &p, &self.s).err(),
            Call::Ceiling { direction, ladder } => {
                ceiling(&self.image, &p, &self.s, *direction, ladder).err()
            }
            Call::Dials { direction, e, room, fill } => {
                dials(&self.image, &p, &self.s, *direction, e, *room, *fill).err()
            }
            Call::Report { class, room, fill } => {
                report(&self.image, &p, *class, *room, *fill).err()
            }
            Call::Nearest { direction, e, watts } => {
                nearest(&self.image, &p, &self.s, *direction, e, *watts).err()
            }
        }
    }

    /// A smaller case that differs still: records, rungs and parts of the station taken away one
    /// after another while they aren't needed.
    pub fn smaller(&self) -> Self {
        let mut best = self.clone();
        loop {
            let before = (best.image.len(), best.rungs());
            best = best.fewer_records().fewer_rungs().plainer_station();
            if (best.image.len(), best.rungs()) == before {
                return best;
            }
        }
    }

    fn rungs(&self) -> usize {
        match &self.call {
            Call::Ceiling { ladder, .. } => ladder.rungs.len(),
            _ => 0,
        }
    }

    fn fewer_records(self) -> Self {
        let mut best = self;
        if matches!(expect::image_1_to_6(&best.image), 1..=4) {
            return best;
        }
        for table in 0..9 {
            let mut step = image::decode(&best.image).tables[table].len();
            while step > 0 {
                let mut at = 0;
                while at < image::decode(&best.image).tables[table].len() {
                    let mut t = image::decode(&best.image);
                    let end = (at + step).min(t.tables[table].len());
                    t.tables[table].drain(at..end);
                    let next = Self { image: t.encode(), ..best.clone() };
                    if next.difference().is_some() {
                        best = next;
                    } else {
                        at += step;
                    }
                }
                step /= 2;
            }
        }
        best
    }

    fn fewer_rungs(self) -> Self {
        let mut best = self;
        let mut at = 0;
        while at < best.rungs() / 4 {
            let mut next = best.clone();
            if let Call::Ceiling { ladder, .. } = &mut next.call {
                ladder.rungs.drain(4 * at..4 * at + 4);
                if at < ladder.floors.len() {
                    ladder.floors.remove(at);
                }
            }
            if next.difference().is_some() {
                best = next;
            } else {
                at += 1;
            }
        }
        best
    }

    fn plainer_station(self) -> Self {
        let changes: [fn(&mut Station); 5] = [
            |s| (s.power_known, s.power_w) = (0, 0.0),
            |s| s.band_plan = 0,
            |s| (s.margin_lower_hz, s.margin_upper_hz) = (0.0, 0.0),
            |s| s.control = 0,
            |s| s.sideband = 0,
        ];
        let mut best = self;
        for change in changes {
            let mut next = best.clone();
            change(&mut next.s);
            if next.difference().is_some() {
                best = next;
            }
        }
        best
    }

    pub fn dump(&self) {
        let name = match &self.call {
            Call::Image => "check, tidy",
            Call::Verdict { .. } => "evaluate",
            Call::Unmeasured => "unmeasured",
            Call::Ceiling { .. } => "ceiling",
            Call::Dials { .. } => "safe_dials",
            Call::Report { .. } => "report",
            Call::Nearest { .. } => "nearest dial",
        };
        println!("call: {name}");
        if !matches!(self.call, Call::Image | Call::Report { .. }) {
            for (name, x) in self.s.floats() {
                println!("  {name}: {}", figure(x));
            }
            let codes: Vec<String> =
                self.s.bytes().iter().map(|(name, x)| format!("{name} {x}")).collect();
            println!("  {}", codes.join(", "));
        }
        match &self.call {
            Call::Image | Call::Unmeasured => {}
            Call::Verdict { kind, direction, e } => {
                println!("  kind {kind}, direction {direction}");
                println!("  edges: {}", edges_text(e));
            }
            Call::Ceiling { direction, ladder } => {
                println!("  direction {direction}");
                println!("  ordinary: {}", edges_text(&ladder.ordinary));
                println!("  floor: {}", edges_text(&ladder.floor));
                for (i, r) in ladder.rungs.chunks(4).enumerate() {
                    let figures: Vec<String> = r.iter().map(|x| figure(*x)).collect();
                    println!("  rung {i}: {}", figures.join(", "));
                }
                println!("  floors: {:?}", ladder.floors);
            }
            Call::Dials { direction, e, room, .. } => {
                println!("  direction {direction}");
                println!("  edges: {}", edges_text(e));
                println!("  room for rows: {room:?} bytes");
            }
            Call::Report { class, room, .. } => {
                println!("  class {class}");
                println!("  room for rows: {room:?} bytes");
            }
            Call::Nearest { direction, e, watts } => {
                println!("  direction {direction}");
                println!("  edges: {}", edges_text(e));
                println!("  lent with watts {watts:?}");
            }
        }
        let hex: String = self.image.iter().map(|b| format!("{b:02x}")).collect();
        println!("  image, {} bytes: {hex}", self.image.len());
        if !matches!(expect::image_1_to_6(&self.image), 1..=4) {
            print!("{}", image::decode(&self.image).text());
        }
    }
}

fn figure(x: f64) -> String {
    format!("{x:?} ({:#018x})", x.to_bits())
}

fn edges_text(e: &Edges) -> String {
    let f = e.figures().map(figure);
    format!("power {} to {}, spectral {} to {}", f[0], f[1], f[2], f[3])
}
