//! Times the proved library beside the unchanged Rust: the same inputs on both sides, both built for
//! release. The library checks the image in every call; the Rust has its parsed profile. Time is
//! that of the thread's own processor.
//!
//!     pamuklid-bench [--rounds N] [--show]
//!
//! It prints ratios, library by Rust; with --show also the nanoseconds of each side.

mod airtimes;
mod amends;
mod censuses;
mod ffi;
mod images;
mod nearests;
mod reports;
mod rust {
    include!(concat!(env!("OUT_DIR"), "/rust.rs"));
}
mod stack;
mod table;
mod texts;
mod walks;

use std::hint::black_box;
use std::process::exit;
use std::sync::Arc;

use ffi::{Edges, Station};
use rust::regulatory::occupancy::RungOccupancy;
use rust::regulatory::{
    self, AirOccupancy, ControlMode, Direction, EmissionKind, LicenseClass, Policy, Sideband,
    Situation, Transmission, Verdict,
};
use table::{Order, Table};

/// Of the size of Part 97's HF rules.
const HF: [usize; 9] = [10, 20, 5, 60, 10, 1, 4, 10, 5];
/// The largest image, of 2,045 records.
const LARGEST: [usize; 9] = [256, 256, 200, 256, 256, 100, 256, 256, 209];

#[repr(C)]
struct Time {
    seconds: i64,
    nanoseconds: i64,
}

unsafe extern "C" {
    fn clock_gettime(clock: i32, time: *mut Time) -> i32;
}

/// Nanoseconds of this thread's processor time.
fn now() -> f64 {
    let mut t = Time { seconds: 0, nanoseconds: 0 };
    // Linux's CLOCK_THREAD_CPUTIME_ID
    if unsafe { clock_gettime(3, &mut t) } != 0 {
        exit(2);
    }
    t.seconds as f64 * 1e9 + t.nanoseconds as f64
}

fn timed(turns: usize, f: &mut dyn FnMut()) -> f64 {
    let began = now();
    for _ in 0..turns {
        f();
    }
    (now() - began) / turns as f64
}

/// How many turns of a call take some five milliseconds.
fn turns(f: &mut dyn FnMut()) -> usize {
    let once = timed(3, f).max(1.0);
    ((5e6 / once) as usize).clamp(1, 1_000_000)
}

/// The least time of a turn on each side, the sides taking turns.
fn least(rounds: usize, ours: &mut dyn FnMut(), theirs: &mut dyn FnMut()) -> (f64, f64) {
    let (a, b) = (turns(ours), turns(theirs));
    let mut best = (f64::MAX, f64::MAX);
    let began = now();
    for round in 0..rounds {
        best.0 = best.0.min(timed(a, ours));
        best.1 = best.1.min(timed(b, theirs));
        // calls of a tenth of a second and more
        if round >= 2 && now() - began > 2e9 {
            break;
        }
    }
    best
}

/// One question on both sides.
struct Case {
    station: Station,
    direction: u8,
    edges: Edges,
    situation: Situation,
    transmission: Transmission,
}

fn pair(low: f64, high: f64) -> Edges {
    Edges { power_low: low, power_high: high, spectral_low: low, spectral_high: high }
}

fn rust_pair(e: Edges) -> regulatory::Edges {
    regulatory::Edges {
        power: [e.power_low, e.power_high],
        spectral: [e.spectral_low, e.spectral_high],
    }
}

fn direction_of(direction: u8) -> Direction {
    [Direction::Originate, Direction::Respond, Direction::Operator][direction as usize]
}

fn case(dial: f64, license: u8, control: u8, direction: u8, edges: Edges) -> Case {
    let station = Station {
        margin_lower_hz: 50.0,
        margin_upper_hz: 50.0,
        dial_hz: dial,
        power_w: 100.0,
        policy: 2,
        control,
        license,
        sideband: 0,
        itu_region: 2,
        band_plan: 1,
        dial_known: 1,
        power_known: 1,
    };
    let classes = [
        LicenseClass::Novice,
        LicenseClass::Technician,
        LicenseClass::General,
        LicenseClass::Advanced,
        LicenseClass::Extra,
    ];
    let situation = Situation {
        dial_hz: Some(dial),
        dial_source: None,
        sideband: Some(Sideband::Usb),
        control: Some(
            [ControlMode::Local, ControlMode::Remote, ControlMode::Automatic][control as usize],
        ),
        license: Some(classes[license as usize]),
        itu_region: 2,
        margin_hz: 50.0,
        band_plan: true,
        power_w: Some(100.0),
    };
    let transmission = Transmission {
        what: "it".to_owned(),
        kind: EmissionKind::Data,
        audio: rust_pair(edges),
        direction: direction_of(direction),
    };
    Case { station, direction, edges, situation, transmission }
}

/// Dials all over the table's bands, and a few between them, under local and automatic control.
fn mixed(bands: usize) -> Vec<Case> {
    let offsets = [
        3_000.0, 30_000.0, 74_000.0, 98_000.0, 105_000.0, 147_000.0, 149_000.0, 300_000.0,
        399_000.0, 500_000.0,
    ];
    let mut out = Vec::new();
    for k in 0..200usize {
        let band = k * 7 % bands;
        let dial = table::start(band) + offsets[k % 10];
        let wide = [pair(1_250.0, 1_750.0), pair(1_000.0, 2_000.0), pair(100.0, 2_950.0)];
        out.push(case(dial, 4, [0, 0, 2][k % 3], (k / 10 % 3) as u8, wide[k / 4 % 3]));
    }
    out
}

/// A permitted transmission in the middle of the table.
fn permitted(bands: usize) -> Case {
    case(table::start(bands / 2 + 1) + 50_000.0, 4, 0, 0, pair(1_250.0, 1_750.0))
}

/// What is timed on one table.
struct Subject {
    name: &'static str,
    image: Vec<u8>,
    policy: Policy,
    records: usize,
    bands: usize,
}

fn subject(name: &'static str, table: Table) -> Subject {
    let image = table.image();
    let refusal = ffi::check(&image);
    if refusal != 0 {
        eprintln!("{name}: the image meets refusal {refusal}");
        exit(1);
    }
    let profile = table.profile();
    if let Err(text) = profile.check() {
        eprintln!("{name}: {text}");
        exit(1);
    }
    let policy = Policy::Rules(Arc::new(profile));
    Subject { name, image, policy, records: table.records(), bands: table.bands() }
}

fn verdict_number(v: Verdict) -> u8 {
    match v {
        Verdict::Legal => 0,
        Verdict::Warning => 1,
        Verdict::Blocked => 2,
    }
}

fn differ(what: &str) -> ! {
    eprintln!("the two sides differ: {what}");
    exit(1);
}

/// Time of the verdicts on some cases, a verdict each.
fn verdicts(s: &Subject, cases: &[Case], rounds: usize) -> (f64, f64) {
    for c in cases {
        let a = ffi::evaluate(c.station, 0, c.direction, c.edges, &s.image);
        let b = s.policy.evaluate(&c.situation, &c.transmission);
        if a.refusal != 0 || a.verdict != verdict_number(b.verdict) || a.code == 0 {
            differ(&format!("{}: verdict {}, code {}, {}", s.name, a.verdict, a.code, b.code));
        }
    }
    let n = cases.len() as f64;
    let (a, b) = least(
        rounds,
        &mut || {
            for c in cases {
                black_box(ffi::evaluate(
                    black_box(c.station),
                    0,
                    c.direction,
                    c.edges,
                    black_box(&s.image),
                ));
            }
        },
        &mut || {
            for c in cases {
                black_box(s.policy.evaluate(black_box(&c.situation), black_box(&c.transmission)));
            }
        },
    );
    (a / n, b / n)
}

const RUNGS: usize = 14;

/// Fourteen rungs, each wider than the one before, all of them allowed.
fn ladder() -> Vec<f64> {
    (0..RUNGS)
        .flat_map(|k| {
            let half = 100.0 + 95.0 * k as f64;
            [1_500.0 - half, 1_500.0 + half, 1_500.0 - half, 1_500.0 + half]
        })
        .collect()
}

fn air(rungs: &[f64]) -> AirOccupancy {
    let edges = |r: &[f64]| regulatory::Edges { power: [r[0], r[1]], spectral: [r[2], r[3]] };
    AirOccupancy {
        bandwidth_hz: 0,
        centre_hz: 0.0,
        rungs: rungs
            .chunks(4)
            .map(|r| RungOccupancy { name: "rung".to_owned(), tone: false, edges: edges(r) })
            .collect(),
        control_ordinary: rust_pair(pair(1_250.0, 1_750.0)),
        control_floor: rust_pair(pair(1_250.0, 1_750.0)),
    }
}

fn ceilings(s: &Subject, rounds: usize) -> (f64, f64) {
    let rungs = ladder();
    let floors = [0u8; RUNGS];
    let control = pair(1_250.0, 1_750.0);
    let c = permitted(s.bands);
    let air = air(&rungs);
    let ours = || ffi::ceiling(c.station, 0, control, &s.image, &rungs, &floors);
    let theirs = || s.policy.ceiling(&c.situation, &air, Direction::Originate, &|_| false);
    let (a, b) = (ours(), theirs());
    let rung = usize::try_from(a.rung).ok();
    if a.refusal != 0 || rung != b.rung || rung != Some(RUNGS - 1) {
        differ(&format!("{}: rung {rung:?}, {:?}", s.name, b.rung));
    }
    least(
        rounds,
        &mut || {
            black_box(ours());
        },
        &mut || {
            black_box(theirs());
        },
    )
}

/// The time of a dial list, and its rows.
fn lists(s: &Subject, rounds: usize) -> (f64, f64, usize) {
    let c = case(table::start(1), 4, 0, 0, pair(1_250.0, 1_750.0));
    let mut rows = vec![0u8; 36 * 16_384];
    let audio = rust_pair(c.edges);
    let n = ffi::safe_dials(c.station, 0, c.edges, &s.image, &mut rows);
    let list = s.policy.safe_dials(&c.situation, audio, Direction::Originate);
    if n.refusal != 0 || n.count as usize != list.len() {
        differ(&format!("{}: {} rows, {}", s.name, n.count, list.len()));
    }
    for (row, want) in rows.chunks(36).zip(&list) {
        let at = |i: usize| f64::from_le_bytes(row[i..i + 8].try_into().unwrap());
        let segment = want.segment;
        if at(0) != segment.low_hz
            || at(8) != segment.high_hz
            || at(16) != want.dial_low_hz
            || at(24) != want.dial_high_hz
        {
            differ(&format!("{}: a row", s.name));
        }
    }
    let room = 36 * list.len();
    let (a, b) = least(
        rounds,
        &mut || {
            black_box(ffi::safe_dials(c.station, 0, c.edges, &s.image, &mut rows[..room]));
        },
        &mut || {
            black_box(s.policy.safe_dials(&c.situation, audio, Direction::Originate));
        },
    );
    (a, b, list.len())
}

fn line(show: bool, what: &str, (a, b): (f64, f64), aim: Option<f64>) {
    let mut text = format!("{what:<44} {:>7.3}", a / b);
    match aim {
        Some(aim) => {
            text += &format!("   aim {aim:<5} {}", if a / b <= aim { "met" } else { "MISSED" })
        }
        None => text += "              ",
    }
    if show {
        text += &format!("   {a:>9.0} ns  {b:>9.0} ns");
    }
    println!("{}", text.trim_end());
}

/// The library's own parts: the image check alone, and a verdict that reads no table.
fn parts(show: bool, s: &Subject, rounds: usize) {
    let c = permitted(s.bands);
    let free = Station { policy: 1, ..c.station };
    let (check, none) = least(
        rounds,
        &mut || {
            black_box(ffi::check(black_box(&s.image)));
        },
        &mut || {
            black_box(ffi::evaluate(black_box(free), 0, 0, c.edges, black_box(&s.image)));
        },
    );
    let (whole, _) = verdicts(s, &[c], rounds);
    println!(
        "  of a permitted verdict's time: image check {:.0}%, what no table needs {:.0}%, judging {:.0}%",
        100.0 * check / whole,
        100.0 * none / whole,
        100.0 * (whole - check - none) / whole
    );
    if show {
        println!("  image check {check:.0} ns, no table {none:.0} ns, verdict {whole:.0} ns");
    }
}

/// Where a table is wrong, which the Rust does not tell: by the time of the image check on the same image.
fn faults(s: &Subject, rounds: usize) {
    let mut spoilt = s.image.clone();
    let unused = spoilt.len() - 28 - 32 + 24;
    spoilt[unused] = 1;
    let ratio = |image: &[u8], refusal: u8| {
        if ffi::fault_of(image).refusal != refusal {
            differ(&format!("{}: fault of an image that refusal {refusal} should meet", s.name));
        }
        let (fault, check) = least(
            rounds,
            &mut || {
                black_box(ffi::fault_of(black_box(image)));
            },
            &mut || {
                black_box(ffi::check(black_box(image)));
            },
        );
        fault / check
    };
    println!(
        "  where the table is wrong, by the image check's time: accepted {:.2}, wrong in the last record {:.2}",
        ratio(&s.image, 0),
        ratio(&spoilt, 5)
    );
}

fn stacks(s: &Subject) {
    let c = case(table::start(1) + 100_000.0, 4, 2, 0, pair(1_250.0, 1_750.0));
    let (rungs, floors) = (ladder(), [0u8; RUNGS]);
    let mut rows = vec![0u8; 36 * 4_096];
    println!("\nstack of a call, the driver's frame included, {}: bytes", s.name);
    let none = stack::depth(|| {
        black_box(0);
    });
    println!("  nothing called    {none:>6}");
    let n = stack::depth(|| {
        black_box(ffi::check(&s.image));
    });
    println!("  image check       {n:>6}");
    let n = stack::depth(|| {
        black_box(ffi::evaluate(c.station, 0, 0, c.edges, &s.image));
    });
    println!("  verdict           {n:>6}");
    let n = stack::depth(|| {
        black_box(ffi::ceiling(c.station, 0, c.edges, &s.image, &rungs, &floors));
    });
    println!("  ceiling           {n:>6}");
    let n = stack::depth(|| {
        black_box(ffi::safe_dials(c.station, 0, c.edges, &s.image, &mut rows));
    });
    println!("  dial list         {n:>6}");
    let n = stack::depth(|| {
        black_box(ffi::report(&s.image, 2, &mut rows));
    });
    println!("  report            {n:>6}");
}

/// Tables of the largest one's shape and several sizes: the time that a record more costs.
fn growth(show: bool, rounds: usize) {
    println!("\ngrowth: verdict on one dial, by the table's records");
    let mut before: Option<(usize, f64, f64)> = None;
    for part in [16usize, 8, 4, 2, 1] {
        let counts = LARGEST.map(|n| n.div_ceil(part));
        let s = subject("growth", Table::made(counts));
        let (a, b) = verdicts(&s, &[permitted(s.bands)], rounds);
        let mut text = format!("  {:>5} records   ratio {:>7.3}", s.records, a / b);
        if show {
            text += &format!("   {a:>8.0} ns  {b:>8.0} ns");
        }
        if let Some((n, x, y)) = before {
            let more = (s.records - n) as f64;
            text += &format!(
                "   a record more: {:.2} ns, the Rust {:.2} ns",
                (a - x) / more,
                (b - y) / more
            );
        }
        println!("{text}");
        before = Some((s.records, a, b));
    }
}

/// Dial lists of several lengths, data segments times privileges, by the order of the segments.
fn long_lists(show: bool, rounds: usize) {
    let sizes = [(16, 1), (25, 1), (65, 1), (256, 1), (256, 4), (256, 64)];
    let orders = [
        (Order::Rising, "in order of frequency"),
        (Order::Mixed, "in no order"),
        (Order::Falling, "in the opposite order"),
    ];
    for (order, name) in orders {
        println!("\ndial lists, the table {name}");
        for (segments, privileges) in sizes {
            let s = subject("list", Table::listing(segments, privileges, order));
            let (a, b, n) = lists(&s, rounds);
            if n != segments * privileges {
                differ(&format!("{n} rows of {segments} times {privileges}"));
            }
            let aim = match (order, n) {
                (Order::Rising, 25 | 256) => Some(0.5),
                (Order::Rising, 1_024 | 16_384) => Some(1.0),
                _ => None,
            };
            line(show, &format!("  {n} rows"), (a, b), aim);
        }
    }
}

fn main() {
    let (mut rounds, mut show) = (60, false);
    let mut words = std::env::args().skip(1);
    while let Some(word) = words.next() {
        match word.as_str() {
            "--show" => show = true,
            "--rounds" => match words.next().and_then(|n| n.parse().ok()) {
                Some(n) => rounds = n,
                None => exit(2),
            },
            _ => exit(2),
        }
    }
    let hf = subject("HF table", Table::made(HF));
    let largest = subject("largest image", Table::made(LARGEST));
    println!("library's time by the Rust's; the library's image check is in it\n");
    println!("{} of {} records, {} bytes", hf.name, hf.records, hf.image.len());
    line(show, "  verdict, mixed", verdicts(&hf, &mixed(hf.bands), rounds), Some(0.25));
    line(show, "  verdict, permitted", verdicts(&hf, &[permitted(hf.bands)], rounds), Some(0.25));
    line(show, "  ceiling of 14 rungs", ceilings(&hf, rounds), Some(0.05));
    let (a, b, rows) = lists(&hf, rounds);
    line(show, &format!("  dial list of {rows} rows"), (a, b), Some(0.5));
    parts(show, &hf, rounds);
    faults(&hf, rounds);
    println!("{} of {} records, {} bytes", largest.name, largest.records, largest.image.len());
    line(show, "  verdict, mixed", verdicts(&largest, &mixed(largest.bands), rounds), None);
    line(
        show,
        "  verdict, permitted",
        verdicts(&largest, &[permitted(largest.bands)], rounds),
        None,
    );
    line(show, "  ceiling of 14 rungs", ceilings(&largest, rounds), None);
    parts(show, &largest, rounds);
    faults(&largest, rounds);
    growth(show, rounds);
    long_lists(show, rounds);
    nearests::timed(rounds, &[&hf, &largest]);
    reports::timed(show, rounds, &hf, &largest);
    censuses::timed(show, rounds, &hf, &largest);
    texts::timed(show, rounds);
    airtimes::timed(show, rounds);
    images::timed(show, rounds);
    amends::timed(show, rounds);
    walks::timed(show, rounds, &[&hf, &largest]);
    stacks(&hf);
    stacks(&largest);
    nearests::stacks(&[&hf, &largest]);
    reports::stacks();
    texts::stacks();
    airtimes::stacks();
    images::stacks();
    amends::stacks();
    walks::stacks(&hf);
}
