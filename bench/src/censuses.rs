//! What a census costs: by a verdict for each of its dials, the library's own and the Rust's.

use std::hint::black_box;

use crate::ffi::{self, Edges, Station};
use crate::table;
use crate::{Case, Subject, case, differ, least, line, pair};

const MILLION: i64 = 1_000_000;

/// A stretch, and the case at its first dial.
struct Stretch {
    case: Case,
    first: i64,
    last: i64,
}

/// So many dials from below a band in the middle of the table on, across it and past it.
fn stretch(s: &Subject, control: u8, dials: i64) -> Stretch {
    let first = table::start(s.bands / 2 + 1) as i64 - dials / 4;
    let case = case(first as f64, 4, control, 0, pair(1_250.0, 1_750.0));
    Stretch { case, first, last: first + dials - 1 }
}

fn census(s: &Subject, x: &Stretch) -> pamuklid::raw::Census {
    let (station, edges): (Station, Edges) = (x.case.station, x.case.edges);
    ffi::census(black_box(station), 0, 0, edges, black_box(&s.image), x.first, x.last)
}

/// A verdict for each dial: the codes, added up.
fn one_by_one(s: &Subject, x: &Stretch) -> [u32; 25] {
    let mut counts = [0; 25];
    for dial in x.first..=x.last {
        let station = Station { dial_hz: dial as f64, ..x.case.station };
        let d = ffi::evaluate(black_box(station), 0, 0, x.case.edges, black_box(&s.image));
        counts[usize::from(d.code) - 1] += 1;
    }
    counts
}

fn by_the_rust(s: &Subject, x: &Stretch) {
    let mut situation = x.case.situation.clone();
    for dial in x.first..=x.last {
        situation.dial_hz = Some(dial as f64);
        black_box(s.policy.evaluate(black_box(&situation), black_box(&x.case.transmission)));
    }
}

fn seen(s: &Subject, x: &Stretch) {
    let c = census(s, x);
    if c.refusal != 0 || c.counts != one_by_one(s, x) {
        differ(&format!("{}: a census, refusal {}, {:?}", s.name, c.refusal, c.counts));
    }
}

pub fn timed(show: bool, rounds: usize, hf: &Subject, largest: &Subject) {
    println!("\ncensus of 1,000,000 dials by 1,000,000 verdicts, {}", hf.name);
    for (control, name) in [(0, "local control"), (2, "automatic control")] {
        let x = stretch(hf, control, MILLION);
        seen(hf, &x);
        let (a, b) = least(
            rounds.min(5),
            &mut || {
                black_box(census(hf, &x));
            },
            &mut || by_the_rust(hf, &x),
        );
        line(show, &format!("  {name}, by the Rust's"), (a, b), Some(0.1));
        let (a, b) = least(
            rounds.min(5),
            &mut || {
                black_box(census(hf, &x));
            },
            &mut || {
                black_box(one_by_one(hf, &x));
            },
        );
        line(show, &format!("  {name}, by the library's own"), (a, b), Some(0.5));
    }
    println!("\ngrowth of a census: nanoseconds of a dial, local control");
    for s in [hf, largest] {
        for dials in [1, 1_000, MILLION] {
            let x = stretch(s, 0, dials);
            let (a, _) = least(
                rounds.min(20),
                &mut || {
                    black_box(census(s, &x));
                },
                &mut || {},
            );
            println!(
                "  {:<14} {:>5} records  {dials:>9} dials  {:>8.1}",
                s.name,
                s.records,
                a / dials as f64
            );
        }
    }
}
