//! The nearest dial, which the Rust does not give: beside a dial list and the tidy question of the same table, the
//! three taking turns.

use std::hint::black_box;

use crate::ffi;
use crate::table::{self, CHANNEL_BAND};
use crate::{Case, Subject, case, differ, pair, stack, turns};

/// Rows that are lent to the list.
const ROOM: usize = 16_384;

/// An Extra's signal above the data segments of a band in the middle of the table.
fn blocked(s: &Subject) -> Case {
    case(table::start(s.bands / 2) + 300_000.0, 4, 0, 0, pair(1_250.0, 1_750.0))
}

fn nearest(s: &Subject, c: &Case) -> pamuklid::raw::Nearest {
    ffi::nearest_dial(black_box(c.station), 0, c.edges, black_box(&s.image))
}

/// That the answer is the nearest dial of the list's rows outside the channel band, the lower of two; how many rows
/// the list has.
fn seen(s: &Subject, c: &Case, rows: &mut [u8]) -> usize {
    let list = ffi::safe_dials(c.station, 0, c.edges, &s.image, rows);
    let dial = c.station.dial_hz;
    let count = list.count as usize;
    let mut want = f64::INFINITY;
    for row in rows[..36 * count].chunks(36) {
        let at = |i: usize| f64::from_le_bytes(row[i..i + 8].try_into().unwrap());
        let near = dial.clamp(at(16), at(24));
        let (far, least) = ((near - dial).abs(), (want - dial).abs());
        if usize::from(row[32]) != CHANNEL_BAND && (far < least || far == least && near < want) {
            want = near;
        }
    }
    let a = nearest(s, c);
    let tidy = ffi::tidy(&s.image).tidy;
    if list.refusal != 0 || tidy != 1 || a.answer != 1 || a.dial_hz != want || want == dial {
        differ(&format!("{}: nearest dial {a:?}, by the list {want}, tidy {tidy}", s.name));
    }
    count
}

/// The least time of a turn of each, in nanoseconds.
fn least(rounds: usize, calls: [&mut dyn FnMut(); 3]) -> [f64; 3] {
    let mut calls = calls.map(|call| (turns(call), call));
    let mut best = [f64::MAX; 3];
    for _ in 0..rounds {
        for (best, (turns, call)) in best.iter_mut().zip(&mut calls) {
            *best = best.min(crate::timed(*turns, call));
        }
    }
    best
}

pub fn timed(rounds: usize, subjects: &[&Subject]) {
    println!("\nnearest dial, beside a dial list and the tidy question of the same table");
    for s in subjects {
        let c = blocked(s);
        let mut rows = vec![0u8; 36 * ROOM];
        let count = seen(s, &c, &mut rows);
        let [list, tidy, near] = least(
            rounds,
            [
                &mut || {
                    let lent = &mut rows[..36 * count];
                    black_box(ffi::safe_dials(
                        black_box(c.station),
                        0,
                        c.edges,
                        black_box(&s.image),
                        lent,
                    ));
                },
                &mut || {
                    black_box(ffi::tidy(black_box(&s.image)));
                },
                &mut || {
                    black_box(nearest(s, &c));
                },
            ],
        );
        println!("  {} of {} records, a list of {count} rows", s.name, s.records);
        println!("    list {list:.0} ns, tidy {tidy:.0} ns, nearest dial {near:.0} ns");
        let met = if near <= 1.5 * list + tidy { "met" } else { "MISSED" };
        println!(
            "    nearest by list and tidy {:.3}, by list {:.3}; aim: at most 1.5 lists and tidy, {met}",
            near / (list + tidy),
            near / list
        );
    }
}

pub fn stacks(subjects: &[&Subject]) {
    println!("\nstack of a nearest dial, the driver's frame included: bytes");
    for s in subjects {
        let c = blocked(s);
        let taken = stack::depth(|| {
            black_box(nearest(s, &c));
        });
        println!("  {:<14}    {taken:>6}", s.name);
    }
}
