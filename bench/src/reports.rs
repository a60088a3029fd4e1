//! Reports of tables, which the Rust does not make: by the time of the image check on the same image.

use std::hint::black_box;

use crate::ffi::{self, MOST_REPORT, REPORT_ROW};
use crate::table::{Order, Table};
use crate::{Subject, differ, least, line, stack, subject};

const GENERAL: u8 = 2;
const EXTRA: u8 = 4;

/// The time of a report of so many rows, just enough lent, and that of the check.
fn report(s: &Subject, class: u8, count: usize, rounds: usize) -> (f64, f64) {
    let mut rows = vec![0u8; REPORT_ROW * count];
    let found = ffi::report(&s.image, class, &mut rows);
    if found.refusal != 0 || found.count as usize != count {
        let (refusal, rows) = (found.refusal, found.count);
        differ(&format!("{}: report with refusal {refusal}, {rows} rows of {count}", s.name));
    }
    least(
        rounds,
        &mut || {
            black_box(ffi::report(black_box(&s.image), class, &mut rows));
        },
        &mut || {
            black_box(ffi::check(black_box(&s.image)));
        },
    )
}

/// On the HF table an Extra may send data in every segment, and General not in the first 25 kHz of each band;
/// on the largest image all privileges are an Extra's.
pub fn timed(show: bool, rounds: usize, hf: &Subject, largest: &Subject) {
    println!("\nreports of tables, by the image check's time");
    let most = subject("most rows", Table::crowded(Order::Rising));
    let falling = subject("most rows, opposite", Table::crowded(Order::Falling));
    for (s, class, name, count, aim) in [
        (hf, EXTRA, "Extra", 0, Some(20.0)),
        (hf, GENERAL, "General", hf.bands, Some(20.0)),
        (largest, EXTRA, "Extra", 0, None),
        (largest, GENERAL, "General", 256, None),
        (&most, EXTRA, "Extra", MOST_REPORT, None),
        (&falling, EXTRA, "Extra", MOST_REPORT, None),
    ] {
        let ratio = report(s, class, count, rounds);
        line(show, &format!("  {}, {name}, {count} rows", s.name), ratio, aim);
    }
}

/// The stack of a report, which may hang on the order of the privileges.
pub fn stacks() {
    println!("\nstack of a report, the driver's frame included, most rows: bytes");
    for (order, name) in
        [(Order::Rising, "in order"), (Order::Mixed, "no order"), (Order::Falling, "opposite")]
    {
        let image = Table::crowded(order).image();
        let mut rows = vec![0u8; REPORT_ROW * MOST_REPORT];
        let n = stack::depth(|| {
            black_box(ffi::report(&image, EXTRA, &mut rows));
        });
        println!("  {name:<17} {n:>6}");
    }
}
