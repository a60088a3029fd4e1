//! Number texts: the library's calls beside the Rust's formatting, both into bytes that are already there.
//! The Rust's `khz` makes a `String` for each figure: its branches, written into those bytes, are what the
//! ratio is by; the unchanged `khz` is timed beside it.

use std::fmt::{self, Write};
use std::hint::black_box;

use crate::ffi::{self, MOST_TEXT, Text};
use crate::rust::regulatory::khz;
use crate::{differ, least, line, stack};

/// Bytes to write into, and how many are written.
struct Line {
    bytes: [u8; 32],
    length: usize,
}

impl Line {
    const EMPTY: Self = Self { bytes: [0; 32], length: 0 };
}

impl Write for Line {
    #[inline]
    fn write_str(&mut self, s: &str) -> fmt::Result {
        let end = self.length + s.len();
        self.bytes.get_mut(self.length..end).ok_or(fmt::Error)?.copy_from_slice(s.as_bytes());
        self.length = end;
        Ok(())
    }
}

fn at_into(hz: f64, out: &mut Line) -> fmt::Result {
    write!(out, "{:.3}", hz / 1000.0)
}

/// `khz`, branch by branch, without its `String`.
fn khz_into(hz: f64, out: &mut Line) -> fmt::Result {
    let k = hz / 1000.0;
    if (k - k.round()).abs() < 1e-6 {
        write!(out, "{k:.0}")
    } else if (k * 10.0 - (k * 10.0).round()).abs() < 1e-6 {
        write!(out, "{k:.1}")
    } else {
        write!(out, "{k:.3}")
    }
}

fn hertz_into(hz: f64, out: &mut Line) -> fmt::Result {
    write!(out, "{hz:.0}")
}

type Ours = fn(f64, &mut [u8]) -> Text;
type Theirs = fn(f64, &mut Line) -> fmt::Result;

const CALLS: [(&str, Ours, Theirs); 3] = [
    ("at", ffi::text_at, at_into),
    ("khz", ffi::text_khz, khz_into),
    ("whole hertz", ffi::text_hertz, hertz_into),
];

/// A thousand figures each. "Dials" lie from 1.8 to 29.7 MHz, in turn in hundreds of hertz, in whole hertz
/// and in eighths; "mixed" are of every size up to 2^43, of both signs, in all their bits.
fn figures() -> [(&'static str, Vec<f64>); 2] {
    let mut state = 1u64;
    let mut next = move || {
        // Knuth's MMIX generator
        state =
            state.wrapping_mul(6_364_136_223_846_793_005).wrapping_add(1_442_695_040_888_963_407);
        state >> 12
    };
    let dials = (0..1000).map(|i| {
        let unit = [100.0, 1.0, 0.125][i % 3];
        1_800_000.0 + (next() % (27_900_000.0 / unit) as u64) as f64 * unit
    });
    let dials = dials.collect();
    let mixed = (0..1000).map(|i| {
        let exponent = 1023 - 11 + (i * 7 % 54) as u64;
        f64::from_bits((i as u64 & 1) << 63 | exponent << 52 | next())
    });
    [("dials", dials), ("mixed", mixed.collect())]
}

/// Both sides write the same.
fn agree(name: &str, ours: Ours, theirs: Theirs, figures: &[f64]) {
    for &hz in figures {
        let (mut a, mut b) = ([0; MOST_TEXT], Line::EMPTY);
        let text = ours(hz, &mut a);
        if theirs(hz, &mut b).is_err()
            || text.refusal != 0
            || a[..text.length as usize] != b.bytes[..b.length]
            || name == "khz" && khz(hz).as_bytes() != &b.bytes[..b.length]
        {
            differ(&format!("text, {name}, of {hz:?}"));
        }
    }
}

/// The time of a text, its call known where it is timed.
fn text(
    rounds: usize,
    figures: &[f64],
    ours: impl Fn(f64, &mut [u8]) -> Text,
    theirs: impl Fn(f64, &mut Line) -> fmt::Result,
) -> (f64, f64) {
    let n = figures.len() as f64;
    let (mut lent, mut out) = ([0u8; MOST_TEXT], Line::EMPTY);
    let (a, b) = least(
        rounds,
        &mut || {
            for &hz in figures {
                black_box(ours(black_box(hz), &mut lent));
                black_box(&lent);
            }
        },
        &mut || {
            for &hz in figures {
                out.length = 0;
                black_box(theirs(black_box(hz), &mut out)).ok();
                black_box(&out);
            }
        },
    );
    (a / n, b / n)
}

pub fn timed(show: bool, rounds: usize) {
    println!("\nnumber texts, into bytes that are already there");
    for (kind, figures) in figures() {
        for (name, ours, theirs) in CALLS {
            agree(name, ours, theirs, &figures);
        }
        let ratio = text(rounds, &figures, ffi::text_at, at_into);
        line(show, &format!("  at, {kind}"), ratio, Some(0.5));
        let ratio = text(rounds, &figures, ffi::text_khz, khz_into);
        line(show, &format!("  khz, {kind}"), ratio, Some(0.5));
        let string = |hz: f64, _: &mut Line| {
            black_box(khz(hz));
            Ok(())
        };
        let ratio = text(rounds, &figures, ffi::text_khz, string);
        line(show, &format!("  khz, {kind}, by the Rust's with its String"), ratio, None);
        let ratio = text(rounds, &figures, ffi::text_hertz, hertz_into);
        line(show, &format!("  whole hertz, {kind}"), ratio, Some(0.5));
    }
}

pub fn stacks() {
    println!("\nstack of a text, the driver's frame included: bytes");
    let figures = figures();
    for (name, ours, _) in CALLS {
        let mut lent = [0u8; MOST_TEXT];
        let all = || figures.iter().flat_map(|(_, f)| f);
        let n = stack::depth(|| {
            for &hz in all() {
                black_box(ours(black_box(hz), &mut lent));
            }
        });
        println!("  {name:<17} {n:>6}");
    }
}
