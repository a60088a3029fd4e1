//! The effective image of a day, which the Rust does not make: by the image check on the same image, by how it
//! grows with the list, and beside plain Rust that finds the amendment of each record and checks nothing.

use std::hint::black_box;

use crate::ffi;
use crate::table::Table;
use crate::{HF, LARGEST, differ, least, line, stack};

const AMENDMENT: usize = 40;
/// The day asked. Every third amendment is of a later one.
const DAY: u32 = 1000;

/// A base image, where its tables begin, and how many records each has.
struct Base {
    name: &'static str,
    image: Vec<u8>,
    counts: [usize; 9],
}

impl Base {
    fn new(name: &'static str, counts: [usize; 9]) -> Self {
        Self { name, image: Table::made(counts).image(), counts }
    }

    /// So many amendments, of records here and there, each with the record that stands there.
    fn list(&self, many: usize) -> Vec<u8> {
        let mut list = Vec::with_capacity(AMENDMENT * many);
        let all: usize = self.counts.iter().sum();
        let mut drawn: u64 = 1;
        for i in 0..many {
            drawn = drawn.wrapping_mul(6364136223846793005).wrapping_add(1442695040888963407);
            let k = (drawn >> 33) as usize % all;
            let (mut table, mut index) = (0, k);
            while self.counts[table] <= index {
                index -= self.counts[table];
                table += 1;
            }
            let day = (drawn >> 20) as u32 % DAY + if i % 3 == 2 { DAY + 1 } else { 0 };
            list.extend((table as u16).to_le_bytes());
            list.extend((index as u16).to_le_bytes());
            list.extend(day.to_le_bytes());
            list.extend(&self.image[64 + 32 * k..96 + 32 * k]);
        }
        list
    }
}

fn u32_at(s: &[u8], at: usize) -> u32 {
    u32::from_le_bytes([s[at], s[at + 1], s[at + 2], s[at + 3]])
}

/// The same image, unchecked: one pass over the list, and the records that count put into a copy.
#[inline(never)]
fn plain(base: &Base, list: &[u8], day: u32, out: &mut [u8]) -> usize {
    let mut before = [0usize; 9];
    for t in 1..9 {
        before[t] = before[t - 1] + base.counts[t - 1];
    }
    let mut found = [(0u32, usize::MAX); 2045];
    for (j, a) in list.chunks_exact(AMENDMENT).enumerate() {
        let (table, index) = (u16::from_le_bytes([a[0], a[1]]), u16::from_le_bytes([a[2], a[3]]));
        let its = u32_at(a, 4);
        let place = &mut found[before[table as usize] + index as usize];
        if its <= day && (place.1 == usize::MAX || place.0 <= its) {
            *place = (its, j);
        }
    }
    out[..base.image.len()].copy_from_slice(&base.image);
    let all = before[8] + base.counts[8];
    for (k, &(_, j)) in found[..all].iter().enumerate() {
        if j != usize::MAX {
            let record = &list[AMENDMENT * j + 8..AMENDMENT * (j + 1)];
            out[64 + 32 * k..96 + 32 * k].copy_from_slice(record);
        }
    }
    base.image.len()
}

/// How long a call takes, with every byte of its answer seen to; beside the check and the plain loop.
fn measured(show: bool, rounds: usize, base: &Base, many: usize) -> f64 {
    let list = base.list(many);
    let mut out = vec![7; base.image.len() + 1];
    let mut other = out.clone();
    let length = ffi::amend(&base.image, &list, DAY, &mut out).length as usize;
    if length != plain(base, &list, DAY, &mut other) || out != other {
        differ(&format!("{}, {many} amendments: {length} bytes", base.name));
    }
    let mut call = || {
        black_box(ffi::amend(black_box(&base.image), black_box(&list), DAY, &mut out));
    };
    let by_check = least(rounds, &mut call, &mut || {
        black_box(ffi::check(black_box(&base.image)));
    });
    line(show, &format!("  {}, {many} amendments, by the check", base.name), by_check, None);
    let by_plain = least(rounds, &mut call, &mut || {
        black_box(plain(base, black_box(&list), DAY, &mut other));
    });
    line(show, &format!("  {}, {many} amendments, by plain Rust", base.name), by_plain, None);
    by_check.0.min(by_plain.0)
}

pub fn timed(show: bool, rounds: usize) {
    println!("\namendments with a day");
    for (base, sizes) in [
        (Base::new("HF table", HF), &[0, 100, 1_000][..]),
        (Base::new("largest image", LARGEST), &[0, 1_000, 100_000, 200_000]),
    ] {
        let times: Vec<f64> = sizes.iter().map(|&n| measured(show, rounds, &base, n)).collect();
        if let [.., once, twice] = times[..] {
            let (a, b) = (sizes[sizes.len() - 2], sizes[sizes.len() - 1]);
            println!(
                "  {}: {a} amendments {:.3} ms, {b} {:.3} ms, {:.2} times",
                base.name,
                once / 1e6,
                twice / 1e6,
                twice / once
            );
        }
    }
}

pub fn stacks() {
    println!("\nstack of amending, the driver's frame included: bytes");
    for (base, many) in
        [(Base::new("HF table", HF), 1_000), (Base::new("largest image", LARGEST), 100_000)]
    {
        let list = base.list(many);
        let mut out = vec![0; base.image.len()];
        let taken = stack::depth(|| {
            black_box(ffi::amend(&base.image, &list, DAY, &mut out));
        });
        println!("  {:<14} {taken:>6}", base.name);
    }
}
