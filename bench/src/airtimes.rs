//! Time on the air, which the Rust does not add up: beside a plain loop of the same kind, and by how much
//! 65,536 records cost more than 256.

use std::hint::black_box;

use crate::{differ, ffi, least, line, stack};

const FEW: usize = 256;
const MOST: usize = 65_536;

/// A log: start seconds, bands, seconds on the air.
struct Log {
    starts: Vec<u64>,
    bands: Vec<u8>,
    seconds: Vec<u16>,
}

/// How the starts of a log stand: that of record i.
type Starts = (&'static str, fn(u64) -> u64);

const KINDS: [Starts; 5] = [
    ("all at once", |_| 1_700_000_000),
    ("1 s apart", |i| 1_700_000_000 + i),
    ("60 s apart", |i| 1_700_000_000 + 60 * i),
    ("600 s apart", |i| 1_700_000_000 + 600 * i),
    ("128 at once, 600 s apart", |i| 1_700_000_000 + i / 128 * 600),
];

fn log(n: usize, start: fn(u64) -> u64) -> Log {
    Log {
        starts: (0..n as u64).map(start).collect(),
        bands: (0..n).map(|i| [160, 80, 40, 30, 20, 17, 15, 12, 10][i * 7 % 9]).collect(),
        seconds: (0..n).map(|i| (i * 37 % 600) as u16).collect(),
    }
}

/// The same in plain Rust: one pass to see that no start falls, one with a total for each band.
#[inline(never)]
fn plain(starts: &[u64], bands: &[u8], seconds: &[u16], totals: &mut [u64]) -> Result<usize, u8> {
    if starts.windows(2).any(|pair| pair[1] < pair[0]) {
        return Err(31);
    }
    let n = starts.len();
    if bands.len() != n || seconds.len() != n || totals.len() != n || n > MOST {
        return Err(32);
    }
    let (mut held, mut tail) = ([0u64; 256], 0);
    for i in 0..n {
        while starts[i] - starts[tail] > 599 {
            held[usize::from(bands[tail])] -= u64::from(seconds[tail]);
            tail += 1;
        }
        let total = &mut held[usize::from(bands[i])];
        *total += u64::from(seconds[i]);
        totals[i] = *total;
    }
    Ok(n)
}

fn totals(name: &str, log: &Log, rounds: usize) -> (f64, f64) {
    let Log { starts, bands, seconds } = log;
    let (mut ours, mut theirs) = (vec![0; starts.len()], vec![0; starts.len()]);
    let found = ffi::airtime(starts, bands, seconds, &mut ours);
    let same = plain(starts, bands, seconds, &mut theirs) == Ok(found.count as usize);
    if found.refusal != 0 || !same || ours != theirs {
        differ(&format!("time on the air, {name}, refusal {}", found.refusal));
    }
    least(
        rounds,
        &mut || {
            black_box(ffi::airtime(black_box(starts), bands, seconds, &mut ours));
        },
        &mut || {
            black_box(plain(black_box(starts), bands, seconds, &mut theirs)).ok();
        },
    )
}

pub fn timed(show: bool, rounds: usize) {
    println!(
        "\ntime on the air, by a plain loop's time; then {MOST} records by {FEW}, library and loop"
    );
    // the most that each number of records cost, however they start: library and loop
    let (mut dear, mut dearest) = ((0f64, 0f64), (0f64, 0f64));
    for (name, start) in KINDS {
        let few = totals(name, &log(FEW, start), rounds);
        let most = totals(name, &log(MOST, start), rounds);
        line(show, &format!("  {FEW}, {name}"), few, None);
        line(show, &format!("  {MOST}, {name}"), most, None);
        println!("    {:.0} and {:.0} times", most.0 / few.0, most.1 / few.1);
        dear = (dear.0.max(few.0), dear.1.max(few.1));
        dearest = (dearest.0.max(most.0), dearest.1.max(most.1));
    }
    println!(
        "  whatever the starts: {FEW} at most {:.2} µs, {MOST} at most {:.0} µs, {:.0} times; the loop {:.0} times",
        dear.0 / 1e3,
        dearest.0 / 1e3,
        dearest.0 / dear.0,
        dearest.1 / dear.1
    );
}

pub fn stacks() {
    let Log { starts, bands, seconds } = log(MOST, KINDS[1].1);
    let mut totals = vec![0; MOST];
    let n = stack::depth(|| {
        black_box(ffi::airtime(&starts, &bands, &seconds, &mut totals));
    });
    println!("\nstack of time on the air, the driver's frame included: {n} bytes");
}
