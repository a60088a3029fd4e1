//! Time on the air (document 02, 12): logs whose starts stand together, 599 and 600 seconds apart, and at the
//! ends of what a start can be; of one band, of some, of all; with runs of unequal length and starts that
//! fall. The totals are worked out in airtime.rs; every lent element is compared, and eight on either side.

use std::process::exit;

use crate::airtime::{self, MOST};
use crate::draw::Rng;
use crate::reach::Key;
use crate::{Run, ffi, fixed};

/// Elements beside those lent that are looked at too.
const BESIDE: usize = 8;

/// The runs that are lent, and how many totals.
#[derive(Clone)]
struct Log {
    starts: Vec<u64>,
    bands: Vec<u8>,
    seconds: Vec<u16>,
    lent: usize,
}

impl Log {
    /// Of these starts, all of band 20, with seconds that tell in each total which records are in it.
    fn of(starts: &[u64]) -> Self {
        let n = starts.len();
        let seconds = (0..n).map(|i| 1 << (i % 16)).collect();
        Self { starts: starts.to_vec(), bands: vec![20; n], seconds, lent: n }
    }

    /// Of so many records with 65,535 seconds each, which start `step` seconds apart from the last start of
    /// all on down.
    fn long(n: usize, step: u64, bands: usize) -> Self {
        Self {
            starts: (0..n as u64).rev().map(|i| u64::MAX - i * step).collect(),
            bands: (0..n).map(|i| (i % bands) as u8).collect(),
            seconds: vec![65_535; n],
            lent: n,
        }
    }

    /// The lengths of its runs, the output's last.
    fn lengths(&self) -> [usize; 4] {
        [self.starts.len(), self.bands.len(), self.seconds.len(), self.lent]
    }

    fn resize(&mut self, run: usize, n: usize) {
        match run {
            0 => {
                let last = self.starts.last().copied().unwrap_or(0);
                self.starts.resize(n, last);
            }
            1 => self.bands.resize(n, 20),
            2 => self.seconds.resize(n, 1),
            _ => self.lent = n,
        }
    }
}

/// What the logs of a run met.
#[derive(Default)]
pub struct Met {
    pub logs: u64,
    pub records: u64,
    pub refused: u64,
}

/// One log: the agreed refusal and totals, or what differs.
fn compare(log: &Log, fill: u64) -> Result<(u8, Vec<u64>), String> {
    let Log { starts, bands, seconds, lent } = log;
    let refusal = airtime::refusal(starts, bands.len(), seconds.len(), *lent);
    let totals: Vec<u64> = match refusal {
        0 => (0..*lent).map(|i| airtime::total(starts, bands, seconds, i)).collect(),
        _ => Vec::new(),
    };
    let mut after = vec![fill; BESIDE + lent + BESIDE];
    let mut want = after.clone();
    want[BESIDE..BESIDE + totals.len()].copy_from_slice(&totals);
    let got = ffi::airtime(starts, bands, seconds, &mut after[BESIDE..BESIDE + lent]);
    if got.refusal == refusal && got.count as usize == totals.len() && after == want {
        return Ok((refusal, totals));
    }
    let place = (0..want.len()).find(|&at| after[at] != want[at]);
    let first = place.map_or("all elements as they should be".to_owned(), |at| {
        let index = at as i64 - BESIDE as i64;
        format!("element {index}: library {}, expected {}", after[at], want[at])
    });
    let inputs = match starts.len() {
        0..=40 => format!("\n  starts {starts:?}\n  bands {bands:?}\n  seconds {seconds:?}"),
        _ => String::new(),
    };
    Err(format!(
        "time on the air, lengths {:?}, lent elements that hold {fill:#x}\n  \
         library:  refusal {}, count {}\n  expected: refusal {refusal}, count {}\n  {first}{inputs}",
        log.lengths(),
        got.refusal,
        got.count,
        totals.len(),
    ))
}

impl Run {
    fn airtime(&mut self, log: &Log, fill: u64) -> (u8, Vec<u64>) {
        let (refusal, totals) = match compare(log, fill) {
            Ok(agreed) => agreed,
            Err(what) => {
                let place = self.airtimes.logs + self.airtimes.refused + 1;
                println!("DIFFERENCE (seed {}, log {place}): {what}", self.seed);
                exit(1)
            }
        };
        let lengths = log.lengths();
        // a bit for each run that is longer than the shortest
        let least = lengths.into_iter().min().unwrap_or(0);
        let longer = (0..4).map(|run| u16::from(lengths[run] > least) << run).sum();
        if refusal != 0 {
            self.airtimes.refused += 1;
            self.reach.count("airtime refused, longer runs", refusal.into(), longer);
            if lengths == [MOST + 1; 4] {
                self.reach.count("airtime refused, a record too many", refusal.into(), 0);
            }
        } else {
            self.airtimes.logs += 1;
            self.airtimes.records += totals.len() as u64;
            self.totalled(log, &totals);
        }
        (refusal, totals)
    }

    /// What an answered log is about.
    fn totalled(&mut self, log: &Log, totals: &[u64]) {
        let reach = &mut self.reach;
        let size = match totals.len() {
            0 => 0,
            1 => 1,
            2..MOST => 2,
            _ => 3,
        };
        reach.count("airtime records", size, 0);
        let mut bands = [false; 256];
        log.bands.iter().for_each(|&band| bands[usize::from(band)] = true);
        match bands.iter().filter(|&&met| met).count() {
            1 => reach.count("airtime bands", 1, 0),
            256 => reach.count("airtime bands", 256, 0),
            _ => {}
        }
        if log.seconds.contains(&65_535) {
            reach.count("airtime seconds of 65,535", 0, 0);
        }
        if totals.iter().any(|&total| total > 0xffff_ffff - 65_536) {
            reach.count("airtime total near 2^32", 0, 0);
        }
        if log.starts.first().is_some_and(|&start| start < 599) {
            reach.count("airtime starts near 0, 2^64", 0, 0);
        }
        if log.starts.last().is_some_and(|&start| start > u64::MAX - 599) {
            reach.count("airtime starts near 0, 2^64", 1, 0);
        }
        // how far a record and one of the eight before it start apart, of one band and of two
        for i in 0..totals.len().min(256) {
            let mut left = 0;
            for j in i.saturating_sub(8)..i {
                let apart = log.starts[i] - log.starts[j];
                if matches!(apart, 0 | 1 | 598..=601) {
                    let same = u16::from(log.bands[i] == log.bands[j]);
                    reach.count("airtime apart, same band", apart as u16, same);
                }
                // those that count no more here, and did at the record before
                let before =
                    i.checked_sub(1).map_or(0, |k| log.starts[k].saturating_sub(log.starts[j]));
                left += u16::from(apart > 599 && before <= 599);
            }
            reach.count("airtime records that leave at once", left.min(3), 0);
        }
    }
}

/// What logs have to meet.
pub fn required() -> Vec<Key> {
    let mut out = Vec::new();
    let mut all = |what, keys: &[(u16, u16)]| out.extend(keys.iter().map(|&(a, b)| (what, a, b)));
    // every way in which runs can be of two lengths: so each pair of runs is unequal
    let longer: Vec<(u16, u16)> = (1..15).flat_map(|runs| [(31, runs), (32, runs)]).collect();
    all("airtime refused, longer runs", &longer);
    all("airtime refused, longer runs", &[(31, 0), (32, 0)]);
    all("airtime refused, a record too many", &[(31, 0), (32, 0)]);
    // none, one, some, the most
    all("airtime records", &[(0, 0), (1, 0), (2, 0), (3, 0)]);
    all("airtime bands", &[(1, 0), (256, 0)]);
    all("airtime seconds of 65,535", &[(0, 0)]);
    all("airtime total near 2^32", &[(0, 0)]);
    all("airtime starts near 0, 2^64", &[(0, 0), (1, 0)]);
    for apart in [0, 1, 598, 599, 600, 601] {
        all("airtime apart, same band", &[(apart, 0), (apart, 1)]);
    }
    all("airtime records that leave at once", &[(0, 0), (1, 0), (2, 0), (3, 0)]);
    out
}

// ------------------------------------------------------------------------------------- runs

/// Totals that follow from document 02's words alone.
fn stated() -> [(Log, &'static [u64]); 7] {
    const TOP: u64 = u64::MAX;
    let bands = |mut log: Log, bands: &[u8]| {
        log.bands = bands.to_vec();
        log
    };
    [
        (Log::of(&[]), &[]),
        (Log::of(&[0]), &[1]),
        // seconds 1, 2, 4, 8
        (Log::of(&[0, 599, 600, 1199]), &[1, 3, 6, 12]),
        (Log::of(&[7, 7, 7]), &[1, 3, 7]),
        (Log::of(&[TOP - 600, TOP - 599, TOP, TOP]), &[1, 3, 6, 14]),
        (bands(Log::of(&[5, 5, 5, 5]), &[0, 255, 0, 255]), &[1, 2, 5, 10]),
        // four leave at once
        (Log::of(&[0, 1, 2, 3, 603]), &[1, 3, 7, 15, 16]),
    ]
}

/// The stated totals; the longest logs; every way in which runs can be unequal, with starts in order and not.
pub fn fixed(run: &mut Run) {
    for (log, want) in stated() {
        let got = run.airtime(&log, 0xa5a5);
        if got != (0, want.to_vec()) {
            fixed::wrong(
                &format!("totals of starts {:?}: {want:?}", log.starts),
                &format!("{got:?}"),
            );
        }
    }
    for (step, bands) in [(0, 1), (1, 256), (599, 1), (600, 2), (1, 1)] {
        run.airtime(&Log::long(MOST, step, bands), 7);
        run.airtime(&Log::long(MOST + 1, step, bands), 7);
    }
    let mut falls = Log::long(MOST + 1, 1, 1);
    falls.starts[MOST] -= 2;
    run.airtime(&falls, 7);
    for n in [1, 2, 3, 17, MOST] {
        for longer in 1..15 {
            for falling in [false, true] {
                let mut log = Log::long(n, 300, 3);
                (0..4).filter(|run| longer >> run & 1 == 1).for_each(|run| log.resize(run, n + 1));
                if falling && log.starts.len() > 1 {
                    log.starts[0] = u64::MAX;
                    *log.starts.last_mut().expect("two starts") = u64::MAX - 1;
                }
                run.airtime(&log, u64::MAX);
            }
        }
    }
}

/// Seconds from a start to the next.
const GAPS: [u64; 16] = [0, 0, 0, 1, 2, 7, 60, 199, 200, 299, 300, 301, 598, 599, 600, 601];

/// A log: how its records stand, and of what bands they are, is drawn for the whole of it.
fn drawn(rng: &mut Rng) -> Log {
    let n = match rng.below(100) {
        0 => rng.below(3000),
        1..=4 => rng.below(300),
        5..=9 => rng.below(3),
        _ => rng.below(24),
    };
    let few = rng.below(GAPS.len());
    let far = rng.chance(20);
    let gap = |rng: &mut Rng| match rng.below(4) {
        _ if far && rng.chance(10) => rng.next() >> rng.below(64),
        0 => rng.pick(&GAPS),
        1 => rng.below(650) as u64,
        _ => GAPS[few],
    };
    let mut start = match rng.below(4) {
        0 => 0,
        1 => rng.below(1200) as u64,
        2 => u64::MAX - rng.below(3000) as u64,
        _ => rng.next(),
    };
    let bands = rng.pick(&[1, 1, 2, 3, 256]);
    let first = rng.next() as u8;
    let heavy = rng.chance(30);
    let mut log = Log::of(&[]);
    for i in 0..n {
        if i > 0 {
            start = start.saturating_add(gap(rng));
        }
        log.starts.push(start);
        log.bands.push(first.wrapping_add(rng.below(bands) as u8));
        log.seconds.push(match rng.below(3) {
            _ if heavy => 65_535,
            0 => rng.pick(&[0, 1, 255, 256, 32_768, 65_535]),
            _ => rng.next() as u16,
        });
    }
    log.lent = n;
    log
}

/// A start below the one before, anywhere, where there are two and the one before is not nought.
fn fall(rng: &mut Rng, log: &mut Log) {
    if log.starts.len() > 1 {
        let at = 1 + rng.below(log.starts.len() - 1);
        let before = log.starts[at - 1];
        log.starts[at] = match rng.below(3) {
            0 => 0,
            1 => rng.next() % before.max(1),
            _ => before.saturating_sub(1),
        };
    }
}

/// So many logs that have totals; and some that are refused.
pub fn run(run: &mut Run, logs: u64) {
    let rng = &mut Rng::new(run.seed, 1 << 37);
    while run.airtimes.logs < logs {
        let fill = rng.next();
        let mut log = drawn(rng);
        run.airtime(&log, fill);
        if rng.chance(25) {
            if rng.chance(50) {
                fall(rng, &mut log);
            }
            if rng.chance(70) {
                let to = log.lent + 1 + rng.below(3);
                let shorter = rng.chance(30);
                let which = 1 + rng.below(14);
                for of in (0..4).filter(|of| which >> of & 1 == 1) {
                    let n = if shorter { log.lengths()[of].saturating_sub(1) } else { to };
                    log.resize(of, n);
                }
            }
            run.airtime(&log, fill);
        }
    }
}
