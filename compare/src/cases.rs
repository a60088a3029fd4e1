//! Cases on a table: signals, stations, ladders of rungs. A signal is the one that the table was built
//! around, or is aimed: one end or both, its middle or its dial on an edge of the table, an eighth
//! beside it or one unit in the last place.

use crate::draw::{BIG, Rng, UNEQUAL, WATTS, nudge, plain, unit};
use crate::ffi::{Edges, Figures, Station};
use crate::image::POWER;
use crate::tables::{Signal, World, some_audio, some_margins, watts};

impl World {
    fn target(&self, rng: &mut Rng) -> f64 {
        let x = rng.pick(&self.targets);
        nudge(rng, self.scale, x, 25)
    }

    /// A target among the next ones to a figure.
    fn target_near(&self, rng: &mut Rng, x: f64) -> f64 {
        let n = self.targets.len();
        let at = self.targets.partition_point(|t| *t < x) + rng.below(6);
        let y = self.targets[at.saturating_sub(3).min(n - 1)];
        nudge(rng, self.scale, y, 25)
    }

    /// A width worth trying.
    fn width(&self, rng: &mut Rng) -> f64 {
        let x = match rng.below(5) {
            0..=2 => rng.pick(&self.widths),
            3 => {
                let x = rng.pick(&self.targets);
                (x - self.target_near(rng, x)).abs()
            }
            _ => unit(rng, self.scale) * rng.below(40) as f64,
        };
        let x = if x >= BIG { unit(rng, self.scale) * rng.below(40) as f64 } else { x };
        nudge(rng, self.scale, x, 20)
    }

    /// Audio edges for a given dial: both ends on targets near it, or one end and a width.
    fn audio(&self, rng: &mut Rng, dial: f64, margin: (f64, f64), sideband: u8) -> (f64, f64) {
        let m = if rng.chance(75) { margin } else { (0.0, 0.0) };
        let (mut x, mut y) = (self.target_near(rng, dial), self.target_near(rng, dial));
        if x > y && rng.chance(90) {
            (x, y) = (y, x);
        }
        let (mut low, mut high) = if sideband == 0 {
            (x - dial + m.0, y - dial - m.1)
        } else {
            (dial - y + m.1, dial - x - m.0)
        };
        match rng.below(4) {
            0 => high = low + self.width(rng),
            1 => low = high - self.width(rng),
            _ => {}
        }
        (low, high)
    }

    /// A signal: the one that the table was built around, or one aimed at its edges.
    pub fn signal(&self, rng: &mut Rng) -> Signal {
        if let Some(base) = self.base
            && rng.chance(60)
        {
            let mut s = base;
            if rng.chance(40) {
                s.dial = nudge(rng, self.scale, s.dial, 50);
                s.low = nudge(rng, self.scale, s.low, 25);
                s.high = nudge(rng, self.scale, s.high, 25);
                s.margin.0 = nudge(rng, self.scale, s.margin.0, 15);
                s.margin.1 =
                    if UNEQUAL { nudge(rng, self.scale, s.margin.1, 15) } else { s.margin.0 };
            }
            return s;
        }
        let margin = some_margins(rng, self.scale);
        let sideband = rng.below(2) as u8;
        // the guarded range on the targets, or the range itself
        let m = if rng.chance(75) { margin } else { (0.0, 0.0) };
        let near = some_audio(rng, self.scale);
        let mut x = self.target(rng);
        let mut y = if rng.chance(70) { self.target_near(rng, x) } else { self.target(rng) };
        if x > y && rng.chance(90) {
            (x, y) = (y, x);
        }
        let width = self.width(rng);
        // `near` is the audio edge next to the dial: the low one, so the air's low end on upper
        // sideband and its high end on lower
        let (dial, low, high) = match rng.below(10) {
            0..=3 if sideband == 0 => {
                let dial = x - near + m.0;
                (dial, near, y - dial - m.1)
            }
            0..=3 => {
                let dial = y + near - m.1;
                (dial, near, dial - x - m.0)
            }
            4 | 5 if sideband == 0 => (x - near + m.0, near, near + width),
            4 | 5 => (y + near - m.1, near, near + width),
            6 | 7 if sideband == 0 => (y - near - width - m.1, near, near + width),
            6 | 7 => (x + near + width + m.0, near, near + width),
            8 => (x, near, near + width),
            _ => {
                let (low, high) = self.audio(rng, x, margin, sideband);
                (x, low, high)
            }
        };
        let mut s = Signal { dial, low, high, margin, sideband };
        if rng.chance(20) {
            s.dial = nudge(rng, self.scale, s.dial, 100);
        }
        s
    }

    /// Edges that are read as this pair, with the other pair beside them.
    pub fn edges(&self, rng: &mut Rng, low: f64, high: f64) -> Edges {
        let u = unit(rng, self.scale);
        let other = match rng.below(4) {
            0 | 1 => [low, high],
            2 => [low + u * rng.below(20) as f64, high - u * rng.below(20) as f64],
            _ => [some_audio(rng, self.scale), some_audio(rng, self.scale)],
        };
        let f = match self.table.reading {
            0 => [low, high, other[0], other[1]],
            1 => [other[0], other[1], low, high],
            _ => {
                // the lower low and the higher high, each from either pair
                let inside = [low.max(other[0]), high.min(other[1])];
                match rng.below(4) {
                    0 => [low, high, inside[0], inside[1]],
                    1 => [inside[0], inside[1], low, high],
                    2 => [low, inside[1], inside[0], high],
                    _ => [inside[0], high, low, inside[1]],
                }
            }
        };
        Edges::of(f.map(|x| minus_zero(rng, x)))
    }

    /// A station record that sends this signal.
    pub fn station(&self, rng: &mut Rng, s: &Signal) -> Station {
        let mut out = Station {
            margin_lower_hz: s.margin.0,
            margin_upper_hz: s.margin.1,
            dial_hz: s.dial,
            power_w: watts(rng),
            policy: 2,
            control: rng.pick(&[0, 0, 1, 2, 2, 2]),
            license: if rng.chance(90) { self.class } else { rng.below(5) as u8 },
            sideband: s.sideband,
            itu_region: self.table.region,
            band_plan: rng.below(2) as u8,
            dial_known: 1,
            power_known: rng.below(2) as u8,
        };
        if out.power_known == 1 && rng.chance(60) && !self.table.tables[POWER].is_empty() {
            let x = rng.pick(&self.table.tables[POWER]).figure;
            out.power_w = rng.pick(&[x, x.next_up(), x.next_down(), x + 1.0]);
        }
        if WATTS && out.power_known == 1 && rng.chance(60) {
            // one of the table's 60 m power limits, one beside it, or one between the two
            let (channel, segment) = self.table.limits();
            let x = rng.pick(&[channel, segment]);
            let between = f64::midpoint(channel, segment);
            out.power_w =
                plain(rng.pick(&[x, x.next_up(), x.next_down(), x + 1.0, x - 1.0, between]));
        }
        if rng.chance(10) {
            for _ in 0..1 + rng.below(2) {
                match rng.below(6) {
                    0 => out.policy = rng.pick(&[0, 1, 3]),
                    1 => {
                        out.itu_region =
                            rng.pick(&[0, 1, 2, 3, 255, self.table.region.wrapping_add(1)])
                    }
                    2 => out.control = 255,
                    3 => out.license = 255,
                    4 => out.sideband = 255,
                    _ => out.dial_known = 0,
                }
            }
        }
        // "at 0 the figure isn't looked at"
        let unread = [0.0, 1.0, f64::NAN, f64::INFINITY, 2.0 * BIG, -0.0];
        if out.dial_known == 0 {
            out.dial_hz = rng.pick(&unread);
        }
        if out.power_known == 0 {
            out.power_w = rng.pick(&unread);
        }
        out.margin_lower_hz = minus_zero(rng, out.margin_lower_hz);
        out.margin_upper_hz =
            if UNEQUAL { minus_zero(rng, out.margin_upper_hz) } else { out.margin_lower_hz };
        out.dial_hz = minus_zero(rng, out.dial_hz);
        out.power_w = minus_zero(rng, out.power_w);
        out
    }
}

/// Now and then a zero of edges or station is the negative one.
fn minus_zero(rng: &mut Rng, x: f64) -> f64 {
    if x == 0.0 && rng.chance(20) { -0.0 } else { x }
}

/// Rungs with their floor bytes, and both control frames.
#[derive(Clone)]
pub struct Ladder {
    pub ordinary: Edges,
    pub floor: Edges,
    pub rungs: Vec<f64>,
    pub floors: Vec<u8>,
}

pub fn ladder(rng: &mut Rng, w: &World, s: &Signal) -> Ladder {
    // mostly inside the signal, so that a ladder climbs some way before it is stopped
    let inside = |rng: &mut Rng, odd: usize| {
        let u = unit(rng, w.scale);
        let (mut low, mut high) =
            (s.low + u * rng.below(8) as f64, s.high - u * rng.below(8) as f64);
        if rng.chance(odd) {
            match rng.below(5) {
                0 => (low, high) = w.audio(rng, s.dial, s.margin, s.sideband),
                1 => low = nudge(rng, w.scale, s.low, 80),
                2 => high = nudge(rng, w.scale, s.high, 80),
                3 => (low, high) = (high, low),
                _ => {
                    (low, high) =
                        (s.low - u * rng.below(8) as f64, s.high + u * rng.below(8) as f64)
                }
            }
        }
        w.edges(rng, low, high)
    };
    let count = match rng.below(40) {
        0 => 0,
        1 => 20 + rng.below(60),
        2 if rng.chance(10) => 256,
        _ => 1 + rng.below(7),
    };
    let (ordinary, floor) = (inside(rng, 15), inside(rng, 15));
    let (mut rungs, mut floors) = (Vec::new(), Vec::new());
    let odd = if count == 256 && rng.chance(50) { 0 } else { 25 };
    for _ in 0..count {
        rungs.extend(inside(rng, odd).figures());
        floors.push(rng.below(2) as u8);
    }
    Ladder { ordinary, floor, rungs, floors }
}
