//! Numbers from a seed, and figures at the borders of what the gate takes.

/// Whether the lower and the upper margin are drawn apart (feature `unequal`); else they are one figure.
pub const UNEQUAL: bool = cfg!(feature = "unequal");

/// Whether tables have other 60 m power limits than 100 and 9.15 (feature `watts`); else they have those.
pub const WATTS: bool = cfg!(feature = "watts");

/// splitmix64.
pub struct Rng(u64);

impl Rng {
    pub fn new(seed: u64, stream: u64) -> Self {
        let mut r = Self(seed ^ stream.wrapping_mul(0xd134_2543_de82_ef95));
        r.next();
        r
    }

    pub fn next(&mut self) -> u64 {
        self.0 = self.0.wrapping_add(0x9e37_79b9_7f4a_7c15);
        let mut z = self.0;
        z = (z ^ (z >> 30)).wrapping_mul(0xbf58_476d_1ce4_e5b9);
        z = (z ^ (z >> 27)).wrapping_mul(0x94d0_49bb_1331_11eb);
        z ^ (z >> 31)
    }

    pub fn below(&mut self, n: usize) -> usize {
        (self.next() >> 11) as usize % n.max(1)
    }

    pub fn chance(&mut self, percent: usize) -> bool {
        self.below(100) < percent
    }

    pub fn pick<T: Copy>(&mut self, of: &[T]) -> T {
        of[self.below(of.len())]
    }

    /// 0 to 1, all 53 bits.
    fn part(&mut self) -> f64 {
        (self.next() >> 11) as f64 / (1u64 << 53) as f64
    }
}

pub const BIG: f64 = 1_099_511_627_776.0; // 2^40

/// Where a world's figures lie.
#[derive(Clone, Copy, Debug, PartialEq)]
pub enum Scale {
    /// Small, in eighths.
    Eighths,
    /// Megahertz, in eighths.
    Hf,
    /// Tenths: hardly a sum is exact.
    Decimal,
    /// Any small figure.
    Wild,
    /// Up to 2^40.
    Huge,
    /// Subnormals.
    Tiny,
    /// Any size.
    Mixed,
}

pub fn point(rng: &mut Rng, scale: Scale) -> f64 {
    let sign = if rng.chance(15) { -1.0 } else { 1.0 };
    match scale {
        Scale::Eighths => sign * rng.below(320) as f64 / 8.0,
        Scale::Hf => 14_000_000.0 + rng.below(80_000) as f64 / 8.0,
        Scale::Decimal => sign * rng.below(400) as f64 * 0.1,
        Scale::Wild => sign * rng.part() * 40.0,
        Scale::Huge => {
            let x = BIG - rng.below(3) as f64 * rng.below(4000) as f64 / 8.0;
            if rng.chance(20) { -x } else { x }
        }
        Scale::Tiny => sign * f64::from_bits(rng.below(40) as u64),
        Scale::Mixed => {
            let e = rng.below(70) as i32 - 29;
            sign * ((1.0 + rng.part()) * 2f64.powi(e)).min(BIG)
        }
    }
}

pub fn unit(rng: &mut Rng, scale: Scale) -> f64 {
    match scale {
        Scale::Eighths | Scale::Hf | Scale::Huge => 0.125,
        Scale::Decimal => 0.1,
        Scale::Wild => rng.part(),
        Scale::Tiny => f64::from_bits(1),
        Scale::Mixed => 2f64.powi(rng.below(60) as i32 - 40),
    }
}

/// The figure, or one just beside it.
pub fn nudge(rng: &mut Rng, scale: Scale, x: f64, percent: usize) -> f64 {
    if !rng.chance(percent) {
        return x;
    }
    match rng.below(6) {
        0 => x.next_up(),
        1 => x.next_down(),
        2 => x + 0.125,
        3 => x - 0.125,
        4 => x + unit(rng, scale),
        _ => x - unit(rng, scale),
    }
}

/// Negative zero is no figure of a table (6).
pub fn plain(x: f64) -> f64 {
    if x == 0.0 { 0.0 } else { x.clamp(-BIG, BIG) }
}
