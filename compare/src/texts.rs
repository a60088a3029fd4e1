//! Number texts: a figure's text in lent bytes, in kilohertz as `at` and as `khz` write it, and in whole
//! hertz. The texts are the Rust's own (adapter.rs), the refusals document 02's (expect.rs). Every lent
//! byte is compared, and eight on either side of those lent. Nothing is allotted for a figure, except by
//! the Rust's `khz` itself.

use std::fmt;
use std::process::exit;

use crate::draw::Rng;
use crate::ffi::{self, Text};
use crate::oracle::adapter;
use crate::reach::{Key, Reach};
use crate::{Run, expect, fixed};

/// The calls, in the order of the header.
pub const CALLS: [&str; 3] = ["text_at", "text_khz", "text_hertz"];
const AT: usize = 0;
const KHZ: usize = 1;
const HERTZ: usize = 2;

const LIMIT: f64 = 8_796_093_022_208.0; // 2^43

/// The most bytes lent, and those beside them that are looked at too.
pub const ROOM: usize = 20;
const BESIDE: usize = 8;

fn asked(call: usize, hz: f64, text: &mut [u8]) -> Text {
    match call {
        AT => ffi::text_at(hz, text),
        KHZ => ffi::text_khz(hz, text),
        _ => ffi::text_hertz(hz, text),
    }
}

/// A text as the Rust writes it, in room of its own.
#[derive(Clone, Copy)]
pub struct Line {
    bytes: [u8; 24],
    length: usize,
}

impl Line {
    pub const EMPTY: Self = Self { bytes: [0; 24], length: 0 };

    pub fn text(&self) -> &[u8] {
        &self.bytes[..self.length]
    }

    /// The decimals that it has.
    fn places(&self) -> usize {
        self.text().iter().rev().position(|&b| b == b'.').unwrap_or(0)
    }
}

impl fmt::Write for Line {
    fn write_str(&mut self, s: &str) -> fmt::Result {
        let end = self.length + s.len();
        self.bytes.get_mut(self.length..end).ok_or(fmt::Error)?.copy_from_slice(s.as_bytes());
        self.length = end;
        Ok(())
    }
}

/// The text that a call has to write; none of a figure that it refuses.
fn wanted(call: usize, hz: f64) -> Option<Line> {
    if expect::no_text_of(hz) {
        return None;
    }
    let mut line = Line::EMPTY;
    adapter::text(call, hz, &mut line).expect("a text of at most 24 bytes");
    Some(line)
}

/// The refusal and the text that a call has to give with so many bytes lent.
fn answer(want: &Option<Line>, room: usize) -> (u8, &[u8]) {
    match want {
        None => (21, &[]),
        Some(line) if expect::text_refused(line.length, room) => (24, &[]),
        Some(line) => (0, line.text()),
    }
}

/// One call, its text known: the agreed refusal, or what differs.
fn compare(call: usize, hz: f64, room: usize, fill: u8, want: &Option<Line>) -> Result<u8, String> {
    let (refusal, text) = answer(want, room);
    let mut lent = [fill; BESIDE + ROOM + BESIDE];
    let mut after = lent;
    after[BESIDE..BESIDE + text.len()].copy_from_slice(text);
    let got = asked(call, hz, &mut lent[BESIDE..BESIDE + room]);
    if got.refusal == refusal && got.length as usize == text.len() && lent == after {
        return Ok(refusal);
    }
    let beside =
        lent[..BESIDE] != after[..BESIDE] || lent[BESIDE + room..] != after[BESIDE + room..];
    Err(format!(
        "{} of {hz:?} ({:#018x}), {room} bytes lent that hold {fill:#04x}\n  \
         library:  refusal {}, length {}, lent bytes \"{}\"{}\n  \
         expected: refusal {refusal}, length {}, lent bytes \"{}\"",
        CALLS[call],
        hz.to_bits(),
        got.refusal,
        got.length,
        lent[BESIDE..BESIDE + room].escape_ascii(),
        if beside { ", and bytes beside them" } else { "" },
        text.len(),
        after[BESIDE..BESIDE + room].escape_ascii(),
    ))
}

// ---------------------------------------------------------------------------------- figures

/// A whole number of any size below 2 to so many bits.
fn sized(rng: &mut Rng, bits: usize) -> u64 {
    match rng.below(bits + 1) {
        0 => 0,
        n => rng.next() >> (64 - n),
    }
}

/// The figure, or one that is at most so many doubles away.
fn beside(rng: &mut Rng, x: f64, most: usize) -> f64 {
    let by = rng.below(2 * most + 1) as i64 - most as i64;
    match x.to_bits().checked_add_signed(by) {
        Some(bits) => f64::from_bits(bits),
        None => x,
    }
}

fn with_exponent(rng: &mut Rng, least: i64, most: i64) -> f64 {
    let e = 1023 + least + rng.below((most - least + 1) as usize) as i64;
    f64::from_bits((e as u64) << 52 | rng.next() >> 12)
}

fn power_of_two(e: i32) -> f64 {
    if e < -1022 {
        f64::from_bits(1 << (e + 1074))
    } else {
        f64::from_bits(((e + 1023) as u64) << 52)
    }
}

type Kind = (&'static str, fn(&mut Rng) -> f64);

/// Kinds of figures, without their signs. The last three, drawn more rarely, are refused for the most part.
const KINDS: [Kind; 17] = [
    ("of sizes that digits show", |rng| with_exponent(rng, -14, 42)),
    ("eighths", |rng| sized(rng, 46) as f64 / 8.0),
    ("dials", |rng| {
        let unit = rng.pick(&[0.125, 0.5, 1.0, 10.0, 50.0, 100.0, 500.0, 1000.0]);
        rng.below((30_000_000.0 / unit) as usize) as f64 * unit
    }),
    // halves in thousandths of kilohertz
    ("odd multiples of 62.5", |rng| {
        let x = (2 * sized(rng, 36) + 1) as f64 * 62.5;
        beside(rng, x, 1)
    }),
    ("halves of hertz", |rng| {
        let x = sized(rng, 43) as f64 + 0.5;
        beside(rng, x, 1)
    }),
    ("halves at one decimal of kilohertz", |rng| {
        let x = sized(rng, 36) as f64 * 100.0 + 50.0;
        beside(rng, x, 1)
    }),
    ("a millionth beside whole kilohertz", |rng| {
        let x = sized(rng, 32) as f64 * 1000.0 + rng.pick(&[0.001, -0.001]);
        beside(rng, x.abs(), 8)
    }),
    ("a millionth beside ten times a whole number", |rng| {
        let x = sized(rng, 35) as f64 * 100.0 + rng.pick(&[0.0001, -0.0001]);
        beside(rng, x.abs(), 8)
    }),
    ("powers of two", |rng| {
        let x = power_of_two(rng.below(58) as i32 - 14);
        beside(rng, x, 3)
    }),
    ("powers of ten", |rng| {
        let x = 10f64.powi(rng.below(21) as i32 - 8);
        beside(rng, x, 3)
    }),
    ("a digit more by rounding", |rng| {
        let under = rng.pick(&[0.5, 0.25, 0.05, 0.001, 0.0005, 0.0001, 0.00005]);
        let x = 10f64.powi(rng.below(13) as i32) - under;
        beside(rng, x, 2)
    }),
    ("thousandths of hertz", |rng| sized(rng, 52) as f64 / 1000.0),
    ("subnormals and zeros", |rng| f64::from_bits(sized(rng, 52))),
    ("about 2^43", |rng| beside(rng, LIMIT, 4)),
    ("of any bits", |rng| f64::from_bits(rng.next() >> 1)),
    ("above 2^43", |rng| with_exponent(rng, 43, 1023)),
    ("not finite", |rng| f64::from_bits(0x7ff << 52 | sized(rng, 52))),
];

/// A figure of a kind, of either sign.
fn figure(rng: &mut Rng, kind: usize) -> f64 {
    let x = (KINDS[kind].1)(rng);
    if rng.below(3) == 0 { -x } else { x }
}

/// Bytes lent for a text of some length: enough, most of all just enough.
fn enough(rng: &mut Rng, length: usize) -> usize {
    (length + rng.pick(&[0, 0, 1, 2, 5])).min(ROOM)
}

/// Too few.
fn too_few(rng: &mut Rng, length: usize) -> usize {
    match rng.below(4) {
        0 => 0,
        1 => rng.below(length),
        _ => length - 1,
    }
}

// ------------------------------------------------------------------------------ what was met

/// What the texts of a run met.
#[derive(Default)]
pub struct Met {
    pub figures: u64,
    pub refused: u64,
    lengths: [[u64; 24]; 3],
    refusals: [[u64; 2]; 3],
    out_of_size: [[u64; 2]; 3],
    rooms: [[u64; 4]; 3],
    ties: [[u64; 2]; 3],
    places: [[u64; 2]; 4],
    noughts: [[u64; 4]; 3],
    tests: [[u64; 3]; 2],
    steps: [u64; 2],
    odd: [[u64; 2]; 3],
}

/// Whether the figure lies half way between two texts with so many decimals, and if so whether the even
/// one is the upper.
fn half(x: f64, places: usize) -> Option<bool> {
    let bits = x.abs().to_bits();
    let exponent = bits >> 52;
    let fraction = 1 << 52 | bits & ((1 << 52) - 1);
    // x is the fraction times 2^-under
    let under = 1075u64.checked_sub(exponent).filter(|n| (1..=63).contains(n))?;
    let scaled = fraction * [1, 10, 100, 1000][places];
    let half = scaled & ((1 << under) - 1) == 1 << (under - 1);
    half.then_some(scaled >> under & 1 == 1)
}

impl Met {
    /// A figure that is refused.
    fn out_of_size(&mut self, hz: f64) {
        let kind = match hz {
            _ if hz.is_nan() => 0,
            _ if hz.is_infinite() => 1,
            _ => 2,
        };
        self.out_of_size[kind][usize::from(hz.is_sign_negative())] += 1;
    }

    /// A figure that has texts.
    fn figure(&mut self, hz: f64) {
        let sign = usize::from(hz.is_sign_negative());
        self.figures += 1;
        if hz == 0.0 {
            self.odd[0][sign] += 1;
        } else if hz.is_subnormal() {
            self.odd[1][sign] += 1;
        } else if hz.abs() == LIMIT {
            self.odd[2][sign] += 1;
        }
        // the tests of `khz`: on which side of a millionth, where it is a matter of some doubles
        let k = hz / 1000.0;
        let far = |x: f64| (x - x.round()).abs();
        self.test(0, k, far(k));
        if far(k) < 1e-6 {
            return;
        }
        let tenfold = k * 10.0;
        if self.test(1, tenfold, far(tenfold)) {
            let exact = (tenfold - tenfold.round() + k.mul_add(10.0, -tenfold)).abs();
            if (far(tenfold) < 1e-6) != (exact < 1e-6) {
                self.steps[usize::from(far(tenfold) < 1e-6)] += 1;
            }
        }
    }

    /// Whether what a test asks of is within four doubles of a millionth.
    fn test(&mut self, test: usize, x: f64, far: f64) -> bool {
        let off = (far - 1e-6).abs();
        let near = off < 1e-9 && off <= 4.0 * (x.abs().next_up() - x.abs());
        if near {
            let side = if far < 1e-6 { 0 } else { 1 + usize::from(far > 1e-6) };
            self.tests[test][side] += 1;
        }
        near
    }

    fn text(&mut self, call: usize, hz: f64, line: &Line) {
        let sign = usize::from(hz.is_sign_negative());
        let places = line.places();
        self.lengths[call][line.length] += 1;
        if call == KHZ {
            self.places[places][sign] += 1;
        }
        if let Some(upper) = half(if call == HERTZ { hz } else { hz / 1000.0 }, places) {
            self.ties[call][usize::from(upper)] += 1;
        }
        if sign == 1
            && line.text()[1] == b'0'
            && !line.text().iter().any(|b| b"123456789".contains(b))
        {
            self.noughts[call][places] += 1;
        }
    }

    /// A call with so many bytes lent.
    fn lent(&mut self, call: usize, want: &Option<Line>, room: usize, refusal: u8) {
        match refusal {
            21 => self.refusals[call][0] += 1,
            24 => self.refusals[call][1] += 1,
            _ => {}
        }
        self.refused += u64::from(refusal != 0);
        let Some(line) = want else {
            return;
        };
        match room as i64 - line.length as i64 {
            _ if room == 0 => self.rooms[call][0] += 1,
            -1 => self.rooms[call][1] += 1,
            0 => self.rooms[call][2] += 1,
            1 => self.rooms[call][3] += 1,
            _ => {}
        }
    }

    pub fn count(&self, reach: &mut Reach) {
        let mut all = |what, rows: &[&[u64]]| {
            for (a, row) in rows.iter().enumerate() {
                for (b, &n) in row.iter().enumerate() {
                    reach.add((what, a as u16, b as u16), n);
                }
            }
        };
        all("text length", &self.lengths.each_ref().map(|r| &r[..]));
        all("text refused 21, 24", &self.refusals.each_ref().map(|r| &r[..]));
        all("text out of size, sign", &self.out_of_size.each_ref().map(|r| &r[..]));
        all("text bytes lent", &self.rooms.each_ref().map(|r| &r[..]));
        all("text half", &self.ties.each_ref().map(|r| &r[..]));
        all("text khz decimals, sign", &self.places.each_ref().map(|r| &r[..]));
        all("text -0, decimals", &self.noughts.each_ref().map(|r| &r[..]));
        all("text khz test, side", &self.tests.each_ref().map(|r| &r[..]));
        all("text khz rounded product", &[&self.steps]);
        all("text figure, sign", &self.odd.each_ref().map(|r| &r[..]));
    }
}

/// What texts have to meet, the calls in their order (0 at, 1 khz, 2 hertz).
pub fn required() -> Vec<Key> {
    let mut out = Vec::new();
    let mut all = |what, a: u16, bs: &[u16]| out.extend(bs.iter().map(|&b| (what, a, b)));
    let lengths: Vec<u16> = (0..=15).collect();
    all("text length", 0, &lengths[5..=15]);
    all("text length", 1, &lengths[1..=15]);
    all("text length", 2, &lengths[1..=14]);
    for call in 0..3 {
        all("text refused 21, 24", call, &[0, 1]);
        // none, one too few, enough, one more
        all("text bytes lent", call, &[0, 1, 2, 3]);
        // to the lower and to the upper
        all("text half", call, &[0, 1]);
    }
    for kind in 0..3 {
        // not a number, infinite, above 2^43
        all("text out of size, sign", kind, &[0, 1]);
        // zero, subnormal, 2^43
        all("text figure, sign", kind, &[0, 1]);
    }
    for places in [0, 1, 3] {
        all("text khz decimals, sign", places, &[0, 1]);
    }
    all("text -0, decimals", 0, &[3]);
    all("text -0, decimals", 1, &[0, 3]);
    all("text -0, decimals", 2, &[0]);
    // below a millionth, on it (of the first test alone: the other's figures have no such double), above
    all("text khz test, side", 0, &[0, 1, 2]);
    all("text khz test, side", 1, &[0, 2]);
    // ten times the figure, not rounded, would be on the other side
    all("text khz rounded product", 0, &[0, 1]);
    out
}

// ------------------------------------------------------------------------------------- runs

impl Run {
    fn text(&mut self, call: usize, hz: f64, room: usize, fill: u8, want: &Option<Line>) -> u8 {
        match compare(call, hz, room, fill, want) {
            Ok(refusal) => {
                self.texts.lent(call, want, room, refusal);
                refusal
            }
            Err(what) => {
                println!(
                    "DIFFERENCE (seed {}, figure {}): {what}",
                    self.seed,
                    self.texts.figures + 1
                );
                exit(1)
            }
        }
    }

    /// The three texts of a figure; now and then too few bytes are lent as well.
    fn texts_of(&mut self, rng: &mut Rng, hz: f64) {
        let fill = rng.next() as u8;
        let mut taken = false;
        for call in [AT, KHZ, HERTZ] {
            let want = wanted(call, hz);
            let Some(line) = want else {
                let room = rng.below(ROOM + 1);
                self.text(call, hz, room, fill, &want);
                continue;
            };
            taken = true;
            let room = enough(rng, line.length);
            self.text(call, hz, room, fill, &want);
            self.texts.text(call, hz, &line);
            if rng.below(4) == 0 {
                let room = too_few(rng, line.length);
                self.text(call, hz, room, fill, &want);
            }
        }
        if taken {
            self.texts.figure(hz);
        } else {
            self.texts.out_of_size(hz);
        }
    }
}

/// Texts that document 02, its readings, the Rust's own comment and the header state.
const STATED: [(usize, f64, &str); 35] = [
    (AT, 0.5, "0.001"),
    (AT, 1.5, "0.002"),
    (AT, 2.5, "0.003"),
    (AT, 4.5, "0.004"),
    (AT, 62.5, "0.062"),
    (AT, 187.5, "0.188"),
    (AT, -0.0, "-0.000"),
    (AT, 3_585_000.0, "3585.000"),
    (AT, 14_097_700.0, "14097.700"),
    (AT, LIMIT, "8796093022.208"),
    (AT, -LIMIT, "-8796093022.208"),
    (KHZ, 0.001, "0.000"),
    (KHZ, -0.001, "-0.000"),
    (KHZ, 0.000999, "0"),
    (KHZ, -0.0001, "-0"),
    (KHZ, -0.4, "-0.000"),
    (KHZ, 999.999, "1.000"),
    (KHZ, 999.9995, "1"),
    (KHZ, 100.00009, "0.1"),
    (KHZ, 100.0001, "0.100"),
    (KHZ, 62.5, "0.062"),
    (KHZ, 7_125_000.0, "7125"),
    (KHZ, 14_099_500.0, "14099.5"),
    (KHZ, 14_100_000.0, "14100"),
    (KHZ, 14_097_700.0, "14097.7"),
    (KHZ, 14_097_750.0, "14097.750"),
    (KHZ, -LIMIT, "-8796093022.208"),
    (HERTZ, 0.5, "0"),
    (HERTZ, 1.5, "2"),
    (HERTZ, 2300.5, "2300"),
    (HERTZ, -0.5, "-0"),
    (HERTZ, -0.0, "-0"),
    (HERTZ, 0.0, "0"),
    (HERTZ, LIMIT, "8796093022208"),
    (HERTZ, -LIMIT, "-8796093022208"),
];

/// "A figure not finite or above 2^43 in size meets 21."
fn refused() -> [f64; 6] {
    [LIMIT.next_up(), -LIMIT.next_up(), f64::INFINITY, f64::NEG_INFINITY, f64::NAN, f64::MAX]
}

/// The stated texts, with every number of lent bytes; and every power of two and of ten with the doubles
/// beside it.
pub fn fixed(run: &mut Run) {
    for (call, hz, text) in STATED {
        let want = wanted(call, hz);
        if want.is_none_or(|line| line.text() != text.as_bytes()) {
            let got = want.map_or("none".to_owned(), |line| line.text().escape_ascii().to_string());
            fixed::wrong(&format!("{} of {hz:?}: {text}", CALLS[call]), &got);
        }
        for room in 0..=ROOM {
            run.text(call, hz, room, 0xa5, &want);
        }
    }
    for hz in refused() {
        for (call, room) in (0..3).flat_map(|call| (0..=ROOM).map(move |room| (call, room))) {
            if run.text(call, hz, room, 0xa5, &wanted(call, hz)) != 21 {
                fixed::wrong("not finite or above 2^43 in size: 21", &format!("{hz:?}"));
            }
        }
    }
    let rng = &mut Rng::new(run.seed, 1 << 34);
    let twos = (-1074..=1023).map(power_of_two);
    let tens = (-320..=308).map(|e| format!("1e{e}").parse().unwrap());
    for x in twos.chain(tens) {
        for by in -2i64..=2 {
            let x = f64::from_bits(f64::to_bits(x).saturating_add_signed(by));
            for hz in [x, -x] {
                run.texts_of(rng, hz);
            }
        }
    }
}

/// So many figures that have texts, of every kind in turn; and some that are refused.
pub fn run(run: &mut Run, figures: u64) {
    let rng = &mut Rng::new(run.seed, (1 << 34) + 1);
    let often = KINDS.len() - 3;
    let mut turn = 0;
    while run.texts.figures < figures {
        let rare = turn % 8 == 7;
        let kind = if rare { often + turn / 8 % 3 } else { (turn - turn / 8) % often };
        turn += 1;
        let hz = figure(rng, kind);
        let before = run.texts.figures;
        run.texts_of(rng, hz);
        if !run.brief && run.texts.figures != before && run.texts.figures % 1_000_000 == 0 {
            eprintln!("{} figures as texts", run.texts.figures);
        }
    }
}

/// A call's number, the figure, the bytes lent, and the answer: the refusal and the text.
pub type Answered = (usize, f64, usize, u8, Vec<u8>);

/// Some hundred texts for the replay list, compared on the way: those stated, some of every kind, and
/// both refusals of each call.
pub fn sample(run: &mut Run) -> Vec<Answered> {
    let rng = &mut Rng::new(run.seed, (1 << 34) + 2);
    let mut asked: Vec<_> = STATED.map(|(call, hz, _)| (call, hz, ROOM)).to_vec();
    for kind in 0..KINDS.len() {
        for call in [AT, KHZ, HERTZ, AT, KHZ, HERTZ, AT, KHZ, HERTZ, AT, KHZ, HERTZ] {
            let hz = figure(rng, kind);
            let room = wanted(call, hz).map_or(ROOM, |line| enough(rng, line.length));
            asked.push((call, hz, room));
        }
    }
    for call in [AT, KHZ, HERTZ] {
        for hz in [14_097_750.0, -0.0, -LIMIT] {
            let length = wanted(call, hz).map_or(0, |line| line.length);
            asked.extend([0, length - 1, length, length + 1].map(|room| (call, hz, room)));
        }
        // 21 is met before 24
        asked.extend(refused().map(|hz| (call, hz, rng.below(2))));
    }
    asked.into_iter().map(|(call, hz, room)| answered(run, call, hz, room)).collect()
}

pub fn answered(run: &mut Run, call: usize, hz: f64, room: usize) -> Answered {
    let want = wanted(call, hz);
    run.text(call, hz, room, 0xa5, &want);
    let (refusal, text) = answer(&want, room);
    (call, hz, room, refusal, text.to_vec())
}
