//! Document 02, 4, channel against segment: "On 60 m a signal wholly inside the segment that only brushes
//! a channel is judged by the channel. From now on a data segment of that band which holds the guarded
//! range goes first, unless the first overlapping channel holds that range as well." The Rust judges as
//! before. Where that sentence changes an answer, the whole new answer is worked out here from documents
//! 01 and 02, and the old one too, which the Rust must give; every other answer is the Rust's. With the
//! feature `stub` this file is built a second time, for the stub.

use super::adapter::{self, Ceiling, Prepared};
use super::expect;
use crate::ffi::{Decision, Edges, Figures, NOTHING, Parts, Station};
use crate::image::{
    BANDS, CHANNELS, EXCLUDED, HAS_CHANNELS, HAS_EMISSIONS, PRIVILEGES, Record, SEGMENTS, Table,
};

/// An answer that changed: as it was, by the channel, and as it is, by the segment.
#[derive(Clone, Copy)]
pub struct Change {
    pub was: Decision,
    pub now: Decision,
}

/// A ceiling whose climb judged changed signals: as it was, and what changed, rung by rung.
pub struct Climb {
    pub was: Ceiling,
    pub changes: Vec<Change>,
}

/// A range, both ends included.
#[derive(Clone, Copy)]
struct Span {
    low: f64,
    high: f64,
}

impl Span {
    /// "`holds` and `overlaps` include both ends."
    fn holds(self, other: Self) -> bool {
        self.low <= other.low && other.high <= self.high
    }

    fn overlaps(self, other: Self) -> bool {
        self.low <= other.high && other.low <= self.high
    }
}

fn span(r: &Record) -> Span {
    Span { low: r.low, high: r.high }
}

/// A channel: its centre, half the width to either side.
fn channel(t: &Table, r: &Record) -> Span {
    Span { low: r.low - t.width / 2.0, high: r.low + t.width / 2.0 }
}

/// A signal: the audio edges that the table reads, on the air, and with the margins.
struct Sent {
    audio: Span,
    air: Span,
    guarded: Span,
}

/// Reading "0 power, 1 spectral, 2 wider"; sideband "0 upper, 1 lower".
fn sent(t: &Table, s: &Station, e: &Edges) -> Sent {
    let [power_low, power_high, low, high] = e.figures().map(expect::read);
    let audio = match t.reading {
        0 => Span { low: power_low, high: power_high },
        1 => Span { low, high },
        _ => Span { low: power_low.min(low), high: power_high.max(high) },
    };
    let (dial, (lower, upper)) = (expect::read(s.dial_hz), expect::margins(s));
    let air = match s.sideband {
        0 => Span { low: dial + audio.low, high: dial + audio.high },
        _ => Span { low: dial - audio.high, high: dial - audio.low },
    };
    Sent { audio, air, guarded: Span { low: air.low - lower, high: air.high + upper } }
}

/// Whether a signal comes to the choice between channel and segment: Rules in force, nothing asked of the
/// station absent, "the first band holding the guarded range, automatic exclusion, 60 m"; there "some
/// privilege must hold the unguarded range; emission lists of privileges aren't read. Nothing is then
/// permitted", and the band's own emissions.
fn to_be_placed(t: &Table, s: &Station, kind: u8, direction: u8, x: &Sent) -> bool {
    let asked = s.policy == 2
        && s.itu_region == t.region
        && [s.control, s.license, s.sideband].iter().all(|&code| code != 255)
        && s.dial_known == 1;
    let band = t.tables[BANDS].iter().find(|b| span(b).holds(x.guarded)).map(|b| b.band);
    // "Automatic is off when the direction is Operator."
    let automatic = s.control == 2 && direction != 2;
    let excluded = automatic && t.tables[EXCLUDED].iter().any(|r| Some(r.band) == band);
    let on_sixty = t.has(HAS_CHANNELS) && band == Some(t.channel_band);
    let privileged =
        t.tables[PRIVILEGES].iter().any(|p| p.class == s.license && span(p).holds(x.air));
    let emission = !t.has(HAS_EMISSIONS) || t.emissions >> kind & 1 == 1;
    asked && on_sixty && !excluded && privileged && kind != 3 && emission
}

/// An answer on 60 m that is blocked and says where the signal lies.
fn drafted(t: &Table, x: &Sent, code: u8, rule: u16, (place, place_rule): (Span, u16)) -> Decision {
    Decision {
        verdict: 2,
        code,
        rule_known: 1,
        rule,
        band_known: 1,
        band: t.channel_band,
        segment_known: 1,
        segment_low: place.low,
        segment_high: place.high,
        segment_rule: place_rule,
        audio_known: 1,
        audio_low: x.audio.low,
        audio_high: x.audio.high,
        width: x.audio.high - x.audio.low,
        air_known: 1,
        air_low: x.air.low,
        air_high: x.air.high,
        ..NOTHING
    }
}

fn watts(s: &Station) -> Option<f64> {
    (s.power_known == 1).then_some(expect::read(s.power_w))
}

/// By a channel that doesn't hold the guarded range: blocked, but for "a CW carrier on centre".
fn by_channel(t: &Table, s: &Station, kind: u8, x: &Sent, r: &Record) -> Decision {
    let rule = t.rules[3];
    let blocked = drafted(t, x, 24, rule, (channel(t, r), rule));
    let middle = f64::midpoint(x.air.low, x.air.high);
    if kind != 1 || (middle - r.low).abs() > t.tolerance {
        return blocked;
    }
    let above = u8::from(expect::above_channel_watts(t, watts(s)));
    Decision { verdict: above, note_channel_power: above, note_shared: 1, ..blocked }
}

/// By a segment: "The segment tests the general width only", and that of data alone.
fn by_segment(t: &Table, s: &Station, kind: u8, x: &Sent, r: &Record) -> Decision {
    if kind == 0 && x.audio.high - x.audio.low > t.data_limit {
        return drafted(t, x, 12, t.rules[0], (span(r), r.rule));
    }
    let above = u8::from(expect::above_segment_watts(t, watts(s)));
    let blocked = drafted(t, x, 25, r.rule, (span(r), r.rule));
    Decision { verdict: above, note_segment_power: above, ..blocked }
}

/// What item 4 changes of a signal's answer, if anything; refused calls aside.
pub fn change(p: &Prepared, s: &Station, kind: u8, direction: u8, e: &Edges) -> Option<Change> {
    let t = p.table.as_ref().filter(|_| p.refusal == 0)?;
    let x = sent(t, s, e);
    if !to_be_placed(t, s, kind, direction, &x) {
        return None;
    }
    // "the first overlapping channel", in the table's order
    let first = t.tables[CHANNELS].iter().find(|r| channel(t, r).overlaps(x.guarded))?;
    // "unless [it] holds that range as well"
    if channel(t, first).holds(x.guarded) {
        return None;
    }
    // "a data segment of that band which holds the guarded range goes first"
    let of_band = |r: &&Record| r.band == t.channel_band && span(r).holds(x.guarded);
    let segment = t.tables[SEGMENTS].iter().find(of_band)?;
    Some(Change {
        was: by_channel(t, s, kind, &x, first),
        now: by_segment(t, s, kind, &x, segment),
    })
}

/// The Rust's answer where item 4 changes it: the old one.
fn old(rust: &Decision, change: &Change) -> Result<(), String> {
    match rust.difference(&change.was) {
        None => Ok(()),
        Some(what) => Err(format!(
            "document 02, 4 changes this, and the Rust's answer isn't the old one: {what}, where \
             \"library\" is the Rust"
        )),
    }
}

/// A verdict, refusals included: the Rust's, or the changed one.
pub fn evaluate(
    p: &Prepared,
    s: &Station,
    kind: u8,
    direction: u8,
    e: &Edges,
) -> Result<(Decision, Option<Change>), String> {
    let rust = adapter::evaluate(p, s, kind, direction, e)?;
    if rust.refusal != 0 {
        return Ok((rust, None));
    }
    let Some(change) = change(p, s, kind, direction, e) else {
        return Ok((rust, None));
    };
    old(&rust, &change)?;
    Ok((change.now, Some(change)))
}

/// The smallest edges that hold both.
fn union(a: [f64; 4], b: [f64; 4]) -> [f64; 4] {
    [a[0].min(b[0]), a[1].max(b[1]), a[2].min(b[2]), a[3].max(b[3])]
}

/// A ceiling, refusals included: the Rust's, or, where a judged rung changed, that of a climb with the new
/// answers. Each rung is judged with its control frame and every slower rung.
pub fn ceiling(
    p: &Prepared,
    s: &Station,
    direction: u8,
    ordinary: &Edges,
    floor: &Edges,
    rungs: &[f64],
    floors: &[u8],
) -> Result<(Ceiling, Option<Climb>), String> {
    let rust = adapter::ceiling(p, s, direction, ordinary, floor, rungs, floors)?;
    if rust.refusal != 0 {
        return Ok((rust, None));
    }
    // where the Rust stopped, or behind the last rung
    let stop = rust.rung.map_or(0, |rung| usize::from(rung) + 1);
    let (mut rung, mut limit, mut changes) = (None, None, Vec::new());
    let mut envelope: Option<[f64; 4]> = None;
    for (i, r) in rungs.chunks(4).enumerate() {
        let control = if floors[i] == 1 { floor } else { ordinary };
        let own =
            union([r[0], r[1], r[2], r[3]].map(expect::read), control.figures().map(expect::read));
        let edges = envelope.map_or(own, |before| union(before, own));
        envelope = Some(edges);
        let e = Edges::of(edges);
        let changed = change(p, s, 0, direction, &e);
        if changes.is_empty() {
            match (&changed, &rust.limit) {
                // so far as the Rust has it
                (None, None) => continue,
                (None, Some(_)) if i < stop => continue,
                (None, Some(_)) => return Ok((rust, None)),
                (Some(change), Some(was)) if i == stop => old(was, change)?,
                (Some(_), _) => {
                    return Err(format!("document 02, 4 changes rung {i}, which the Rust allows"));
                }
            }
            rung = i.checked_sub(1).map(|before| before as u16);
        }
        let now = match changed {
            Some(change) => {
                changes.push(change);
                change.now
            }
            None => adapter::evaluate(p, s, 0, direction, &e)?,
        };
        if now.verdict == 2 {
            limit = Some(now);
            break;
        }
        rung = Some(i as u16);
    }
    if changes.is_empty() {
        return Ok((rust, None));
    }
    Ok((Ceiling { refusal: 0, rung, limit }, Some(Climb { was: rust, changes })))
}
