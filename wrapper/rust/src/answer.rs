//! What the gate answers.

use std::fmt;

use crate::codes::{known, marked, refused, Code, Guidance, Overshoot, Refusal, Rule, Verdict};
use crate::raw;

/// From a low to a high figure, in hertz. Low may stand above high where the edges given did.
#[derive(Clone, Copy, Debug, PartialEq)]
pub struct Range {
    /// The lower end.
    pub low_hz: f64,
    /// The upper end.
    pub high_hz: f64,
}

/// The segment that a transmission was judged against, or the channel.
#[derive(Clone, Copy, Debug, PartialEq)]
pub struct Segment {
    /// Its range.
    pub range: Range,
    /// Its rule.
    pub rule: Rule,
}

/// Notes on 60 m.
#[derive(Clone, Copy, Debug, PartialEq, Eq)]
pub struct SixtyNotes {
    /// The power is above the watts of a channel; the limit is on ERP, so the antenna's gain counts.
    pub channel_power: bool,
    /// The band is shared with government stations: keep it short.
    pub shared: bool,
    /// The power is above the watts of the segment.
    pub segment_power: bool,
}

/// The power records of the image that the power is above, by their index.
#[derive(Clone, Copy, PartialEq, Eq)]
pub struct PowerNotes {
    marks: [bool; raw::MOST_NOTES],
}

impl PowerNotes {
    /// No record.
    pub const NONE: Self = Self { marks: [false; raw::MOST_NOTES] };

    /// Whether there is none.
    pub fn is_empty(&self) -> bool {
        !self.marks.contains(&true)
    }

    /// Whether the power is above the record of an index.
    pub fn contains(&self, record: usize) -> bool {
        self.marks.get(record) == Some(&true)
    }

    /// The indices of the records that it is above.
    pub fn iter(&self) -> impl Iterator<Item = usize> + '_ {
        (0..self.marks.len()).filter(|&i| self.marks[i])
    }
}

/// Of the records of these indices, each below 256.
impl FromIterator<usize> for PowerNotes {
    fn from_iter<I: IntoIterator<Item = usize>>(records: I) -> Self {
        let mut out = Self::NONE;
        for record in records {
            out.marks[record] = true;
        }
        out
    }
}

/// The indices alone.
impl fmt::Debug for PowerNotes {
    fn fmt(&self, f: &mut fmt::Formatter<'_>) -> fmt::Result {
        f.debug_set().entries(self.iter()).finish()
    }
}

/// A verdict with all that it rests on. Its text is what an operator needs to know, in sentences: on one
/// line with `{}`, a line for each with `{:#}`.
#[derive(Clone, Copy, Debug, PartialEq)]
pub struct Decision {
    /// Whether it may be sent: see [`Decision::allowed`].
    pub verdict: Verdict,
    /// The reason.
    pub code: Code,
    /// The rule of the reason.
    pub rule: Rule,
    /// The band's number in the image; for [`Code::OutOfBand`] the one that the signal touches.
    pub band: Option<u8>,
    /// The segment that it was judged against.
    pub segment: Option<Segment>,
    /// The automatic segment (§97.221) that it was judged against.
    pub automatic_segment: Option<Range>,
    /// The audio edges that were judged.
    pub audio: Range,
    /// Their distance; may be negative.
    pub width_hz: f64,
    /// The edges on the air, where dial and sideband are known.
    pub air: Option<Range>,
    /// How it lies outside a data segment.
    pub overshoot: Overshoot,
    /// What the voluntary band plan says.
    pub guidance: Guidance,
    /// Notes on 60 m.
    pub sixty: SixtyNotes,
    /// The power records of the image that the power is above.
    pub power: PowerNotes,
}

impl Decision {
    /// Whether it may be sent: the verdict is not [`Verdict::Blocked`].
    pub fn allowed(&self) -> bool {
        self.verdict != Verdict::Blocked
    }
}

/// How fast a rung may be sent. Its text is sentences, as a [`Decision`]'s.
#[derive(Clone, Copy, Debug, PartialEq)]
pub struct Ceiling {
    /// The fastest rung that may be sent, every slower one too; `None`: not even the slowest, or
    /// there are no rungs.
    pub rung: Option<u16>,
    /// The answer on the first rung that may not be sent; `None`: all may, or there are no rungs.
    pub limit: Option<Decision>,
}

fn range(known: u8, low_hz: f64, high_hz: f64) -> Option<Range> {
    (known != 0).then_some(Range { low_hz, high_hz })
}

pub(crate) fn decision(d: &raw::Decision) -> Result<Decision, Refusal> {
    refused(d.refusal)?;
    let segment = range(d.segment_known, d.segment_low, d.segment_high);
    let overshoot = Overshoot::from_numbers(d.overshoot, d.edge, d.beyond_hz);
    let guidance = Guidance::from_numbers(d.guidance, d.guidance_index);
    Ok(Decision {
        verdict: known("verdict", d.verdict, Verdict::from_number(d.verdict)),
        code: known("code", d.code, Code::from_number(d.code)),
        rule: Rule::from_number(d.rule),
        band: (d.band_known != 0).then_some(d.band),
        segment: segment.map(|range| Segment { range, rule: Rule::from_number(d.segment_rule) }),
        automatic_segment: range(d.automatic_known, d.automatic_low, d.automatic_high),
        audio: Range { low_hz: d.audio_low, high_hz: d.audio_high },
        width_hz: d.width,
        air: range(d.air_known, d.air_low, d.air_high),
        overshoot: known("overshoot", d.overshoot, overshoot),
        guidance: known("guidance", d.guidance, guidance),
        sixty: SixtyNotes {
            channel_power: d.note_channel_power != 0,
            shared: d.note_shared != 0,
            segment_power: d.note_segment_power != 0,
        },
        power: PowerNotes { marks: d.notes.map(|note| note != 0) },
    })
}

pub(crate) fn ceiling(c: &raw::Ceiling) -> Result<Ceiling, Refusal> {
    refused(c.refusal)?;
    let rung = match c.rung {
        raw::RUNG_NONE => None,
        rung => Some(known("rung", rung, u16::try_from(rung).ok())),
    };
    let limit = match marked("limit mark", c.limit_known) {
        false => None,
        true => Some(decision(&c.limit)?),
    };
    Ok(Ceiling { rung, limit })
}

#[cfg(test)]
mod tests {
    use super::*;

    const ABSENT: raw::Decision = raw::Decision::ABSENT;

    /// A refusal as the library gives it.
    fn refusal(number: u8) -> raw::Decision {
        raw::Decision { refusal: number, ..ABSENT }
    }

    #[test]
    fn refusals() {
        for &r in Refusal::ALL {
            let limit = refusal(r.number());
            assert_eq!(decision(&limit), Err(r));
            let c = raw::Ceiling { limit, rung: -1, limit_known: 0, refusal: r.number() };
            assert_eq!(ceiling(&c), Err(r));
        }
    }

    /// A struct that no call filled is not taken for an answer.
    #[test]
    #[should_panic(expected = "libpamuklid.a answers code 0, which the crate pamuklid has no name")]
    fn never_asked() {
        let _ = decision(&raw::Decision { verdict: 0, ..ABSENT });
    }

    #[test]
    fn ceilings() {
        let of = |rung, limit_known| {
            let limit = match limit_known {
                0 => refusal(0),
                _ => raw::Decision { code: 12, rule: 7, rule_known: 1, ..ABSENT },
            };
            ceiling(&raw::Ceiling { limit, rung, limit_known, refusal: 0 }).unwrap()
        };
        assert_eq!((of(-1, 0).rung, of(-1, 0).limit), (None, None));
        assert_eq!((of(255, 0).rung, of(255, 0).limit), (Some(255), None));
        let c = of(0, 1);
        assert_eq!((c.rung, c.limit.map(|d| d.code)), (Some(0), Some(Code::TooWide)));
        let c = of(-1, 1);
        assert_eq!((c.rung, c.limit.map(|d| d.code)), (None, Some(Code::TooWide)));
    }

    #[test]
    #[should_panic(expected = "libpamuklid.a answers rung -2")]
    fn no_such_rung() {
        let _ = ceiling(&raw::Ceiling { limit: refusal(0), rung: -2, limit_known: 0, refusal: 0 });
    }

    /// 256 marks, of which those that are set are printed.
    #[test]
    fn debug_without_marks() {
        let mut d = raw::Decision { verdict: 1, code: 16, rule_known: 1, ..ABSENT };
        let text = |d: &raw::Decision| format!("{:?}", decision(d).unwrap());
        assert!(text(&d).ends_with("power: {} }"), "{}", text(&d));
        (d.notes[0], d.notes[7], d.notes[255]) = (1, 1, 1);
        assert!(text(&d).ends_with("power: {0, 7, 255} }"), "{}", text(&d));
        let power = decision(&d).unwrap().power;
        assert!(power.contains(7) && !power.contains(8) && !power.contains(256));
        assert!(!power.is_empty() && PowerNotes::NONE.is_empty());
    }
}
