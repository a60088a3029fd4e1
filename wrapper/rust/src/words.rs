//! The answers in words.
//!
//! The text of a part (a code, a rule, a distance) is a clause without a capital or a full stop, to be
//! put into a sentence. The text of a whole [`Decision`] or [`Ceiling`] is sentences: on one line with
//! `{}`, a line for each with `{:#}`.

use std::fmt::{self, Display, Formatter, Write};

use crate::answer::{Ceiling, Decision, PowerNotes, Range, Segment, SixtyNotes};
use crate::codes::{
    Code, Control, Direction, Edge, Guidance, Kind, License, Overshoot, Policy, Refusal, Rule,
    Sideband, Verdict,
};
use crate::dials::{DialRow, Distance, Nearest};
use crate::fault::{Fault, Place, Table};
use crate::report::ReportRow;
use crate::texts::{text_at, text_hertz, text_khz, MOST_TEXT};

// ------------------------------------------------------------------------------------- figures

/// A short text, in place.
struct Text {
    bytes: [u8; 32],
    len: usize,
}

impl Text {
    const EMPTY: Self = Self { bytes: [0; 32], len: 0 };

    fn as_str(&self) -> &str {
        std::str::from_utf8(&self.bytes[..self.len]).unwrap_or_default()
    }
}

impl Write for Text {
    fn write_str(&mut self, more: &str) -> fmt::Result {
        let end = self.len + more.len();
        self.bytes.get_mut(self.len..end).ok_or(fmt::Error)?.copy_from_slice(more.as_bytes());
        self.len = end;
        Ok(())
    }
}

/// One of the library's texts, with its unit.
#[derive(Clone, Copy)]
struct Form {
    text: fn(f64, &mut [u8]) -> Result<&str, Refusal>,
    unit: &'static str,
}

const AT: Form = Form { text: text_at, unit: "kHz" };
const KHZ: Form = Form { text: text_khz, unit: "kHz" };
const HERTZ: Form = Form { text: text_hertz, unit: "Hz" };

/// What stands before the digits: they are whole hertz, and the figure may not be.
fn about(hz: f64) -> &'static str {
    match hz.fract() == 0.0 {
        true => "",
        false => "about ",
    }
}

/// A figure for which the library has no text.
fn without_text(hz: f64) -> &'static str {
    match (hz.is_finite(), hz > 0.0) {
        _ if hz.is_nan() => "no number",
        (false, true) => "infinite",
        (false, false) => "infinite, below 0",
        (true, true) => "above 8796093022208 Hz",
        (true, false) => "below -8796093022208 Hz",
    }
}

/// Whether the digits of a figure without a sign are noughts.
fn nought(digits: &str) -> bool {
    digits.bytes().all(|digit| digit == b'0' || digit == b'.')
}

impl Form {
    /// A figure with its unit.
    fn say(self, hz: f64) -> Result<Text, fmt::Error> {
        let mut out = Text::EMPTY;
        match (self.text)(hz, &mut [0; MOST_TEXT]) {
            Err(_) => out.write_str(without_text(hz))?,
            Ok(digits) if hz > 0.0 && nought(digits) => out.write_str("under 1 Hz")?,
            Ok(digits) => write!(out, "{}{digits} {}", about(hz), self.unit)?,
        }
        Ok(out)
    }

    /// A range, with the unit at its end.
    fn say_range(self, range: &Range, f: &mut Formatter<'_>) -> fmt::Result {
        let Range { low_hz, high_hz } = *range;
        let (mut low_room, mut high_room) = ([0; MOST_TEXT], [0; MOST_TEXT]);
        match ((self.text)(low_hz, &mut low_room), (self.text)(high_hz, &mut high_room)) {
            (Ok(low), Ok(high)) => {
                let (low_is, high_is) = (about(low_hz), about(high_hz));
                write!(f, "{low_is}{low} to {high_is}{high} {}", self.unit)
            }
            _ => write!(f, "{} to {}", self.say(low_hz)?.as_str(), self.say(high_hz)?.as_str()),
        }
    }
}

/// A width, a margin, a distance or an audio edge in words, or a range of such: whole hertz by
/// [`text_hertz`], `500 Hz`, `1250 to 1750 Hz`.
///
/// What is not a whole number of hertz has `about` before it; what is above nought and has no digit but
/// noughts is `under 1 Hz`, in a range `about 0`. What has no text (a NaN, an infinity, a figure above
/// 2^43 in size) is said in words.
///
/// ```
/// use pamuklid::{Hertz, Range};
///
/// assert_eq!(Hertz(2_800.0).to_string(), "2800 Hz");
/// assert_eq!(Hertz(2_800.125).to_string(), "about 2800 Hz");
/// assert_eq!(Hertz(0.125).to_string(), "under 1 Hz");
/// assert_eq!(Hertz(Range { low_hz: 100.0, high_hz: 2_900.0 }).to_string(), "100 to 2900 Hz");
/// ```
#[derive(Clone, Copy, Debug, PartialEq)]
pub struct Hertz<T>(pub T);

impl Display for Hertz<f64> {
    fn fmt(&self, f: &mut Formatter<'_>) -> fmt::Result {
        f.pad(HERTZ.say(self.0)?.as_str())
    }
}

impl Display for Hertz<Range> {
    fn fmt(&self, f: &mut Formatter<'_>) -> fmt::Result {
        HERTZ.say_range(&self.0, f)
    }
}

/// A frequency in words, or a range of such: a dial, an edge on the air, kilohertz with three decimals
/// by [`text_at`], `14097.700 kHz`. Else as [`Hertz`].
///
/// ```
/// use pamuklid::{Kilohertz, Range};
///
/// assert_eq!(Kilohertz(14_097_700.0).to_string(), "14097.700 kHz");
/// assert_eq!(Kilohertz(14_097_700.125).to_string(), "about 14097.700 kHz");
/// let air = Range { low_hz: 14_098_950.0, high_hz: 14_099_450.0 };
/// assert_eq!(Kilohertz(air).to_string(), "14098.950 to 14099.450 kHz");
/// ```
#[derive(Clone, Copy, Debug, PartialEq)]
pub struct Kilohertz<T>(pub T);

impl Display for Kilohertz<f64> {
    fn fmt(&self, f: &mut Formatter<'_>) -> fmt::Result {
        f.pad(AT.say(self.0)?.as_str())
    }
}

impl Display for Kilohertz<Range> {
    fn fmt(&self, f: &mut Formatter<'_>) -> fmt::Result {
        AT.say_range(&self.0, f)
    }
}

/// As a range of the table, kilohertz with as many decimals as each end needs: `14000 to 14150 kHz`. For
/// audio edges see [`Hertz`], for dials and edges on the air [`Kilohertz`].
impl Display for Range {
    fn fmt(&self, f: &mut Formatter<'_>) -> fmt::Result {
        KHZ.say_range(self, f)
    }
}

impl Display for Segment {
    fn fmt(&self, f: &mut Formatter<'_>) -> fmt::Result {
        write!(f, "{} ({})", self.range, self.rule)
    }
}

// -------------------------------------------------------------------------- station and signal

impl Display for Policy {
    fn fmt(&self, f: &mut Formatter<'_>) -> fmt::Result {
        f.pad(match self {
            Self::Unset => "no rules chosen",
            Self::NoRules => "no rules apply",
            Self::Rules => "the rules of a table",
            Self::Broken => "rules that could not be loaded",
        })
    }
}

impl Display for Control {
    fn fmt(&self, f: &mut Formatter<'_>) -> fmt::Result {
        f.pad(match self {
            Self::Local => "local control",
            Self::Remote => "remote control",
            Self::Automatic => "automatic control",
        })
    }
}

impl Display for License {
    fn fmt(&self, f: &mut Formatter<'_>) -> fmt::Result {
        f.pad(match self {
            Self::Novice => "Novice",
            Self::Technician => "Technician",
            Self::General => "General",
            Self::Advanced => "Advanced",
            Self::Extra => "Amateur Extra",
        })
    }
}

impl Display for Sideband {
    fn fmt(&self, f: &mut Formatter<'_>) -> fmt::Result {
        f.pad(match self {
            Self::Upper => "upper sideband",
            Self::Lower => "lower sideband",
        })
    }
}

impl Display for Direction {
    fn fmt(&self, f: &mut Formatter<'_>) -> fmt::Result {
        f.pad(match self {
            Self::Originate => "this station calls",
            Self::Respond => "this station answers",
            Self::Operator => "an operator acts",
            Self::RespondToAutomatic => "this station answers one under automatic control",
        })
    }
}

impl Display for Kind {
    fn fmt(&self, f: &mut Formatter<'_>) -> fmt::Result {
        f.pad(match self {
            Self::Data => "data",
            Self::Cw => "CW",
            Self::Test => "a test emission",
            Self::Nothing => "nothing",
        })
    }
}

impl Display for Edge {
    fn fmt(&self, f: &mut Formatter<'_>) -> fmt::Result {
        f.pad(self.name())
    }
}

// ---------------------------------------------------------------------------- the verdict

impl Display for Verdict {
    fn fmt(&self, f: &mut Formatter<'_>) -> fmt::Result {
        f.pad(match self {
            Self::Legal => "may be sent",
            Self::Warning => "may be sent, with a warning",
            Self::Blocked => "blocked, may not be sent",
        })
    }
}

impl Code {
    /// Why, as a clause. [`Code::SixtyChannel`] is met allowed and blocked, so the verdict is asked for;
    /// the other codes say the same beside each.
    pub const fn reason(self, verdict: Verdict) -> &'static str {
        match self {
            Self::NoProfile => "no rules are chosen for the station",
            Self::ProfileBroken => "the rules chosen for the station could not be loaded",
            Self::NoRules => "the station is set to send without rules",
            Self::Unmeasured => "the signal's spectrum is not known",
            Self::Region => "the table is not for the station's ITU region",
            Self::NoControl => "it is not known how the station is controlled",
            Self::NoLicense => "the operator's license is not known",
            Self::NoSideband => "the radio's sideband is not known",
            Self::NoDial => "the radio's dial is not known",
            Self::OutOfBand => "no band of the table holds the signal with its margin",
            Self::AutomaticExcluded => "automatic control is not allowed on this band",
            Self::TooWide => "the signal is wider than data may be here",
            Self::OutsideDataSegment => "no data segment holds the signal with its margin",
            Self::NoDataHere => "data is not allowed here, and no data segment is near",
            Self::Privilege => "the operator's license does not allow this here",
            Self::Permitted => "the rules permit it",
            Self::AutomaticSegment => "it lies in a segment for automatic control",
            Self::AutomaticOutside => "automatic control is not allowed outside its segments",
            Self::AutomaticBandwidth => "it is too wide for automatic control outside its segments",
            Self::AutomaticOriginate => {
                "outside its segments an automatic station may only answer one under local or remote \
                 control"
            }
            Self::AutomaticResponse => {
                "it keeps to the rule for automatic control outside its segments"
            }
            Self::SixtyEmission => "this kind of emission is not allowed on 60 m",
            Self::SixtyOffChannel => "on 60 m it lies neither on a channel nor in the segment",
            Self::SixtyChannel => match verdict {
                Verdict::Blocked => "it touches a 60 m channel and is not set up for it",
                Verdict::Legal | Verdict::Warning => "it is set up for a 60 m channel",
            },
            Self::SixtySegment => "it lies in the 60 m segment",
        }
    }

    /// What an operator can do about it, where the verdict is blocked; `None` for a code that never is.
    pub const fn what_to_do(self) -> Option<&'static str> {
        Some(match self {
            Self::NoProfile => "choose the rules that the station goes by",
            Self::ProfileBroken => "load the rules again, or choose others",
            Self::Unmeasured => "measure the signal's edges",
            Self::Region => "set the station's ITU region, or load the table of that region",
            Self::NoControl => "set how the station is controlled",
            Self::NoLicense => "set the operator's license",
            Self::NoSideband => "set the radio's sideband",
            Self::NoDial => "set the dial, or let the radio report it",
            Self::OutOfBand => "move the dial until a band holds the signal with its margin",
            Self::AutomaticExcluded => "put an operator in control, or leave the band",
            Self::TooWide => "send a narrower signal",
            Self::OutsideDataSegment => "move the dial away from the segment's edge",
            Self::NoDataHere => "move the dial to one of the dial list",
            Self::Privilege => "move to where the license allows it",
            Self::AutomaticOutside => {
                "move into a segment for automatic control, or put an operator in control"
            }
            Self::AutomaticBandwidth => {
                "send a narrower signal, move into a segment for automatic control, or put an \
                 operator in control"
            }
            Self::AutomaticOriginate => {
                "wait to be called by a station under local or remote control, move into a segment \
                 for automatic control, or put an operator in control"
            }
            Self::SixtyEmission => "send another kind of emission, or leave 60 m",
            Self::SixtyOffChannel => "set the dial for a channel, or move into the 60 m segment",
            Self::SixtyChannel => {
                "set the dial to the channel's carrier, on the channels' sideband, with a signal \
                 that fits the channel"
            }
            Self::NoRules
            | Self::Permitted
            | Self::AutomaticSegment
            | Self::AutomaticResponse
            | Self::SixtySegment => return None,
        })
    }
}

impl Display for Code {
    fn fmt(&self, f: &mut Formatter<'_>) -> fmt::Result {
        f.pad(match self {
            Self::SixtyChannel => "it is judged by a 60 m channel",
            _ => self.reason(Verdict::Blocked),
        })
    }
}

impl Refusal {
    /// Whether it is about the image (1 to 14): then [`fault_of`](crate::fault_of) may know where.
    pub const fn is_about_image(self) -> bool {
        self.number() <= Self::GeneralLimit.number()
    }

    /// Why, as a clause.
    pub const fn reason(self) -> &'static str {
        match self {
            Self::ImageLength => "the image has under 92 or over 65,552 bytes",
            Self::Letters => "the image does not end with the letters EDGE",
            Self::Edition => "the image is of another edition",
            Self::Counts => "the image's counts, length and distance disagree",
            Self::CodedByte => {
                "a coded byte of the image is outside its values, an unused one is not zero, or the \
                 table of an absent part is not empty"
            }
            Self::ImageFigure => {
                "a figure of the image is not finite, above 2^40 in size, or negative zero"
            }
            Self::BandRange => "a band's low end is not below its high end",
            Self::SegmentRange => "a data segment's low end is not below its high end",
            Self::AutomaticRange => "an automatic segment's low end is not below its high end",
            Self::PrivilegeRange => "a privilege's low end is not below its high end",
            Self::EmptyTable => "the table has no bands or no data segments",
            Self::SegmentOutside => "a data segment lies in no band",
            Self::OwnLimit => "a data segment's own width limit is not above 0",
            Self::GeneralLimit => "the table's general width limit is not above 0",
            Self::SignalEdge => "an edge of the signal is not finite or above 2^40 in size",
            Self::Rungs => "there are more than 256 rungs, or their floor marks are not one each",
            Self::StationCode => "a code of the station, or a walk's state, is outside its values",
            Self::StationFigure => {
                "the station's margin, dial or power, or a dial asked, is not finite or above 2^40 \
                 in size, or a figure to be written is not finite or above 2^43 in size"
            }
            Self::NoImage => "rules are in force and there is no image",
            Self::Rows => "the dial list or the image is longer than the rows or bytes lent",
            Self::Text => "the text of the figure is longer than the bytes lent",
            Self::Report => "the table's report is longer than the rows lent",
            Self::Watts => {
                "the image has other 60 m watts than 100 and 9.15, which edition 1 cannot hold"
            }
            Self::Amendments => {
                "the amendments are not 40 bytes each, or one names a table above 8 or a record that \
                 its table does not have"
            }
            Self::AmendedRoom => "the amended image is longer than the bytes lent",
            Self::SecondSwap => "a change to the other table waits already",
            Self::Walk => "no walk is open for a step, or one is open already",
            Self::Starts => "a record of the log starts before the one above it",
            Self::Runs => {
                "the log's starts, bands, seconds and totals are not one for each record, or there \
                 are more than 65,536 records"
            }
            Self::Stretch => "the first dial lies above the last, or there are more than 1,000,000 dials",
            Self::FarDial => "the first or the last dial is above 2^40 Hz in size",
        }
    }

    /// What to do about it.
    pub const fn what_to_do(self) -> &'static str {
        match self {
            Self::ImageLength => "load a table image: this is too short or too long for one",
            Self::Letters => "load a table image: this is none, or its end is missing",
            Self::Edition => "have the table made again as an image of edition 1 or 2",
            Self::Counts => "load the image again: bytes are missing, or there are too many",
            Self::CodedByte => "have the table corrected at the place that is named, byte by byte",
            Self::ImageFigure => "have the table's figure corrected at the place that is named",
            Self::BandRange => "have the band's ends corrected",
            Self::SegmentRange => "have the data segment's ends corrected",
            Self::AutomaticRange => "have the automatic segment's ends corrected",
            Self::PrivilegeRange => "have the privilege's ends corrected",
            Self::EmptyTable => "have the bands and data segments put into the table",
            Self::SegmentOutside => {
                "have the data segment corrected, or its band put into the table"
            }
            Self::OwnLimit => "have the data segment's own width limit corrected, or taken out",
            Self::GeneralLimit => "have the table's general width limit corrected",
            Self::SignalEdge => "measure the signal again",
            Self::Rungs => "give at most 256 rungs, with a floor mark for each",
            Self::StationCode => {
                "set the station's record again, or begin with a walk's first state"
            }
            Self::StationFigure => {
                "set the margin, the dial and the power again, or write another figure"
            }
            Self::NoImage => "load the table's image",
            Self::Rows => "lend more rows, or more bytes",
            Self::Text => "lend more bytes: 15 have room for every text",
            Self::Report => "lend more rows: 131,072 have room for every report",
            Self::Watts => "stay with edition 2, or have its watts set to 100 and 9.15",
            Self::Amendments => "have the list of amendments made again for this table",
            Self::AmendedRoom => "lend as many bytes as the image has",
            Self::SecondSwap => "wait until the walk is over",
            Self::Walk => "open a walk before its first step, and the next when it is over",
            Self::Starts => "put the log's records in the order of their starts",
            Self::Runs => "give at most 65,536 records, with as many of each",
            Self::Stretch => {
                "give the lower dial first, and split a stretch of more than 1,000,000 dials"
            }
            Self::FarDial => "give dials from -2^40 to 2^40 Hz",
        }
    }
}

impl Display for Refusal {
    fn fmt(&self, f: &mut Formatter<'_>) -> fmt::Result {
        write!(f, "refusal {}: {}", self.number(), self.reason())
    }
}

impl Rule {
    /// What the rule is about; `None` for one that only the trustee's text list knows, and for none.
    pub const fn subject(self) -> Option<&'static str> {
        Some(match self {
            Self::Part97_301 => "bands and privileges",
            Self::Part97_109 => "control of a station",
            Self::Part97_305A => "CW",
            Self::Part97_305B => "test emissions",
            Self::Part97_305C => "where data may be sent",
            Self::Part97_307F9 => "the emissions that a license allows",
            Self::Empty | Self::Table(_) => return None,
        })
    }
}

impl Display for Rule {
    fn fmt(&self, f: &mut Formatter<'_>) -> fmt::Result {
        f.pad(match self {
            Self::Empty => "no rule",
            Self::Part97_301 => "§97.301",
            Self::Part97_109 => "§97.109",
            Self::Part97_305A => "§97.305(a)",
            Self::Part97_305B => "§97.305(b)",
            Self::Part97_305C => "§97.305(c)",
            Self::Part97_307F9 => "§97.307(f)(9)",
            Self::Table(number) => return write!(f, "rule {number} of the table"),
        })
    }
}

impl Display for Overshoot {
    fn fmt(&self, f: &mut Formatter<'_>) -> fmt::Result {
        match *self {
            Self::NoOvershoot => f.pad("it is not judged against the edges of a data segment"),
            Self::Beyond { by_hz, edge } => {
                write!(f, "it reaches {} beyond the {edge} edge of the segment", Hertz(by_hz))
            }
            Self::TooClose { .. } => {
                f.pad("it lies inside the segment, closer to an edge than the margin")
            }
        }
    }
}

impl Display for Guidance {
    fn fmt(&self, f: &mut Formatter<'_>) -> fmt::Result {
        match self {
            Self::NoGuidance => f.pad("the band plan says nothing"),
            Self::Avoid(area) => {
                write!(f, "the band plan asks to keep clear of its area {area} to avoid")
            }
            Self::Inside(area) => write!(f, "it lies in the band plan's area {area} for data"),
            Self::Outside => f.pad("the band plan puts data elsewhere"),
        }
    }
}

impl SixtyNotes {
    /// The notes that are made, a clause each.
    pub fn clauses(&self) -> impl Iterator<Item = &'static str> {
        let all = [
            (self.channel_power, "the power is above the watts of a 60 m channel"),
            (self.shared, "60 m is shared with government stations: keep transmissions short"),
            (self.segment_power, "the power is above the watts of the 60 m segment"),
        ];
        all.into_iter().filter(|note| note.0).map(|note| note.1)
    }
}

impl Display for PowerNotes {
    fn fmt(&self, f: &mut Formatter<'_>) -> fmt::Result {
        let count = self.iter().count();
        if count == 0 {
            return f.pad("the power is above no power limit of the table");
        }
        f.write_str("the power is above the table's power limit")?;
        f.write_str(if count == 1 { " " } else { "s " })?;
        for (i, record) in self.iter().enumerate() {
            let before = match i {
                0 => "",
                _ if i + 1 == count => " and ",
                _ => ", ",
            };
            write!(f, "{before}{record}")?;
        }
        Ok(())
    }
}

/// A clause as a sentence: with a capital and a full stop.
struct Sentence<T>(T);

impl<T: Display> Display for Sentence<T> {
    fn fmt(&self, f: &mut Formatter<'_>) -> fmt::Result {
        struct Begun<'a, 'b> {
            out: &'a mut Formatter<'b>,
            begun: bool,
        }
        impl Write for Begun<'_, '_> {
            fn write_str(&mut self, text: &str) -> fmt::Result {
                let mut rest = text.chars();
                match rest.next() {
                    Some(first) if !self.begun => {
                        self.begun = true;
                        self.out.write_char(first.to_ascii_uppercase())?;
                        self.out.write_str(rest.as_str())
                    }
                    _ => self.out.write_str(text),
                }
            }
        }
        let mut out = Begun { out: &mut *f, begun: false };
        write!(out, "{}", self.0)?;
        f.write_char('.')
    }
}

impl Decision {
    /// Why, as a clause.
    pub const fn reason(&self) -> &'static str {
        self.code.reason(self.verdict)
    }

    /// What an operator can do about it; `None` where nothing has to be done.
    pub const fn what_to_do(&self) -> Option<&'static str> {
        match self.verdict {
            Verdict::Blocked => self.code.what_to_do(),
            Verdict::Legal | Verdict::Warning => None,
        }
    }

    /// The verdict, the reason, its code and its rule.
    fn say_verdict(&self, f: &mut Formatter<'_>) -> fmt::Result {
        let verdict = match self.verdict {
            Verdict::Legal => "May be sent",
            Verdict::Warning => "May be sent, with a warning",
            Verdict::Blocked => "Blocked",
        };
        let (number, name) = (self.code.number(), self.code.name());
        write!(f, "{verdict}: {} (code {number}, {name}", self.reason())?;
        match self.rule {
            Rule::Empty => f.write_str(").")?,
            rule => write!(f, ", by {rule}).")?,
        }
        Ok(())
    }

    /// How it lies outside a segment. Of a signal that is too close it gives both distances: the edge
    /// that the gate names is always the upper.
    fn say_overshoot(&self, f: &mut Formatter<'_>, gap: &str) -> fmt::Result {
        match (self.overshoot, self.segment, self.air) {
            (Overshoot::NoOvershoot, ..) => Ok(()),
            (Overshoot::TooClose { .. }, Some(segment), Some(air)) => {
                let below = Hertz(air.low_hz - segment.range.low_hz);
                let above = Hertz(segment.range.high_hz - air.high_hz);
                write!(
                    f,
                    "{gap}It lies inside the segment, {below} from the lower edge and {above} from the \
                     upper: closer than the margin."
                )
            }
            (overshoot, ..) => write!(f, "{gap}{}", Sentence(overshoot)),
        }
    }

    /// How wide it is, and where.
    fn say_place(&self, f: &mut Formatter<'_>, gap: &str) -> fmt::Result {
        if self.code == Code::Unmeasured {
            return Ok(());
        }
        write!(f, "{gap}The signal is {} wide", Hertz(self.width_hz))?;
        if let Some(air) = self.air {
            write!(f, ", at {}", Kilohertz(air))?;
        }
        match self.band {
            Some(band) if self.code == Code::OutOfBand => write!(f, ", and touches band {band}")?,
            Some(band) => write!(f, " in band {band}")?,
            None => {}
        }
        if let Some(segment) = self.segment {
            let what = if self.code == Code::SixtyChannel { "channel" } else { "segment" };
            write!(f, "; the {what} is {segment}")?;
        }
        if let Some(automatic) = self.automatic_segment {
            write!(f, "; the segment for automatic control is {automatic}")?;
        }
        f.write_char('.')
    }
}

/// What an operator needs to know: the verdict, why, by which rule, where, and the notes.
impl Display for Decision {
    fn fmt(&self, f: &mut Formatter<'_>) -> fmt::Result {
        let gap = if f.alternate() { "\n" } else { " " };
        self.say_verdict(f)?;
        self.say_overshoot(f, gap)?;
        self.say_place(f, gap)?;
        if !self.power.is_empty() {
            write!(f, "{gap}{}", Sentence(self.power))?;
        }
        for note in self.sixty.clauses() {
            write!(f, "{gap}{}", Sentence(note))?;
        }
        if self.guidance != Guidance::NoGuidance {
            write!(f, "{gap}{}", Sentence(self.guidance))?;
        }
        Ok(())
    }
}

/// The rungs that may be sent, and the answer on the first that may not.
impl Display for Ceiling {
    fn fmt(&self, f: &mut Formatter<'_>) -> fmt::Result {
        let gap = if f.alternate() { "\n" } else { " " };
        match (self.rung, &self.limit) {
            (None, None) => f.write_str("There are no rungs.")?,
            (None, Some(_)) => f.write_str("No rung may be sent.")?,
            (Some(0), _) => f.write_str("Rung 0 may be sent.")?,
            (Some(rung), _) => write!(f, "Rungs 0 to {rung} may be sent.")?,
        }
        match &self.limit {
            None if self.rung.is_some() => write!(f, "{gap}There is none above."),
            None => Ok(()),
            Some(limit) => {
                match self.rung {
                    None => write!(f, "{gap}Rung 0 with its control frame:{gap}")?,
                    Some(rung) => {
                        let next = u32::from(rung) + 1;
                        write!(f, "{gap}Rung {next} with its control frame and what the slower ones occupy:{gap}")?;
                    }
                }
                Display::fmt(limit, f)
            }
        }
    }
}

// ------------------------------------------------------------------------ dials and tables

impl Display for Distance {
    fn fmt(&self, f: &mut Formatter<'_>) -> fmt::Result {
        match *self {
            Self::Hz(0.0) => f.pad("the dial is listed"),
            Self::Hz(far) => write!(f, "the nearest listed dial is {} away", Hertz(far)),
            Self::NoneListed => f.pad("no dial is listed outside the channel band"),
        }
    }
}

impl Display for Nearest {
    fn fmt(&self, f: &mut Formatter<'_>) -> fmt::Result {
        match *self {
            Self::Dial(hz) => write!(f, "the nearest dial for data is {}", Kilohertz(hz)),
            Self::NoneAllowed => f.pad("no dial outside the channel band allows data"),
            Self::NotJudged => f.pad("the nearest dial for data was not judged"),
        }
    }
}

impl Display for DialRow {
    fn fmt(&self, f: &mut Formatter<'_>) -> fmt::Result {
        let Self { segment, dial, band, rule } = self;
        let dial = Kilohertz(*dial);
        write!(f, "dials {dial} keep it in {segment} (band {band}, by {rule})")
    }
}

impl Table {
    /// What one of its records is.
    pub const fn record(self) -> &'static str {
        match self {
            Self::Bands => "band",
            Self::Segments => "data segment",
            Self::Channels => "60 m channel",
            Self::Privileges => "privilege",
            Self::Automatic => "automatic segment",
            Self::Excluded => "band without automatic control",
            Self::Power => "power limit",
            Self::PlanData => "band plan's area for data",
            Self::PlanAvoid => "band plan's area to avoid",
        }
    }
}

impl Display for Table {
    fn fmt(&self, f: &mut Formatter<'_>) -> fmt::Result {
        f.pad(match self {
            Self::Bands => "bands",
            Self::Segments => "data segments",
            Self::Channels => "60 m channels",
            Self::Privileges => "privileges",
            Self::Automatic => "automatic segments",
            Self::Excluded => "bands without automatic control",
            Self::Power => "power limits",
            Self::PlanData => "band plan's areas for data",
            Self::PlanAvoid => "band plan's areas to avoid",
        })
    }
}

impl Display for Place {
    fn fmt(&self, f: &mut Formatter<'_>) -> fmt::Result {
        match self {
            Self::General => f.pad("the general block"),
            Self::Record { table, index } => {
                write!(f, "record {index} of the {table}, counted from 0")
            }
        }
    }
}

/// Records by their indices, counted from 0; the stretch as a [`Range`].
impl Display for ReportRow {
    fn fmt(&self, f: &mut Formatter<'_>) -> fmt::Result {
        match self {
            Self::Overlap { table, license, first, second, stretch } => {
                write!(f, "{table} {first} and {second}")?;
                if let Some(license) = license {
                    write!(f, " of {license}")?;
                }
                write!(f, " share {stretch}")
            }
            Self::Gap { license, segment, stretch } => {
                write!(f, "no privilege of {license} covers {stretch} of data segment {segment}")
            }
        }
    }
}

impl Display for Fault {
    fn fmt(&self, f: &mut Formatter<'_>) -> fmt::Result {
        write!(f, "{}", self.refusal)?;
        match self.place {
            Some(place) => write!(f, " (in {place})"),
            None => Ok(()),
        }
    }
}
