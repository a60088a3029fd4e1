//! Where to move the dial, for data that is blocked. The dial is the library's; where it does not judge, what is
//! missing is looked for here.

use pamuklid::{nearest_dial, tidy, Code, Decision, Kilohertz, Nearest, Refusal};

use crate::answer::Style;
use crate::args::Asked;
use crate::image;
use crate::listing::Listing;

/// The greatest figure in hertz, in size, with which the nearest dial is judged: 2^38.
const MOST_HZ: f64 = 274_877_906_944.0;

const NOT_TIDY: &str =
    "records of the table overlap, or a data segment lies in no band of its number (not tidy, see pamuklid check)";

/// Where to move the dial.
pub enum Move {
    To {
        dial_hz: f64,
        /// From the station's dial, below 0 where it is down.
        by_hz: f64,
        /// A dial on 60 m may be nearer: those do not count.
        off_sixty: bool,
    },
    /// No dial will do; whether the table has a 60 m band, which does not count.
    Nowhere { off_sixty: bool },
    /// Why it was not judged.
    NotJudged(String),
}

impl Move {
    /// For data that was judged and is blocked; the dials listed for it, where there is a list.
    pub fn of(asked: &Asked, decision: &Decision, listing: Option<&Listing>) -> Result<Self, Refusal> {
        let Asked { table, station, direction, edges, .. } = asked;
        let sixty = image::channel_band(&table.image);
        Ok(match (nearest_dial(station, *direction, edges, &table.image)?, station.dial_hz) {
            (Nearest::Dial(dial_hz), Some(from)) => {
                let by_hz = dial_hz - from;
                let nearer = |band| match listing {
                    Some(listing) => decision.band == Some(band) || listing.is_within(band, from, by_hz.abs()),
                    None => true,
                };
                Self::To { dial_hz, by_hz, off_sixty: sixty.is_some_and(nearer) }
            }
            (Nearest::NoneAllowed, _) => Self::Nowhere { off_sixty: sixty.is_some() },
            (Nearest::NotJudged | Nearest::Dial(_), _) => Self::NotJudged(premise(asked, decision)),
        })
    }

    /// A line.
    pub fn text(&self, style: Style) -> String {
        match self {
            Self::To { dial_hz, by_hz, off_sixty } => {
                let way = if *by_hz < 0.0 { "down" } else { "up" };
                let far = match by_hz.abs() {
                    far if far < 1.0 => format!("{far} Hz"),
                    far => Kilohertz(far).to_string(),
                };
                let head = style.heading(&format!("Move the dial {way} {far}, to {}", Kilohertz(*dial_hz)));
                // a dial that is rounded may be one at which data is blocked
                let exactly = match dial_hz.fract() == 0.0 {
                    true => String::new(),
                    false => format!(" (exactly {dial_hz} Hz)"),
                };
                let sixty = if *off_sixty { ", the nearest outside 60 m" } else { "" };
                format!("{head}{exactly}{sixty}.\n")
            }
            Self::Nowhere { off_sixty: true } => {
                "No dial outside 60 m allows this signal under this table.\n".to_owned()
            }
            Self::Nowhere { off_sixty: false } => "No dial allows this signal under this table.\n".to_owned(),
            Self::NotJudged(why) => format!("Where to move the dial was not judged: {why}.\n"),
        }
    }
}

/// A figure in hertz with all its decimals.
fn exact(hz: f64) -> String {
    match hz != 0.0 && hz.abs() < 1e-6 {
        true => format!("{hz:e} Hz"),
        false => format!("{hz} Hz"),
    }
}

/// What keeps the nearest dial from being judged by a figure.
fn unfit(hz: f64) -> Option<&'static str> {
    match hz.abs() {
        size if size > MOST_HZ => Some("is above 2^38 (274877906944) Hz in size"),
        size if (8.0 * size).fract() != 0.0 => Some("is not in steps of 0.125 Hz"),
        _ => None,
    }
}

/// A figure that was given and is unfit.
fn unfit_given(asked: &Asked) -> Option<String> {
    let Asked { station: s, edges: e, .. } = asked;
    let dial = s.dial_hz.map(|hz| ("the dial", hz));
    let margins = match s.margin_lower_hz == s.margin_upper_hz {
        true => [("the margin", s.margin_lower_hz); 2],
        false => [("the lower margin", s.margin_lower_hz), ("the upper margin", s.margin_upper_hz)],
    };
    let edges = [e.power_low, e.power_high, e.spectral_low, e.spectral_high].map(|hz| ("an audio edge", hz));
    let mut given = dial.into_iter().chain(margins).chain(edges);
    given.find_map(|(name, hz)| unfit(hz).map(|wrong| format!("{name}, {}, {wrong}", exact(hz))))
}

/// A figure of an accepted table that is unfit.
fn unfit_table(image: &[u8]) -> Option<String> {
    image::hertz(image).find_map(|(place, name, hz)| {
        let wrong = unfit(hz)?;
        Some(format!("a figure of the table {wrong}: {name}, {}, in {place}", exact(hz)))
    })
}

/// What of all that the library needs for a nearest dial is missing: policy and prerequisites by the verdict, then the
/// tidy question, the figures, and the width.
fn premise(asked: &Asked, decision: &Decision) -> String {
    let image = &asked.table.image;
    let guarded = decision.width_hz + (asked.station.margin_lower_hz + asked.station.margin_upper_hz);
    match decision.code {
        Code::NoProfile | Code::ProfileBroken => return "no rules are in force".to_owned(),
        Code::Region | Code::NoControl | Code::NoLicense | Code::NoSideband | Code::NoDial => {
            return decision.reason().to_owned();
        }
        _ if tidy(image) != Ok(true) => return NOT_TIDY.to_owned(),
        _ => {}
    }
    unfit_given(asked).or_else(|| unfit_table(image)).unwrap_or_else(|| match guarded > 0.0 {
        false => "the signal with its margins has no width".to_owned(),
        true => "the program did not find why".to_owned(),
    })
}
