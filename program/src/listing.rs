//! The dial list of a question, and what is to be remarked on it.

use pamuklid::{
    evaluate, safe_dials, text_at, text_hertz, text_khz, tidy, Code, Decision, DialList, DialRow, Hertz, Kind, Policy,
    Refusal, Station, Table, MOST_TEXT, ROW,
};

use crate::answer::Style;
use crate::args::Asked;
use crate::image;
use crate::json::RowJson;
use crate::words;

/// The rows that there is room for.
const ROOM: usize = 10_000;

/// A row, and the codes of the verdicts at its lower and its upper dial where they are blocked.
pub struct Row {
    row: DialRow,
    ends: [Option<u8>; 2],
}

/// The dials of a question.
pub enum Listing {
    Rows(Vec<Row>),
    /// No dial can be listed: every verdict is blocked, whatever the dial.
    Barred(Box<Decision>),
}

/// The list, and what is asked of it besides.
pub fn list<T>(
    asked: &Asked,
    ask: impl FnOnce(&DialList) -> Result<T, Refusal>,
) -> Result<(Listing, Option<T>), Refusal> {
    let Asked { table, station, direction, edges, .. } = asked;
    let bare = Station { dial_hz: None, ..*station };
    let decision = evaluate(&bare, Kind::Data, *direction, edges, &table.image)?;
    if decision.code != Code::NoDial {
        return Ok((Listing::Barred(Box::new(decision)), None));
    }
    let mut bytes = vec![0; ROOM * ROW];
    let found = safe_dials(station, *direction, edges, &table.image, &mut bytes)?;
    let extra = ask(&found)?;
    let rows = found.rows().map(|row| Row { row, ends: ends(asked, &row) }).collect();
    Ok((Listing::Rows(rows), Some(extra)))
}

/// The codes of the verdicts at both dials of a row where they are blocked; 0 where a dial is refused.
fn ends(asked: &Asked, row: &DialRow) -> [Option<u8>; 2] {
    let Asked { table, station, direction, edges, .. } = asked;
    [row.dial.low_hz, row.dial.high_hz].map(|dial| {
        let station = Station { dial_hz: Some(dial), ..*station };
        match evaluate(&station, Kind::Data, *direction, edges, &table.image) {
            Ok(decision) if decision.allowed() => None,
            Ok(decision) => Some(decision.code.number()),
            Err(_) => Some(0),
        }
    })
}

/// Before a figure of the list that is not whole hertz, and what it says.
const ROUNDED: char = '~';
const ROUNDED_SAYS: &str = "~ is before a figure that is rounded to a whole hertz; --json has the exact one.\n";

/// A figure of the list, in kilohertz by one of the library's texts.
fn cell(hz: f64, text: fn(f64, &mut [u8]) -> Result<&str, Refusal>) -> String {
    match text(hz, &mut [0; MOST_TEXT]) {
        Ok(digits) if hz.fract() == 0.0 => digits.to_owned(),
        Ok(digits) => format!("{ROUNDED}{digits}"),
        Err(_) => Hertz(hz).to_string(),
    }
}

impl Listing {
    pub fn is_empty(&self) -> bool {
        match self {
            Self::Rows(rows) => rows.is_empty(),
            Self::Barred(_) => true,
        }
    }

    /// Whether a dial of a band's rows is so near to another dial, or nearer.
    pub fn is_within(&self, band: u8, dial_hz: f64, far_hz: f64) -> bool {
        let near = |r: &Row| {
            let dials = r.row.dial;
            r.row.band == band && dials.low_hz - dial_hz <= far_hz && dial_hz - dials.high_hz <= far_hz
        };
        match self {
            Self::Rows(rows) => rows.iter().any(near),
            Self::Barred(_) => false,
        }
    }

    pub fn text(&self, style: Style) -> String {
        let mut out = style.heading("Dials at which data of these edges may be sent") + "\n";
        let rows = match self {
            Self::Barred(decision) => {
                out.push_str(&format!("None, at any dial: {}.\n", words::reason(decision)));
                return out;
            }
            Self::Rows(rows) if rows.is_empty() => {
                out.push_str("None: the table allows this signal to this license, under this control, at no dial.\n");
                return out;
            }
            Self::Rows(rows) => rows,
        };
        let blocked = rows.iter().any(|row| row.ends != [None, None]);
        let cells = |r: &Row| {
            let mut cells = vec![
                cell(r.row.dial.low_hz, text_at),
                cell(r.row.dial.high_hz, text_at),
                cell(r.row.segment.low_hz, text_khz),
                cell(r.row.segment.high_hz, text_khz),
                r.row.band.to_string(),
                r.row.rule.to_string(),
            ];
            if blocked {
                cells.push(match r.ends {
                    [None, None] => String::new(),
                    [Some(a), Some(b)] if a == b => format!("blocked at both ends, code {a}"),
                    [Some(a), Some(b)] => format!("blocked at both ends, codes {a} and {b}"),
                    [Some(a), None] => format!("blocked at the lower end, code {a}"),
                    [None, Some(b)] => format!("blocked at the upper end, code {b}"),
                });
            }
            cells
        };
        let mut head = vec!["dial from, kHz", "dial to, kHz", "segment from", "segment to", "band", "rule"];
        if blocked {
            head.push("verdict");
        }
        let rows: Vec<Vec<String>> = rows.iter().map(cells).collect();
        out.push_str(&words::columns(&head, &rows, 5));
        if rows.iter().flatten().any(|cell| cell.starts_with(ROUNDED)) {
            out.push_str(ROUNDED_SAYS);
        }
        out
    }

    pub fn json(&self) -> Vec<RowJson> {
        match self {
            Self::Rows(rows) => rows.iter().map(|r| RowJson::of(&r.row, r.ends)).collect(),
            Self::Barred(_) => Vec::new(),
        }
    }
}

/// Whether a figure lies in a band of the table.
fn in_band(image: &[u8], hz: f64) -> bool {
    image::bands(image).any(|(low, high)| low <= hz && hz <= high)
}

/// A dial that looks like kilohertz or megahertz.
fn unit(asked: &Asked) -> Option<String> {
    let (dial, typed) = (asked.station.dial_hz?, asked.dial.as_ref()?);
    let image = &asked.table.image;
    if in_band(image, dial) {
        return None;
    }
    let read_as = |(unit, factor): (&str, f64)| {
        let hertz = (dial * factor * 1000.0).round() / 1000.0;
        in_band(image, hertz).then(|| {
            let give = match text_hertz(hertz, &mut [0; MOST_TEXT]) {
                Ok(digits) if hertz.fract() == 0.0 => format!("give --dial {digits}"),
                _ => "give it in hertz".to_owned(),
            };
            format!("The dial is in hertz. {typed} looks like {unit}: if it is, {give}.")
        })
    };
    [("kilohertz", 1e3), ("megahertz", 1e6)].into_iter().find_map(read_as).or_else(|| {
        (dial.abs() < 100_000.0).then(|| {
            format!("The dial is in hertz, and {typed} is below every amateur band: was it meant in kilohertz?")
        })
    })
}

/// Edges that are no audio.
fn edges(asked: &Asked) -> Option<String> {
    let e = &asked.edges;
    let far =
        [e.power_low, e.power_high, e.spectral_low, e.spectral_high].into_iter().find(|x| x.abs() >= 100_000.0)?;
    Some(format!("Edges are those of the audio, before the dial is added; {} is none that a radio sends.", Hertz(far)))
}

/// What was asked and is not judged here: the power off 60 m, the band plan.
fn not_judged(asked: &Asked, decision: &Decision) -> Vec<String> {
    let (image, station) = (&asked.table.image, &asked.station);
    let sixty =
        matches!(decision.code, Code::SixtyEmission | Code::SixtyOffChannel | Code::SixtyChannel | Code::SixtySegment);
    let mut out = Vec::new();
    if station.policy != Policy::Rules {
        return out;
    }
    if station.power_w.is_some() && !sixty {
        if image::count_of(image, Table::Power) == 0 {
            out.push("The table has no power limits: the power is not judged off 60 m.".to_owned());
        } else if asked.kind != Kind::Data {
            out.push("Off 60 m the power is judged for data alone.".to_owned());
        }
    }
    if station.band_plan && !image::has_plan(image) {
        out.push("The table has no band plan: --plan changes nothing.".to_owned());
    }
    out
}

/// What a person should know of the question: figures that look mistaken, and what is not judged.
pub fn remarks(asked: &Asked, decision: Option<&Decision>) -> Vec<String> {
    let mut out: Vec<String> = unit(asked).into_iter().chain(edges(asked)).collect();
    out.extend(decision.into_iter().flat_map(|decision| not_judged(asked, decision)));
    out
}

/// What a person should know of a list.
pub fn list_remarks(asked: &Asked, listing: &Listing) -> Vec<String> {
    let mut out = Vec::new();
    let image = &asked.table.image;
    if tidy(image) == Ok(false) {
        out.push(
            "The table is not tidy: a verdict and the dial list may go by different records (see pamuklid check)."
                .to_owned(),
        );
    }
    let sixty = image::channel_band(image);
    if let Listing::Rows(rows) = listing {
        if rows.iter().any(|r| Some(r.row.band) == sixty) {
            out.push(
                "On 60 m the list and a verdict can differ: judge the dial itself (docs/DIFFERENCES.md).".to_owned(),
            );
        }
    }
    out
}

/// Remarks, a line each.
pub fn notes(remarks: &[String], style: Style) -> String {
    remarks.iter().map(|remark| format!("{} {remark}\n", style.warning("Note:"))).collect()
}

/// The end of an answer: the remarks, and what was not given.
pub fn closing(asked: &Asked, remarks: &[String], style: Style) -> String {
    let mut out = notes(remarks, style);
    out.push_str(&words::assumed(asked));
    match out.is_empty() {
        true => out,
        false => format!("\n{out}"),
    }
}
