//! The answers as JSON: one object each, described in docs/PROGRAM.md. A part that is absent is null.

use pamuklid::{
    Code, Decision, DialRow, Direction, Edges, Fault, Guidance, Kind, Overshoot, Place, Range, Refusal, ReportRow,
    Rule, Station, Table as Tables,
};
use serde::Serialize;

use crate::answer::{Failure, Status};
use crate::args::Asked;
use crate::image::Field;
use crate::nearest::Move;
use crate::table::{Source, Table};
use crate::words;

/// An object as a line.
pub fn line<T: Serialize>(object: &T) -> String {
    match serde_json::to_string(object) {
        Ok(text) => text + "\n",
        Err(why) => format!("{{\"status\":2,\"error\":{{\"kind\":\"internal\",\"message\":{:?}}}}}\n", why.to_string()),
    }
}

#[derive(Serialize)]
pub struct Help {
    pub help: String,
}

#[derive(Serialize)]
pub struct Versions {
    pub program: String,
    pub library: String,
}

/// A question that was not answered.
#[derive(Serialize)]
pub struct Failed<'a> {
    status: u8,
    error: &'a Failure,
}

impl<'a> Failed<'a> {
    pub fn new(error: &'a Failure) -> Self {
        Self { status: Status::NotAnswered as u8, error }
    }
}

// ------------------------------------------------------------------------------------ the question

#[derive(Serialize)]
pub struct TableJson {
    /// practice, file, input or unread
    source: &'static str,
    file: Option<String>,
    bytes: usize,
}

impl TableJson {
    pub fn of(table: &Table) -> Self {
        let source = match table.source {
            Source::Practice => "practice",
            Source::File(_) => "file",
            Source::Input => "input",
            Source::Unread => "unread",
        };
        let file = match &table.source {
            Source::File(name) => Some(name.to_string_lossy().into_owned()),
            _ => None,
        };
        Self { source, file, bytes: table.image.len() }
    }
}

#[derive(Serialize)]
pub struct RangeJson {
    low_hz: f64,
    high_hz: f64,
}

impl RangeJson {
    pub fn of(range: Range) -> Self {
        Self { low_hz: range.low_hz, high_hz: range.high_hz }
    }

    pub fn pair(pair: [f64; 2]) -> Self {
        Self { low_hz: pair[0], high_hz: pair[1] }
    }
}

#[derive(Serialize)]
struct StationJson {
    policy: &'static str,
    region: u8,
    control: Option<&'static str>,
    license: Option<&'static str>,
    sideband: Option<&'static str>,
    dial_hz: Option<f64>,
    margin_lower_hz: f64,
    margin_upper_hz: f64,
    power_w: Option<f64>,
    band_plan: bool,
}

impl StationJson {
    fn of(s: &Station) -> Self {
        Self {
            policy: s.policy.name(),
            region: s.itu_region,
            control: s.control.map(|x| x.name()),
            license: s.license.map(|x| x.name()),
            sideband: s.sideband.map(|x| x.name()),
            dial_hz: s.dial_hz,
            margin_lower_hz: s.margin_lower_hz,
            margin_upper_hz: s.margin_upper_hz,
            power_w: s.power_w,
            band_plan: s.band_plan,
        }
    }
}

#[derive(Serialize)]
struct SignalJson {
    kind: &'static str,
    direction: &'static str,
    power: RangeJson,
    spectral: RangeJson,
}

impl SignalJson {
    fn of(kind: Kind, direction: Direction, edges: &Edges) -> Self {
        Self {
            kind: kind.name(),
            direction: direction.name(),
            power: RangeJson::pair([edges.power_low, edges.power_high]),
            spectral: RangeJson::pair([edges.spectral_low, edges.spectral_high]),
        }
    }
}

/// What was asked, in every answer that has a station.
#[derive(Serialize)]
pub struct Question {
    table: TableJson,
    station: StationJson,
    signal: SignalJson,
    /// the options that were not given
    assumed: Vec<&'static str>,
}

impl Question {
    pub fn of(asked: &Asked) -> Self {
        Self {
            table: TableJson::of(&asked.table),
            station: StationJson::of(&asked.station),
            signal: SignalJson::of(asked.kind, asked.direction, &asked.edges),
            assumed: asked.assumed.iter().map(|(name, _)| *name).collect(),
        }
    }
}

// ------------------------------------------------------------------------------------ the verdict

#[derive(Serialize)]
struct RuleJson {
    number: u16,
    text: String,
}

impl RuleJson {
    fn of(rule: Rule) -> Self {
        Self { number: rule.number(), text: rule.to_string() }
    }
}

#[derive(Serialize)]
struct SegmentJson {
    low_hz: f64,
    high_hz: f64,
    rule: RuleJson,
}

#[derive(Serialize)]
#[serde(tag = "how", rename_all = "snake_case")]
enum OvershootJson {
    Beyond { by_hz: f64, edge: &'static str },
    TooClose { from_lower_hz: f64, from_upper_hz: f64 },
}

#[derive(Serialize)]
struct GuidanceJson {
    /// avoid, inside or outside
    says: &'static str,
    /// the record of the plan, where it is about one
    record: Option<u16>,
}

#[derive(Serialize)]
struct SixtyJson {
    channel_power: bool,
    shared: bool,
    segment_power: bool,
}

#[derive(Serialize)]
pub struct DecisionJson {
    verdict: &'static str,
    code: u8,
    name: &'static str,
    reason: &'static str,
    what_to_do: Option<&'static str>,
    rule: RuleJson,
    band: Option<u8>,
    /// the band is one that the signal touches and does not lie in
    band_touched: bool,
    segment: Option<SegmentJson>,
    automatic_segment: Option<RangeJson>,
    audio: RangeJson,
    width_hz: f64,
    air: Option<RangeJson>,
    overshoot: Option<OvershootJson>,
    guidance: Option<GuidanceJson>,
    sixty: SixtyJson,
    /// the power records that the power is above
    power_records: Vec<usize>,
}

impl DecisionJson {
    pub fn of(d: &Decision) -> Self {
        let overshoot = match (d.overshoot, words::standing(d)) {
            (Overshoot::Beyond { by_hz, edge }, _) => Some(OvershootJson::Beyond { by_hz, edge: edge.name() }),
            (_, Some((from_lower_hz, from_upper_hz))) => Some(OvershootJson::TooClose { from_lower_hz, from_upper_hz }),
            _ => None,
        };
        let guidance = match d.guidance {
            Guidance::NoGuidance => None,
            Guidance::Avoid(record) => Some(GuidanceJson { says: "avoid", record: Some(record) }),
            Guidance::Inside(record) => Some(GuidanceJson { says: "inside", record: Some(record) }),
            Guidance::Outside => Some(GuidanceJson { says: "outside", record: None }),
        };
        Self {
            verdict: d.verdict.name(),
            code: d.code.number(),
            name: d.code.name(),
            reason: d.reason(),
            what_to_do: words::remedy(d),
            rule: RuleJson::of(d.rule),
            band: d.band,
            band_touched: d.code == Code::OutOfBand && d.band.is_some(),
            segment: d.segment.map(|s| SegmentJson {
                low_hz: s.range.low_hz,
                high_hz: s.range.high_hz,
                rule: RuleJson::of(s.rule),
            }),
            automatic_segment: d.automatic_segment.map(RangeJson::of),
            audio: RangeJson::of(d.audio),
            width_hz: d.width_hz,
            air: d.air.map(RangeJson::of),
            overshoot,
            guidance,
            sixty: SixtyJson {
                channel_power: d.sixty.channel_power,
                shared: d.sixty.shared,
                segment_power: d.sixty.segment_power,
            },
            power_records: d.power.iter().collect(),
        }
    }
}

#[derive(Serialize)]
pub struct CeilingJson {
    pub control: RangeJson,
    pub rungs: Vec<RangeJson>,
    /// the fastest that may be sent
    pub rung: Option<u16>,
    /// the verdict on the first that may not
    pub limit: Option<DecisionJson>,
    pub refusal: Option<RefusalJson>,
}

// ------------------------------------------------------------------------------------ refusals

#[derive(Serialize)]
pub struct RefusalJson {
    number: u8,
    name: &'static str,
    reason: &'static str,
    what_to_do: &'static str,
    place: Option<PlaceJson>,
    fields: Vec<FieldJson>,
}

#[derive(Serialize)]
struct PlaceJson {
    /// general or record
    part: &'static str,
    table: Option<&'static str>,
    record: Option<u16>,
    at: usize,
    bytes: usize,
}

#[derive(Serialize)]
struct FieldJson {
    name: &'static str,
    at: usize,
    hex: String,
    value: String,
    wrong: String,
}

impl RefusalJson {
    pub fn of(refusal: Refusal) -> Self {
        Self {
            number: refusal.number(),
            name: refusal.name(),
            reason: words::refusal_reason(refusal),
            what_to_do: words::what_to_do(refusal, false),
            place: None,
            fields: Vec::new(),
        }
    }

    /// In a command's own words.
    pub fn said(refusal: Refusal, reason: &'static str, what_to_do: &'static str) -> Self {
        Self { reason, what_to_do, ..Self::of(refusal) }
    }

    /// With a command's own words on what to do.
    pub fn to_do(self, what_to_do: &'static str) -> Self {
        Self { what_to_do, ..self }
    }

    pub fn at(refusal: Refusal, image: &[u8], fault: Option<&(Fault, Vec<Field>)>) -> Self {
        let mut out = Self::of(refusal);
        let Some((fault, fields)) = fault else { return out };
        out.what_to_do = words::what_to_do(refusal, !fields.is_empty());
        out.place = fault.place.map(|place| {
            let bytes = place.bytes(image).unwrap_or_default();
            let (part, table, record) = match place {
                Place::General => ("general", None, None),
                Place::Record { table, index } => ("record", Some(table.name()), Some(index)),
            };
            PlaceJson { part, table, record, at: bytes.start, bytes: bytes.len() }
        });
        out.fields = fields
            .iter()
            .map(|f| FieldJson { name: f.name, at: f.at, hex: f.hex(), value: f.value.clone(), wrong: f.wrong.clone() })
            .collect();
        out
    }
}

// ------------------------------------------------------------------------------------ dials

#[derive(Serialize)]
pub struct RowJson {
    dial: RangeJson,
    segment: RangeJson,
    band: u8,
    rule: RuleJson,
    /// the codes of the verdicts at the lower and the upper dial where they are blocked
    blocked_at_lower: Option<u8>,
    blocked_at_upper: Option<u8>,
}

impl RowJson {
    pub fn of(row: &DialRow, ends: [Option<u8>; 2]) -> Self {
        Self {
            dial: RangeJson::of(row.dial),
            segment: RangeJson::of(row.segment),
            band: row.band,
            rule: RuleJson::of(row.rule),
            blocked_at_lower: ends[0],
            blocked_at_upper: ends[1],
        }
    }
}

/// Where to move the dial.
#[derive(Serialize)]
pub struct NearestJson {
    /// dial, none or not_judged
    answer: &'static str,
    dial_hz: Option<f64>,
    /// from the station's dial, below 0 where it is down
    move_hz: Option<f64>,
    /// why it was not judged
    reason: Option<String>,
}

impl NearestJson {
    pub fn of(to: &Move) -> Self {
        let none = Self { answer: "none", dial_hz: None, move_hz: None, reason: None };
        match to {
            Move::To { dial_hz, by_hz, .. } => {
                Self { answer: "dial", dial_hz: Some(*dial_hz), move_hz: Some(*by_hz), ..none }
            }
            Move::Nowhere { .. } => none,
            Move::NotJudged(why) => Self { answer: "not_judged", reason: Some(why.clone()), ..none },
        }
    }
}

// ------------------------------------------------------------------------------------ a table's report

#[derive(Serialize)]
pub struct SlipJson {
    /// overlap or gap
    kind: &'static str,
    /// bands, segments or privileges; of a gap segments
    table: &'static str,
    /// of privileges, and of a gap
    class: Option<&'static str>,
    first: u16,
    second: u16,
    /// the numbers of their bands
    first_band: Option<u8>,
    second_band: Option<u8>,
    stretch: RangeJson,
}

impl SlipJson {
    pub fn of(row: &ReportRow, bands: Option<[u8; 2]>) -> Self {
        let (kind, table, license, first, second) = match *row {
            ReportRow::Overlap { table, license, first, second, .. } => ("overlap", table, license, first, second),
            ReportRow::Gap { license, segment, .. } => ("gap", Tables::Segments, Some(license), segment, segment),
        };
        Self {
            kind,
            table: table.name(),
            class: license.map(|license| license.name()),
            first,
            second,
            first_band: bands.map(|bands| bands[0]),
            second_band: bands.map(|bands| bands[1]),
            stretch: RangeJson::of(row.stretch()),
        }
    }
}
