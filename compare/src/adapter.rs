//! The Rust's answers in the boundary's terms: the image as its `Profile`, the station record as
//! its `Situation`, its `Decision` as ours. This file is built once for the driver's copy of the
//! Rust (`crate::oracle`) and, with the feature `stub`, once for the stub's (`crate::original`):
//! `super::regulatory` is the copy, `super::expect` what document 01 says beside it.

use std::fmt;
use std::sync::Arc;

use super::expect::{self, Guidance};
use super::regulatory::occupancy::RungOccupancy;
use super::regulatory::profile::{
    Automatic, Band, BandPlan, BandwidthRule, Channel, Channels, DataLimit, Elsewhere, Excluded,
    PlanArea, PowerLimit, Privilege, Privileges, Segment, SixtyEmissions,
};
use super::regulatory::{self as rust, AirOccupancy, Policy, Profile, Range, Reading, khz};
use crate::ffi::{self, Decision, Edges, Figures, Station};
use crate::image::{self, Record, Table};

/// Codes 1 to 25, in document 01's order.
const CODES: [&str; 25] = [
    "no_profile",
    "profile_broken",
    "no_rules",
    "unmeasured",
    "region",
    "no_control",
    "no_license",
    "no_sideband",
    "no_dial",
    "out_of_band",
    "automatic_excluded",
    "too_wide",
    "outside_data_segment",
    "no_data_here",
    "privilege",
    "permitted",
    "automatic_segment",
    "automatic_outside",
    "automatic_bandwidth",
    "automatic_originate",
    "automatic_response",
    "sixty_emission",
    "sixty_off_channel",
    "sixty_channel",
    "sixty_segment",
];

/// "Rules 0 to 6 mean empty, §97.301, §97.109, §97.305(a), §97.305(b), §97.305(c), §97.307(f)(9)".
const RULES: [&str; 7] =
    ["", "§97.301", "§97.109", "§97.305(a)", "§97.305(b)", "§97.305(c)", "§97.307(f)(9)"];

const CLASSES: [&str; 5] = ["novice", "technician", "general", "advanced", "extra"];
const EMISSIONS: [&str; 4] = ["data", "cw", "test", "nothing"];

fn rule_text(number: u16) -> String {
    match RULES.get(number as usize) {
        Some(text) => (*text).to_owned(),
        None => format!("rule#{number}"),
    }
}

fn rule_number(text: &str) -> Result<u16, String> {
    if let Some(i) = RULES.iter().position(|r| *r == text) {
        return Ok(i as u16);
    }
    text.strip_prefix("rule#")
        .and_then(|n| n.parse().ok())
        .ok_or_else(|| format!("the Rust names a rule {text:?}"))
}

fn band_text(number: u8) -> String {
    format!("band#{number}")
}

fn band_number(text: &str) -> Result<u8, String> {
    text.strip_prefix("band#")
        .and_then(|n| n.parse().ok())
        .ok_or_else(|| format!("the Rust names a band {text:?}"))
}

fn names(bits: u8, of: &[&str]) -> Vec<String> {
    (0..of.len()).filter(|i| bits >> i & 1 == 1).map(|i| of[i].to_owned()).collect()
}

fn range(r: &Record) -> Range {
    Range { low_hz: r.low, high_hz: r.high }
}

fn label(r: &Record, kind: &str, index: usize) -> String {
    format!("{kind}#{index}#{}", r.rule)
}

/// The Rust's profile of a table. Texts that nothing compares carry numbers, so that they can be
/// read back out of an answer.
fn profile_of(t: &Table) -> Profile {
    let has = |flag| t.flags & flag != 0;
    let class = |number: u8| -> Vec<Privilege> {
        t.tables[image::PRIVILEGES]
            .iter()
            .filter(|p| p.class == number)
            .map(|p| Privilege {
                range: range(p),
                emissions: (p.flags & 1 != 0).then(|| names(p.emissions, &EMISSIONS)),
                rule: (p.flags & 2 != 0).then(|| rule_text(p.rule)),
            })
            .collect()
    };
    let areas = |table: usize, kind: &str| -> Vec<PlanArea> {
        t.tables[table]
            .iter()
            .enumerate()
            .map(|(i, r)| PlanArea { range: range(r), label: label(r, kind, i) })
            .collect()
    };
    Profile {
        id: "table".to_owned(),
        name: "table".to_owned(),
        country: String::new(),
        authority: String::new(),
        rules_as_of: String::new(),
        last_amended: String::new(),
        source: String::new(),
        itu_region: t.region,
        notes: Vec::new(),
        bandwidth: BandwidthRule {
            rule: String::new(),
            reading: match t.reading {
                0 => Reading::Power,
                1 => Reading::Spectral,
                _ => Reading::Wider,
            },
            why: String::new(),
        },
        data: DataLimit { max_bandwidth_hz: t.data_limit, rule: rule_text(t.rules[0]) },
        cw_id: None,
        bands: t.tables[image::BANDS]
            .iter()
            .map(|b| Band { name: band_text(b.band), range: range(b) })
            .collect(),
        data_segments: t.tables[image::SEGMENTS]
            .iter()
            .map(|s| Segment {
                band: band_text(s.band),
                range: range(s),
                rule: rule_text(s.rule),
                max_bandwidth_hz: (s.flags & 1 != 0).then_some(s.figure),
                bandwidth_rule: (s.flags & 2 != 0).then(|| rule_text(s.second)),
            })
            .collect(),
        channels: has(image::HAS_CHANNELS).then(|| Channels {
            band: band_text(t.channel_band),
            rule: rule_text(t.rules[3]),
            width_hz: t.width,
            carrier_offset_hz: t.offset,
            carrier_tolerance_hz: t.tolerance,
            sideband: if t.sideband == 0 { "usb" } else { "lsb" }.to_owned(),
            list: t.tables[image::CHANNELS].iter().map(|c| Channel { center_hz: c.low }).collect(),
            why: String::new(),
        }),
        sixty_meter_emissions: has(image::HAS_EMISSIONS).then(|| SixtyEmissions {
            allowed: names(t.emissions, &EMISSIONS),
            rule: rule_text(t.rules[4]),
        }),
        privileges: Privileges {
            extra: class(4),
            advanced: class(3),
            general: class(2),
            technician: class(1),
            novice: class(0),
            rule: rule_text(t.rules[5]),
        },
        automatic: Automatic {
            segments: t.tables[image::AUTOMATIC].iter().map(range).collect(),
            segments_rule: rule_text(t.rules[2]),
            elsewhere: has(image::ELSEWHERE).then(|| Elsewhere {
                max_bandwidth_hz: t.elsewhere_limit,
                requires_response: has(image::RESPONSE),
                rule: rule_text(t.rules[1]),
            }),
            excluded_bands: t.tables[image::EXCLUDED]
                .iter()
                .map(|x| Excluded {
                    band: band_text(x.band),
                    rule: rule_text(x.rule),
                    why: String::new(),
                })
                .collect(),
        },
        power: t.tables[image::POWER]
            .iter()
            .enumerate()
            .map(|(i, p)| PowerLimit {
                range: range(p),
                max_w: p.figure,
                measure: format!("measure#{i}"),
                classes: (p.flags & 1 != 0).then(|| names(p.class, &CLASSES)),
                rule: rule_text(p.rule),
            })
            .collect(),
        band_plan: has(image::HAS_PLAN).then(|| BandPlan {
            authority: "authority".to_owned(),
            source: String::new(),
            as_of: String::new(),
            data: areas(image::PLAN_DATA, "data"),
            avoid: areas(image::PLAN_AVOID, "avoid"),
        }),
    }
}

/// `Profile::check`'s text as a refusal, 7 to 14.
fn check_number(text: &str) -> Result<u8, String> {
    let rest = text
        .strip_prefix("the table profile")
        .ok_or_else(|| format!("the Rust's check says {text:?}"))?;
    let known = [
        (" has a band of ", 7),
        (" has a data segment of ", 8),
        (" has a automatic segment of ", 9),
        (" has a privilege of ", 10),
        (" names no bands or no data segments", 11),
        (" has a data segment with no bandwidth limit", 13),
        (" has no data bandwidth limit", 14),
    ];
    if let Some((_, number)) = known.iter().find(|(start, _)| rest.starts_with(start)) {
        return Ok(*number);
    }
    if rest.starts_with("'s data segment ") && rest.ends_with(" is in no band") {
        return Ok(12);
    }
    Err(format!("the Rust's check says {text:?}"))
}

/// An image made ready: its length, what the check says, and the two sides' views of its table.
pub struct Prepared {
    pub length: usize,
    /// 0 accepted, else 1 to 14.
    pub refusal: u8,
    pub table: Option<Table>,
    policy: Option<Policy>,
}

pub fn prepare(image: &[u8]) -> Result<Prepared, String> {
    let mut made = Prepared {
        length: image.len(),
        refusal: expect::image_1_to_6(image),
        table: None,
        policy: None,
    };
    if made.refusal == 0 {
        let table = image::decode(image);
        let profile = profile_of(&table);
        match profile.check() {
            Ok(()) => made.policy = Some(Policy::Rules(Arc::new(profile))),
            Err(text) => made.refusal = check_number(&text)?,
        }
        made.table = Some(table);
    }
    Ok(made)
}

/// Whether the table of an accepted image is tidy, 1 or 0, and the image's refusal.
pub fn tidy(p: &Prepared) -> (u8, u8) {
    match &p.table {
        Some(table) if p.refusal == 0 => (u8::from(expect::tidy(table)), 0),
        _ => (0, p.refusal),
    }
}

fn policy(p: &Prepared, s: &Station) -> Policy {
    match s.policy {
        0 => Policy::Unset,
        1 => Policy::NoProfile,
        2 => p.policy.clone().expect("an accepted image"),
        _ => Policy::Broken("broken".to_owned()),
    }
}

/// The Rust has one margin, and 100 and 9.15 as the 60 m power limits: it is asked where the two margins are
/// equal and the watts are those. With the feature `unequal` it has the second margin too, with the feature
/// `watts` the table's watts (build.rs).
fn situation(p: &Prepared, s: &Station) -> rust::Situation {
    use rust::{ControlMode, LicenseClass, Sideband};
    let margin = expect::margins(s);
    assert!(cfg!(feature = "unequal") || margin.0 == margin.1, "the Rust has one margin");
    let other = expect::other_watts(p.table.as_ref(), s);
    assert!(cfg!(feature = "watts") || !other, "the Rust has 100 and 9.15 W");
    #[cfg(feature = "watts")]
    let (channel_w, segment_w) = p.table.as_ref().map_or(image::FIXED_WATTS, Table::limits);
    rust::Situation {
        dial_hz: (s.dial_known == 1).then_some(expect::read(s.dial_hz)),
        dial_source: None,
        sideband: match s.sideband {
            0 => Some(Sideband::Usb),
            1 => Some(Sideband::Lsb),
            _ => None,
        },
        control: match s.control {
            0 => Some(ControlMode::Local),
            1 => Some(ControlMode::Remote),
            2 => Some(ControlMode::Automatic),
            _ => None,
        },
        license: match s.license {
            0 => Some(LicenseClass::Novice),
            1 => Some(LicenseClass::Technician),
            2 => Some(LicenseClass::General),
            3 => Some(LicenseClass::Advanced),
            4 => Some(LicenseClass::Extra),
            _ => None,
        },
        itu_region: s.itu_region,
        margin_hz: margin.0,
        #[cfg(feature = "unequal")]
        upper_hz: margin.1,
        #[cfg(feature = "watts")]
        channel_w,
        #[cfg(feature = "watts")]
        segment_w,
        band_plan: s.band_plan == 1,
        power_w: (s.power_known == 1).then_some(expect::read(s.power_w)),
    }
}

fn edges(e: &Edges) -> rust::Edges {
    let f = e.figures().map(expect::read);
    rust::Edges { power: [f[0], f[1]], spectral: [f[2], f[3]] }
}

fn kind_of(kind: u8) -> rust::EmissionKind {
    match kind {
        0 => rust::EmissionKind::Data,
        1 => rust::EmissionKind::Cw,
        2 => rust::EmissionKind::Test,
        _ => rust::EmissionKind::Nothing,
    }
}

/// The Rust has no direction 3, "respond to automatic". It is judged as automatic, and "the elsewhere
/// rule counts only a plain Respond" (document 02): so Originate's answers are those of 3.
fn direction_of(direction: u8) -> rust::Direction {
    match direction {
        0 | 3 => rust::Direction::Originate,
        1 => rust::Direction::Respond,
        _ => rust::Direction::Operator,
    }
}

/// The first refusal that isn't 0, or 0.
fn first(refusals: &[u8]) -> u8 {
    refusals.iter().copied().find(|&r| r != 0).unwrap_or(0)
}

fn wrong(what: &str, rust: &str, ours: &str) -> String {
    format!("the Rust's {what} is {rust:?}; document 01 gives {ours:?}")
}

/// The Rust's decision, with the parts that it has only as text worked out from document 01 and
/// held against that text.
fn read(p: &Prepared, s: &Station, kind: u8, d: &rust::Decision) -> Result<Decision, String> {
    let mut out = ffi::NOTHING;
    out.verdict = match d.verdict {
        rust::Verdict::Legal => 0,
        rust::Verdict::Warning => 1,
        rust::Verdict::Blocked => 2,
    };
    let code = CODES.iter().position(|c| *c == d.code);
    out.code = code.ok_or_else(|| format!("the Rust's code is {:?}", d.code))? as u8 + 1;
    out.rule_known = 1;
    out.rule = rule_number(&d.rule)?;
    if let Some(band) = &d.band {
        (out.band_known, out.band) = (1, band_number(band)?);
    }
    match (&d.segment, &d.segment_rule) {
        (Some(segment), Some(rule)) => {
            out.segment_known = 1;
            (out.segment_low, out.segment_high) = (segment.low_hz, segment.high_hz);
            out.segment_rule = rule_number(rule)?;
        }
        (None, None) => {}
        _ => return Err("the Rust has half a segment".to_owned()),
    }
    if let Some(automatic) = &d.automatic_segment {
        out.automatic_known = 1;
        (out.automatic_low, out.automatic_high) = (automatic.low_hz, automatic.high_hz);
    }
    out.audio_known = 1;
    (out.audio_low, out.audio_high) = (d.audio_low_hz, d.audio_high_hz);
    out.width = d.bandwidth_hz;
    if let (Some(low), Some(high)) = (d.rf_low_hz, d.rf_high_hz) {
        out.air_known = 1;
        (out.air_low, out.air_high) = (low, high);
    }
    // from here on, what the Rust says only in words
    let margin = expect::margins(s);
    let lower = margin.0;
    let watts = (s.power_known == 1).then_some(expect::read(s.power_w));
    let air = (out.air_low, out.air_high);
    let mut notes = Vec::new();
    let mut guidance = None;
    match (out.code, &p.table) {
        (10, Some(table)) => {
            let end = match expect::touching(table, air, margin) {
                Some(i) => {
                    let band = &table.tables[image::BANDS][i];
                    (out.band_known, out.band) = (1, band.band);
                    format!(
                        ": it crosses the edge of the {} band ({}), counting {lower:.0} Hz of margin.",
                        band_text(band.band),
                        range(band).khz()
                    )
                }
                None => ": outside the amateur bands this profile covers.".to_owned(),
            };
            if !d.detail.ends_with(&end) {
                return Err(wrong("detail", &d.detail, &end));
            }
        }
        (13, Some(table)) => {
            let Some(over) = expect::overshoot(table, air, margin) else {
                return Err(wrong("code", d.code, "no segment near"));
            };
            let segment = &table.tables[image::SEGMENTS][over.segment];
            let edge = if over.upper { "upper" } else { "lower" };
            let by = over.by;
            (out.overshoot, out.edge) = (if by > 0.0 { 1 } else { 2 }, u8::from(over.upper));
            out.beyond_hz = by;
            let named = format!(
                "{} data segment {}–{} kHz",
                band_text(segment.band),
                khz(segment.low),
                khz(segment.high)
            );
            let rule = rule_text(segment.rule);
            let (summary, end) = if by > 0.0 {
                (
                    format!("TX BLOCKED: signal extends {by:.0} Hz beyond the FCC data segment"),
                    format!(": {by:.0} Hz beyond the {edge} edge of the {named} ({rule})."),
                )
            } else {
                (
                    "TX BLOCKED: signal too close to the edge of the FCC data segment".to_owned(),
                    format!(
                        ": inside the {named} but closer than the {lower:.0} Hz margin to its \
                         {edge} edge ({rule})."
                    ),
                )
            };
            if d.summary != summary {
                return Err(wrong("summary", &d.summary, &summary));
            }
            if !d.detail.ends_with(&end) {
                return Err(wrong("detail", &d.detail, &end));
            }
        }
        (14, Some(table)) => {
            if let Some(over) = expect::overshoot(table, air, margin) {
                return Err(wrong("code", d.code, &format!("{over:?}")));
            }
        }
        // "`advise` runs for data off 60 m only (16, 17, 21)."
        (16 | 17 | 21, Some(table)) if kind == 0 => {
            let (lo, hi) = expect::advised_range(out.code != 16, air, margin);
            for i in expect::power_notes(table, (lo, hi), s.license, watts) {
                out.notes[i] = 1;
                let r = &table.tables[image::POWER][i];
                notes.push(format!(
                    "At {:.0} W: {} is limited to {} W measure#{i} here ({}).",
                    watts.unwrap_or_default(),
                    if r.flags & 1 != 0 { "a Novice or Technician" } else { "a station" },
                    r.figure,
                    rule_text(r.rule)
                ));
            }
            let area = |table_number: usize, kind: &str, i: usize| {
                label(&table.tables[table_number][i], kind, i)
            };
            let found = expect::guidance(table, (lo, hi), s.band_plan == 1);
            (out.guidance, out.guidance_index) = match found {
                Guidance::None => (0, 0),
                Guidance::Avoid(i) => (1, i as u16),
                Guidance::Inside(i) => (2, i as u16),
                Guidance::Outside => (3, 0),
            };
            guidance = match found {
                Guidance::None => None,
                Guidance::Avoid(i) => Some(format!(
                    "Legal under Part 97, but on {} (authority, voluntary).",
                    area(image::PLAN_AVOID, "avoid", i)
                )),
                Guidance::Inside(i) => Some(format!(
                    "Inside the band plan's {} (authority).",
                    area(image::PLAN_DATA, "data", i)
                )),
                Guidance::Outside => Some(
                    "Legal under Part 97; the authority puts data elsewhere on this band. It is \
                     voluntary."
                        .to_owned(),
                ),
            };
            let warns =
                !notes.is_empty() || matches!(found, Guidance::Avoid(_) | Guidance::Outside);
            if out.verdict != u8::from(warns) {
                return Err(wrong("verdict", &format!("{:?}", d.verdict), "the other"));
            }
        }
        (24, Some(table)) if out.verdict != 2 => {
            if expect::above_channel_watts(table, watts) {
                out.note_channel_power = 1;
                notes.push(format!(
                    "At {:.0} W: 60 m channels are limited to 100 W ERP (§97.313(i)); the \
                     antenna's gain counts.",
                    watts.unwrap_or_default()
                ));
            }
            out.note_shared = 1;
            notes.push(
                "60 m is shared with government stations: keep transmissions short \
                 (§97.307(f)(14)(ii)); only one signal at a time on a channel (band plan)."
                    .to_owned(),
            );
        }
        (25, Some(table)) => {
            if expect::above_segment_watts(table, watts) {
                out.note_segment_power = 1;
                notes.push(format!(
                    "At {:.0} W: the 5351.5–5366.5 kHz segment is limited to 9.15 W ERP \
                     (§97.313(i)).",
                    watts.unwrap_or_default()
                ));
            }
        }
        _ => {}
    }
    if d.notes != notes {
        return Err(wrong("notes", &format!("{:?}", d.notes), &format!("{notes:?}")));
    }
    if d.guidance != guidance {
        return Err(wrong("guidance", &format!("{:?}", d.guidance), &format!("{guidance:?}")));
    }
    Ok(out)
}

/// `evaluate`, refusals included.
pub fn evaluate(
    p: &Prepared,
    s: &Station,
    kind: u8,
    direction: u8,
    e: &Edges,
) -> Result<Decision, String> {
    let refusal = first(&[
        expect::station_refusal(s, direction, kind),
        expect::image_refusal(s, p.length, p.refusal),
        if expect::edges_refused(e) { 15 } else { 0 },
    ]);
    if refusal != 0 {
        return Ok(ffi::refused(refusal));
    }
    let tx = rust::Transmission {
        what: "it".to_owned(),
        kind: kind_of(kind),
        audio: edges(e),
        direction: direction_of(direction),
    };
    read(p, s, kind, &policy(p, s).evaluate(&situation(p, s), &tx))
}

/// `unmeasured`, refusals included.
pub fn unmeasured(p: &Prepared, s: &Station) -> Result<Decision, String> {
    let refusal =
        first(&[expect::station_refusal(s, 0, 0), expect::image_refusal(s, p.length, p.refusal)]);
    if refusal != 0 {
        return Ok(ffi::refused(refusal));
    }
    let d = policy(p, s).unmeasured(&situation(p, s), "it", "why");
    read(p, s, 0, &d)
}

/// A ceiling: the refusal, the rung, the limit.
pub struct Ceiling {
    pub refusal: u8,
    pub rung: Option<u16>,
    pub limit: Option<Decision>,
}

impl Ceiling {
    /// -1 where there is none.
    pub fn rung_number(&self) -> i32 {
        self.rung.map_or(-1, i32::from)
    }

    /// Where there is none: blocked, the refusal's number, all else absent.
    pub fn limit_or_none(&self) -> Decision {
        self.limit.unwrap_or(ffi::refused(self.refusal))
    }
}

/// What a ceiling refuses, 0 if nothing.
pub fn ceiling_refusal(
    p: &Prepared,
    s: &Station,
    direction: u8,
    ordinary: &Edges,
    floor: &Edges,
    rungs: &[f64],
    floors: &[u8],
) -> u8 {
    first(&[
        expect::station_refusal(s, direction, 0),
        expect::image_refusal(s, p.length, p.refusal),
        if expect::ladder_refused(ordinary, floor, rungs) { 15 } else { 0 },
        if expect::rungs_refused(rungs, floors) { 16 } else { 0 },
    ])
}

/// `ceiling`, refusals included.
pub fn ceiling(
    p: &Prepared,
    s: &Station,
    direction: u8,
    ordinary: &Edges,
    floor: &Edges,
    rungs: &[f64],
    floors: &[u8],
) -> Result<Ceiling, String> {
    let refusal = ceiling_refusal(p, s, direction, ordinary, floor, rungs, floors);
    if refusal != 0 {
        return Ok(Ceiling { refusal, rung: None, limit: None });
    }
    let air = AirOccupancy {
        bandwidth_hz: 0,
        centre_hz: 0.0,
        rungs: rungs
            .chunks(4)
            .map(|r| RungOccupancy {
                name: String::new(),
                tone: false,
                edges: edges(&Edges::of([r[0], r[1], r[2], r[3]])),
            })
            .collect(),
        control_ordinary: edges(ordinary),
        control_floor: edges(floor),
    };
    let found =
        policy(p, s).ceiling(&situation(p, s), &air, direction_of(direction), &|i| floors[i] == 1);
    Ok(Ceiling {
        refusal: 0,
        rung: found.rung.map(|r| r as u16),
        limit: found.limit.map(|d| read(p, s, 0, &d)).transpose()?,
    })
}

/// `safe_dials`: the refusal (23 apart, which hangs on the rows lent) and the rows' bytes.
pub fn safe_dials(
    p: &Prepared,
    s: &Station,
    direction: u8,
    e: &Edges,
) -> Result<(u8, Vec<u8>), String> {
    let refusal = first(&[
        expect::station_refusal(s, direction, 0),
        expect::image_refusal(s, p.length, p.refusal),
        if expect::edges_refused(e) { 15 } else { 0 },
    ]);
    if refusal != 0 {
        return Ok((refusal, Vec::new()));
    }
    let list = policy(p, s).safe_dials(&situation(p, s), edges(e), direction_of(direction));
    let mut rows = Vec::with_capacity(36 * list.len());
    // "A dial row is 36 bytes: segment low, high, dial low, high (f64), band byte, zero byte, u16
    // rule."
    for row in list {
        for x in [row.segment.low_hz, row.segment.high_hz, row.dial_low_hz, row.dial_high_hz] {
            rows.extend(x.to_bits().to_le_bytes());
        }
        rows.extend([band_number(&row.band)?, 0]);
        rows.extend(rule_number(&row.rule)?.to_le_bytes());
    }
    Ok((0, rows))
}

/// A figure's text: 0 the number of `at`, whose text is `format!("{:.3} kHz", hz / 1000.0)`; 1 `khz`; 2 whole
/// hertz as `{:.0}` gives them.
pub fn text(call: usize, hz: f64, out: &mut impl fmt::Write) -> fmt::Result {
    match call {
        0 => write!(out, "{:.3}", hz / 1000.0),
        1 => out.write_str(&khz(hz)),
        _ => write!(out, "{hz:.0}"),
    }
}
