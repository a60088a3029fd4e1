//! A made-up table of any size, as an image for the library and as a `Profile` for the Rust. Its
//! figures are not Part 97's.

use crate::ffi::Fields;
use crate::rust::regulatory::profile::{
    Automatic, Band, BandPlan, BandwidthRule, Channel, Channels, DataLimit, Elsewhere, Excluded,
    PlanArea, PowerLimit, Privilege, Privileges, Segment, SixtyEmissions,
};
use crate::rust::regulatory::{Profile, Range, Reading};

const BANDS: usize = 0;
const SEGMENTS: usize = 1;
const CHANNELS: usize = 2;
const PRIVILEGES: usize = 3;
const AUTOMATIC: usize = 4;
const EXCLUDED: usize = 5;
const POWER: usize = 6;
const PLAN_DATA: usize = 7;
const PLAN_AVOID: usize = 8;

pub const CHANNEL_BAND: usize = 2;
const RULE: u16 = 100;

#[derive(Clone, Copy, Default)]
struct Record {
    low: f64,
    high: f64,
    figure: f64,
    band: u8,
    class: u8,
    emissions: u8,
    flags: u8,
    rule: u16,
    second_rule: u16,
}

pub struct Table {
    tables: [Vec<Record>; 9],
}

/// Where band i begins. A band is 400 kHz wide, its data segments fill the first 150 kHz.
pub fn start(i: usize) -> f64 {
    1_000_000.0 * (i + 1) as f64
}

fn span(from: f64, low: f64, high: f64) -> Record {
    Record { low: from + low, high: from + high, ..Record::default() }
}

/// Classes of the privileges, the first six records of a band. Technician and Novice have lists of
/// emissions on four bands of ten, as many as 97.301(e) gives them on HF.
const CLASSES: [u8; 6] = [4, 3, 2, 2, 1, 0];

fn has_list(class: u8, band: usize) -> bool {
    class < 2 && band % 10 < 4
}

/// Each tenth data segment has a limit of its own, and a rule for it.
fn has_limit(segment: usize) -> bool {
    segment % 10 == 0
}

/// The order in which a table has its records.
#[derive(Clone, Copy, PartialEq)]
pub enum Order {
    /// By frequency: every row of a dial list goes last.
    Rising,
    /// The other way: every row of a dial list goes first.
    Falling,
    /// By chance, the same in every run.
    Mixed,
}

/// The numbers below n in an order.
fn ordered(n: usize, order: Order) -> Vec<usize> {
    let mut out: Vec<usize> = (0..n).collect();
    match order {
        Order::Rising => {}
        Order::Falling => out.reverse(),
        Order::Mixed => {
            let mut x = 1u64;
            for i in (1..n).rev() {
                x = x
                    .wrapping_mul(6_364_136_223_846_793_005)
                    .wrapping_add(1_442_695_040_888_963_407);
                out.swap(i, (x >> 33) as usize % (i + 1));
            }
        }
    }
    out
}

impl Table {
    /// A table that lists, for an Extra, a row of each data segment under each privilege: one band,
    /// segments of 10 kHz side by side in it, and every privilege all over it. The rows of a segment
    /// share their lower dial.
    pub fn listing(segments: usize, privileges: usize, order: Order) -> Table {
        let wide = |low: usize, high: usize| span(start(0), 1e4 * low as f64, 1e4 * high as f64);
        let whole = wide(0, segments);
        let mut tables: [Vec<Record>; 9] = Default::default();
        tables[BANDS] = vec![whole];
        tables[SEGMENTS] = ordered(segments, order)
            .into_iter()
            .map(|i| Record { rule: RULE + 1, ..wide(i, i + 1) })
            .collect();
        tables[PRIVILEGES] = vec![Record { class: 4, ..whole }; privileges];
        Table { tables }
    }

    /// A table with the longest report, for an Extra: alike bands and alike data segments, and privileges
    /// side by side, in an order, that leave gaps all over them.
    pub fn crowded(order: Order) -> Table {
        let whole = span(start(0), 0.0, 1e6);
        let mut tables: [Vec<Record>; 9] = Default::default();
        tables[BANDS] = vec![whole; 256];
        tables[SEGMENTS] = vec![Record { rule: RULE + 1, ..whole }; 256];
        tables[PRIVILEGES] = ordered(256, order)
            .into_iter()
            .map(|i| 1e3 * (i + 1) as f64)
            .map(|low| Record { class: 4, ..span(start(0), low, low + 500.0) })
            .collect();
        Table { tables }
    }

    /// So many records of each table, spread over the bands.
    pub fn made(counts: [usize; 9]) -> Table {
        let bands = counts[BANDS];
        let each = |table: usize, record: &dyn Fn(usize, usize) -> Record| -> Vec<Record> {
            (0..counts[table]).map(|j| record(j % bands, j / bands)).collect()
        };
        let rows = |b: usize| Record { band: b as u8, rule: RULE, ..Record::default() };
        let channels = counts[CHANNELS];
        let tables = [
            each(BANDS, &|b, _| Record { band: b as u8, ..span(start(b), 0.0, 400_000.0) }),
            each(SEGMENTS, &|b, k| Record {
                band: b as u8,
                rule: RULE + 1,
                figure: if has_limit(b + k * bands) { 2_800.0 } else { 0.0 },
                flags: if has_limit(b + k * bands) { 3 } else { 0 },
                second_rule: if has_limit(b + k * bands) { RULE + 3 } else { 0 },
                ..span(start(b), 75_000.0 * k as f64, 75_000.0 * (k + 1) as f64)
            }),
            (0..channels)
                .map(|j| span(start(CHANNEL_BAND), 160_000.0 + 1_000.0 * j as f64, 0.0))
                .map(|r| Record { high: 0.0, ..r })
                .collect(),
            each(PRIVILEGES, &|b, k| Record {
                class: CLASSES[k % 6],
                emissions: if has_list(CLASSES[k % 6], b) { 3 } else { 0 },
                flags: u8::from(has_list(CLASSES[k % 6], b)),
                ..match k % 6 {
                    3 => span(start(b), 200_000.0, 400_000.0),
                    2 => span(start(b), 25_000.0, 150_000.0),
                    _ => span(start(b), 0.0, 400_000.0),
                }
            }),
            each(AUTOMATIC, &|b, _| span(start(b), 95_000.0, 112_000.0)),
            each(EXCLUDED, &|b, k| rows(if k == 0 { bands - 1 - b } else { b })),
            each(POWER, &|b, _| Record {
                figure: 1_500.0,
                rule: RULE,
                ..span(start(b), 0.0, 400_000.0)
            }),
            each(PLAN_DATA, &|b, _| Record { rule: RULE, ..span(start(b), 70_000.0, 120_000.0) }),
            each(PLAN_AVOID, &|b, _| Record { rule: RULE, ..span(start(b), 149_000.0, 149_500.0) }),
        ];
        Table { tables }
    }

    pub fn bands(&self) -> usize {
        self.tables[BANDS].len()
    }

    pub fn records(&self) -> usize {
        self.tables.iter().map(Vec::len).sum()
    }

    pub fn image(&self) -> Vec<u8> {
        let mut out = Vec::new();
        for x in [2_800.0f64, 500.0, 2_800.0, 1_500.0, 50.0] {
            out.extend(x.to_bits().to_le_bytes());
        }
        out.extend([2, 2, 31, CHANNEL_BAND as u8, 0, 3]);
        for rule in [RULE + 2; 6] {
            out.extend(rule.to_le_bytes());
        }
        out.extend([0; 6]);
        for r in self.tables.iter().flatten() {
            for x in [r.low, r.high, r.figure] {
                out.extend(x.to_bits().to_le_bytes());
            }
            out.extend([r.band, r.class, r.emissions, r.flags]);
            out.extend(r.rule.to_le_bytes());
            out.extend(r.second_rule.to_le_bytes());
        }
        let front = out.len() as u32;
        for t in &self.tables {
            out.extend((t.len() as u16).to_le_bytes());
        }
        out.extend(front.to_le_bytes());
        out.extend(1u16.to_le_bytes());
        out.extend(b"EDGE");
        out
    }

    /// What the image is written from: fields, and the figures, codes and rules of its records.
    pub fn given(&self) -> (Fields, Vec<f64>, Vec<u8>, Vec<u16>) {
        let fields = Fields {
            data_limit: 2_800.0,
            elsewhere_limit: 500.0,
            channel_width: 2_800.0,
            carrier_offset: 1_500.0,
            carrier_tolerance: 50.0,
            edition: 1,
            data_rule: RULE + 2,
            elsewhere_rule: RULE + 2,
            automatic_rule: RULE + 2,
            channels_rule: RULE + 2,
            emissions_rule: RULE + 2,
            privileges_rule: RULE + 2,
            counts: std::array::from_fn(|t| self.tables[t].len() as u16),
            region: 2,
            reading: 2,
            flags: 31,
            channel_band: CHANNEL_BAND as u8,
            emissions: 3,
            ..Fields::default()
        };
        let records = || self.tables.iter().flatten();
        (
            fields,
            records().flat_map(|r| [r.low, r.high, r.figure]).collect(),
            records().flat_map(|r| [r.band, r.class, r.emissions, r.flags]).collect(),
            records().flat_map(|r| [r.rule, r.second_rule]).collect(),
        )
    }

    pub fn profile(&self) -> Profile {
        let text = |rule: u16| format!("rule {rule}");
        let name = |band: u8| format!("band {band}");
        let range = |r: &Record| Range { low_hz: r.low, high_hz: r.high };
        let class = |number: u8| -> Vec<Privilege> {
            self.tables[PRIVILEGES]
                .iter()
                .filter(|p| p.class == number)
                .map(|p| Privilege {
                    range: range(p),
                    emissions: (p.flags == 1).then(|| vec!["data".to_owned(), "cw".to_owned()]),
                    rule: None,
                })
                .collect()
        };
        let areas = |table: usize| -> Vec<PlanArea> {
            self.tables[table]
                .iter()
                .map(|r| PlanArea { range: range(r), label: "area".to_owned() })
                .collect()
        };
        Profile {
            id: "table".to_owned(),
            name: "table".to_owned(),
            country: String::new(),
            authority: String::new(),
            rules_as_of: String::new(),
            last_amended: String::new(),
            source: String::new(),
            itu_region: 2,
            notes: Vec::new(),
            bandwidth: BandwidthRule {
                rule: String::new(),
                reading: Reading::Wider,
                why: String::new(),
            },
            data: DataLimit { max_bandwidth_hz: 2_800.0, rule: text(RULE + 2) },
            cw_id: None,
            bands: self.tables[BANDS]
                .iter()
                .map(|b| Band { name: name(b.band), range: range(b) })
                .collect(),
            data_segments: self.tables[SEGMENTS]
                .iter()
                .map(|s| Segment {
                    band: name(s.band),
                    range: range(s),
                    rule: text(s.rule),
                    max_bandwidth_hz: (s.flags == 3).then_some(s.figure),
                    bandwidth_rule: (s.flags == 3).then(|| text(s.second_rule)),
                })
                .collect(),
            channels: Some(Channels {
                band: name(CHANNEL_BAND as u8),
                rule: text(RULE + 2),
                width_hz: 2_800.0,
                carrier_offset_hz: 1_500.0,
                carrier_tolerance_hz: 50.0,
                sideband: "usb".to_owned(),
                list: self.tables[CHANNELS].iter().map(|c| Channel { center_hz: c.low }).collect(),
                why: String::new(),
            }),
            sixty_meter_emissions: Some(SixtyEmissions {
                allowed: vec!["data".to_owned(), "cw".to_owned()],
                rule: text(RULE + 2),
            }),
            privileges: Privileges {
                extra: class(4),
                advanced: class(3),
                general: class(2),
                technician: class(1),
                novice: class(0),
                rule: text(RULE + 2),
            },
            automatic: Automatic {
                segments: self.tables[AUTOMATIC].iter().map(range).collect(),
                segments_rule: text(RULE + 2),
                elsewhere: Some(Elsewhere {
                    max_bandwidth_hz: 500.0,
                    requires_response: true,
                    rule: text(RULE + 2),
                }),
                excluded_bands: self.tables[EXCLUDED]
                    .iter()
                    .map(|x| Excluded {
                        band: name(x.band),
                        rule: text(x.rule),
                        why: String::new(),
                    })
                    .collect(),
            },
            power: self.tables[POWER]
                .iter()
                .map(|p| PowerLimit {
                    range: range(p),
                    max_w: p.figure,
                    measure: "PEP".to_owned(),
                    classes: None,
                    rule: text(p.rule),
                })
                .collect(),
            band_plan: Some(BandPlan {
                authority: "authority".to_owned(),
                source: String::new(),
                as_of: String::new(),
                data: areas(PLAN_DATA),
                avoid: areas(PLAN_AVOID),
            }),
        }
    }
}
