//! An image from its fields and its records.

use crate::codes::{refused, Refusal};
use crate::{raw, version};

/// The edition of an image, and its general block. All is numbers, as docs/IMAGE.md has them. A field that
/// belongs to an optional part is 0 where `flags` is without that part.
///
/// The default is all zero, an edition that is refused: set it.
#[derive(Clone, Copy, Debug, Default, PartialEq)]
pub struct Fields {
    /// 1 or 2.
    pub edition: u16,
    /// The general width limit; above 0.
    pub data_limit: f64,
    /// With [`PART_ELSEWHERE`](raw::PART_ELSEWHERE): the width limit outside the automatic segments.
    pub elsewhere_limit: f64,
    /// With [`PART_CHANNELS`](raw::PART_CHANNELS): a channel has half of it to each side of its centre.
    pub channel_width: f64,
    /// With [`PART_CHANNELS`](raw::PART_CHANNELS): the dial for data is the centre less this.
    pub carrier_offset: f64,
    /// With [`PART_CHANNELS`](raw::PART_CHANNELS): how far the dial, or the middle of a CW signal, may be off.
    pub carrier_tolerance: f64,
    /// The watts of a 60 m channel; not looked at in edition 1, which goes by 100.
    pub channel_watts: f64,
    /// The watts of the 60 m segment; not looked at in edition 1, which goes by 9.15.
    pub segment_watts: f64,
    /// The ITU region, any number; compared with the station's.
    pub region: u8,
    /// [`READING_POWER`](raw::READING_POWER), [`READING_SPECTRAL`](raw::READING_SPECTRAL) or
    /// [`READING_WIDER`](raw::READING_WIDER).
    pub reading: u8,
    /// The optional parts, added up: [`PART_ELSEWHERE`](raw::PART_ELSEWHERE),
    /// [`PART_RESPONSE`](raw::PART_RESPONSE), [`PART_CHANNELS`](raw::PART_CHANNELS),
    /// [`PART_EMISSIONS`](raw::PART_EMISSIONS), [`PART_PLAN`](raw::PART_PLAN).
    pub flags: u8,
    /// With [`PART_CHANNELS`](raw::PART_CHANNELS): the number of the 60 m band.
    pub channel_band: u8,
    /// With [`PART_CHANNELS`](raw::PART_CHANNELS): the channels' [`Sideband`](crate::Sideband), by its number.
    pub sideband: u8,
    /// With [`PART_EMISSIONS`](raw::PART_EMISSIONS): the emissions of 60 m, added up:
    /// [`EMISSION_DATA`](raw::EMISSION_DATA), [`EMISSION_CW`](raw::EMISSION_CW),
    /// [`EMISSION_TEST`](raw::EMISSION_TEST), [`EMISSION_NOTHING`](raw::EMISSION_NOTHING).
    pub emissions: u8,
    /// The rule of the general width limit: [`Rule`](crate::Rule), by its number, as the next five.
    pub data_rule: u16,
    /// With [`PART_ELSEWHERE`](raw::PART_ELSEWHERE): its rule.
    pub elsewhere_rule: u16,
    /// The rule of the automatic segments.
    pub automatic_rule: u16,
    /// With [`PART_CHANNELS`](raw::PART_CHANNELS): their rule.
    pub channels_rule: u16,
    /// With [`PART_EMISSIONS`](raw::PART_EMISSIONS): their rule.
    pub emissions_rule: u16,
    /// The rule of the privileges.
    pub privileges_rule: u16,
}

/// A record of a table. Which fields a table uses, and with which values, stands in docs/IMAGE.md under
/// "Records"; the others are 0, as in the default.
#[derive(Clone, Copy, Debug, Default, PartialEq)]
pub struct Record {
    /// The low end, or the centre of a channel.
    pub low: f64,
    /// The high end.
    pub high: f64,
    /// The own limit of a data segment, or the watts of a power limit.
    pub figure: f64,
    /// The number of the band.
    pub band: u8,
    /// The [`License`](crate::License) of a privilege, by its number, or the classes of a power limit.
    pub class: u8,
    /// The emissions of a privilege, added up.
    pub emissions: u8,
    /// The record's own flags: which of its optional fields are there.
    pub flags: u8,
    /// The [`Rule`](crate::Rule), by its number, or the label of a plan area.
    pub rule: u16,
    /// The rule of a data segment's own limit.
    pub second_rule: u16,
}

impl Record {
    /// As it stands in an image, little-endian: low, high and figure (64 bits each), band, class, emissions and
    /// flags (a byte each), rule and second rule (16 bits each).
    pub fn to_bytes(&self) -> [u8; raw::IMAGE_RECORD] {
        let mut out = [0; raw::IMAGE_RECORD];
        for (at, x) in [(0, self.low), (8, self.high), (16, self.figure)] {
            out[at..at + 8].copy_from_slice(&x.to_bits().to_le_bytes());
        }
        out[24..28].copy_from_slice(&[self.band, self.class, self.emissions, self.flags]);
        out[28..30].copy_from_slice(&self.rule.to_le_bytes());
        out[30..].copy_from_slice(&self.second_rule.to_le_bytes());
        out
    }

    /// The record that 32 bytes of an image hold, whatever they are.
    pub fn from_bytes(bytes: &[u8; raw::IMAGE_RECORD]) -> Self {
        let figure = |at: usize| {
            let mut word = [0; 8];
            word.copy_from_slice(&bytes[at..at + 8]);
            f64::from_bits(u64::from_le_bytes(word))
        };
        let [band, class, emissions, flags] = [bytes[24], bytes[25], bytes[26], bytes[27]];
        let rule = u16::from_le_bytes([bytes[28], bytes[29]]);
        let second_rule = u16::from_le_bytes([bytes[30], bytes[31]]);
        let (low, high, figure) = (figure(0), figure(8), figure(16));
        Self { low, high, figure, band, class, emissions, flags, rule, second_rule }
    }
}

/// The records of an image: of each [`Table`](crate::Table) at most 256, of all together at most 2,045. The
/// default has none.
#[derive(Clone, Copy, Debug, Default, PartialEq)]
pub struct Tables<'a> {
    /// The bands; one at least.
    pub bands: &'a [Record],
    /// The data segments; one at least.
    pub segments: &'a [Record],
    /// The channels of 60 m, with [`PART_CHANNELS`](raw::PART_CHANNELS).
    pub channels: &'a [Record],
    /// The privileges of the license classes.
    pub privileges: &'a [Record],
    /// The automatic segments.
    pub automatic: &'a [Record],
    /// The bands without automatic control.
    pub excluded: &'a [Record],
    /// The power limits.
    pub power: &'a [Record],
    /// The band plan's areas for data, with [`PART_PLAN`](raw::PART_PLAN).
    pub plan_data: &'a [Record],
    /// The band plan's areas to avoid, with [`PART_PLAN`](raw::PART_PLAN).
    pub plan_avoid: &'a [Record],
}

impl<'a> Tables<'a> {
    /// In the image's order.
    fn all(&self) -> [&'a [Record]; raw::TABLES] {
        [
            self.bands,
            self.segments,
            self.channels,
            self.privileges,
            self.automatic,
            self.excluded,
            self.power,
            self.plan_data,
            self.plan_avoid,
        ]
    }
}

/// Writes the image of these fields and records into the bytes lent, and gives its bytes back. It is accepted
/// by [`check`](crate::check), and holds the fields and records as given.
///
/// An image has 64 bytes (edition 2: 80), 32 for each record, and 28; [`raw::IMAGE_MOST`] have room for every
/// one. Bytes past it stay as they were; on a refusal every byte does. Refusals 1 ([`Refusal::ImageLength`]:
/// more than 2,045 records), 3 ([`Refusal::Edition`]: neither 1 nor 2), 4 ([`Refusal::Counts`]: a table of
/// more than 256 records), 5 to 14 as [`check`](crate::check) has them for the image, then 23
/// ([`Refusal::Rows`]: the image is longer than the bytes lent).
///
/// The call takes 64 KB of the stack, for the numbers of 2,045 records.
///
/// ```
/// use pamuklid::{check, raw, write, Fields, Record, Refusal, Tables};
///
/// let fields = Fields {
///     edition: 1,
///     data_limit: 2_800.0,
///     region: 2,
///     reading: raw::READING_WIDER,
///     ..Fields::default()
/// };
/// let band = Record { low: 14_000_000.0, high: 14_350_000.0, band: 20, ..Record::default() };
/// let segment = Record { high: 14_150_000.0, rule: 7, ..band };
/// let tables = Tables { bands: &[band], segments: &[segment], ..Tables::default() };
///
/// let mut lent = [0; 64 + 2 * 32 + 28];
/// let image = write(&fields, &tables, &mut lent)?;
/// assert_eq!((image.len(), check(image)), (156, Ok(())));
/// assert_eq!(write(&fields, &tables, &mut lent[..155]), Err(Refusal::Rows));
/// let none = Tables { segments: &[], ..tables };
/// assert_eq!(write(&fields, &none, &mut lent), Err(Refusal::EmptyTable));
/// # Ok::<(), Refusal>(())
/// ```
pub fn write<'a>(
    fields: &Fields,
    tables: &Tables<'_>,
    out: &'a mut [u8],
) -> Result<&'a [u8], Refusal> {
    const MOST: usize = raw::IMAGE_MOST_RECORDS;
    version::checked();
    let mut figures = [0.0; raw::RECORD_FIGURES * MOST];
    let mut codes = [0; raw::RECORD_CODES * MOST];
    let mut rules = [0; raw::RECORD_RULES * MOST];
    let places = figures
        .chunks_exact_mut(raw::RECORD_FIGURES)
        .zip(codes.chunks_exact_mut(raw::RECORD_CODES))
        .zip(rules.chunks_exact_mut(raw::RECORD_RULES));
    let mut n = 0;
    // records past the most are not put anywhere: the counts alone meet 1, before a run is looked at
    for (((figures, codes), rules), r) in places.zip(tables.all().into_iter().flatten()) {
        figures.copy_from_slice(&[r.low, r.high, r.figure]);
        codes.copy_from_slice(&[r.band, r.class, r.emissions, r.flags]);
        rules.copy_from_slice(&[r.rule, r.second_rule]);
        n += 1;
    }
    let (figures, codes) = (&figures[..raw::RECORD_FIGURES * n], &codes[..raw::RECORD_CODES * n]);
    let rules = &rules[..raw::RECORD_RULES * n];
    let written = raw::write(flat(fields, tables), figures, codes, rules, out);
    refused(written.refusal)?;
    Ok(&out[..written.length as usize])
}

/// With the counts. One that is not a u16 becomes the largest, which is refused as well.
fn flat(f: &Fields, tables: &Tables<'_>) -> raw::Fields {
    raw::Fields {
        data_limit: f.data_limit,
        elsewhere_limit: f.elsewhere_limit,
        channel_width: f.channel_width,
        carrier_offset: f.carrier_offset,
        carrier_tolerance: f.carrier_tolerance,
        channel_watts: f.channel_watts,
        segment_watts: f.segment_watts,
        edition: f.edition,
        data_rule: f.data_rule,
        elsewhere_rule: f.elsewhere_rule,
        automatic_rule: f.automatic_rule,
        channels_rule: f.channels_rule,
        emissions_rule: f.emissions_rule,
        privileges_rule: f.privileges_rule,
        counts: tables.all().map(|table| u16::try_from(table.len()).unwrap_or(u16::MAX)),
        region: f.region,
        reading: f.reading,
        flags: f.flags,
        channel_band: f.channel_band,
        sideband: f.sideband,
        emissions: f.emissions,
    }
}
