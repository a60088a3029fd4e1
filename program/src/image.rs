//! The image's bytes, field by field (docs/IMAGE.md), to show where a refused table is wrong. The refusal and its place
//! come from the library; which field it is, is looked for here, at that place.

use pamuklid::raw::{IMAGE_GENERAL, IMAGE_LEAST, IMAGE_RECORD, IMAGE_TRAILER, IMAGE_WATTS, MOST_RECORDS};
use pamuklid::{Fault, Hertz, Place, Refusal, Table};

/// What a field may hold.
#[derive(Clone, Copy, PartialEq)]
enum Holds {
    /// Always zero.
    Zero,
    /// A figure in hertz.
    Hz,
    /// A figure in watts.
    Watts,
    /// Any number.
    Any,
    /// A number up to this.
    UpTo(u8),
}

/// A field: its place in the block or record, its bytes, its name, what it may hold, and the bit of the flags under
/// which it is used at all.
struct Form {
    at: usize,
    size: usize,
    name: &'static str,
    holds: Holds,
    bit: Option<u8>,
}

const fn form(at: usize, size: usize, name: &'static str, holds: Holds, bit: Option<u8>) -> Form {
    Form { at, size, name, holds, bit }
}

/// The place of the flags in the general block, and in a record.
const GENERAL_FLAGS: usize = 42;
const RECORD_FLAGS: usize = 27;
/// The place of the band's number in a record.
const RECORD_BAND: usize = 24;

/// The fields of the general block, in edition 2; the last two are its own.
const GENERAL: [Form; 20] = [
    form(42, 1, "flags", Holds::UpTo(31), None),
    form(0, 8, "data limit", Holds::Hz, None),
    form(8, 8, "elsewhere limit", Holds::Hz, Some(0)),
    form(16, 8, "channel width", Holds::Hz, Some(2)),
    form(24, 8, "carrier offset", Holds::Hz, Some(2)),
    form(32, 8, "carrier tolerance", Holds::Hz, Some(2)),
    form(40, 1, "region", Holds::Any, None),
    form(41, 1, "reading", Holds::UpTo(2), None),
    form(43, 1, "channel band", Holds::Any, Some(2)),
    form(44, 1, "sideband", Holds::UpTo(1), Some(2)),
    form(45, 1, "emission bits", Holds::UpTo(15), Some(3)),
    form(46, 2, "data rule", Holds::Any, None),
    form(48, 2, "elsewhere rule", Holds::Any, Some(0)),
    form(50, 2, "automatic segments' rule", Holds::Any, None),
    form(52, 2, "channels' rule", Holds::Any, Some(2)),
    form(54, 2, "emissions' rule", Holds::Any, Some(3)),
    form(56, 2, "privileges' rule", Holds::Any, None),
    form(58, 6, "unused bytes", Holds::Zero, None),
    form(64, 8, "channel watts", Holds::Watts, None),
    form(72, 8, "segment watts", Holds::Watts, None),
];

/// The fields of an image's general block.
fn general_forms(image: &[u8]) -> &'static [Form] {
    match edition_of(image) {
        2 => &GENERAL,
        _ => &GENERAL[..18],
    }
}

/// The edition that an image says it has; 0 of one that is too short to say.
pub fn edition_of(image: &[u8]) -> u16 {
    image.len().checked_sub(IMAGE_TRAILER).map_or(0, |trailer| u16_at(image, trailer + 22))
}

/// The watts of an accepted image of edition 2, for a 60 m channel and for the 60 m segment, in words.
pub fn watts(image: &[u8]) -> Option<[String; 2]> {
    let of = |form: &Form| value_words(form, &image[form.at..form.at + form.size]);
    (edition_of(image) == 2).then(|| [of(&GENERAL[18]), of(&GENERAL[19])])
}

/// The fields of a table's records.
fn record_forms(table: Table) -> [Form; 9] {
    use Holds::{Any, Hz, UpTo, Watts, Zero};
    let not = (Zero, None);
    let range = (Hz, None);
    let (low, high) = match table {
        Table::Excluded => (not, not),
        Table::Channels => (range, not),
        _ => (range, range),
    };
    let figure = match table {
        Table::Segments => (Hz, Some(0)),
        Table::Power => (Watts, None),
        _ => not,
    };
    let band = match table {
        Table::Bands | Table::Segments | Table::Excluded => (Any, None),
        _ => not,
    };
    let class = match table {
        Table::Privileges => (UpTo(4), None),
        Table::Power => (UpTo(31), Some(0)),
        _ => not,
    };
    let emissions = match table {
        Table::Privileges => (UpTo(15), Some(0)),
        _ => not,
    };
    let flags = match table {
        Table::Segments | Table::Privileges => (UpTo(3), None),
        Table::Power => (UpTo(1), None),
        _ => not,
    };
    let rule = match table {
        Table::Segments | Table::Excluded | Table::Power | Table::PlanData | Table::PlanAvoid => (Any, None),
        Table::Privileges => (Any, Some(1)),
        _ => not,
    };
    let second = match table {
        Table::Segments => (Any, Some(1)),
        _ => not,
    };
    let low_name = if table == Table::Channels { "centre" } else { "low" };
    [
        form(27, 1, "flags", flags.0, flags.1),
        form(0, 8, low_name, low.0, low.1),
        form(8, 8, "high", high.0, high.1),
        form(16, 8, if table == Table::Segments { "own limit" } else { "figure" }, figure.0, figure.1),
        form(RECORD_BAND, 1, "band", band.0, band.1),
        form(25, 1, if table == Table::Power { "class bits" } else { "class" }, class.0, class.1),
        form(26, 1, "emission bits", emissions.0, emissions.1),
        form(
            28,
            2,
            if table == Table::PlanData || table == Table::PlanAvoid { "label" } else { "rule" },
            rule.0,
            rule.1,
        ),
        form(30, 2, "second rule", second.0, second.1),
    ]
}

/// A field as it stands in an image: where, its bytes, its value and what is wrong with it.
pub struct Field {
    pub name: &'static str,
    pub at: usize,
    pub bytes: Vec<u8>,
    pub value: String,
    pub wrong: String,
}

impl Field {
    pub fn hex(&self) -> String {
        self.bytes.iter().map(|byte| format!("{byte:02x}")).collect::<Vec<_>>().join(" ")
    }
}

/// The flags of the general block, by their bits.
const PARTS: [&str; 5] = ["elsewhere", "response required", "channels", "60 m emissions", "plan"];

fn u16_at(image: &[u8], at: usize) -> u16 {
    image.get(at..at + 2).map_or(0, |b| u16::from_le_bytes([b[0], b[1]]))
}

fn f64_at(image: &[u8], at: usize) -> f64 {
    let word = image.get(at..at + 8).and_then(|b| b.try_into().ok()).unwrap_or_default();
    f64::from_bits(u64::from_le_bytes(word))
}

/// How many records a table says that it has; the image has a trailer.
pub fn count_of(image: &[u8], table: Table) -> usize {
    match image.len().checked_sub(IMAGE_TRAILER) {
        Some(trailer) => u16_at(image, trailer + 2 * usize::from(table.number())).into(),
        None => 0,
    }
}

/// The bands of an accepted image, from low to high.
pub fn bands(image: &[u8]) -> impl Iterator<Item = (f64, f64)> + '_ {
    (0..count_of(image, Table::Bands)).filter_map(|i| {
        let place = Place::Record { table: Table::Bands, index: i.try_into().ok()? };
        let at = place.bytes(image)?.start;
        Some((f64_at(image, at), f64_at(image, at + 8)))
    })
}

/// Every figure in hertz of an accepted image: its place, its name, and the figure.
pub fn hertz(image: &[u8]) -> impl Iterator<Item = (Place, &'static str, f64)> + '_ {
    let of = move |place: Place, forms: &[Form]| -> Vec<(Place, &'static str, f64)> {
        let Some(start) = place.bytes(image).map(|bytes| bytes.start) else { return Vec::new() };
        let figures = forms.iter().filter(|form| form.holds == Holds::Hz);
        figures.map(|form| (place, form.name, f64_at(image, start + form.at))).collect()
    };
    let records = Table::ALL.iter().flat_map(move |&table| {
        let indices = (0..count_of(image, table)).filter_map(|i| u16::try_from(i).ok());
        indices.flat_map(move |index| of(Place::Record { table, index }, &record_forms(table)))
    });
    of(Place::General, general_forms(image)).into_iter().chain(records)
}

/// The number of the band that a record is, or names: of bands and data segments.
pub fn band_of(image: &[u8], table: Table, index: u16) -> Option<u8> {
    let named = matches!(table, Table::Bands | Table::Segments);
    let at = Place::Record { table, index }.bytes(image).filter(|_| named)?.start;
    image.get(at + RECORD_BAND).copied()
}

/// Whether an accepted image has a band plan.
pub fn has_plan(image: &[u8]) -> bool {
    image.get(GENERAL_FLAGS).is_some_and(|flags| flags & 16 != 0)
}

/// The number of the channel band of an accepted image.
pub fn channel_band(image: &[u8]) -> Option<u8> {
    let flags = *image.get(GENERAL_FLAGS)?;
    (flags & 4 != 0).then(|| image[GENERAL_FLAGS + 1])
}

/// A figure in words.
fn figure_words(x: f64, unit: Holds) -> String {
    if x.is_nan() {
        return "not a number (NaN)".to_owned();
    }
    if x.is_infinite() {
        return if x > 0.0 { "infinite" } else { "infinite, below 0" }.to_owned();
    }
    if x == 0.0 && x.is_sign_negative() {
        return "negative zero".to_owned();
    }
    match unit {
        Holds::Watts if x != 0.0 && x.abs() < 1e-6 || x.abs() >= 1e16 => format!("{x:e} W"),
        Holds::Watts => format!("{x} W"),
        _ => Hertz(x).to_string(),
    }
}

/// The value of a field in words.
fn value_words(form: &Form, bytes: &[u8]) -> String {
    match form.size {
        1 => bytes[0].to_string(),
        2 => u16::from_le_bytes([bytes[0], bytes[1]]).to_string(),
        8 => figure_words(f64_at(bytes, 0), form.holds),
        _ => "not zero".to_owned(),
    }
}

fn field(image: &[u8], start: usize, form: &Form, wrong: String) -> Field {
    let at = start + form.at;
    let bytes = image.get(at..at + form.size).unwrap_or_default().to_vec();
    let value = value_words(form, &bytes);
    Field { name: form.name, at, bytes, value, wrong }
}

/// A field of numbers that stands outside the forms, in the trailer.
fn trailer_field(image: &[u8], at: usize, size: usize, name: &'static str, value: String, wrong: String) -> Field {
    Field { name, at, bytes: image[at..at + size].to_vec(), value, wrong }
}

/// What the values of a coded byte mean.
const fn meaning(name: &str, general: bool) -> &'static str {
    match name.as_bytes() {
        b"reading" => " (by power, by spectrum, the wider of both)",
        b"sideband" => " (upper, lower)",
        b"class" => " (Novice, Technician, General, Advanced, Extra)",
        b"class bits" => " (1 Novice, 2 Technician, 4 General, 8 Advanced, 16 Extra)",
        b"emission bits" => " (1 data, 2 CW, 4 test, 8 nothing)",
        b"flags" if general => " (1 elsewhere, 2 response required, 4 channels, 8 60 m emissions, 16 plan)",
        _ => "",
    }
}

/// What of a block or record meets 5.
fn miscoded(image: &[u8], start: usize, forms: &[Form], flags_at: usize, general: bool) -> Vec<Field> {
    let flags = image[start + flags_at];
    let mut out = Vec::new();
    for form in forms {
        let bytes = &image[start + form.at..start + form.at + form.size];
        let zero = bytes.iter().all(|&b| b == 0);
        let used = form.holds != Holds::Zero && form.bit.map_or(true, |bit| flags >> bit & 1 == 1);
        let wrong = match (form.holds, form.bit) {
            _ if !used && zero => continue,
            (Holds::Zero, _) => "is not used here, so it must be zero".to_owned(),
            (_, Some(bit)) if !used => match general {
                true => {
                    let part = PARTS[usize::from(bit)];
                    format!("is not used, since bit {bit} of the flags ({part}, byte 42) is clear: it must be zero")
                }
                false => format!("is not used, since bit {bit} of the record's flags is clear: it must be zero"),
            },
            (Holds::UpTo(most), _) if bytes[0] > most => format!("must be 0 to {most}{}", meaning(form.name, general)),
            (Holds::UpTo(_), _) if general && form.at == GENERAL_FLAGS && flags & 3 == 2 => {
                "has bit 1 (response required), which needs bit 0 (elsewhere)".to_owned()
            }
            _ => continue,
        };
        out.push(field(image, start, form, wrong));
        if form.at == flags_at {
            break; // with flags that mean nothing no other field can be told used or unused
        }
    }
    out
}

/// What of a block or record meets 6.
fn unsound(image: &[u8], start: usize, forms: &[Form]) -> Vec<Field> {
    let figures = forms.iter().filter(|form| form.size == 8);
    let mut out: Vec<Field> = figures
        .filter_map(|form| {
            let x = f64_at(image, start + form.at);
            let wrong = match x {
                _ if !x.is_finite() => "is not a finite number",
                _ if x.abs() > (1u64 << 40) as f64 => "is above 2^40 (1099511627776) in size",
                _ if x == 0.0 && x.is_sign_negative() => "must be written as eight bytes of zero",
                _ => return None,
            };
            Some(field(image, start, form, wrong.to_owned()))
        })
        .collect();
    out.truncate(3);
    out
}

/// The fields of a place that have these offsets.
fn fields_at(image: &[u8], start: usize, forms: &[Form], wrongs: &[(usize, &str)]) -> Vec<Field> {
    let of = |&(at, wrong): &(usize, &str)| {
        let form = forms.iter().find(|form| form.at == at)?;
        Some(field(image, start, form, wrong.to_owned()))
    };
    wrongs.iter().filter_map(of).collect()
}

/// What of the image's form meets 4.
fn disagreeing(image: &[u8], trailer: usize) -> Vec<Field> {
    let mut out = Vec::new();
    let mut sum = 0;
    for &table in Table::ALL {
        let (at, count) = (trailer + 2 * usize::from(table.number()), count_of(image, table));
        sum += count;
        if count > MOST_RECORDS {
            let name = count_name(table);
            out.push(trailer_field(image, at, 2, name, count.to_string(), "is over 256".to_owned()));
        }
    }
    let general = IMAGE_GENERAL + if edition_of(image) == 2 { IMAGE_WATTS } else { 0 };
    let length = general + IMAGE_RECORD * sum + IMAGE_TRAILER;
    if out.is_empty() && length != image.len() {
        let wrong = format!("make an image of {length} bytes, and this one has {}", image.len());
        let value = format!("{sum} records in all");
        out.push(trailer_field(image, trailer, 18, "counts of the nine tables", value, wrong));
    }
    let at = trailer + 18;
    let bytes = image.get(at..at + 4).and_then(|b| b.try_into().ok()).unwrap_or_default();
    let distance = u32::from_le_bytes(bytes) as usize;
    if distance != trailer {
        let wrong = format!("must be {trailer}, the length less 28");
        out.push(trailer_field(image, at, 4, "distance to the first byte", distance.to_string(), wrong));
    }
    out
}

const fn count_name(table: Table) -> &'static str {
    match table {
        Table::Bands => "count of bands",
        Table::Segments => "count of data segments",
        Table::Channels => "count of 60 m channels",
        Table::Privileges => "count of privileges",
        Table::Automatic => "count of automatic segments",
        Table::Excluded => "count of bands without automatic control",
        Table::Power => "count of power limits",
        Table::PlanData => "count of the band plan's areas for data",
        Table::PlanAvoid => "count of the band plan's areas to avoid",
    }
}

/// The fields that a fault is about, as far as they can be told.
pub fn fields(image: &[u8], fault: &Fault) -> Vec<Field> {
    let Some(trailer) = image.len().checked_sub(IMAGE_TRAILER) else { return Vec::new() };
    if image.len() < IMAGE_LEAST || fault.refusal == Refusal::ImageLength {
        return Vec::new();
    }
    let end = image.len();
    match (fault.refusal, fault.place) {
        (Refusal::Letters, _) => {
            let value = format!("\"{}\"", image[end - 4..].escape_ascii());
            vec![trailer_field(image, end - 4, 4, "letters", value, "must be EDGE, the last four bytes".to_owned())]
        }
        (Refusal::Edition, _) => {
            let value = u16_at(image, end - 6).to_string();
            vec![trailer_field(image, end - 6, 2, "edition", value, "must be 1 or 2".to_owned())]
        }
        (Refusal::Counts, _) => disagreeing(image, trailer),
        (Refusal::EmptyTable, _) => [Table::Bands, Table::Segments]
            .into_iter()
            .filter(|&table| count_of(image, table) == 0)
            .map(|table| {
                let at = trailer + 2 * usize::from(table.number());
                trailer_field(image, at, 2, count_name(table), "0".to_owned(), "must be 1 at least".to_owned())
            })
            .collect(),
        (Refusal::GeneralLimit, _) => fields_at(image, 0, general_forms(image), &[(0, "must be above 0")]),
        (Refusal::CodedByte, Some(Place::General)) => miscoded(image, 0, general_forms(image), GENERAL_FLAGS, true),
        (Refusal::ImageFigure, Some(Place::General)) => unsound(image, 0, general_forms(image)),
        (refusal, Some(place @ Place::Record { table, .. })) => {
            let Some(start) = place.bytes(image).map(|bytes| bytes.start) else { return Vec::new() };
            let forms = record_forms(table);
            match refusal {
                Refusal::CodedByte => match absent_part(image, table) {
                    Some(wrong) => {
                        let at = trailer + 2 * usize::from(table.number());
                        let value = count_of(image, table).to_string();
                        vec![trailer_field(image, at, 2, count_name(table), value, wrong)]
                    }
                    None => miscoded(image, start, &forms, RECORD_FLAGS, false),
                },
                Refusal::ImageFigure => unsound(image, start, &forms),
                Refusal::OwnLimit => fields_at(image, start, &forms, &[(16, "must be above 0")]),
                Refusal::SegmentOutside => fields_at(
                    image,
                    start,
                    &forms,
                    &[(0, "no band holds it and high"), (8, "no band holds low and it")],
                ),
                _ => fields_at(image, start, &forms, &[(0, "must be below high"), (8, "must be above low")]),
            }
        }
        _ => Vec::new(),
    }
}

/// Why a table may have no records, where the flags say so.
fn absent_part(image: &[u8], table: Table) -> Option<String> {
    let bit = match table {
        Table::Channels => 2,
        Table::PlanData | Table::PlanAvoid => 4,
        _ => return None,
    };
    let flags = image[GENERAL_FLAGS];
    let part = PARTS[bit];
    (flags >> bit & 1 == 0)
        .then(|| format!("must be 0, since bit {bit} of the general flags ({part}, byte 42, now {flags}) is clear"))
}
