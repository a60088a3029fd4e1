//! `pamuklid report`: where the records of a table overlap, and where a class has no privilege for data.

use std::ffi::OsString;

use pamuklid::{report, tidy, License, Refusal, ReportRow, Table as Tables, MOST_REPORT, REPORT_ROW};
use serde::Serialize;

use crate::answer::{Answer, Failure, Status, Style};
use crate::args::class;
use crate::commands::judge::fault;
use crate::image::band_of;
use crate::json::{RefusalJson, SlipJson, TableJson};
use crate::table::{grouped, Table};
use crate::words;

/// Reports the slips of a table: records that overlap, and stretches without a privilege
///
/// It lists every pair of bands, of data segments and of privileges of one class, whichever it is, that share a
/// stretch, and every stretch of a data segment that no privilege of the given class covers. Ranges that touch share
/// nothing. Records are counted from 0, as `pamuklid check` counts them.
///
/// Exit status: 0 no overlap, 1 overlaps, 2 not reported.
#[derive(clap::Args, Debug)]
pub struct Args {
    /// The table's image, a file; - is standard input
    #[arg(value_name = "FILE")]
    file: OsString,

    /// The license whose gaps are listed
    #[arg(long, visible_alias = "license", value_name = "CLASS", value_parser = class())]
    class: License,
}

#[derive(Serialize)]
struct Json {
    command: &'static str,
    status: u8,
    table: TableJson,
    class: &'static str,
    tidy: Option<bool>,
    overlaps: Option<usize>,
    gaps: Option<usize>,
    rows: Option<Vec<SlipJson>>,
    refusal: Option<RefusalJson>,
}

/// A row, and the numbers of the bands that its records are, or name.
struct Slip {
    row: ReportRow,
    bands: Option<[u8; 2]>,
}

impl Slip {
    fn of(row: ReportRow, image: &[u8]) -> Self {
        let (table, first, second) = match row {
            ReportRow::Overlap { table, first, second, .. } => (table, first, second),
            ReportRow::Gap { segment, .. } => (Tables::Segments, segment, segment),
        };
        let bands = band_of(image, table, first).zip(band_of(image, table, second));
        Self { row, bands: bands.map(|(first, second)| [first, second]) }
    }

    fn line(&self, style: Style) -> String {
        let what = match self.row {
            ReportRow::Overlap { .. } => style.bad("overlap"),
            ReportRow::Gap { .. } => style.warning("gap    "),
        };
        let bands = match (self.row, self.bands) {
            (ReportRow::Overlap { table: Tables::Bands, .. }, Some([a, b])) if a == b => format!(" (both number {a})"),
            (ReportRow::Overlap { table: Tables::Bands, .. }, Some([a, b])) => format!(" (numbers {a} and {b})"),
            (ReportRow::Overlap { .. }, Some([a, b])) if a == b => format!(" (both band {a})"),
            (ReportRow::Overlap { .. }, Some([a, b])) => format!(" (bands {a} and {b})"),
            (ReportRow::Gap { .. }, Some([band, _])) => format!(" (band {band})"),
            (_, None) => String::new(),
        };
        format!("  {what}  {}{bands}\n", self.row)
    }
}

fn slips(image: &[u8], class: License) -> Result<(Vec<Slip>, bool), Refusal> {
    let mut bytes = vec![0; MOST_REPORT * REPORT_ROW];
    let found = report(image, class, &mut bytes)?;
    let slips = found.rows().map(|row| Slip::of(row, image)).collect();
    Ok((slips, tidy(image)?))
}

fn counted(n: usize, what: &str) -> String {
    match n {
        0 => format!("no {what}"),
        1 => format!("1 {what}"),
        n => format!("{} {what}s", grouped(n)),
    }
}

/// How many there are, and whether the table is tidy. Without an overlap only the band test can fail.
fn last_line(overlaps: usize, gaps: usize, tidy: bool, style: Style) -> String {
    let counts = words::sentence(&format!("{} and {}", counted(overlaps, "overlap"), counted(gaps, "gap")));
    let tidy = match (tidy, overlaps) {
        (true, _) => style.good("The table is tidy."),
        (false, 0) => style.bad("The table is not tidy: a data segment lies in no band of its number."),
        (false, _) => style.bad("The table is not tidy."),
    };
    format!("{counts} {tidy}\n")
}

pub fn answer(args: &Args, style: Style) -> Result<Answer, Failure> {
    let table = Table::file(&args.file)?;
    let image = &table.image;
    let mut text = words::titled(style, "Table", &table.name());
    text.push_str(&words::titled(style, "Class", &args.class.to_string()));
    text.push('\n');
    let mut json = Json {
        command: "report",
        status: Status::NotAnswered as u8,
        table: TableJson::of(&table),
        class: args.class.name(),
        tidy: None,
        overlaps: None,
        gaps: None,
        rows: None,
        refusal: None,
    };
    let (slips, tidy) = match slips(image, args.class) {
        Ok(found) => found,
        Err(refusal) => {
            let fault = fault(refusal, image);
            text.push_str(&words::refusal("Not reported", refusal, &table, fault.as_ref(), style));
            json.refusal = Some(RefusalJson::at(refusal, image, fault.as_ref()));
            return Answer::new(Status::NotAnswered, text, &json);
        }
    };
    let gaps = slips.iter().filter(|slip| matches!(slip.row, ReportRow::Gap { .. })).count();
    let overlaps = slips.len() - gaps;
    for slip in &slips {
        text.push_str(&slip.line(style));
    }
    text.push_str(&last_line(overlaps, gaps, tidy, style));
    let status = Status::of(overlaps == 0);
    json.status = status as u8;
    (json.tidy, json.overlaps, json.gaps) = (Some(tidy), Some(overlaps), Some(gaps));
    json.rows = Some(slips.iter().map(|slip| SlipJson::of(&slip.row, slip.bands)).collect());
    Answer::new(status, text, &json)
}
