//! `pamuklid check`: whether a table is accepted, and where it is wrong.

use std::ffi::OsString;

use pamuklid::{check, tidy, Table as Tables};
use serde::Serialize;

use crate::answer::{Answer, Failure, Status, Style};
use crate::commands::judge::fault;
use crate::image::{count_of, watts};
use crate::json::{RefusalJson, TableJson};
use crate::table::Table;
use crate::words;

/// Checks a table: accepted or refused, where it is wrong, and whether it is tidy
///
/// Of a refused table it says the number of the refusal, what it means, and where the table is wrong, by record, field
/// and byte. docs/IMAGE.md describes the image.
///
/// Exit status: 0 accepted, 1 refused, 2 not read.
#[derive(clap::Args, Debug)]
pub struct Args {
    /// The table's image, a file; - is standard input
    #[arg(value_name = "FILE")]
    file: OsString,
}

#[derive(Serialize)]
struct Count {
    table: &'static str,
    records: usize,
}

#[derive(Serialize)]
struct Json {
    command: &'static str,
    status: u8,
    table: TableJson,
    accepted: bool,
    tidy: Option<bool>,
    /// of an accepted table
    records: Option<Vec<Count>>,
    refusal: Option<RefusalJson>,
}

pub fn answer(args: &Args, style: Style) -> Result<Answer, Failure> {
    let table = Table::file(&args.file)?;
    let image = &table.image;
    let mut text = words::titled(style, "Table", &table.name());
    text.push('\n');
    if let Err(refusal) = check(image) {
        let fault = fault(refusal, image);
        text.push_str(&words::refusal("Refused", refusal, &table, fault.as_ref(), style));
        let json = Json {
            command: "check",
            status: Status::No as u8,
            table: TableJson::of(&table),
            accepted: false,
            tidy: None,
            records: None,
            refusal: Some(RefusalJson::at(refusal, image, fault.as_ref())),
        };
        return Answer::new(Status::No, text, &json);
    }
    let tidy = tidy(image).ok();
    text.push_str(&match tidy {
        Some(true) => format!("{}, and tidy.\n", style.good("Accepted")),
        _ => format!(
            "{}, and not tidy: a data segment lies in no band of its number, or two bands, two data segments or two \
             privileges of one class overlap. Verdicts go by the first record that holds, and the dial list may go by \
             another. Overlaps are listed by pamuklid report.\n",
            style.warning("Accepted")
        ),
    });
    text.push_str(&match watts(image) {
        Some([channel, segment]) => format!(
            "It has {}, edition 2: warnings above {channel} on a 60 m channel, above {segment} in the 60 m segment.\n",
            table.length()
        ),
        None => format!("It has {}.\n", table.length()),
    });
    for &of in Tables::ALL {
        text.push_str(&format!("  {:<5}{of}\n", count_of(image, of)));
    }
    let count = |&of: &Tables| Count { table: of.name(), records: count_of(image, of) };
    let json = Json {
        command: "check",
        status: Status::Yes as u8,
        table: TableJson::of(&table),
        accepted: true,
        tidy,
        records: Some(Tables::ALL.iter().map(count).collect()),
        refusal: None,
    };
    Answer::new(Status::Yes, text, &json)
}
