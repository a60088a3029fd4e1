//! `pamuklid amend`: the table that is in force on a day, from a table and a list of amendments.

use std::ffi::OsString;

use pamuklid::raw::{IMAGE_RECORD, TABLES};
use pamuklid::{amend, check, Place, Refusal, Table as Tables, AMENDMENT};
use serde::Serialize;

use crate::answer::{write_error, Answer, Failure, Kind, Status, Style};
use crate::commands::judge::fault;
use crate::day::{Day, DayJson};
use crate::image::{count_of, edition_of};
use crate::json::{RefusalJson, TableJson};
use crate::output::Output;
use crate::table::{grouped, read, Source, Table};
use crate::text::shown;
use crate::words;

/// Writes the table that is in force on a day: a table with the amendments of a list
///
/// An amendment replaces one record from a day on. A record is replaced by the amendment of the latest day not after
/// the one given; of equal days the later in the list counts. It says which records were replaced, and how many
/// amendments are not yet in force or superseded by others; records and amendments are counted from 0. docs/IMAGE.md
/// describes the table, docs/PROGRAM.md the list. OUT is written whole, or it stays as it was.
///
/// Exit status: 0 written, 2 not written.
#[derive(clap::Args, Debug)]
pub struct Args {
    /// The table's image, a file; - is standard input
    #[arg(value_name = "TABLE")]
    table: OsString,

    /// The list of amendments, a file of 40 bytes for each; - is standard input
    #[arg(value_name = "AMENDMENTS")]
    amendments: OsString,

    /// The day: a number, or a date as 2026-11-17, which is counted from 1970-01-01 as day 0
    #[arg(long, value_name = "DAY", value_parser = Day::typed, allow_negative_numbers = true)]
    day: Day,

    #[command(flatten)]
    output: Output,
}

impl Args {
    /// Whether the image goes to standard output.
    pub fn to_output(&self) -> bool {
        self.output.is_standard()
    }
}

/// The most amendments that are read.
const MOST: usize = 1_000_000;

/// The fields of an amendment in the list; `table` may be none.
struct Entry {
    table: u16,
    index: u16,
    day: Day,
}

/// A list of amendments.
struct List {
    name: String,
    bytes: Vec<u8>,
}

impl List {
    fn read(name: &OsString) -> Result<Self, Failure> {
        let bytes = read(name, "list", "the list of amendments", MOST * AMENDMENT + 1)?;
        if bytes.len() > MOST * AMENDMENT {
            let message = format!("the list has more than {} amendments", grouped(MOST));
            return Err(Failure::read(message, "amend the table by a part of the list, and the result by the rest"));
        }
        let name = if name == "-" { "standard input".to_owned() } else { shown(name) };
        Ok(Self { name, bytes })
    }

    fn entries(&self) -> impl Iterator<Item = Entry> + '_ {
        self.bytes.chunks_exact(AMENDMENT).map(|of| Entry {
            table: u16::from_le_bytes([of[0], of[1]]),
            index: u16::from_le_bytes([of[2], of[3]]),
            day: Day(u32::from_le_bytes([of[4], of[5], of[6], of[7]])),
        })
    }

    fn record(&self, amendment: usize) -> &[u8] {
        &self.bytes[AMENDMENT * amendment..][AMENDMENT - IMAGE_RECORD..AMENDMENT]
    }

    fn count(&self) -> usize {
        self.bytes.len() / AMENDMENT
    }
}

/// A record that was replaced, and the amendment that did it, counted from 0.
#[derive(Clone, Copy)]
struct Replaced {
    table: Tables,
    index: u16,
    amendment: usize,
    day: Day,
}

/// What becomes of a list's amendments on a day. For people: the image itself is the library's.
struct Fates {
    replaced: Vec<Replaced>,
    not_yet: usize,
    superseded: usize,
}

impl Fates {
    /// Of a list that names records of the image alone.
    fn of(list: &List, day: Day) -> Self {
        let mut found: [Vec<Option<Replaced>>; TABLES] = Default::default();
        let (mut not_yet, mut in_force) = (0, 0);
        for (amendment, entry) in list.entries().enumerate() {
            let Entry { table: number, index, day: from } = entry;
            let Some(table) = u8::try_from(number).ok().and_then(Tables::from_number) else { continue };
            if from > day {
                not_yet += 1;
                continue;
            }
            in_force += 1;
            let of = &mut found[usize::from(number)];
            let at = usize::from(index);
            of.resize(of.len().max(at + 1), None);
            if of[at].map_or(true, |before| before.day <= from) {
                of[at] = Some(Replaced { table, index, amendment, day: from });
            }
        }
        let replaced: Vec<Replaced> = found.into_iter().flatten().flatten().collect();
        let superseded = in_force - replaced.len();
        Self { replaced, not_yet, superseded }
    }

    /// The image with the records in place, to be shown where it is refused.
    fn image(&self, base: &[u8], list: &List) -> Vec<u8> {
        let mut out = base.to_vec();
        for by in &self.replaced {
            let place = Place::Record { table: by.table, index: by.index };
            if let Some(at) = place.bytes(base) {
                out[at].copy_from_slice(list.record(by.amendment));
            }
        }
        out
    }

    /// The amendment that put a record there.
    fn by(&self, place: Place) -> Option<&Replaced> {
        self.replaced.iter().find(|by| place == Place::Record { table: by.table, index: by.index })
    }

    fn text(&self) -> String {
        let mut out = String::new();
        for Replaced { table, index, amendment, day } in &self.replaced {
            let record = table.record();
            out.push_str(&format!("  {record} {index}, by amendment {amendment}, from day {}\n", day.words()));
        }
        let are = |n: usize, one: &str, more: &str| match n {
            1 => format!("1 {one}"),
            n => format!("{} {more}", grouped(n)),
        };
        out.push_str(&match self.replaced.len() {
            0 => "No record is replaced.".to_owned(),
            n => are(n, "record is replaced.", "records are replaced."),
        });
        let not_yet = are(self.not_yet, "amendment is not yet in force", "amendments are not yet in force");
        let superseded = are(self.superseded, "is superseded by another", "are superseded by others");
        out + &format!(" {not_yet}, {superseded}.\n")
    }
}

/// Where a list is wrong: the amendment, where it is one, and what.
fn stray(list: &List, image: &[u8]) -> (Option<usize>, String) {
    let over = list.bytes.len() % AMENDMENT;
    if over != 0 {
        let bytes = grouped(list.bytes.len());
        return (None, format!("an amendment has 40 bytes, and the list has {bytes}: {over} too many"));
    }
    let wrong = |entry: &Entry| match u8::try_from(entry.table).ok().and_then(Tables::from_number) {
        None => Some(format!("it names table {}, and the tables are 0 to 8", entry.table)),
        Some(table) => match count_of(image, table) {
            n if usize::from(entry.index) < n => None,
            0 => Some(format!("it names record {} of the {table}, which the table does not have", entry.index)),
            n => Some(format!("it names record {} of the {table}, and the last is {}", entry.index, n - 1)),
        },
    };
    let found = list.entries().enumerate().find_map(|(i, entry)| wrong(&entry).map(|wrong| (i, wrong)));
    match found {
        Some((i, wrong)) => (Some(i), wrong),
        None => (None, String::new()),
    }
}

#[derive(Serialize)]
struct ListJson {
    file: String,
    bytes: usize,
    count: usize,
}

#[derive(Serialize)]
struct ReplacedJson {
    table: &'static str,
    record: u16,
    amendment: usize,
    day: DayJson,
}

#[derive(Serialize)]
struct StrayJson {
    /// counted from 0; none where the list is not in forties
    amendment: Option<usize>,
    /// its first byte
    at: Option<usize>,
    wrong: String,
}

#[derive(Serialize)]
struct Json {
    command: &'static str,
    status: u8,
    table: TableJson,
    amendments: ListJson,
    day: DayJson,
    output: String,
    /// of what was written
    edition: Option<u16>,
    bytes: Option<usize>,
    replaced: Option<Vec<ReplacedJson>>,
    not_yet: Option<usize>,
    superseded: Option<usize>,
    refusal: Option<RefusalJson>,
    /// what is refused: table, amendments or amended
    refused: Option<&'static str>,
    stray: Option<StrayJson>,
}

const HEAD: &str = "Not amended";

/// The first lines: the table, the list, the day.
fn question(args: &Args, table: &Table, list: &List, style: Style) -> String {
    let mut out = words::titled(style, "Table", &table.name());
    let count = match list.count() {
        1 => "1 amendment".to_owned(),
        n => format!("{} amendments", grouped(n)),
    };
    out.push_str(&words::titled(style, "List", &format!("{}, {count}", list.name)));
    out + &words::titled(style, "Day", &args.day.words())
}

/// The table itself is refused.
fn base_refused(table: &Table, refusal: Refusal, json: &mut Json, style: Style) -> String {
    const REMARK: &str = "It is the table itself that is refused, not an amendment.\n";
    let fault = fault(refusal, &table.image);
    json.refusal = Some(RefusalJson::at(refusal, &table.image, fault.as_ref()));
    json.refused = Some("table");
    let what_to_do = words::what_to_do(refusal, fault.as_ref().is_some_and(|(_, fields)| !fields.is_empty()));
    words::refusal_with(HEAD, refusal, table, fault.as_ref(), (REMARK, what_to_do), style)
}

/// The list is.
fn list_refused(table: &Table, list: &List, json: &mut Json, style: Style) -> String {
    let refusal = Refusal::Amendments;
    let (amendment, wrong) = stray(list, &table.image);
    let at = amendment.map(|i| AMENDMENT * i);
    let remark = match (amendment, at) {
        (Some(i), Some(at)) => {
            let last = at + AMENDMENT - 1;
            format!("Where: amendment {i} of the list, counted from 0, bytes {at} to {last}: {wrong}.\n")
        }
        _ => format!("Where: {wrong}.\n"),
    };
    json.refusal = Some(RefusalJson::of(refusal));
    json.refused = Some("amendments");
    json.stray = Some(StrayJson { amendment, at, wrong });
    words::refusal_with(HEAD, refusal, table, None, (&remark, refusal.what_to_do()), style)
}

/// The amended table would be.
fn amended_refused(
    table: &Table,
    list: &List,
    fates: &Fates,
    refusal: Refusal,
    json: &mut Json,
    style: Style,
) -> String {
    const WHAT_TO_DO: &str = "have the amendment corrected: the table is accepted as it was";
    let image = fates.image(&table.image, list);
    let fault = fault(refusal, &image);
    json.refusal = Some(RefusalJson::at(refusal, &image, fault.as_ref()).to_do(WHAT_TO_DO));
    json.refused = Some("amended");
    let record = match fault.as_ref().and_then(|(fault, _)| fault.place).map(|place| fates.by(place)) {
        Some(Some(by)) => format!(" That record is amendment {} of the list, counted from 0.", by.amendment),
        Some(None) => " That record is the table's own: an amendment has moved its band away.".to_owned(),
        None => String::new(),
    };
    let remark = format!("It is the amended table that would be refused.{record}\n");
    let amended = Table { source: Source::Unread, image };
    words::refusal_with(HEAD, refusal, &amended, fault.as_ref(), (&remark, WHAT_TO_DO), style)
}

pub fn answer(args: &Args, style: Style) -> Result<Answer, Failure> {
    if args.table == "-" && args.amendments == "-" {
        return Err(Failure::arguments(
            "the table and the list both ask for standard input",
            "name the file of one of them",
        ));
    }
    args.output.not_a_terminal()?;
    let table = Table::file(&args.table)?;
    let list = List::read(&args.amendments)?;
    let mut text = question(args, &table, &list, style);
    let mut json = Json {
        command: "amend",
        status: Status::NotAnswered as u8,
        table: TableJson::of(&table),
        amendments: ListJson { file: list.name.clone(), bytes: list.bytes.len(), count: list.count() },
        day: DayJson::of(args.day),
        output: args.output.name(),
        edition: None,
        bytes: None,
        replaced: None,
        not_yet: None,
        superseded: None,
        refusal: None,
        refused: None,
        stray: None,
    };
    let mut room = vec![0; table.image.len()];
    let amended = amend(&table.image, &list.bytes, args.day.0, &mut room);
    let bytes = match amended {
        Ok(bytes) => bytes,
        Err(refusal) => {
            text.push('\n');
            text.push_str(&match refusal {
                Refusal::Amendments => list_refused(&table, &list, &mut json, style),
                refusal if check(&table.image).is_err() => base_refused(&table, refusal, &mut json, style),
                refusal => {
                    let fates = Fates::of(&list, args.day);
                    amended_refused(&table, &list, &fates, refusal, &mut json, style)
                }
            });
            text.push_str("Nothing was written.\n");
            return finish(args, Status::NotAnswered, text, &json);
        }
    };
    let fates = Fates::of(&list, args.day);
    if fates.image(&table.image, &list) != bytes {
        return Err(Failure::new(Kind::Internal, "the program and the library do not agree; nothing was written"));
    }
    args.output.write(bytes)?;
    let replaced = fates.replaced.iter().map(|by| ReplacedJson {
        table: by.table.name(),
        record: by.index,
        amendment: by.amendment,
        day: DayJson::of(by.day),
    });
    json.status = Status::Yes as u8;
    (json.edition, json.bytes) = (Some(edition_of(bytes)), Some(bytes.len()));
    json.replaced = Some(replaced.collect());
    (json.not_yet, json.superseded) = (Some(fates.not_yet), Some(fates.superseded));
    text.push_str(&words::titled(style, "Output", &args.output.name()));
    text.push_str(&format!(
        "\n{}: {} bytes of edition {}.\n",
        style.good("Amended"),
        grouped(bytes.len()),
        edition_of(bytes)
    ));
    text.push_str(&fates.text());
    finish(args, Status::Yes, text, &json)
}

/// Where standard output is the image's, the text goes to standard error.
fn finish(args: &Args, status: Status, text: String, json: &Json) -> Result<Answer, Failure> {
    if !args.to_output() {
        return Answer::new(status, text, json);
    }
    write_error(&text);
    Answer::new(status, String::new(), json)
}
