//! `pamuklid dials`: the dials at which data may be sent.

use serde::Serialize;

use crate::answer::{Answer, Failure, Status, Style};
use crate::args::{Asked, SignalArgs, StationArgs, TableArgs};
use crate::commands::judge::fault;
use crate::json::{Question, RefusalJson, RowJson};
use crate::listing::{closing, list, list_remarks, notes, remarks};
use crate::words;

/// Lists the dials at which data may be sent
///
/// Each row has the dials from which data of the given edges stays in a segment, the margins to spare. What is not given
/// is the practice station's.
///
/// Exit status: 0 there are some, 1 there are none, 2 not listed.
#[derive(clap::Args, Debug)]
pub struct Args {
    #[command(flatten)]
    table: TableArgs,
    #[command(flatten)]
    station: StationArgs,
    #[command(flatten)]
    signal: SignalArgs,
}

#[derive(Serialize)]
struct Json {
    command: &'static str,
    status: u8,
    #[serde(flatten)]
    question: Question,
    dials: Option<Vec<RowJson>>,
    refusal: Option<RefusalJson>,
    remarks: Vec<String>,
}

pub fn answer(args: &Args, style: Style) -> Result<Answer, Failure> {
    let asked = Asked::new(&args.table, &args.station, None, &args.signal, None)?;
    let image = &asked.table.image;
    let mut text = words::question(&asked, false, style) + "\n";
    let (listing, _) = match list(&asked, |_| Ok(())) {
        Ok(found) => found,
        Err(refusal) => {
            let fault = fault(refusal, image);
            text.push_str(&words::refusal("Not listed", refusal, &asked.table, fault.as_ref(), style));
            let json = Json {
                command: "dials",
                status: Status::NotAnswered as u8,
                question: Question::of(&asked),
                dials: None,
                refusal: Some(RefusalJson::at(refusal, image, fault.as_ref())),
                remarks: Vec::new(),
            };
            return Answer::new(Status::NotAnswered, text, &json);
        }
    };
    let status = Status::of(!listing.is_empty());
    let mut remarks = remarks(&asked, None);
    text.push_str(&notes(&remarks, style));
    let on_list = list_remarks(&asked, &listing);
    text.push_str(&listing.text(style));
    text.push_str(&closing(&asked, &on_list, style));
    remarks.extend(on_list);
    let json = Json {
        command: "dials",
        status: status as u8,
        question: Question::of(&asked),
        dials: Some(listing.json()),
        refusal: None,
        remarks,
    };
    Answer::new(status, text, &json)
}
