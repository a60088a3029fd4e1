//! `pamuklid distance`: how far a dial stands from the nearest at which data may be sent.

use pamuklid::{evaluate, Decision, Distance, Hertz, Kilohertz, Kind};
use serde::Serialize;

use crate::answer::{Answer, Failure, Status, Style};
use crate::args::{Asked, SignalArgs, StationArgs, TableArgs};
use crate::commands::judge::fault;
use crate::json::{DecisionJson, Question, RefusalJson};
use crate::listing::{closing, list, remarks, Listing};
use crate::text::{typed, Typed};
use crate::words;

/// Says how far a dial stands from the nearest one that is listed
///
/// 60 m is left out. The answer also has the verdict on data at that dial. What is not given is the practice station's.
///
/// Exit status: 0 the dial is listed, 1 it is not, 2 not answered.
#[derive(clap::Args, Debug)]
pub struct Args {
    /// The dial in hertz
    #[arg(value_name = "HZ", value_parser = typed, allow_negative_numbers = true)]
    dial: Typed,
    #[command(flatten)]
    table: TableArgs,
    #[command(flatten)]
    station: StationArgs,
    #[command(flatten)]
    signal: SignalArgs,
}

#[derive(Serialize)]
struct Json {
    command: &'static str,
    status: u8,
    #[serde(flatten)]
    question: Question,
    /// null where none is listed
    distance_hz: Option<f64>,
    /// the verdict on data at that dial
    decision: Option<DecisionJson>,
    refusal: Option<RefusalJson>,
    remarks: Vec<String>,
}

fn clause(dial: f64, distance: Option<Distance>, listing: &Listing) -> String {
    let dial = Kilohertz(dial);
    match (distance, listing) {
        (Some(Distance::Hz(0.0)), _) => format!("The dial, {dial}, is listed."),
        (Some(Distance::Hz(far)), _) => format!("The dial, {dial}, is {} from the nearest listed one.", Hertz(far)),
        (_, Listing::Barred(decision)) => format!("No dial is listed: {}.", words::reason(decision)),
        _ => "No dial is listed outside 60 m.".to_owned(),
    }
}

pub fn answer(args: &Args, style: Style) -> Result<Answer, Failure> {
    let asked = Asked::new(&args.table, &args.station, None, &args.signal, None)?.at(&args.dial);
    let dial = args.dial.figure;
    let image = &asked.table.image;
    let mut text = words::question(&asked, true, style) + "\n";
    let found = list(&asked, |rows| rows.distance(dial)).and_then(|(listing, distance)| {
        let decision = evaluate(&asked.station, Kind::Data, asked.direction, &asked.edges, image)?;
        Ok((listing, distance, decision))
    });
    let (listing, distance, decision): (Listing, Option<Distance>, Decision) = match found {
        Ok(found) => found,
        Err(refusal) => {
            let fault = fault(refusal, image);
            text.push_str(&words::refusal("Not answered", refusal, &asked.table, fault.as_ref(), style));
            let json = Json {
                command: "distance",
                status: Status::NotAnswered as u8,
                question: Question::of(&asked),
                distance_hz: None,
                decision: None,
                refusal: Some(RefusalJson::at(refusal, image, fault.as_ref())),
                remarks: Vec::new(),
            };
            return Answer::new(Status::NotAnswered, text, &json);
        }
    };
    let distance_hz = match distance {
        Some(Distance::Hz(far)) => Some(far),
        _ => None,
    };
    let status = Status::of(distance_hz == Some(0.0));
    let mut remarks = remarks(&asked, None);
    if decision.allowed() != (distance_hz == Some(0.0)) {
        remarks.push("The verdict is another than the list's: go by the verdict (docs/DIFFERENCES.md).".to_owned());
    }
    text.push_str(&format!("{}\n", clause(dial, distance, &listing)));
    text.push_str(&format!("The verdict on data there: {}\n", words::decision_line(&decision, style)));
    text.push_str(&closing(&asked, &remarks, style));
    let json = Json {
        command: "distance",
        status: status as u8,
        question: Question::of(&asked),
        distance_hz,
        decision: Some(DecisionJson::of(&decision)),
        refusal: None,
        remarks,
    };
    Answer::new(status, text, &json)
}
