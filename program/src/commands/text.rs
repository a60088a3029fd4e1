//! `pamuklid text`: a frequency or a width as a panel shows it.

use pamuklid::{text_at, text_hertz, text_khz, Refusal, MOST_TEXT};
use serde::Serialize;

use crate::answer::{Answer, Failure, Status, Style};
use crate::json::RefusalJson;
use crate::listing::notes;
use crate::text::{typed, Typed};
use crate::words;

/// Writes a frequency as a panel shows it
///
/// In kilohertz with three decimals, as a dial is shown (at); in kilohertz with as many as it needs, as the end of a
/// segment is (khz); and in whole hertz, as a width is (hertz).
///
/// Exit status: 0 written, 2 not written.
#[derive(clap::Args, Debug)]
pub struct Args {
    /// The figure in hertz
    #[arg(value_name = "HZ", value_parser = typed, allow_negative_numbers = true)]
    figure: Typed,
}

#[derive(Serialize)]
struct Json {
    command: &'static str,
    status: u8,
    hz: f64,
    at: Option<String>,
    khz: Option<String>,
    hertz: Option<String>,
    refusal: Option<RefusalJson>,
    remarks: Vec<String>,
}

const TOO_LARGE: &str = "the figure is above 2^43 (8796093022208) in size";
const SMALLER: &str = "give a figure of that size at most";

fn texts(hz: f64) -> Result<[String; 3], Refusal> {
    let mut room = [0; MOST_TEXT];
    let at = text_at(hz, &mut room)?.to_owned();
    let khz = text_khz(hz, &mut room)?.to_owned();
    let hertz = text_hertz(hz, &mut room)?.to_owned();
    Ok([at, khz, hertz])
}

pub fn answer(args: &Args, style: Style) -> Result<Answer, Failure> {
    let Typed { figure: hz, text: typed } = &args.figure;
    let mut json = Json {
        command: "text",
        status: Status::Yes as u8,
        hz: *hz,
        at: None,
        khz: None,
        hertz: None,
        refusal: None,
        remarks: Vec::new(),
    };
    let [at, khz, hertz] = match texts(*hz) {
        Ok(texts) => texts,
        Err(refusal) => {
            let head = style.bad("Not written");
            let text = format!("{head}: refusal {}, {TOO_LARGE}.\nWhat to do: {SMALLER}.\n", refusal.number());
            json.status = Status::NotAnswered as u8;
            json.refusal = Some(RefusalJson::said(refusal, TOO_LARGE, SMALLER));
            return Answer::new(Status::NotAnswered, text, &json);
        }
    };
    let mut text = words::titled(style, "at", &format!("{at} kHz"));
    text.push_str(&words::titled(style, "khz", &format!("{khz} kHz")));
    text.push_str(&words::titled(style, "hertz", &format!("{hertz} Hz")));
    if hz.fract() != 0.0 {
        json.remarks.push(format!("A text has whole hertz, and {typed} is not whole: it is rounded."));
    }
    text.push_str(&notes(&json.remarks, style));
    (json.at, json.khz, json.hertz) = (Some(at), Some(khz), Some(hertz));
    Answer::new(Status::Yes, text, &json)
}
