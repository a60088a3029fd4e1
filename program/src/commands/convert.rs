//! `pamuklid raise` and `pamuklid lower`: an image of one edition as one of the other, in a file.

use std::ffi::OsString;

use pamuklid::raw::IMAGE_MOST;
use pamuklid::{lower, raise, Refusal};
use serde::Serialize;

use crate::answer::{write_error, Answer, Failure, Status, Style};
use crate::commands::judge::fault;
use crate::image::{edition_of, watts};
use crate::json::{RefusalJson, TableJson};
use crate::output::Output;
use crate::table::{grouped, Table};
use crate::words;

#[derive(clap::Args, Debug)]
pub struct Args {
    /// The table's image, a file; - is standard input
    #[arg(value_name = "FILE")]
    file: OsString,

    #[command(flatten)]
    output: Output,
}

impl Args {
    /// Whether the image goes to standard output.
    pub fn to_output(&self) -> bool {
        self.output.is_standard()
    }
}

/// Which way.
#[derive(Clone, Copy)]
pub enum Way {
    Raise,
    Lower,
}

impl Way {
    const fn command(self) -> &'static str {
        match self {
            Self::Raise => "raise",
            Self::Lower => "lower",
        }
    }

    /// The edition that is written.
    const fn edition(self) -> u16 {
        match self {
            Self::Raise => 2,
            Self::Lower => 1,
        }
    }

    fn convert<'a>(self, image: &[u8], out: &'a mut [u8]) -> Result<&'a [u8], Refusal> {
        match self {
            Self::Raise => raise(image, out),
            Self::Lower => lower(image, out),
        }
    }

    const fn done(self) -> &'static str {
        match self {
            Self::Raise => "Raised",
            Self::Lower => "Lowered",
        }
    }

    const fn not_done(self) -> &'static str {
        match self {
            Self::Raise => "Not raised",
            Self::Lower => "Not lowered",
        }
    }

    /// Why a refusal was met and what to do, where that is better said here.
    fn said(self, refusal: Refusal, image: &[u8]) -> Option<(&'static str, &'static str)> {
        match self {
            _ if refusal != Refusal::Edition || edition_of(image) != self.edition() => None,
            Self::Raise => Some(("the image is of edition 2 already", "use it as it is")),
            Self::Lower => Some(("the image is of edition 1 already", "use it as it is")),
        }
    }
}

#[derive(Serialize)]
struct Json {
    command: &'static str,
    status: u8,
    table: TableJson,
    output: String,
    /// of what was written
    edition: Option<u16>,
    bytes: Option<usize>,
    refusal: Option<RefusalJson>,
}

fn refused(args: &Args, way: Way, table: &Table, refusal: Refusal, style: Style) -> Result<Answer, Failure> {
    let image = &table.image;
    let fault = fault(refusal, image);
    let mut said = words::refusal(way.not_done(), refusal, table, fault.as_ref(), style);
    let mut json = RefusalJson::at(refusal, image, fault.as_ref());
    if let Some((reason, what_to_do)) = way.said(refusal, image) {
        said = words::refusal_said(way.not_done(), refusal, (reason, what_to_do), style);
        json = RefusalJson::said(refusal, reason, what_to_do);
    }
    if let (Refusal::Watts, Some([channel, segment])) = (refusal, watts(image)) {
        said.push_str(&format!("It has {channel} for a 60 m channel and {segment} for the 60 m segment.\n"));
    }
    said.push_str("Nothing was written.\n");
    let text = format!("{}\n{said}", words::titled(style, "Table", &table.name()));
    let json = Json {
        command: way.command(),
        status: Status::NotAnswered as u8,
        table: TableJson::of(table),
        output: args.output.name(),
        edition: None,
        bytes: None,
        refusal: Some(json),
    };
    if args.to_output() {
        // standard output is the image's
        write_error(&text);
        return Answer::new(Status::NotAnswered, String::new(), &json);
    }
    Answer::new(Status::NotAnswered, text, &json)
}

pub fn answer(args: &Args, way: Way, style: Style) -> Result<Answer, Failure> {
    args.output.not_a_terminal()?;
    let table = Table::file(&args.file)?;
    let mut room = vec![0; IMAGE_MOST];
    let bytes = match way.convert(&table.image, &mut room) {
        Ok(bytes) => bytes,
        Err(refusal) => return refused(args, way, &table, refusal, style),
    };
    args.output.write(bytes)?;
    let json = Json {
        command: way.command(),
        status: Status::Yes as u8,
        table: TableJson::of(&table),
        output: args.output.name(),
        edition: Some(way.edition()),
        bytes: Some(bytes.len()),
        refusal: None,
    };
    if args.to_output() {
        return Answer::new(Status::Yes, String::new(), &json);
    }
    let mut text = words::titled(style, "Table", &table.name());
    text.push_str(&words::titled(style, "Output", &args.output.name()));
    text.push_str(&format!(
        "\n{}: {} bytes of edition {}. Every answer by it is the same.\n",
        style.good(way.done()),
        grouped(bytes.len()),
        way.edition()
    ));
    Answer::new(Status::Yes, text, &json)
}
