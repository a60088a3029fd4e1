//! The transmit gate for people: it judges a transmission by a table of 47 CFR Part 97, checks a table, reports its
//! slips, puts amendments into it, lists dials, writes a figure as a panel shows it, and adds up time on the air, in
//! words and in JSON. Every answer comes from the proved library, through the crate `pamuklid`.
//!
//! A command is a module of `commands`, with its arguments and a function that answers; `words` has the texts,
//! `json` the objects.

mod answer;
mod args;
mod commands;
mod day;
mod image;
mod json;
mod listing;
mod nearest;
mod output;
mod table;
mod text;
mod words;

use std::ffi::OsString;
use std::panic;
use std::process::ExitCode;

use clap::error::ErrorKind;
use clap::{ColorChoice, CommandFactory, FromArgMatches, Parser};

use answer::{write_error, write_out, Answer, Failure, Kind, Status, Style, When};
use commands::Command;

/// Says before a transmission whether it is lawful under 47 CFR Part 97, by a table of the rules
///
/// The table is a trustee's, the station and the edges of the signal are given as options. It also says how fast a
/// rung may be sent, at which dials data may be and where to move the dial, checks a table and reports its slips, puts
/// amendments into it, and adds up time on the air. Every answer is the proved library's.
#[derive(Parser, Debug)]
#[command(name = "pamuklid", bin_name = "pamuklid", max_term_width = 100, after_help = AFTER)]
pub struct Cli {
    #[command(subcommand)]
    command: Command,

    /// Answers with one JSON object, errors too
    #[arg(long, global = true)]
    json: bool,

    /// When to colour the answer
    #[arg(long, global = true, value_name = "WHEN", value_enum, default_value = "auto")]
    color: When,
}

const AFTER: &str = "Exit status: 0 may be sent (or accepted, or listed, or without overlap), 1 blocked (or refused, \
or not listed, or with overlaps), 2 not answered: a refusal, a bad argument, a read or a write that failed. \
Frequencies are given in hertz, power in watts.";

/// The program's version, and the library's.
fn versions() -> (&'static str, String) {
    (env!("CARGO_PKG_VERSION"), pamuklid::version().to_string())
}

/// The program's command line.
pub fn command_line() -> clap::Command {
    let (program, library) = versions();
    let version: &'static str = Box::leak(format!("{program} (library {library})").into_boxed_str());
    Cli::command().version(version)
}

/// What can be told of the arguments before they are read, for the answer to those that cannot be.
struct Hints {
    json: bool,
    color: When,
}

impl Hints {
    fn of(args: &[OsString]) -> Self {
        let mut out = Self { json: false, color: When::Auto };
        let mut words = args.iter().skip(1).map(|arg| arg.to_string_lossy()).take_while(|arg| arg != "--");
        while let Some(word) = words.next() {
            let color = match word.as_ref() {
                "--json" => {
                    out.json = true;
                    continue;
                }
                "--color" => words.next(),
                word => word.strip_prefix("--color=").map(|when| when.to_owned().into()),
            };
            match color.as_deref() {
                Some("always") => out.color = When::Always,
                Some("never") => out.color = When::Never,
                Some("auto") => out.color = When::Auto,
                _ => {}
            }
        }
        out
    }
}

fn parse(args: &[OsString], color: bool) -> Result<Cli, clap::Error> {
    let choice = if color { ColorChoice::Always } else { ColorChoice::Never };
    let matches = command_line().color(choice).try_get_matches_from(args)?;
    Cli::from_arg_matches(&matches)
}

/// What clap says of arguments that it has not taken: help and version to standard output, all else to standard
/// error with status 2.
fn not_taken(args: &[OsString], hints: &Hints, color: bool) -> Result<Status, Failure> {
    // what was typed is shown back, so that nothing in it may reach the terminal as it is
    let seen: Vec<OsString> = args.iter().map(|arg| text::shown(arg).into()).collect();
    let Err(error) = parse(&seen, color) else {
        return Err(Failure::arguments("the arguments cannot be read", "see pamuklid --help"));
    };
    let said = match color && !hints.json {
        true => error.render().ansi().to_string(),
        false => error.render().to_string(),
    };
    match error.kind() {
        ErrorKind::DisplayHelp if hints.json => out(Status::Yes, json::line(&json::Help { help: said })),
        ErrorKind::DisplayVersion if hints.json => {
            let (program, library) = versions();
            out(Status::Yes, json::line(&json::Versions { program: program.to_owned(), library }))
        }
        ErrorKind::DisplayHelp | ErrorKind::DisplayVersion => out(Status::Yes, said),
        _ if hints.json => {
            let message = said.trim_start_matches("error: ");
            let end = ["\n\nUsage", "\n\nFor more"].iter().filter_map(|part| message.find(part)).min();
            let message = &message[..end.unwrap_or(message.len())];
            Err(Failure::arguments(message.trim_end(), "see pamuklid --help"))
        }
        _ => {
            write_error(&said);
            Ok(Status::NotAnswered)
        }
    }
}

fn out(status: Status, text: String) -> Result<Status, Failure> {
    write_out(&text).map_err(|why| Failure {
        kind: Kind::Write,
        message: format!("the answer could not be written: {why}"),
        what_to_do: Some("see where standard output goes".to_owned()),
    })?;
    Ok(status)
}

fn run(args: &[OsString], hints: &Hints) -> Result<Status, Failure> {
    if pamuklid::version() != pamuklid::VERSION {
        let (linked, written) = (pamuklid::version(), pamuklid::VERSION);
        return Err(Failure::new(
            Kind::Internal,
            format!("the program is written for library {written}, and {linked} is linked: build it again"),
        ));
    }
    let cli = match parse(args, false) {
        Ok(cli) => cli,
        Err(error) => {
            let style =
                if error.use_stderr() { Style::for_errors(hints.color) } else { Style::for_output(hints.color) };
            return not_taken(args, hints, style.is_on());
        }
    };
    if cli.json && cli.command.takes_output() {
        return Err(Failure::arguments(
            "--json and -o - both ask for standard output",
            "name the file to write with -o",
        ));
    }
    let Answer { status, text, json } = cli.command.answer(Style::for_output(cli.color))?;
    out(status, if cli.json { json } else { text })
}

fn main() -> ExitCode {
    let args: Vec<OsString> = std::env::args_os().collect();
    let hints = Hints::of(&args);
    let answered = panic::catch_unwind(|| run(&args, &hints))
        .unwrap_or_else(|_| Err(Failure::new(Kind::Internal, "the program failed; nothing was judged")));
    let status = answered.unwrap_or_else(|failure| {
        let style = Style::for_errors(hints.color);
        match hints.json && failure.kind != Kind::Write {
            true => match out(Status::NotAnswered, json::line(&json::Failed::new(&failure))) {
                Ok(status) => return status,
                Err(worse) => write_error(&words::failure(&worse, style)),
            },
            false => write_error(&words::failure(&failure, style)),
        }
        Status::NotAnswered
    });
    ExitCode::from(status as u8)
}
