//! What a command hands back, and how it is written out.

use std::io::{self, IsTerminal, Write};

use clap::ValueEnum;
use serde::Serialize;

/// The exit status.
#[derive(Clone, Copy, Debug, PartialEq, Eq)]
pub enum Status {
    /// Yes: it may be sent, the table is accepted, its records do not overlap, dials are listed, the dial is listed; the
    /// text or the totals asked for.
    Yes = 0,
    /// No: it is blocked, the table is refused, its records overlap, none is listed.
    No = 1,
    /// Not answered: a refusal, a bad argument, a read or a write that failed.
    NotAnswered = 2,
}

impl Status {
    pub fn of(yes: bool) -> Self {
        match yes {
            true => Self::Yes,
            false => Self::No,
        }
    }
}

/// A command's answer, in words and in JSON.
pub struct Answer {
    pub status: Status,
    pub text: String,
    pub json: String,
}

impl Answer {
    pub fn new<T: Serialize>(status: Status, text: String, json: &T) -> Result<Self, Failure> {
        let json = serde_json::to_string(json)
            .map_err(|why| Failure::new(Kind::Internal, format!("the answer has no JSON: {why}")))?;
        Ok(Self { status, text, json: json + "\n" })
    }
}

/// What kept a command from answering.
#[derive(Clone, Copy, Debug, PartialEq, Eq, Serialize)]
#[serde(rename_all = "snake_case")]
pub enum Kind {
    Arguments,
    Read,
    Write,
    Internal,
}

/// A question that was not answered: what is wrong, where, and what to do.
#[derive(Clone, Debug, Serialize)]
pub struct Failure {
    pub kind: Kind,
    pub message: String,
    pub what_to_do: Option<String>,
}

impl Failure {
    pub fn new(kind: Kind, message: impl Into<String>) -> Self {
        Self { kind, message: message.into(), what_to_do: None }
    }

    pub fn arguments(message: impl Into<String>, what_to_do: impl Into<String>) -> Self {
        Self { kind: Kind::Arguments, message: message.into(), what_to_do: Some(what_to_do.into()) }
    }

    pub fn read(message: impl Into<String>, what_to_do: impl Into<String>) -> Self {
        Self { kind: Kind::Read, message: message.into(), what_to_do: Some(what_to_do.into()) }
    }
}

/// When to colour.
#[derive(Clone, Copy, Debug, PartialEq, Eq, ValueEnum)]
pub enum When {
    /// On a terminal, unless NO_COLOR is set
    Auto,
    /// Always
    Always,
    /// Never
    Never,
}

/// The colours of an answer.
#[derive(Clone, Copy, Debug)]
pub struct Style {
    on: bool,
}

impl Style {
    /// For what goes to a terminal or elsewhere.
    pub fn new(when: When, terminal: bool) -> Self {
        let set = |name: &str| std::env::var_os(name).filter(|value| !value.is_empty());
        let dumb = set("TERM").is_some_and(|term| term == "dumb");
        let on = match when {
            When::Auto => terminal && !dumb && set("NO_COLOR").is_none(),
            When::Always => true,
            When::Never => false,
        };
        Self { on }
    }

    pub fn for_output(when: When) -> Self {
        Self::new(when, io::stdout().is_terminal())
    }

    pub fn for_errors(when: When) -> Self {
        Self::new(when, io::stderr().is_terminal())
    }

    pub fn is_on(self) -> bool {
        self.on
    }

    fn paint(self, code: &str, text: &str) -> String {
        match self.on {
            true => format!("\x1b[{code}m{text}\x1b[0m"),
            false => text.to_owned(),
        }
    }

    pub fn good(self, text: &str) -> String {
        self.paint("1;32", text)
    }

    pub fn warning(self, text: &str) -> String {
        self.paint("1;33", text)
    }

    pub fn bad(self, text: &str) -> String {
        self.paint("1;31", text)
    }

    pub fn heading(self, text: &str) -> String {
        self.paint("1", text)
    }
}

/// Writes a text to standard output, to its last byte.
pub fn write_out(text: &str) -> io::Result<()> {
    let mut out = io::stdout().lock();
    out.write_all(text.as_bytes())?;
    out.flush()
}

/// Writes to standard error. Where that fails too there is nowhere left to say so.
pub fn write_error(text: &str) {
    let _ = io::stderr().lock().write_all(text.as_bytes());
}
