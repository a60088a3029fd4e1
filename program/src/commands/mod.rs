//! The commands, a module each: its arguments, and `answer`. A new one is a module, a case of `Command` and a line in
//! `Command::answer`.

mod airtime;
mod amend;
mod census;
mod check;
mod completions;
mod convert;
mod dials;
mod distance;
mod judge;
mod man;
mod report;
mod text;

use clap::Subcommand;

use crate::answer::{Answer, Failure, Style};

#[derive(Subcommand, Debug)]
pub enum Command {
    Judge(judge::Args),
    Check(check::Args),
    Report(report::Args),
    /// Writes edition 2 of a table of edition 1
    ///
    /// Edition 2 has the two power limits of 60 m as figures of the table; raised, a table has 100 and 9.15 watts, which
    /// edition 1 goes by. Every answer by it is the same, and `pamuklid lower` gives the first bytes back. docs/IMAGE.md
    /// describes both editions. OUT is written whole, or it stays as it was.
    ///
    /// Exit status: 0 written, 2 not written.
    Raise(convert::Args),
    /// Writes edition 1 of a table of edition 2 whose 60 m watts are 100 and 9.15
    ///
    /// Other watts cannot be lowered: edition 1 has no place for them. Every answer by the lowered table is the same.
    /// OUT is written whole, or it stays as it was.
    ///
    /// Exit status: 0 written, 2 not written.
    Lower(convert::Args),
    Amend(amend::Args),
    Census(census::Args),
    Dials(dials::Args),
    Distance(distance::Args),
    Text(text::Args),
    Airtime(airtime::Args),
    Completions(completions::Args),
    Man(man::Args),
}

impl Command {
    /// Whether standard output is for bytes of a table, not for an answer.
    pub fn takes_output(&self) -> bool {
        match self {
            Self::Raise(args) | Self::Lower(args) => args.to_output(),
            Self::Amend(args) => args.to_output(),
            _ => false,
        }
    }

    pub fn answer(&self, style: Style) -> Result<Answer, Failure> {
        match self {
            Self::Judge(args) => judge::answer(args, style),
            Self::Check(args) => check::answer(args, style),
            Self::Report(args) => report::answer(args, style),
            Self::Raise(args) => convert::answer(args, convert::Way::Raise, style),
            Self::Lower(args) => convert::answer(args, convert::Way::Lower, style),
            Self::Amend(args) => amend::answer(args, style),
            Self::Census(args) => census::answer(args, style),
            Self::Dials(args) => dials::answer(args, style),
            Self::Distance(args) => distance::answer(args, style),
            Self::Text(args) => text::answer(args, style),
            Self::Airtime(args) => airtime::answer(args, style),
            Self::Completions(args) => completions::answer(args),
            Self::Man(args) => man::answer(args),
        }
    }
}
