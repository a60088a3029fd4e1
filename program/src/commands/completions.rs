//! `pamuklid completions`: a shell's completions.

use clap_complete::Shell;

use crate::answer::{Answer, Failure, Status};
use crate::json::Help;

/// Writes the completions of a shell
///
/// They go to standard output, to be put where the shell looks for them: for bash /etc/bash_completion.d/pamuklid.
#[derive(clap::Args, Debug)]
pub struct Args {
    #[arg(value_enum)]
    shell: Shell,
}

pub fn answer(args: &Args) -> Result<Answer, Failure> {
    let mut out = Vec::new();
    clap_complete::generate(args.shell, &mut crate::command_line(), "pamuklid", &mut out);
    let text = String::from_utf8_lossy(&out).into_owned();
    Answer::new(Status::Yes, text.clone(), &Help { help: text })
}
