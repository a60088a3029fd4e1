//! `pamuklid man`: the manual page, from the command line's own descriptions.

use clap::{Arg, Command};

use crate::answer::{Answer, Failure, Status};
use crate::json::Help;

/// Writes the manual page
///
/// It goes to standard output: `pamuklid man >pamuklid.1`, and `man ./pamuklid.1` shows it.
#[derive(clap::Args, Debug)]
pub struct Args {}

/// A text as the page has it.
fn plain(text: &str) -> String {
    let text = text.replace('\\', "\\e").replace('-', "\\-");
    let quoted = text.lines().map(|line| match line.starts_with(['.', '\'']) {
        true => format!("\\&{line}"),
        false => line.to_owned(),
    });
    quoted.collect::<Vec<_>>().join("\n")
}

fn option(arg: &Arg) -> String {
    let names: Vec<String> = arg.get_value_names().unwrap_or_default().iter().map(|n| n.to_string()).collect();
    let takes = arg.get_action().takes_values();
    let values = if takes { names.iter().map(|n| format!(" \\fI{}\\fR", plain(n))).collect() } else { String::new() };
    let short = arg.get_short().map(|c| format!("\\fB\\-{c}\\fR, ")).unwrap_or_default();
    let tag = match arg.get_long() {
        Some(long) => format!("{short}\\fB\\-\\-{}\\fR{values}", plain(long)),
        None => values.trim_start().to_owned(),
    };
    let help = arg.get_help().map(|help| help.to_string()).unwrap_or_default();
    let words: Vec<String> = arg.get_possible_values().iter().map(|word| word.get_name().to_owned()).collect();
    let words = if words.is_empty() || !takes { String::new() } else { format!(" ({})", words.join(", ")) };
    format!(".TP\n{tag}\n{}{}\n", plain(&help), plain(&words))
}

fn options(command: &Command, global: bool) -> String {
    let shown = |arg: &&Arg| !arg.is_hide_set() && arg.get_id() != "help" && arg.is_global_set() == global;
    command.get_arguments().filter(shown).map(option).collect()
}

fn page(mut command: Command) -> String {
    command.build();
    let version = command.get_version().unwrap_or_default().to_owned();
    let about = |c: &Command| c.get_about().map(|a| a.to_string()).unwrap_or_default();
    let long = |c: &Command| c.get_long_about().map_or_else(|| about(c), |a| a.to_string());
    let mut out = format!(".TH PAMUKLID 1 \"\" \"pamuklid {}\" \"User Commands\"\n", plain(&version));
    out.push_str(&format!(".SH NAME\npamuklid \\- {}\n", plain(&about(&command))));
    out.push_str(".SH SYNOPSIS\n\\fBpamuklid\\fR \\fICOMMAND\\fR [\\fIOPTIONS\\fR]\n");
    out.push_str(&format!(".SH DESCRIPTION\n{}\n", plain(&long(&command))));
    out.push_str(".SH OPTIONS OF EVERY COMMAND\n");
    out.push_str(&options(&command, true));
    out.push_str(".SH COMMANDS\n");
    for sub in command.get_subcommands().filter(|sub| sub.get_name() != "help") {
        out.push_str(&format!(".SS pamuklid {}\n{}\n", plain(sub.get_name()), plain(&long(sub))));
        out.push_str(&options(sub, false));
    }
    let after = command.get_after_help().map(|text| text.to_string()).unwrap_or_default();
    out.push_str(&format!(".SH EXIT STATUS\n{}\n", plain(after.trim_start_matches("Exit status: "))));
    out.push_str(".SH ENVIRONMENT\n.TP\n\\fBNO_COLOR\\fR\nIf set, \\-\\-color auto does not colour.\n");
    out.push_str(
        ".SH EXAMPLES\n.nf\npamuklid judge \\-\\-dial 14148500 \\-\\-control automatic\npamuklid judge \\-\\-table rules.bin \
         \\-\\-dial 14100000 \\-\\-edges 100 2900\npamuklid check rules.bin\npamuklid report rules.bin \\-\\-class general\npamuklid amend rules.bin list.bin \\-\\-day 2026\\-11\\-17 \\-o now.bin\npamuklid dials \\-\\-control automatic\npamuklid text 14097700\n.fi\n",
    );
    out
}

pub fn answer(_: &Args) -> Result<Answer, Failure> {
    let text = page(crate::command_line());
    Answer::new(Status::Yes, text.clone(), &Help { help: text })
}
