//! `pamuklid census`: how many dials of a stretch get each code, by one table or by two.

use std::ffi::OsString;
use std::io::{self, IsTerminal};

use pamuklid::{census, Code, Kilohertz, Range, Refusal, CODES, MOST_DIALS};
use serde::Serialize;

use crate::answer::{write_error, Answer, Failure, Status, Style};
use crate::args::{Asked, KindArgs, SignalArgs, StationArgs, TableArgs};
use crate::commands::judge::fault;
use crate::json::{Question, RefusalJson, TableJson};
use crate::table::{grouped, Table};
use crate::text::figure;
use crate::words;

/// Counts how many whole-hertz dials of a stretch get each code
///
/// Every dial from the first to the last is judged, as `pamuklid judge` judges one. With --draft the same is done by a
/// second table, and the counts stand side by side with what changed. What is not given is the practice station's. A
/// long stretch takes its time; on a terminal it shows how far it is.
///
/// Exit status: 0 counted, and with two tables the same, 1 the two differ, 2 not counted.
#[derive(clap::Args, Debug)]
pub struct Args {
    /// The first dial, whole hertz
    #[arg(value_name = "FIRST", value_parser = whole, allow_negative_numbers = true)]
    first: i64,

    /// The last dial, whole hertz
    #[arg(value_name = "LAST", value_parser = whole, allow_negative_numbers = true)]
    last: i64,

    /// Another table to count by, a file; - is standard input
    #[arg(long, value_name = "FILE")]
    draft: Option<OsString>,

    #[command(flatten)]
    table: TableArgs,
    #[command(flatten)]
    station: StationArgs,
    #[command(flatten)]
    kind: KindArgs,
    #[command(flatten)]
    signal: SignalArgs,
}

/// A dial: a number without a part of a hertz. One that no 64 bits hold is the farthest that they do.
fn whole(text: &str) -> Result<i64, String> {
    match figure(text)? {
        x if x.fract() != 0.0 => Err("a census is of dials in whole hertz".to_owned()),
        x => Ok(x as i64),
    }
}

/// The counts of a stretch of any length.
type Counts = [u64; CODES];

/// How far a count is, on a terminal.
struct Progress {
    shown: bool,
    all: u64,
    done: u64,
}

impl Progress {
    /// Of so many dials; nothing is shown of what one call counts.
    fn new(all: u64) -> Self {
        Self { shown: all > MOST_DIALS as u64 && io::stderr().is_terminal(), all, done: 0 }
    }

    fn more(&mut self, dials: u64) {
        self.done += dials;
        if self.shown {
            let percent = self.done as f64 / self.all as f64 * 100.0;
            write_error(&format!("\r{percent:3.0}% of {} dials", grouped(self.all as usize)));
        }
    }
}

impl Drop for Progress {
    fn drop(&mut self) {
        if self.shown {
            write_error("\r\x1b[K");
        }
    }
}

/// In parts of as many dials as a call counts: the counts of the parts add up to those of the whole.
fn counts(asked: &Asked, image: &[u8], args: &Args, progress: &mut Progress) -> Result<Counts, Refusal> {
    let part = |first, last| census(&asked.station, asked.kind, asked.direction, &asked.edges, image, first, last);
    // what the last dial is refused for is known before the others are counted
    part(args.last, args.last)?;
    let mut out = [0; CODES];
    let mut first = args.first;
    loop {
        let last = first.saturating_add(MOST_DIALS as i64 - 1).min(args.last);
        let counted = part(first, last)?;
        for (sum, &count) in out.iter_mut().zip(counted.counts()) {
            *sum += u64::from(count);
        }
        progress.more(u64::from(counted.total()));
        if last == args.last {
            return Ok(out);
        }
        first = last + 1;
    }
}

#[derive(Serialize)]
struct CodeJson {
    code: u8,
    name: &'static str,
    words: String,
    dials: u64,
    #[serde(skip_serializing_if = "Option::is_none")]
    draft: Option<u64>,
}

#[derive(Serialize)]
struct Json {
    command: &'static str,
    status: u8,
    #[serde(flatten)]
    question: Question,
    draft: Option<TableJson>,
    first: i64,
    last: i64,
    dials: Option<u64>,
    /// those that some dial gets
    codes: Option<Vec<CodeJson>>,
    refusal: Option<RefusalJson>,
}

/// The longest bar.
const BAR: u64 = 40;

/// A bar for a count, by the greatest; none for none, and never none for some.
fn bar(count: u64, most: u64) -> String {
    let length = (u128::from(count) * u128::from(BAR)).div_ceil(u128::from(most.max(1)));
    "#".repeat(length as usize)
}

fn number(n: u64) -> String {
    grouped(n as usize)
}

fn table(counts: &Counts) -> String {
    let most = counts.iter().copied().max().unwrap_or(0);
    let rows: Vec<Vec<String>> = met(counts, counts)
        .map(|(code, i)| vec![code.number().to_string(), number(counts[i]), code.to_string(), bar(counts[i], most)])
        .collect();
    words::columns(&["code", "dials", "", ""], &rows, 2)
}

/// Two counts side by side, what changed, and a bar for each.
fn beside(now: &Counts, draft: &Counts, style: Style) -> String {
    let most = now.iter().chain(draft).copied().max().unwrap_or(0);
    let mut rows = Vec::new();
    for (code, i) in met(now, draft) {
        let (a, b) = (now[i], draft[i]);
        let change = match b.cmp(&a) {
            std::cmp::Ordering::Equal => "same".to_owned(),
            std::cmp::Ordering::Greater => format!("+{}", number(b - a)),
            std::cmp::Ordering::Less => format!("-{}", number(a - b)),
        };
        rows.push(vec![code.number().to_string(), number(a), number(b), change, code.to_string(), bar(a, most)]);
        let none = String::new();
        rows.push(vec![none.clone(), none.clone(), none.clone(), none.clone(), none, bar(b, most)]);
    }
    let text = words::columns(&["code", "table", "draft", "change", "", ""], &rows, 4);
    let changed = (0..CODES).filter(|&i| now[i] != draft[i]).count();
    let last = match changed {
        0 => style.good("The draft counts the same."),
        1 => style.warning("1 count changed."),
        n => style.warning(&format!("{n} counts changed.")),
    };
    text + &last + "\n"
}

/// The codes that some dial gets by either, with their places.
fn met<'a>(now: &'a Counts, draft: &'a Counts) -> impl Iterator<Item = (Code, usize)> + 'a {
    let all = Code::ALL.iter().map(|&code| (code, usize::from(code.number()) - 1));
    all.filter(|&(_, i)| now[i] != 0 || draft[i] != 0)
}

/// "2,000 dials, 14099.000 to 14100.999 kHz".
fn stretch(args: &Args) -> String {
    let dials = args.last - args.first + 1;
    let ends = Range { low_hz: args.first as f64, high_hz: args.last as f64 };
    match dials {
        1 => format!("1 dial, {}", Kilohertz(ends.low_hz)),
        n => format!("{} dials, {}", grouped(n as usize), Kilohertz(ends)),
    }
}

pub fn answer(args: &Args, style: Style) -> Result<Answer, Failure> {
    if args.first > args.last {
        return Err(Failure::arguments(
            format!("the first dial, {}, lies above the last, {}", args.first, args.last),
            "give the lower dial first",
        ));
    }
    let asked = Asked::new(&args.table, &args.station, None, &args.signal, Some(&args.kind))?;
    let twice = args.draft.as_deref().is_some_and(|name| name == "-" && args.table.table.as_deref() == Some(name));
    if twice {
        return Err(Failure::arguments(
            "--table and --draft are both standard input, which holds one table",
            "give one of them as a file",
        ));
    }
    let draft = args.draft.as_deref().map(Table::file).transpose()?;
    let mut text = words::question(&asked, false, style);
    if let Some(draft) = &draft {
        text.push_str(&words::titled(style, "Draft", &draft.name()));
    }
    let mut json = Json {
        command: "census",
        status: Status::NotAnswered as u8,
        question: Question::of(&asked),
        draft: draft.as_ref().map(TableJson::of),
        first: args.first,
        last: args.last,
        dials: None,
        codes: None,
        refusal: None,
    };
    let tables: Vec<&Table> = [&asked.table].into_iter().chain(&draft).collect();
    let dials = args.last.abs_diff(args.first).saturating_add(1);
    let mut progress = Progress::new(dials.saturating_mul(tables.len() as u64));
    let mut found = Vec::new();
    for table in tables {
        match counts(&asked, &table.image, args, &mut progress) {
            Ok(counts) => found.push(counts),
            Err(refusal) => {
                drop(progress);
                let fault = fault(refusal, &table.image);
                text.push('\n');
                text.push_str(&words::refusal("Not counted", refusal, table, fault.as_ref(), style));
                json.refusal = Some(RefusalJson::at(refusal, &table.image, fault.as_ref()));
                return Answer::new(Status::NotAnswered, text, &json);
            }
        }
    }
    drop(progress);
    text.push_str(&words::titled(style, "Dials", &stretch(args)));
    text.push('\n');
    let (now, other) = (&found[0], found.get(1));
    text.push_str(&match other {
        None => table(now),
        Some(draft) => beside(now, draft, style),
    });
    text.push_str(&words::assumed(&asked));
    let status = Status::of(other.map_or(true, |draft| draft == now));
    json.status = status as u8;
    json.dials = Some(dials);
    let codes = met(now, other.unwrap_or(now)).map(|(code, i)| CodeJson {
        code: code.number(),
        name: code.name(),
        words: code.to_string(),
        dials: now[i],
        draft: other.map(|draft| draft[i]),
    });
    json.codes = Some(codes.collect());
    Answer::new(status, text, &json)
}

#[cfg(test)]
mod tests {
    use super::*;

    #[test]
    fn bars() {
        assert_eq!(bar(0, 100), "");
        assert_eq!(bar(1, 1_000_000), "#");
        assert_eq!(bar(50, 100).len(), 20);
        assert_eq!(bar(100, 100).len(), 40);
        assert_eq!(bar(0, 0), "");
        assert_eq!(bar(1 << 62, 1 << 62).len(), 40);
    }

    #[test]
    fn dials() {
        assert_eq!(whole("14,100,000"), Ok(14_100_000));
        assert_eq!(whole("-5"), Ok(-5));
        assert!(whole("0.5").is_err());
        assert_eq!(whole("99999999999999999999"), Ok(i64::MAX));
    }
}
