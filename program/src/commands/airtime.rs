//! `pamuklid airtime`: how long a station has been on the air, record by record of a log.

use std::ffi::{OsStr, OsString};

use pamuklid::{airtime, Refusal, MOST_LOG};
use serde::Serialize;

use crate::answer::{Answer, Failure, Status, Style};
use crate::json::RefusalJson;
use crate::table::{grouped, read};
use crate::text::shown;
use crate::words;

/// Says of each record of a log how long its band was on the air in the ten minutes up to it
///
/// A line of the log is a record: start,band,seconds. The start is a second on any clock, the band any number from 0
/// to 255, and the seconds are those on the air, up to 65535; starts do not fall. A record's total is the seconds of its
/// band over itself and the earlier records that start at most 599 seconds before it.
///
/// Exit status: 0 totalled, 2 not totalled.
#[derive(clap::Args, Debug)]
pub struct Args {
    /// The log, a file; - is standard input
    #[arg(value_name = "FILE")]
    file: OsString,
}

#[derive(Serialize)]
struct Json {
    command: &'static str,
    status: u8,
    log: String,
    count: usize,
    records: Option<Vec<RecordJson>>,
    refusal: Option<RefusalJson>,
    line: Option<usize>,
}

#[derive(Serialize)]
struct RecordJson {
    start: u64,
    band: u8,
    seconds: u16,
    total: u64,
}

/// The most bytes of a log that are read: 65,536 lines of any length that a record has, and many more.
const MOST_BYTES: usize = 16 << 20;

/// A log's records, and the line that each stands on.
#[derive(Default)]
struct Log {
    starts: Vec<u64>,
    bands: Vec<u8>,
    seconds: Vec<u16>,
    lines: Vec<usize>,
}

const FORM: &str = "correct the line: start,band,seconds, as in 1700000000,20,45";

/// One figure of a line, digits alone.
fn figure<T: std::str::FromStr>(text: &str, line: usize, what: &str, most: u64) -> Result<T, Failure> {
    let digits = !text.is_empty() && text.bytes().all(|b| b.is_ascii_digit());
    match text.parse() {
        Ok(figure) if digits => Ok(figure),
        _ => {
            let seen: String = text.chars().take(40).collect();
            let seen = if seen.is_empty() { "missing".to_owned() } else { shown(OsStr::new(&seen)) };
            let message = format!("line {line} of the log: the {what} is {seen}, not a whole number from 0 to {most}");
            Err(Failure::read(message, FORM))
        }
    }
}

impl Log {
    /// The log that bytes hold. Empty lines hold no record.
    fn of(bytes: &[u8]) -> Result<Self, Failure> {
        let mut out = Self::default();
        for (line, text) in (1..).zip(String::from_utf8_lossy(bytes).lines()) {
            if text.trim().is_empty() {
                continue;
            }
            let parts: Vec<&str> = text.split(',').map(str::trim).collect();
            let [start, band, seconds] = parts[..] else {
                let message = format!("line {line} of the log: a record has 3 figures, and this has {}", parts.len());
                return Err(Failure::read(message, FORM));
            };
            out.starts.push(figure(start, line, "start", u64::MAX)?);
            out.bands.push(figure(band, line, "band", u8::MAX.into())?);
            out.seconds.push(figure(seconds, line, "number of seconds", u16::MAX.into())?);
            out.lines.push(line);
        }
        Ok(out)
    }

    /// The first record that starts before the one above it.
    fn fall(&self) -> Option<usize> {
        (1..self.starts.len()).find(|&i| self.starts[i] < self.starts[i - 1])
    }

    /// What the refusal is about.
    fn place(&self, refusal: Refusal) -> (String, Option<usize>) {
        match self.fall() {
            Some(i) if refusal == Refusal::Starts => {
                let (line, start, before) = (self.lines[i], self.starts[i], self.starts[i - 1]);
                (format!("Where: line {line} starts at {start}, the record above it at {before}.\n"), Some(line))
            }
            _ => (format!("The log has {} records.\n", grouped(self.starts.len())), None),
        }
    }

    fn text(&self, totals: &[u64]) -> String {
        let widest = self.starts.iter().max().map_or(0, |start| start.to_string().len()).max(5);
        let mut out = format!("  {:>widest$}  band  seconds       total\n", "start");
        for (i, total) in totals.iter().enumerate() {
            let (start, band, seconds) = (self.starts[i], self.bands[i], self.seconds[i]);
            out.push_str(&format!("  {start:>widest$}  {band:>4}  {seconds:>7}  {total:>10}\n"));
        }
        out
    }

    fn json(&self, totals: &[u64]) -> Vec<RecordJson> {
        let record = |(i, &total)| {
            let (start, band, seconds) = (self.starts[i], self.bands[i], self.seconds[i]);
            RecordJson { start, band, seconds, total }
        };
        totals.iter().enumerate().map(record).collect()
    }
}

pub fn answer(args: &Args, style: Style) -> Result<Answer, Failure> {
    let bytes = read(&args.file, "log", "the log", MOST_BYTES + 1)?;
    if bytes.len() > MOST_BYTES {
        let message = format!("the log has more than {} bytes", grouped(MOST_BYTES));
        return Err(Failure::read(message, format!("give at most {} records", grouped(MOST_LOG))));
    }
    let log = Log::of(&bytes)?;
    let name = if args.file == "-" { "standard input".to_owned() } else { shown(&args.file) };
    let mut text = words::titled(style, "Log", &name);
    text.push('\n');
    let mut json = Json {
        command: "airtime",
        status: Status::NotAnswered as u8,
        log: name,
        count: log.starts.len(),
        records: None,
        refusal: None,
        line: None,
    };
    let mut totals = vec![0; log.starts.len()];
    if let Err(refusal) = airtime(&log.starts, &log.bands, &log.seconds, &mut totals) {
        let (place, line) = log.place(refusal);
        let (reason, what_to_do) = match refusal {
            Refusal::Runs => ("the log has more than 65,536 records", "give at most 65,536 records"),
            _ => (refusal.reason(), refusal.what_to_do()),
        };
        let head = style.bad("Not totalled");
        text.push_str(&format!("{head}: refusal {}, {reason}.\n{place}What to do: {what_to_do}.\n", refusal.number()));
        (json.refusal, json.line) = (Some(RefusalJson::said(refusal, reason, what_to_do)), line);
        return Answer::new(Status::NotAnswered, text, &json);
    }
    match log.starts.len() {
        0 => text.push_str("The log has no records.\n"),
        _ => text.push_str(&log.text(&totals)),
    }
    (json.status, json.records) = (Status::Yes as u8, Some(log.json(&totals)));
    Answer::new(Status::Yes, text, &json)
}
