//! The answers in words, where the crate `pamuklid` does not have them already.

use pamuklid::{
    Ceiling, Code, Decision, Direction, Edges, Fault, Guidance, Hertz, Kilohertz, Kind, Overshoot, Place, Range,
    Refusal, Rule, Station, Verdict,
};

use crate::answer::{Failure, Style};
use crate::args::Asked;
use crate::image::Field;
use crate::table::{Source, Table};

/// A line with a name in front, as the first lines of an answer are.
pub fn titled(style: Style, title: &str, text: &str) -> String {
    format!("{}{}\n", style.heading(&format!("{title:<9}")), text)
}

/// A clause as a sentence.
pub fn sentence(clause: &str) -> String {
    let mut rest = clause.chars();
    match rest.next() {
        Some(first) => format!("{}{}.", first.to_uppercase(), rest.as_str()),
        None => String::new(),
    }
}

pub fn failure(failure: &Failure, style: Style) -> String {
    let mut out = format!("{} {}\n", style.bad("error:"), failure.message);
    if let Some(what) = &failure.what_to_do {
        out.push_str(&format!("What to do: {what}.\n"));
    }
    out
}

// ------------------------------------------------------------------------------------ the question

fn or_unknown<T: ToString>(what: &str, part: Option<T>) -> String {
    part.map_or_else(|| format!("{what} not known"), |part| part.to_string())
}

/// The lower and the upper one.
fn margins(s: &Station) -> (f64, f64) {
    (s.margin_lower_hz, s.margin_upper_hz)
}

fn station(s: &Station, with_dial: bool) -> String {
    let mut parts = vec![
        format!("region {}", s.itu_region),
        or_unknown("control", s.control),
        or_unknown("license", s.license),
        or_unknown("sideband", s.sideband),
    ];
    if with_dial {
        parts.push(s.dial_hz.map_or_else(|| "dial not known".to_owned(), |dial| format!("dial {}", Kilohertz(dial))));
    }
    parts.push(match margins(s) {
        (lower, upper) if lower == upper => format!("margin {}", Hertz(lower)),
        (lower, upper) => format!("margins {} below and {} above", Hertz(lower), Hertz(upper)),
    });
    if with_dial {
        parts.extend(s.power_w.map(|watts| format!("{watts} W")));
        parts.extend(s.band_plan.then(|| "with the band plan".to_owned()));
    }
    parts.join(", ")
}

/// Audio edges.
fn pair(low_hz: f64, high_hz: f64) -> Hertz<Range> {
    Hertz(Range { low_hz, high_hz })
}

pub fn audio(edges: &Edges) -> String {
    let power = pair(edges.power_low, edges.power_high);
    let spectral = pair(edges.spectral_low, edges.spectral_high);
    match power == spectral {
        true => format!("audio {power}"),
        false => format!("audio {power} by power, {spectral} by spectrum"),
    }
}

fn signal(kind: Kind, direction: Direction, edges: &Edges) -> String {
    let what = match kind {
        Kind::Nothing => "keying without audio".to_owned(),
        kind => kind.to_string(),
    };
    format!("{what}, {direction}, {}", audio(edges))
}

/// What was asked: the table first, then the station and the signal.
pub fn question(asked: &Asked, with_dial: bool, style: Style) -> String {
    let Asked { table, station: s, kind, direction, edges, .. } = asked;
    let mut out = titled(style, "Table", &table.name());
    if table.source == Source::Unread {
        out.push_str(&titled(style, "Policy", &s.policy.to_string()));
    }
    out.push_str(&titled(style, "Station", &station(s, with_dial)));
    out.push_str(&titled(style, "Signal", &signal(*kind, *direction, edges)));
    out
}

/// What was not given, by the options that give it.
pub fn assumed(asked: &Asked) -> String {
    let options: Vec<String> = asked.assumed.iter().map(|(name, value)| format!("{name} {value}")).collect();
    match options.is_empty() {
        true => String::new(),
        false => format!("Assumed, since not given: {}.\n", options.join(" ")),
    }
}

// ------------------------------------------------------------------------------------ the verdict

/// How far a signal that is too close to an edge stands from both edges of its segment: the lower, the upper.
pub fn standing(d: &Decision) -> Option<(f64, f64)> {
    match (d.overshoot, d.segment, d.air) {
        (Overshoot::TooClose { .. }, Some(segment), Some(air)) => {
            Some((air.low_hz - segment.range.low_hz, segment.range.high_hz - air.high_hz))
        }
        _ => None,
    }
}

fn verdict_word(verdict: Verdict, style: Style) -> String {
    match verdict {
        Verdict::Legal => style.good("May be sent"),
        Verdict::Warning => style.warning("May be sent, with a warning"),
        Verdict::Blocked => style.bad("Blocked"),
    }
}

/// The reason with its code.
pub fn reason(d: &Decision) -> String {
    format!("{} (code {}, {})", d.reason(), d.code.number(), d.code.name())
}

fn overshoot(d: &Decision, s: &Station) -> Option<String> {
    match d.overshoot {
        Overshoot::NoOvershoot => None,
        Overshoot::TooClose { .. } => standing(d).map(|(lower, upper)| {
            let kept = match margins(s) {
                (below, above) if below == above => format!("margin of {}", Hertz(below)),
                (below, above) => format!("margins, {} below and {} above", Hertz(below), Hertz(above)),
            };
            format!(
                "It lies inside the segment, {} from its lower edge and {} from its upper edge: closer than the {kept}.",
                Hertz(lower),
                Hertz(upper)
            )
        }),
        beyond => Some(sentence(&beyond.to_string())),
    }
}

fn fact(name: &str, text: impl std::fmt::Display) -> String {
    format!("  {name:<12}{text}\n")
}

/// What to do about a verdict, by the program's own options where they are the way.
pub fn remedy(d: &Decision) -> Option<&'static str> {
    match d.code {
        Code::NoProfile | Code::ProfileBroken => Some("choose the rules of a table: --policy rules, with --table"),
        Code::Region => Some("give the station's region with --region, or the table of that region with --table"),
        Code::NoControl => Some("give the station's control with --control"),
        Code::NoLicense => Some("give the operator's license with --license"),
        Code::NoSideband => Some("give the radio's sideband with --sideband"),
        Code::NoDial => Some("give the radio's dial with --dial, in hertz"),
        _ => d.what_to_do(),
    }
}

/// A verdict, why, what to do, and what it rests on.
pub fn decision(d: &Decision, s: &Station, style: Style) -> String {
    let mut out = format!("{}: {}.\n", verdict_word(d.verdict, style), reason(d));
    let mut add = |text: String| out.push_str(&(text + "\n"));
    overshoot(d, s).map(&mut add);
    if !d.power.is_empty() {
        add(sentence(&d.power.to_string()));
    }
    d.sixty.clauses().for_each(|note| add(sentence(note)));
    if d.guidance != Guidance::NoGuidance {
        add(sentence(&d.guidance.to_string()));
    }
    if let Some(what) = remedy(d) {
        add(format!("What to do: {what}."));
    }
    match d.rule {
        Rule::Empty => out.push_str(&fact("rule", "none")),
        rule => out.push_str(&fact("rule", rule)),
    }
    match d.band {
        Some(band) if d.code == Code::OutOfBand => {
            out.push_str(&fact("band", format_args!("{band}, which the signal touches and does not lie in")));
        }
        Some(band) => out.push_str(&fact("band", band)),
        None => out.push_str(&fact("band", "none")),
    }
    match d.segment {
        Some(segment) if d.code == Code::SixtyChannel => out.push_str(&fact("channel", segment)),
        Some(segment) => out.push_str(&fact("segment", segment)),
        None => out.push_str(&fact("segment", "none")),
    }
    if let Some(automatic) = d.automatic_segment {
        out.push_str(&fact("automatic", automatic));
    }
    out.push_str(&fact("audio", Hertz(d.audio)));
    out.push_str(&fact("width", Hertz(d.width_hz)));
    if let Some(air) = d.air {
        out.push_str(&fact("on the air", Kilohertz(air)));
    }
    out
}

/// A verdict in one line.
pub fn decision_line(d: &Decision, style: Style) -> String {
    format!("{}: {}.", verdict_word(d.verdict, style), reason(d))
}

// ------------------------------------------------------------------------------------ refusals

/// A refusal, with what is wrong in the table where that is it.
pub fn refusal(
    head: &str,
    refusal: Refusal,
    table: &Table,
    fault: Option<&(Fault, Vec<Field>)>,
    style: Style,
) -> String {
    let what = what_to_do(refusal, fault.is_some_and(|(_, fields)| !fields.is_empty()));
    refusal_with(head, refusal, table, fault, ("", what), style)
}

/// The same with a command's own words: a remark, as lines, and what to do.
pub fn refusal_with(
    head: &str,
    refusal: Refusal,
    table: &Table,
    fault: Option<&(Fault, Vec<Field>)>,
    said: (&str, &str),
    style: Style,
) -> String {
    let mut out = refusal_line(head, refusal, refusal_reason(refusal), style);
    if matches!(refusal, Refusal::ImageLength | Refusal::NoImage | Refusal::Letters | Refusal::Counts) {
        out.push_str(&format!("The image has {}.\n", table.length()));
    }
    if let Some((fault, fields)) = fault {
        if let Some(place) = fault.place {
            out.push_str(&format!("Where: {}.\n", place_words(place, table)));
        }
        for field in fields {
            out.push_str(&format!(
                "  {}, at byte {}: {} ({}); {}\n",
                field.name,
                field.at,
                field.value,
                field.hex(),
                field.wrong
            ));
        }
    }
    out + &format!("{}What to do: {}.\n", said.0, said.1)
}

fn refusal_line(head: &str, refusal: Refusal, reason: &str, style: Style) -> String {
    format!("{}: refusal {}, {reason}.\n", style.bad(head), refusal.number())
}

/// A refusal in a command's own words: why, and what to do.
pub fn refusal_said(head: &str, refusal: Refusal, said: (&str, &str), style: Style) -> String {
    format!("{}What to do: {}.\n", refusal_line(head, refusal, said.0, style), said.1)
}

/// Why, by the program's own measure where it is that.
pub fn refusal_reason(refusal: Refusal) -> &'static str {
    match refusal {
        Refusal::StationFigure => "the dial, a margin or the power is above 2^40 (1099511627776) in size",
        Refusal::Rungs => "there are more than 256 rungs",
        Refusal::Rows => "the dial list has more than the 10,000 rows that there is room for",
        _ => refusal.reason(),
    }
}

/// What to do about a refusal, by the program's own options where they are the way; whether its field is shown.
pub fn what_to_do(refusal: Refusal, shown: bool) -> &'static str {
    match refusal {
        Refusal::NoImage => "give the table's image with --table, and see that the file is whole",
        Refusal::Rungs => "give --rung at most 256 times",
        Refusal::Rows => "have the table made again: its records overlap many times",
        Refusal::StationFigure => "give --dial, --margin and --power again",
        Refusal::SignalEdge => "give the edges again, in hertz of the audio",
        Refusal::CodedByte | Refusal::ImageFigure if shown => {
            "have the table made again with the field as docs/IMAGE.md has it"
        }
        _ => refusal.what_to_do(),
    }
}

fn place_words(place: Place, table: &Table) -> String {
    match place.bytes(&table.image) {
        Some(bytes) => format!("{place}, bytes {} to {}", bytes.start, bytes.end - 1),
        None => place.to_string(),
    }
}

// ------------------------------------------------------------------------------------ ceiling and dials

/// The rungs, each with what becomes of it.
pub fn ceiling(c: &Ceiling, rungs: &[[f64; 2]], control: [f64; 2], style: Style) -> String {
    let mut out = format!(
        "{}\n",
        style.heading(&format!("Ceiling of data, each rung with control frames of {}", pair(control[0], control[1])))
    );
    let allowed = c.rung.map_or(0, |rung| usize::from(rung) + 1);
    let texts: Vec<String> = rungs.iter().map(|rung| pair(rung[0], rung[1]).to_string()).collect();
    let width = texts.iter().map(String::len).max().unwrap_or(0);
    for (i, text) in texts.iter().enumerate() {
        let fate = match &c.limit {
            _ if i < allowed => style.good("may be sent"),
            Some(limit) if i == allowed => format!("{}: {}", style.bad("blocked"), reason(limit)),
            _ => "not asked, above a rung that is blocked".to_owned(),
        };
        out.push_str(&format!("  {:<8}{text:<width$}  {fate}\n", format!("rung {i}")));
    }
    match c.rung {
        None => out.push_str("No rung may be sent.\n"),
        Some(0) => out.push_str("Rung 0 may be sent.\n"),
        Some(rung) => out.push_str(&format!("Rungs 0 to {rung} may be sent.\n")),
    }
    if let Some(limit) = &c.limit {
        let with = if allowed == 0 { "its control frame" } else { "its control frame and the slower rungs" };
        out.push_str(&format!("Rung {allowed} was judged with {with}, {}.\n", Hertz(limit.audio)));
    }
    out
}

/// The columns of a dial list, aligned.
pub fn columns(head: &[&str], rows: &[Vec<String>], left: usize) -> String {
    let width = |i: usize| {
        let cells = rows.iter().map(|row| row[i].chars().count());
        cells.chain([head[i].chars().count()]).max().unwrap_or(0)
    };
    let widths: Vec<usize> = (0..head.len()).map(width).collect();
    let line = |cells: &mut dyn Iterator<Item = &str>| {
        let mut out = String::new();
        for (i, cell) in cells.enumerate() {
            let width = widths[i];
            out.push_str(&if i < left { format!("  {cell:>width$}") } else { format!("  {cell:<width$}") });
        }
        out.truncate(out.trim_end().len());
        out + "\n"
    };
    let mut out = line(&mut head.iter().copied());
    for row in rows {
        out.push_str(&line(&mut row.iter().map(String::as_str)));
    }
    out
}
