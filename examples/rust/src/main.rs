//! Judges the practice table through the crate `pamuklid`: `judge IMAGE` prints one answer to a line.

use std::env;
use std::fs;
use std::process::ExitCode;

use pamuklid::{
    raw, text_at, text_hertz, text_khz, Amendment, Ceiling, Code, Control, Decision, Direction,
    Distance, Edges, Fields, Kind, License, Nearest, Overshoot, Place, Policy, Record, Refusal,
    ReportRow, Sideband, Station, Step, Table, Tables, Verdict, Walk, AMENDMENT, MOST_TEXT,
    REPORT_ROW, ROW,
};

fn station(dial_hz: f64, control: Control, power_w: Option<f64>) -> Station {
    Station {
        policy: Policy::Rules,
        control: Some(control),
        license: Some(License::General),
        sideband: Some(Sideband::Upper),
        itu_region: 2,
        margin_lower_hz: 50.0,
        margin_upper_hz: 50.0,
        dial_hz: Some(dial_hz),
        power_w,
        band_plan: false,
    }
}

fn refusal(r: Refusal) -> String {
    format!("refusal {}", r.number())
}

fn decision(d: &Decision) -> String {
    let overshoot = match d.overshoot {
        Overshoot::NoOvershoot => String::new(),
        Overshoot::Beyond { by_hz, edge } => format!(", beyond the {edge} edge by {by_hz} Hz"),
        Overshoot::TooClose { edge } => format!(", too close to the {edge} edge"),
    };
    format!("{}, code {}{overshoot}", d.verdict.name(), d.code.number())
}

fn answer(a: Result<Decision, Refusal>) -> String {
    a.as_ref().map_or_else(|r| refusal(*r), decision)
}

/// Whether a verdict is blocked.
fn blocked(a: &Result<Decision, Refusal>) -> bool {
    a.as_ref().is_ok_and(|d| d.verdict == Verdict::Blocked)
}

/// Where to move the dial, where data is blocked.
fn print_nearest(s: &Station, direction: Direction, edges: &Edges, image: &[u8]) {
    match pamuklid::nearest_dial(s, direction, edges, image) {
        Ok(Nearest::Dial(dial)) => println!("  move the dial to {dial}"),
        Ok(Nearest::NoneAllowed) => println!("  no dial outside the channel band allows it"),
        Ok(Nearest::NotJudged) => println!("  where to move the dial: not judged"),
        Err(r) => println!("  where to move the dial: {}", refusal(r)),
    }
}

/// The check, the tidy question, and where the table is wrong.
fn print_image(title: &str, image: &[u8]) {
    let checked = pamuklid::check(image).err().map_or(0, Refusal::number);
    let tidy = u8::from(pamuklid::tidy(image) == Ok(true));
    let place = match pamuklid::fault_of(image).err().and_then(|fault| fault.place) {
        None => String::new(),
        Some(Place::General) => ", in the general block".to_owned(),
        Some(Place::Record { table, index }) => {
            format!(", in record {index} of table {}", table.number())
        }
    };
    println!("{title}: refusal {checked}, tidy {tidy}{place}");
}

/// Where the practice table's records begin, see tools/reference/practice.txt.
const BAND_60: usize = 96;
const SEGMENT_60: usize = 160;
const PRIVILEGE_60: usize = 256;
const TRAILER: usize = 352;

fn images(image: &[u8]) {
    print_image("image", image);
    print_image("no bytes", &[]);
    let figure = |x: f64| x.to_bits().to_le_bytes().to_vec();
    let spoilt = [
        ("other letters", TRAILER + 24, vec![b'F']),
        ("reading 3", 41, vec![3]),
        ("class 5 in the second privilege", PRIVILEGE_60 + 25, vec![5]),
        ("infinity as the second band's low end", BAND_60, figure(f64::INFINITY)),
        ("second segment from 8000000 Hz", SEGMENT_60, figure(8_000_000.0)),
        ("second segment up to 8000000 Hz", SEGMENT_60 + 8, figure(8_000_000.0)),
        ("second segment with an own limit of 0", SEGMENT_60 + 27, vec![1]),
        ("general limit 0", 0, figure(0.0)),
        ("second band up to 16000000 Hz", BAND_60 + 8, figure(16_000_000.0)),
    ];
    for (title, at, bytes) in spoilt {
        let mut image = image.to_vec();
        if let Some(place) = image.get_mut(at..at + bytes.len()) {
            place.copy_from_slice(&bytes);
            print_image(title, &image);
        }
    }
}

fn print_row(row: ReportRow) {
    match row {
        ReportRow::Gap { segment, stretch, .. } => {
            let (low, high) = (stretch.low_hz, stretch.high_hz);
            println!("  no privilege for {low} to {high} of segment {segment}");
        }
        ReportRow::Overlap { table, first, second, stretch, .. } => {
            let records = match table {
                Table::Bands => "bands",
                Table::Segments => "segments",
                _ => "privileges",
            };
            let (low, high) = (stretch.low_hz, stretch.high_hz);
            println!("  {records} {first} and {second} share {low} to {high}");
        }
    }
}

/// A table's slips.
fn report(title: &str, image: &[u8], license: u8, row_count: usize) {
    let mut bytes = vec![0; row_count * REPORT_ROW];
    print!("{title}, report for class {license} with room for {row_count}: ");
    let listed = match License::from_number(license) {
        Some(license) => pamuklid::report(image, license, &mut bytes),
        // the crate has no such class, and the library refuses it
        None => {
            let refused = raw::report(image, license, &mut bytes).refusal;
            return println!("refusal {refused}");
        }
    };
    match listed {
        Err(r) => println!("{}", refusal(r)),
        Ok(report) => {
            println!("count {}", report.rows().len());
            report.rows().for_each(print_row);
        }
    }
}

fn reports(image: &[u8]) {
    let (general, extra) = (License::General.number(), License::Extra.number());
    report("image", image, general, 16);
    report("image", image, extra, 16);
    report("image", image, extra, 1);
    report("image", image, extra + 1, 16);
    report("no bytes", &[], extra, 16);
    let mut copy = image.to_vec();
    if let Some(high) = copy.get_mut(BAND_60 + 8..BAND_60 + 16) {
        high.copy_from_slice(&16_000_000.0f64.to_bits().to_le_bytes());
        report("second band up to 16000000 Hz", &copy, general, 16);
    }
}

/// The practice table as it would be typed in, in edition 1.
fn practice_fields() -> Fields {
    Fields {
        edition: 1,
        data_limit: 2_800.0,
        region: 2,
        reading: raw::READING_WIDER,
        flags: raw::PART_ELSEWHERE | raw::PART_RESPONSE | raw::PART_CHANNELS | raw::PART_EMISSIONS,
        elsewhere_limit: 500.0,
        channel_band: 60,
        channel_width: 2_800.0,
        carrier_offset: 1_500.0,
        carrier_tolerance: 50.0,
        sideband: Sideband::Upper.number(),
        emissions: raw::EMISSION_DATA | raw::EMISSION_CW,
        data_rule: 7,
        elsewhere_rule: 8,
        automatic_rule: 9,
        channels_rule: 10,
        emissions_rule: 11,
        privileges_rule: 12,
        ..Fields::default()
    }
}

fn range(low: f64, high: f64) -> Record {
    Record { low, high, ..Record::default() }
}

fn written<'a>(fields: &Fields, out: &'a mut [u8]) -> Result<&'a [u8], Refusal> {
    let general = License::General.number();
    let tables = Tables {
        bands: &[
            Record { band: 20, ..range(14_000_000.0, 14_350_000.0) },
            Record { band: 60, ..range(5_330_000.0, 5_407_000.0) },
        ],
        segments: &[
            Record { band: 20, rule: 13, ..range(14_000_000.0, 14_150_000.0) },
            Record { band: 60, rule: 14, ..range(5_351_500.0, 5_366_500.0) },
        ],
        // by its centre
        channels: &[Record { low: 5_332_000.0, ..Record::default() }],
        privileges: &[
            Record { class: general, ..range(14_025_000.0, 14_150_000.0) },
            Record { class: general, ..range(5_330_000.0, 5_407_000.0) },
        ],
        automatic: &[range(14_095_000.0, 14_099_500.0), range(14_100_500.0, 14_112_000.0)],
        ..Tables::default()
    };
    pamuklid::write(fields, &tables, out)
}

/// An image that was written, raised or lowered, and whether it is the practice image.
fn print_made(title: &str, room: usize, made: Result<&[u8], Refusal>, image: &[u8]) {
    let text = match made {
        Err(r) => refusal(r),
        Ok(bytes) => {
            let whose = if bytes == image { ", the image's" } else { "" };
            format!("{} bytes{whose}", bytes.len())
        }
    };
    println!("{title} with room for {room}: {text}");
}

/// Data on the channel of 60 m.
fn channel(title: &str, watts: f64, image: &[u8]) {
    let s = station(5_330_550.0, Control::Local, Some(watts));
    let edges = Edges::both(1_250.0, 1_750.0);
    let d = pamuklid::evaluate(&s, Kind::Data, Direction::Originate, &edges, image);
    println!("{title}, data at {watts} W, dial 5330550: {}", answer(d));
}

/// The practice table written in edition 1, raised to edition 2 and lowered again; then in edition 2 with
/// other watts, which edition 1 cannot hold.
fn editions(image: &[u8]) {
    const MOST: usize = raw::IMAGE_MOST;
    let (mut first, mut second, mut lowered) = (vec![0; MOST], vec![0; MOST], vec![0; MOST]);
    let fields = practice_fields();
    print_made("edition 1 written", 379, written(&fields, &mut first[..379]), image);
    let one = written(&fields, &mut first);
    print_made("edition 1 written", MOST, one, image);
    let one = one.unwrap_or_default();
    let two = pamuklid::raise(one, &mut second);
    print_made("edition 1 raised", MOST, two, image);
    let two = two.unwrap_or_default();
    channel("edition 1", 100.125, one);
    channel("edition 2", 100.125, two);
    print_made("edition 2 raised", MOST, pamuklid::raise(two, &mut lowered), image);
    print_made("edition 2 lowered", MOST, pamuklid::lower(two, &mut lowered), image);
    let other = Fields { edition: 2, channel_watts: 50.0, segment_watts: 9.15, ..fields };
    let two = written(&other, &mut second);
    print_made("edition 2 of 50 and 9.15 W written", MOST, two, image);
    let two = two.unwrap_or_default();
    channel("edition 2 of 50 and 9.15 W", 100.0, two);
    let low = pamuklid::lower(two, &mut lowered);
    print_made("edition 2 of 50 and 9.15 W lowered", MOST, low, image);
}

/// The first data segment with another upper end, from a day on.
fn amendment(day: u32, high: f64) -> [u8; AMENDMENT] {
    let record = Record { band: 20, rule: 13, ..range(14_000_000.0, high) };
    Amendment { table: Table::Segments, index: 0, day, record }.to_bytes()
}

/// The table of a day, and data judged by it that reaches from 14,099,550 to 14,100,050.
fn amended(image: &[u8], list: &[u8], day: u32, room: usize) {
    let mut lent = vec![0; room];
    let made = pamuklid::amend(image, list, day, &mut lent);
    let title = format!("{} bytes of amendments, day {day},", list.len());
    print_made(&title, room, made, image);
    if let Ok(table) = made {
        let s = station(14_098_300.0, Control::Local, None);
        let edges = Edges::both(1_250.0, 1_750.0);
        let d = pamuklid::evaluate(&s, Kind::Data, Direction::Originate, &edges, table);
        println!("day {day}, data, dial 14098300: {}", answer(d));
    }
}

/// Data up to 14,100,000 Hz from day 20,774 on, and up to 14,120,000 from day 20,819 on.
fn amendments(image: &[u8]) {
    let later = amendment(20_819, 14_120_000.0);
    let list = [amendment(20_774, 14_100_000.0), later].concat();
    amended(image, &list, 20_773, 380);
    amended(image, &list, 20_774, 380);
    amended(image, &list, 20_819, 380);
    amended(image, &list, 20_819, 379);
    amended(image, &list[..list.len() - 1], 20_819, 380);
    // a segment of no length: in force on one day, superseded on the other
    let list = [amendment(20_774, 14_000_000.0), later].concat();
    amended(image, &list, 20_774, 380);
    amended(image, &list, 20_819, 380);
}

/// The seconds on the air of the ten minutes up to each record of a log.
fn times(title: &str, starts: &[u64], lent: usize) {
    let (bands, seconds) = ([20, 20, 40, 20, 20], [60, 30, 45, 15, 100]);
    let n = starts.len();
    let mut totals = vec![0; lent];
    print!("{title}, totals of {n} records with room for {lent}:");
    match pamuklid::airtime(starts, &bands[..n], &seconds[..n], &mut totals) {
        Err(r) => print!(" {}", refusal(r)),
        Ok(()) => totals.iter().for_each(|total| print!(" {total}")),
    }
    println!();
}

/// How many dials of a stretch get each code: the signal with its margin lies 1,200 to 1,800 Hz above a dial.
fn census(image: &[u8], first: i64, last: i64) {
    let s = station(14_100_000.0, Control::Local, None);
    let edges = Edges::both(1_250.0, 1_750.0);
    print!("census from {first} to {last}:");
    match pamuklid::census(&s, Kind::Data, Direction::Originate, &edges, image, first, last) {
        Err(r) => print!(" {}", refusal(r)),
        Ok(c) => (1..=25).filter_map(Code::from_number).for_each(|code| {
            if c.count(code) != 0 {
                print!(" code {} {}", code.number(), c.count(code));
            }
        }),
    }
    println!();
}

fn logs() {
    let starts = [1_000, 1_599, 1_599, 1_600, 2_199];
    let falling = [1_000, 1_599, 1_598, 1_600, 2_199];
    times("log", &starts, 5);
    times("log", &[], 0);
    times("log", &starts, 4);
    times("third start one second early", &falling, 5);
    times("third start one second early", &falling, 4);
}

fn verdicts(image: &[u8]) {
    use Control::{Automatic, Local};
    use Direction::{Originate, Respond, RespondToAutomatic};
    use Kind::{Data, Test};
    let rows = [
        ("data", 14_023_800.0, (1_250.0, 1_750.0), None, Local, Originate, Data),
        ("data", 14_023_799.875, (1_250.0, 1_750.0), None, Local, Originate, Data),
        ("data", 14_148_200.0, (1_250.0, 1_750.0), None, Local, Originate, Data),
        ("data", 14_148_200.125, (1_250.0, 1_750.0), None, Local, Originate, Data),
        // a dial not in eighths
        ("data", 14_148_200.1, (1_250.0, 1_750.0), None, Local, Originate, Data),
        ("data", 14_148_500.0, (1_250.0, 1_750.0), None, Local, Originate, Data),
        ("data", 14_149_000.0, (1_250.0, 1_750.0), None, Local, Originate, Data),
        ("data", 14_100_000.0, (100.0, 2_900.0), None, Local, Originate, Data),
        ("data", 14_100_000.0, (100.0, 2_900.125), None, Local, Originate, Data),
        (
            "automatic, originating",
            14_097_700.0,
            (1_250.0, 1_750.0),
            None,
            Automatic,
            Originate,
            Data,
        ),
        (
            "automatic, originating",
            14_098_000.0,
            (1_250.0, 1_750.0),
            None,
            Automatic,
            Originate,
            Data,
        ),
        (
            "automatic, originating",
            14_098_500.0,
            (1_250.0, 1_750.0),
            None,
            Automatic,
            Originate,
            Data,
        ),
        (
            "automatic, originating",
            14_098_500.125,
            (1_250.0, 1_750.0),
            None,
            Automatic,
            Originate,
            Data,
        ),
        ("automatic, responding", 14_098_000.0, (1_250.0, 1_750.0), None, Automatic, Respond, Data),
        (
            "automatic, responding to automatic",
            14_098_000.0,
            (1_250.0, 1_750.0),
            None,
            Automatic,
            RespondToAutomatic,
            Data,
        ),
        ("data", 5_330_550.0, (1_250.0, 1_750.0), None, Local, Originate, Data),
        ("data", 5_330_550.125, (1_250.0, 1_750.0), None, Local, Originate, Data),
        ("test", 5_330_550.0, (1_250.0, 1_750.0), None, Local, Originate, Test),
        ("data at 100 W", 5_330_550.0, (1_250.0, 1_750.0), Some(100.0), Local, Originate, Data),
        (
            "data at 100.125 W",
            5_330_550.0,
            (1_250.0, 1_750.0),
            Some(100.125),
            Local,
            Originate,
            Data,
        ),
    ];
    for (title, dial, (low, high), power, control, direction, kind) in rows {
        let s = station(dial, control, power);
        let edges = Edges::both(low, high);
        let d = pamuklid::evaluate(&s, kind, direction, &edges, image);
        let ask = kind == Data && blocked(&d);
        println!("{title}, dial {dial}, edges {low} to {high}: {}", answer(d));
        if ask {
            print_nearest(&s, direction, &edges, image);
        }
    }
}

/// Two margins: 14,023,775 + 1,250 - 25 is the lower end of General's privilege; on the lower sideband
/// 14,150,800 - 1,250 + 450 is the upper end of the segment.
fn margins(image: &[u8]) {
    use Sideband::{Lower, Upper};
    for (sideband, word, dial) in [
        (Upper, "upper", 14_023_775.0),
        (Upper, "upper", 14_023_774.875),
        (Lower, "lower", 14_150_800.0),
        (Lower, "lower", 14_150_800.125),
    ] {
        let s = Station {
            sideband: Some(sideband),
            margin_lower_hz: 25.0,
            margin_upper_hz: 450.0,
            ..station(dial, Control::Local, None)
        };
        let edges = Edges::both(1_250.0, 1_750.0);
        let d = pamuklid::evaluate(&s, Kind::Data, Direction::Originate, &edges, image);
        let ask = blocked(&d);
        println!("margins 25 and 450, {word} sideband, dial {dial}: {}", answer(d));
        if ask {
            print_nearest(&s, Direction::Originate, &edges, image);
        }
    }
}

fn climbed(c: &Ceiling) -> String {
    let rung = c.rung.map_or("no rung".to_owned(), |k| format!("rung {k}"));
    let limit = c.limit.map_or("no limit".to_owned(), |d| format!("limit {}", decision(&d)));
    format!("{rung}, {limit}")
}

/// Rungs of 500, 1,000 and 2,900 Hz, all with the ordinary control frame.
const RUNGS: [Edges; 3] =
    [Edges::both(1_250.0, 1_750.0), Edges::both(1_000.0, 2_000.0), Edges::both(0.0, 2_900.0)];
const FLOORS: [bool; 3] = [false; 3];
const CONTROL: Edges = RUNGS[0];

fn ceiling(image: &[u8], rungs: &[Edges]) {
    let s = station(14_100_000.0, Control::Local, None);
    let floors = &FLOORS[..rungs.len()];
    let c = pamuklid::ceiling(&s, Direction::Originate, &CONTROL, &CONTROL, image, rungs, floors);
    let text = c.map_or_else(refusal, |c| climbed(&c));
    println!("ceiling of {} rungs, dial 14100000: {text}", rungs.len());
}

fn step(walk: Walk, images: [&[u8]; 2]) -> Result<Step, Refusal> {
    let s = station(14_100_000.0, Control::Local, None);
    walk.step(&s, Direction::Originate, &CONTROL, &CONTROL, images, &RUNGS, &FLOORS)
}

/// To the other table. A refusal leaves the state as it was.
fn swapped(walk: Walk) -> Walk {
    match walk.swap() {
        Err(r) => {
            println!("swap: {}", refusal(r));
            walk
        }
        Ok(next) => {
            let waits = if next.is_waiting() { "waits, " } else { "" };
            println!("swap: {waits}image {} in force", next.image());
            next
        }
    }
}

/// A modem's loop: opens a walk, and steps until it is over. A table comes after so many steps, if not 0.
fn walk(walk: Walk, images: [&[u8]; 2], comes: usize) -> Result<Walk, Refusal> {
    let mut walk = walk.open()?;
    for steps in 1.. {
        let next = step(walk, images)?;
        let over = if next.over { ", over" } else { "" };
        println!(
            "walk under image {}, step {steps}{over}: {}",
            walk.image(),
            climbed(&next.ceiling)
        );
        walk = next.state;
        if next.over {
            break;
        }
        if steps == comes {
            // the second meets one that waits
            walk = swapped(swapped(walk));
        }
    }
    Ok(walk)
}

/// The first walk finishes under the table that it began with, the next begins under the new one: the practice
/// table with a general width limit of 600 Hz.
fn walks(image: &[u8]) -> Result<(), Refusal> {
    let mut loaded = image.to_vec();
    loaded[..8].copy_from_slice(&600.0f64.to_bits().to_le_bytes());
    let images = [image, &loaded[..]];
    let first = Walk::first();
    let none = step(first, images).map_or_else(refusal, |step| climbed(&step.ceiling));
    println!("no walk, step: {none}");
    let next = walk(first, images, 1)?;
    swapped(walk(next, images, 0)?);
    Ok(())
}

fn list(image: &[u8], row_count: usize) {
    let mut bytes = vec![0; row_count * ROW];
    let s = station(14_100_000.0, Control::Automatic, None);
    let edges = Edges::both(1_250.0, 1_750.0);
    print!("automatic, originating, list with room for {row_count}: ");
    match pamuklid::safe_dials(&s, Direction::Originate, &edges, image, &mut bytes) {
        Err(r) => println!("{}", refusal(r)),
        Ok(list) => {
            println!("{} rows", list.rows().len());
            for row in list.rows() {
                println!(
                    "  dials {} to {}, segment {} to {}, band {}",
                    row.dial.low_hz,
                    row.dial.high_hz,
                    row.segment.low_hz,
                    row.segment.high_hz,
                    row.band
                );
            }
        }
    }
}

/// The list is made once, and every dial is asked of it.
fn distances(image: &[u8], title: &str, sideband: Option<Sideband>, dials: &[f64]) {
    let mut bytes = [0; 16 * ROW];
    let s = Station { sideband, ..station(14_100_000.0, Control::Automatic, None) };
    let edges = Edges::both(1_250.0, 1_750.0);
    let list = match pamuklid::safe_dials(&s, Direction::Originate, &edges, image, &mut bytes) {
        Err(r) => return println!("{title}: {}", refusal(r)),
        Ok(list) => list,
    };
    for &dial in dials {
        let text = match list.distance(dial) {
            Err(r) => refusal(r),
            Ok(Distance::Hz(hertz)) => format!("{hertz} Hz"),
            Ok(Distance::NoneListed) => "none listed".to_owned(),
        };
        println!("{title}, distance of dial {dial}: {text}");
    }
}

type TextCall = fn(f64, &mut [u8]) -> Result<&str, Refusal>;

/// A figure as a panel shows it.
fn panel(title: &str, hz: f64, call: TextCall, room: usize, unit: &str) {
    let mut bytes = [0; MOST_TEXT];
    let text = match call(hz, &mut bytes[..room]) {
        Err(r) => refusal(r),
        Ok(digits) => format!("{digits} {unit}"),
    };
    println!("panel, {title} {hz} in {room} bytes: {text}");
}

fn panels() {
    panel("dial", 14_097_700.0, text_at, MOST_TEXT, "kHz");
    panel("dial", 14_097_700.0, text_at, 8, "kHz");
    panel("dial", 1e13, text_at, MOST_TEXT, "kHz");
    panel("end of a segment", 14_099_500.0, text_khz, MOST_TEXT, "kHz");
    panel("width", 500.0, text_hertz, MOST_TEXT, "Hz");
}

fn main() -> ExitCode {
    let Some(Ok(image)) = env::args_os().nth(1).map(fs::read) else {
        eprintln!("usage: judge IMAGE");
        return ExitCode::from(2);
    };
    println!("version {}", raw::version());
    images(&image);
    reports(&image);
    editions(&image);
    amendments(&image);
    verdicts(&image);
    margins(&image);
    ceiling(&image, &RUNGS);
    ceiling(&image, &[]);
    if let Err(r) = walks(&image) {
        println!("walk: {}", refusal(r));
    }
    list(&image, 16);
    list(&image, 1);
    let dials = [14_097_700.0, 14_098_000.0, 14_093_799.0, 2e12];
    distances(&image, "automatic, originating", Some(Sideband::Upper), &dials);
    distances(&image, "sideband absent", None, &dials[..1]);
    panels();
    logs();
    census(&image, 14_095_000, 14_151_000);
    census(&image, 2, 1);
    let s = station(14_100_000.0, Control::Local, None);
    println!("spectrum not known: {}", answer(pamuklid::unmeasured(&s, &image)));
    let edges = Edges::both(1_250.0, 1_750.0);
    let d = pamuklid::evaluate(&s, Kind::Data, Direction::Originate, &edges, &[]);
    println!("no image: {}", answer(d));
    print_nearest(&s, Direction::Originate, &edges, &[]);
    ExitCode::SUCCESS
}
