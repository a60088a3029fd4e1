//! Pamuklid is a transmit gate: before each keying it says whether a transmission is lawful under
//! 47 CFR Part 97, by a trustee's rules table (the *image*, bytes), the station's record and the
//! measured edges of the signal. The gate itself is `libpamuklid.a`, proved; this crate wraps its
//! calls in safe functions with enums, and has every answer in words. It has no dependencies and
//! allocates nothing.
//!
//! | call | answer |
//! |---|---|
//! | [`version`] | the version of the library |
//! | [`check`] | whether an image is accepted |
//! | [`fault_of`] | where a table is wrong |
//! | [`tidy`] | whether an image's table is tidy |
//! | [`report`] | where records of a table overlap, and where a class has no privilege for data |
//! | [`write()`] | an image from its fields and its records |
//! | [`raise`], [`lower`] | an image of one edition as one of the other |
//! | [`amend`] | an image with the amendments of a list that are in force on a day |
//! | [`Station::fresh`] | a fresh station, in region 2 with margins of 50 Hz: it permits nothing |
//! | [`evaluate`] | the verdict on a transmission |
//! | [`unmeasured`] | the answer for a signal whose spectrum is not known |
//! | [`ceiling`] | the fastest rung that may be sent |
//! | [`Walk`] | the same, a rung at a time, while another table is loaded |
//! | [`safe_dials`] | the dials at which a signal stays inside the rules |
//! | [`DialList::distance`], [`distance`] | how far a dial stands from those of a list |
//! | [`nearest_dial`] | where to move the dial: the nearest at which data is allowed |
//! | [`text_at`], [`text_khz`] | a frequency's text, kilohertz: three decimals, or as many as it needs |
//! | [`text_hertz`] | a figure's text, whole hertz |
//! | [`census`] | how many dials of a stretch get each code |
//! | [`airtime`] | of each record of a log the seconds on the air of the ten minutes up to it |
//!
//! No call keeps what it is lent or has a state of its own: equal arguments give equal answers, and
//! calls may run at once on several threads. The state of a [`Walk`] is a value that its caller keeps.
//! Images, records, amendments, edges, rungs and logs are only read.
//! Frequencies are in hertz, power in watts. Every figure is accepted as an argument, NaN and infinities
//! too; what is outside its values is answered by a [`Refusal`].
//!
//! **Send only what was judged and not blocked**: a refusal is not a verdict, and nothing may be
//! sent on it.
//!
//! Each enum has its numbers (`number`, `from_number`) and short names (`name`, `from_name`, `parse`)
//! and, by `Display`, a clause in words; [`Code`] and [`Refusal`] have `reason` and `what_to_do`. A whole
//! [`Decision`] or [`Ceiling`] is sentences that an operator understands: on one line with `{}`, a line
//! for each with `{:#}`. [`raw`] is the bare boundary, in numbers.
//!
//! Frequencies in words are the texts of these calls: dials and edges on the air as
//! [`Kilohertz`], ranges of the table as short as [`Range`] has them, widths, distances and audio as
//! [`Hertz`]. A text has whole hertz: a figure that is not whole is shown with `about` before it.
//!
//! ```
//! use pamuklid::{evaluate, Code, Direction, Edges, Kind, Policy, Refusal, Station, Verdict};
//!
//! let mut station = Station {
//!     policy: Policy::NoRules,
//!     control: None,
//!     license: None,
//!     sideband: None,
//!     itu_region: 2,
//!     margin_lower_hz: 50.0,
//!     margin_upper_hz: 50.0,
//!     dial_hz: Some(14_100_000.0),
//!     power_w: None,
//!     band_plan: false,
//! };
//! let edges = Edges::both(1_250.0, 1_750.0);
//! // A station outside the rules' reach: no image is looked at.
//! let answer = evaluate(&station, Kind::Data, Direction::Originate, &edges, &[])?;
//! assert_eq!((answer.verdict, answer.code), (Verdict::Legal, Code::NoRules));
//! assert!(answer.allowed());
//! assert_eq!(
//!     answer.to_string(),
//!     "May be sent: the station is set to send without rules (code 3, no_rules). \
//!      The signal is 500 Hz wide."
//! );
//! // Under rules an image is needed.
//! station.policy = Policy::Rules;
//! let answer = evaluate(&station, Kind::Data, Direction::Originate, &edges, &[]);
//! assert_eq!(answer, Err(Refusal::NoImage));
//! # Ok::<(), Refusal>(())
//! ```
//!
//! # Panics
//!
//! A call panics if the library that is linked is not of the version that this crate was written for
//! ([`VERSION`]): each asks before it goes to the library, the first time, and so does the text of a
//! frequency. [`version`] alone does not.

#![deny(missing_docs)]
#![deny(unsafe_op_in_unsafe_fn)]

mod amend;
mod answer;
mod census;
mod codes;
mod dials;
mod fault;
pub mod raw;
mod report;
mod station;
mod texts;
mod version;
mod walk;
mod words;
mod write;

pub use amend::{amend, Amendment, AMENDMENT};
pub use answer::{Ceiling, Decision, PowerNotes, Range, Segment, SixtyNotes};
pub use census::Census;
pub use codes::{
    Code, Control, Direction, Edge, Guidance, Kind, License, Overshoot, Policy, Refusal, Rule,
    Sideband, UnknownName, Verdict,
};
pub use dials::{DialList, DialRow, DialRows, Distance, Nearest, ROW};
pub use fault::{Fault, Place, Table};
pub use raw::{Edges, CODES, MOST_DIALS, MOST_LOG};
pub use report::{Report, ReportRow, ReportRows, MOST_REPORT, REPORT_ROW};
pub use station::Station;
pub use texts::{text_at, text_hertz, text_khz, MOST_TEXT};
pub use version::{version, Version, VERSION};
pub use walk::{Step, Walk};
pub use words::{Hertz, Kilohertz};
pub use write::{write, Fields, Record, Tables};

/// Whether an image is accepted; else the first of the refusals 1 to 14 that it meets.
///
/// ```
/// assert_eq!(pamuklid::check(&[]), Err(pamuklid::Refusal::ImageLength));
/// ```
pub fn check(image: &[u8]) -> Result<(), Refusal> {
    version::checked();
    codes::refused(raw::check(image))
}

/// Where a table is wrong: the refusal that [`check`] has for its image, with the part of the image that
/// it is about, where it is about one. `Ok(())` where the image is accepted.
///
/// ```
/// use pamuklid::{fault_of, Fault, Refusal};
///
/// assert_eq!(fault_of(&[]), Err(Fault { refusal: Refusal::ImageLength, place: None }));
/// ```
pub fn fault_of(image: &[u8]) -> Result<(), Fault> {
    version::checked();
    fault::fault(&raw::fault_of(image))
}

/// Whether the table of an image is tidy: each data segment lies in a band of its number, and no two
/// bands, no two segments and no two privileges of one class share a stretch. Refusals 1 to 14.
///
/// A table that is not tidy is judged all the same; the dial list and the verdict may then differ.
/// Where it overlaps, [`report`] says.
pub fn tidy(image: &[u8]) -> Result<bool, Refusal> {
    version::checked();
    let flat = raw::tidy(image);
    codes::refused(flat.refusal)?;
    Ok(codes::marked("tidy mark", flat.tidy))
}

/// What a trustee should see of a table before it is loaded: every pair of bands, of data segments or of
/// privileges of one class that shares a stretch of positive length, whatever class is asked for; and every
/// stretch of a data segment that no privilege of the class `license` covers, whatever emissions a privilege
/// lists. Ranges that only touch share nothing, and leave no gap between them.
///
/// The rows are written into the bytes lent, [`REPORT_ROW`] bytes each, and read from there.
/// [`MOST_REPORT`] rows have room for every report. Bytes past the last row stay as they were; on a
/// refusal every byte does. Refusals 1 to 14, then 25 ([`Refusal::Report`]: the report is longer than the
/// whole rows lent; lend more).
///
/// A table is [`tidy`] exactly if no two records overlap, and each data segment lies in a band of its
/// number.
///
/// ```
/// use pamuklid::{report, License, Refusal};
///
/// assert_eq!(report(&[], License::General, &mut []).err(), Some(Refusal::ImageLength));
/// ```
pub fn report<'a>(
    image: &[u8],
    license: License,
    rows: &'a mut [u8],
) -> Result<Report<'a>, Refusal> {
    version::checked();
    let flat = raw::report(image, license.number(), rows);
    codes::refused(flat.refusal)?;
    let bytes: &'a [u8] = rows;
    Ok(Report::new(&bytes[..REPORT_ROW * flat.count as usize]))
}

/// Writes edition 2 of an image of edition 1, with 100 and 9.15 as its watts, into the bytes lent, and gives
/// its bytes back. Every call answers the same for it, and [`lower`] gives the first bytes back.
///
/// [`raw::IMAGE_MOST`] bytes have room for every image. Bytes past it stay as they were; on a refusal every
/// byte does. Refusals 1, 2, 3 ([`Refusal::Edition`], an image of edition 2 too), 4 to 14, then 23
/// ([`Refusal::Rows`]: the image is longer than the bytes lent).
///
/// ```
/// assert_eq!(pamuklid::raise(&[], &mut []), Err(pamuklid::Refusal::ImageLength));
/// ```
pub fn raise<'a>(image: &[u8], out: &'a mut [u8]) -> Result<&'a [u8], Refusal> {
    version::checked();
    let flat = raw::raise(image, out);
    codes::refused(flat.refusal)?;
    Ok(&out[..flat.length as usize])
}

/// Writes edition 1 of an image of edition 2, whose watts must be 100 and 9.15, into the bytes lent, and gives
/// its bytes back.
///
/// Bytes as with [`raise`]. Refusals 1, 2, 3 ([`Refusal::Edition`], an image of edition 1 too), 4 to 14, 26
/// ([`Refusal::Watts`]: edition 1 can't hold others), then 23.
pub fn lower<'a>(image: &[u8], out: &'a mut [u8]) -> Result<&'a [u8], Refusal> {
    version::checked();
    let flat = raw::lower(image, out);
    codes::refused(flat.refusal)?;
    Ok(&out[..flat.length as usize])
}

/// Judges a transmission: one that a station would send in a direction, of a kind, with these audio
/// edges. Refusals 20 to 22, 1 to 14, 15. The image is read under [`Policy::Rules`] only.
pub fn evaluate(
    station: &Station,
    kind: Kind,
    direction: Direction,
    edges: &Edges,
    image: &[u8],
) -> Result<Decision, Refusal> {
    version::checked();
    let flat = raw::evaluate(station.flat(), kind.number(), direction.number(), *edges, image);
    answer::decision(&flat)
}

/// The answer for a transmission whose spectrum is not known: blocked, [`Code::Unmeasured`], under
/// every policy. Refusals 20 to 22, 1 to 14.
pub fn unmeasured(station: &Station, image: &[u8]) -> Result<Decision, Refusal> {
    version::checked();
    answer::decision(&raw::unmeasured(station.flat(), image))
}

/// The fastest rung that may be sent, and the answer on the first that may not.
///
/// Rungs are given from the slowest on, at most 256. Beside each stands whether it goes with the
/// `floor` control frame (else with the `ordinary` one); `floors` is as long as `rungs`. Each rung is
/// judged as data, with its control frame and all that the slower ones occupy, up to the first that
/// is blocked. Refusals 20 to 22, 1 to 14, 15 (a figure of the rungs or of the control frames), 16
/// (more than 256 rungs, or floors of another length).
pub fn ceiling(
    station: &Station,
    direction: Direction,
    ordinary: &Edges,
    floor: &Edges,
    image: &[u8],
    rungs: &[Edges],
    floors: &[bool],
) -> Result<Ceiling, Refusal> {
    version::checked();
    let (rungs, floors) = (raw::figures(rungs), raw::bytes(floors));
    let (s, direction) = (station.flat(), direction.number());
    answer::ceiling(&raw::ceiling(s, direction, *ordinary, *floor, image, rungs, floors))
}

/// The dials at which a data signal of these edges stays inside the rules, the margins to spare, as
/// rows by their lower dial.
///
/// The rows are written into the bytes lent, [`ROW`] bytes each, and read from there. Bytes past the
/// last row stay as they were; on a refusal every byte does. The station's dial is not asked for.
/// Without [`Policy::Rules`], or with control, license or sideband absent, the list is empty.
/// Refusals 20 to 22, 1 to 14, 15, 23 ([`Refusal::Rows`]: the list is longer than the whole rows lent;
/// lend more).
///
/// The list answers for its rows and for the distance of a dial from them ([`DialList::distance`]).
pub fn safe_dials<'a>(
    station: &Station,
    direction: Direction,
    edges: &Edges,
    image: &[u8],
    rows: &'a mut [u8],
) -> Result<DialList<'a>, Refusal> {
    version::checked();
    let flat = raw::safe_dials(station.flat(), direction.number(), *edges, image, rows);
    codes::refused(flat.refusal)?;
    let bytes: &'a [u8] = rows;
    Ok(DialList::new(&bytes[..ROW * flat.count as usize], image))
}

/// How far a dial stands from the nearest of the first `count` rows of a list, by its parts. Where the
/// [`DialList`] is still at hand, [`DialList::distance`] has them right; this is for rows that were
/// kept as bytes.
///
/// `flags` and `channel_band` are the bytes [`raw::IMAGE_FLAGS`] (42) and [`raw::IMAGE_CHANNEL_BAND`] (43) of
/// the image that the list was made by:
/// under flag bit 2, rows of the band `channel_band` do not count. Rows are only read; past `count`
/// they are not looked at. Refusals 21 ([`Refusal::StationFigure`]: the dial is not finite or above
/// 2^40 in size), then 23 ([`Refusal::Rows`]: fewer than `count` whole rows are lent).
///
/// ```
/// use pamuklid::{distance, Distance, Refusal};
///
/// assert_eq!(distance(14_100_000.0, 0, 0, 0, &[]), Ok(Distance::NoneListed));
/// assert_eq!(distance(14_100_000.0, 0, 0, 1, &[]), Err(Refusal::Rows));
/// ```
pub fn distance(
    dial_hz: f64,
    flags: u8,
    channel_band: u8,
    count: u32,
    rows: &[u8],
) -> Result<Distance, Refusal> {
    version::checked();
    let flat = raw::distance(dial_hz, flags, channel_band, count, rows);
    codes::refused(flat.refusal)?;
    let value = Distance::from_numbers(flat.listed, flat.distance_hz);
    Ok(codes::known("listed mark", flat.listed, value))
}

/// Where to move the dial. Of the dials in whole eighths of a hertz whose signal with its margins the channel
/// band (60 m) does not hold: the one at which [`evaluate`] allows data and no such dial is closer to the
/// station's; of two equally close the lower. It is the station's dial itself where that is one of them. The
/// station's dial may lie in the channel band; what is allowed there does not count.
///
/// The answer is [`Nearest::NotJudged`] where nothing is refused and one of these fails, and only there:
///
/// - the policy is [`Policy::Rules`], and the table is [`tidy`];
/// - the station is in the table's region, and its control, license, sideband and dial are known;
/// - the width of the edges that the table reads, plus both margins, is above 0;
/// - every figure in hertz is a whole number of eighths and at most 2^38 in size: those of the image (with the
///   plan off too; watts are none), of both pairs of edges, of the margins and of the dial.
///
/// The image is read under [`Policy::Rules`] only. Refusals 20 to 22, 1 to 14, 15.
///
/// ```
/// use pamuklid::{nearest_dial, Control, Direction, Edges, License, Nearest, Policy, Sideband, Station};
///
/// # let table = concat!(env!("CARGO_MANIFEST_DIR"), "/../../tools/reference/practice.bin");
/// # let image = std::fs::read(table).unwrap();
/// // General on the practice table, 250 Hz beyond the upper edge of the data segment of 20 m
/// let mut station = Station {
///     policy: Policy::Rules,
///     control: Some(Control::Local),
///     license: Some(License::General),
///     sideband: Some(Sideband::Upper),
///     itu_region: 2,
///     margin_lower_hz: 50.0,
///     margin_upper_hz: 50.0,
///     dial_hz: Some(14_148_500.0),
///     power_w: None,
///     band_plan: false,
/// };
/// let edges = Edges::both(1_250.0, 1_750.0);
/// let nearest = nearest_dial(&station, Direction::Originate, &edges, &image)?;
/// assert_eq!(nearest, Nearest::Dial(14_148_200.0));
/// assert_eq!(nearest.to_string(), "the nearest dial for data is 14148.200 kHz");
/// // The table has privileges for General alone.
/// station.license = Some(License::Novice);
/// let nearest = nearest_dial(&station, Direction::Originate, &edges, &image)?;
/// assert_eq!(nearest, Nearest::NoneAllowed);
/// // No dial to move from.
/// station.dial_hz = None;
/// let nearest = nearest_dial(&station, Direction::Originate, &edges, &image)?;
/// assert_eq!(nearest, Nearest::NotJudged);
/// # Ok::<(), pamuklid::Refusal>(())
/// ```
pub fn nearest_dial(
    station: &Station,
    direction: Direction,
    edges: &Edges,
    image: &[u8],
) -> Result<Nearest, Refusal> {
    version::checked();
    let flat = raw::nearest_dial(station.flat(), direction.number(), *edges, image);
    codes::refused(flat.refusal)?;
    let value = Nearest::from_numbers(flat.answer, flat.dial_hz);
    Ok(codes::known("nearest dial", flat.answer, value))
}

/// A census of a band, for whoever compares tables: how many of the whole-hertz dials from `first` to
/// `last`, both included, get each code. Each is judged as [`evaluate`] would with it as the station's dial;
/// the station's own is not looked at.
///
/// The total of the counts is `last - first + 1`, and the counts of a stretch in two parts add up to those of
/// the whole: a longer one than [`MOST_DIALS`] is asked in parts. The image is checked once, and is read
/// under [`Policy::Rules`] only. Refusals 20 to 22, 1 to 14, 15, 33 ([`Refusal::Stretch`]: `first` above
/// `last`, or more dials than [`MOST_DIALS`]), 34 ([`Refusal::FarDial`]: above 2^40 in size).
pub fn census(
    station: &Station,
    kind: Kind,
    direction: Direction,
    edges: &Edges,
    image: &[u8],
    first: i64,
    last: i64,
) -> Result<Census, Refusal> {
    version::checked();
    let (s, kind, direction) = (station.flat(), kind.number(), direction.number());
    let flat = raw::census(s, kind, direction, *edges, image, first, last);
    codes::refused(flat.refusal)?;
    Ok(Census::of(flat.counts))
}

/// Time on the air, for a limit on how long a station holds a shared channel. Record `i` of a log began at
/// `starts[i]`, a second on any clock, on `bands[i]`, any number, and lasted `seconds[i]`; `totals[i]` is
/// then the seconds of its band over itself and the earlier records that start at most 599 seconds before it.
/// Of records that start in the same second those before it in the log count.
///
/// Every total is written; on a refusal none is. Refusals 31 ([`Refusal::Starts`]: a start is below the one
/// before it; equal ones are in order), then 32 ([`Refusal::Runs`]: the four are not of one length, or longer
/// than [`MOST_LOG`]).
///
/// ```
/// use pamuklid::{airtime, Refusal};
///
/// let (bands, seconds, mut totals) = ([20, 20, 40, 20], [60, 30, 45, 15], [0; 4]);
/// airtime(&[0, 300, 300, 600], &bands, &seconds, &mut totals)?;
/// assert_eq!(totals, [60, 90, 45, 45]);
/// assert_eq!(airtime(&[1, 0], &bands, &seconds, &mut totals), Err(Refusal::Starts));
/// assert_eq!(airtime(&[0, 1], &bands, &seconds, &mut totals), Err(Refusal::Runs));
/// # Ok::<(), Refusal>(())
/// ```
pub fn airtime(
    starts: &[u64],
    bands: &[u8],
    seconds: &[u16],
    totals: &mut [u64],
) -> Result<(), Refusal> {
    version::checked();
    codes::refused(raw::airtime(starts, bands, seconds, totals).refusal)
}
