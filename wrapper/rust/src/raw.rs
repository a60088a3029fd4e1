//! The bare boundary: the library's structs and calls, as `include/pamuklid.h` has them for C, with
//! slices in place of pointer and count. All is numbers here; the rest of the crate gives them names.
//! For drivers and tests that want the answers bit by bit. Nothing is checked: ask once whether
//! [`version`] is [`VERSION`].
//!
//! The only file with unsafe code: each call lends slices as pointer and count, and the library
//! promises to follow them no further, to keep none, and to write the dial rows, the rows of a report,
//! the texts, the totals and the images alone.

use std::mem::size_of;

/// The version of the library that this crate was written for: major * 10000 + minor * 100 + patch.
pub const VERSION: u32 = 1400;
/// A control, license or sideband that is not known.
pub const ABSENT: u8 = 255;
/// The rung of a ceiling that has none.
pub const RUNG_NONE: i32 = -1;
/// The table of a fault that names no record.
pub const TABLE_NONE: u8 = 255;
/// The record of a fault that names none.
pub const RECORD_NONE: u16 = 65_535;
/// The marks in the notes of an answer: one for each power record that a table can have at most.
pub const MOST_NOTES: usize = 256;
/// The most rungs that a climb can have.
pub const MOST_RUNGS: usize = 256;
/// The figures of a rung.
pub const RUNG_FIGURES: usize = 4;
/// The bytes of a dial row.
pub const ROW: usize = 36;
/// The most rows that a dial list can have.
pub const MOST_ROWS: usize = 16_777_472;
/// The bytes of a row of a table's report.
pub const REPORT_ROW: usize = 24;
/// The most rows that a table's report can have.
pub const MOST_REPORT: usize = 131_072;
/// The kind of a report's row: a stretch of a data segment that no privilege of the class covers. The other
/// kinds are the numbers of their tables.
pub const REPORT_GAP: u8 = 255;
/// The bytes of an amendment.
pub const AMENDMENT: usize = 40;
/// The bytes of the longest text.
pub const MOST_TEXT: usize = 15;
/// The most records of a log.
pub const MOST_LOG: usize = 65_536;
/// The most dials of a census.
pub const MOST_DIALS: usize = 1_000_000;
/// The codes, and the counts of a census.
pub const CODES: usize = 25;
/// The least bytes of an image, of either edition.
pub const IMAGE_LEAST: usize = 92;
/// The most bytes of an image, of either edition.
pub const IMAGE_MOST: usize = 65_552;
/// The bytes of an image's general block, in edition 1.
pub const IMAGE_GENERAL: usize = 64;
/// How many bytes more edition 2 has there: two watts.
pub const IMAGE_WATTS: usize = 16;
/// The bytes of each record of an image.
pub const IMAGE_RECORD: usize = 32;
/// The bytes of an image's trailer.
pub const IMAGE_TRAILER: usize = 28;
/// The most records that a table of an image can have.
pub const MOST_RECORDS: usize = 256;
/// The most records that all nine tables of an image can have.
pub const IMAGE_MOST_RECORDS: usize = 2_045;
/// The tables of an image.
pub const TABLES: usize = 9;
/// The figures of a record: low, high, figure.
pub const RECORD_FIGURES: usize = 3;
/// The codes of a record: band, class, emissions, flags.
pub const RECORD_CODES: usize = 4;
/// The rules of a record: rule, second rule.
pub const RECORD_RULES: usize = 2;
/// The offset of an image's flags, which the distance of a dial asks for.
pub const IMAGE_FLAGS: usize = 42;
/// The offset of the number of an image's channel band, which the distance of a dial asks for.
pub const IMAGE_CHANNEL_BAND: usize = 43;
/// Reading of an image: the edges by power count.
pub const READING_POWER: u8 = 0;
/// Reading of an image: the edges by spectrum count.
pub const READING_SPECTRAL: u8 = 1;
/// Reading of an image: the lower low edge and the higher high edge of both count.
pub const READING_WIDER: u8 = 2;
/// Flag of an image: it has a rule for automatic control outside the automatic segments, §97.221(c).
pub const PART_ELSEWHERE: u8 = 1;
/// Flag of an image: that control is only in answer to a station under local or remote control; not
/// without [`PART_ELSEWHERE`].
pub const PART_RESPONSE: u8 = 2;
/// Flag of an image: it has the channels of 60 m.
pub const PART_CHANNELS: u8 = 4;
/// Flag of an image: it has the emissions of 60 m.
pub const PART_EMISSIONS: u8 = 8;
/// Flag of an image: it has the voluntary band plan.
pub const PART_PLAN: u8 = 16;
/// Emission of an image: data.
pub const EMISSION_DATA: u8 = 1;
/// Emission of an image: CW.
pub const EMISSION_CW: u8 = 2;
/// Emission of an image: a test.
pub const EMISSION_TEST: u8 = 4;
/// Emission of an image: a keying without audio.
pub const EMISSION_NOTHING: u8 = 8;

/// The station's record. Negative zero in a figure reads as zero.
#[repr(C)]
#[derive(Clone, Copy, Debug)]
pub struct Station {
    /// Hertz that are kept free below the signal on the air, on either sideband; may be negative.
    pub margin_lower_hz: f64,
    /// Hertz that are kept free above it; may be negative.
    pub margin_upper_hz: f64,
    /// The radio's dial; not looked at where `dial_known` is 0.
    pub dial_hz: f64,
    /// The transmit power; not looked at where `power_known` is 0.
    pub power_w: f64,
    /// [`Policy`](crate::Policy), by its number.
    pub policy: u8,
    /// [`Control`](crate::Control), by its number; or [`ABSENT`].
    pub control: u8,
    /// [`License`](crate::License), by its number; or [`ABSENT`].
    pub license: u8,
    /// [`Sideband`](crate::Sideband), by its number; or [`ABSENT`].
    pub sideband: u8,
    /// Any number; compared with the image's.
    pub itu_region: u8,
    /// 1 to hear the voluntary band plan, 0 not.
    pub band_plan: u8,
    /// 1 or 0.
    pub dial_known: u8,
    /// 1 or 0.
    pub power_known: u8,
}

/// The audio edges of a signal, in hertz, under the two readings of §97.3(a)(8): where the power
/// outside falls below a share of the whole, and where the spectrum falls below a level. The image
/// says which is judged. A low edge above the high one is accepted. Negative zero reads as zero.
#[repr(C)]
#[derive(Clone, Copy, Debug, PartialEq)]
pub struct Edges {
    /// The lower edge by power.
    pub power_low: f64,
    /// The upper edge by power.
    pub power_high: f64,
    /// The lower edge by spectrum.
    pub spectral_low: f64,
    /// The upper edge by spectrum.
    pub spectral_high: f64,
}

/// What an image is written from, beside its records: its edition, its general block, and how many records
/// each table has. [`Fields`](crate::Fields) says what each means; that has no counts.
#[repr(C)]
#[derive(Clone, Copy, Debug, Default)]
pub struct Fields {
    /// The general width limit.
    pub data_limit: f64,
    /// The width limit outside the automatic segments.
    pub elsewhere_limit: f64,
    /// The width of a 60 m channel.
    pub channel_width: f64,
    /// What the dial for data on a channel is below its centre.
    pub carrier_offset: f64,
    /// How far the dial may be off.
    pub carrier_tolerance: f64,
    /// The watts of a 60 m channel; not looked at in edition 1.
    pub channel_watts: f64,
    /// The watts of the 60 m segment; not looked at in edition 1.
    pub segment_watts: f64,
    /// 1 or 2.
    pub edition: u16,
    /// The rule of the general width limit: [`Rule`](crate::Rule), by its number, as the next five.
    pub data_rule: u16,
    /// That of control outside the automatic segments.
    pub elsewhere_rule: u16,
    /// That of the automatic segments.
    pub automatic_rule: u16,
    /// That of the channels.
    pub channels_rule: u16,
    /// That of the emissions of 60 m.
    pub emissions_rule: u16,
    /// That of the privileges.
    pub privileges_rule: u16,
    /// How many records each [`Table`](crate::Table) has, by its number.
    pub counts: [u16; TABLES],
    /// The ITU region.
    pub region: u8,
    /// [`READING_POWER`], [`READING_SPECTRAL`] or [`READING_WIDER`].
    pub reading: u8,
    /// [`PART_ELSEWHERE`] and its like, added up.
    pub flags: u8,
    /// The number of the 60 m band.
    pub channel_band: u8,
    /// The [`Sideband`](crate::Sideband) of the channels, by its number.
    pub sideband: u8,
    /// [`EMISSION_DATA`] and its like, added up.
    pub emissions: u8,
}

/// An answer. A part that is absent is all zero. A refusal has `refusal`, verdict 2 and all else zero.
/// A zeroed answer has verdict 0, legal: take it from a call.
#[repr(C)]
#[derive(Clone, Copy)]
pub struct Decision {
    /// The segment, or the channel, that the signal was judged against.
    pub segment_low: f64,
    /// Its upper end.
    pub segment_high: f64,
    /// The automatic segment (§97.221) that it was judged against.
    pub automatic_low: f64,
    /// Its upper end.
    pub automatic_high: f64,
    /// The audio edges that were judged: the lower.
    pub audio_low: f64,
    /// The upper.
    pub audio_high: f64,
    /// `audio_high` less `audio_low`; may be negative.
    pub width: f64,
    /// The edges on the air, where dial and sideband are known: the lower.
    pub air_low: f64,
    /// The upper.
    pub air_high: f64,
    /// How far outside the segment; overshoot 1 only.
    pub beyond_hz: f64,
    /// The reason's [`Rule`](crate::Rule), by its number.
    pub rule: u16,
    /// The segment's.
    pub segment_rule: u16,
    /// The plan record; guidance 1 and 2 only.
    pub guidance_index: u16,
    /// 0 judged; else the [`Refusal`](crate::Refusal)'s number.
    pub refusal: u8,
    /// [`Verdict`](crate::Verdict), by its number: 2 is blocked.
    pub verdict: u8,
    /// [`Code`](crate::Code), by its number; 0 on a refusal.
    pub code: u8,
    /// 1, or 0 on a refusal: rule 0 is not "absent".
    pub rule_known: u8,
    /// 1 where `band` is known, else 0.
    pub band_known: u8,
    /// The number of the band, as in the image.
    pub band: u8,
    /// 1 where the segment and its rule are known, else 0.
    pub segment_known: u8,
    /// 1 where the automatic segment is known, else 0.
    pub automatic_known: u8,
    /// 1 where audio edges and width are known, 0 on a refusal.
    pub audio_known: u8,
    /// 1 where the edges on the air are known, else 0.
    pub air_known: u8,
    /// [`Overshoot`](crate::Overshoot)'s first number.
    pub overshoot: u8,
    /// [`Edge`](crate::Edge) of the overshoot, by its number; else 0.
    pub edge: u8,
    /// [`Guidance`](crate::Guidance)'s first number.
    pub guidance: u8,
    /// 1: above the watts of a 60 m channel; else 0.
    pub note_channel_power: u8,
    /// 1: shared with government stations; else 0.
    pub note_shared: u8,
    /// 1: above the watts of the 60 m segment; else 0.
    pub note_segment_power: u8,
    /// 1 for each power record of the image that is exceeded, by its index; else 0.
    pub notes: [u8; MOST_NOTES],
}

impl Decision {
    /// The limit of a ceiling that has none: verdict 2, all else zero. A refusal is this with its number.
    pub const ABSENT: Self = Self {
        segment_low: 0.0,
        segment_high: 0.0,
        automatic_low: 0.0,
        automatic_high: 0.0,
        audio_low: 0.0,
        audio_high: 0.0,
        width: 0.0,
        air_low: 0.0,
        air_high: 0.0,
        beyond_hz: 0.0,
        rule: 0,
        segment_rule: 0,
        guidance_index: 0,
        refusal: 0,
        verdict: 2,
        code: 0,
        rule_known: 0,
        band_known: 0,
        band: 0,
        segment_known: 0,
        automatic_known: 0,
        audio_known: 0,
        air_known: 0,
        overshoot: 0,
        edge: 0,
        guidance: 0,
        note_channel_power: 0,
        note_shared: 0,
        note_segment_power: 0,
        notes: [0; MOST_NOTES],
    };
}

/// How fast a rung may be sent.
#[repr(C)]
#[derive(Clone, Copy)]
pub struct Ceiling {
    /// The answer on the first rung that is blocked. Where `limit_known` is 0: verdict 2, `refusal` as
    /// the ceiling's, all else zero.
    pub limit: Decision,
    /// The fastest rung that may be sent; [`RUNG_NONE`] where there is none, and on a refusal.
    pub rung: i32,
    /// 1 where a rung is blocked; 0 where none is, there are no rungs, or on a refusal.
    pub limit_known: u8,
    /// 0 judged; else the [`Refusal`](crate::Refusal)'s number.
    pub refusal: u8,
}

/// The state of a walk, the caller's to keep. What no call gives meets 20.
#[repr(C)]
#[derive(Clone, Copy, Debug, PartialEq)]
pub struct Walk {
    /// What the rungs judged so far occupy; not looked at where `place` is 0.
    pub occupied: Edges,
    /// How many rungs of the walk were judged, 0 to 255; 0 with no walk open.
    pub place: u32,
    /// The image in force, 0 or 1; while a walk is open the one that it goes by.
    pub image: u8,
    /// 1 where a swap waits for the end of the walk, else 0.
    pub waiting: u8,
    /// 1 where a walk is open, else 0.
    pub walking: u8,
}

/// The answer of a swap and of an opening.
#[repr(C)]
#[derive(Clone, Copy, Debug)]
pub struct WalkAnswer {
    /// The next state; on a refusal the one that was given.
    pub state: Walk,
    /// 0; or 29 (a swap), 30 (an opening), 20.
    pub refusal: u8,
}

/// The answer of a step.
#[repr(C)]
#[derive(Clone, Copy)]
pub struct Step {
    /// Of the rungs judged so far. Its refusal is the step's: 30, 20, or one of a ceiling.
    pub ceiling: Ceiling,
    /// The next state; on a refusal the one that was given.
    pub state: Walk,
    /// 1 where the walk is over; else 0, also on a refusal.
    pub over: u8,
}

/// A dial list's answer.
#[repr(C)]
#[derive(Clone, Copy, Debug)]
pub struct Dials {
    /// The rows that were written; 0 on a refusal.
    pub count: u32,
    /// 0 listed; else the [`Refusal`](crate::Refusal)'s number.
    pub refusal: u8,
}

/// The distance of a dial.
#[repr(C)]
#[derive(Clone, Copy, Debug)]
pub struct Distance {
    /// 0 on a row or between its dials, never negative; +infinity where `listed` is 0.
    pub distance_hz: f64,
    /// 1 where a row counts; 0 where none does ("none listed") and on a refusal.
    pub listed: u8,
    /// 0; or 21, 23.
    pub refusal: u8,
}

/// The nearest dial at which data is allowed.
#[repr(C)]
#[derive(Clone, Copy, Debug)]
pub struct Nearest {
    /// The dial where `answer` is 1; else +infinity.
    pub dial_hz: f64,
    /// 0 on a refusal; else [`Nearest`](crate::Nearest)'s first number.
    pub answer: u8,
    /// 0; or 20 to 22, 1 to 14, 15.
    pub refusal: u8,
}

/// The answer of a table's report.
#[repr(C)]
#[derive(Clone, Copy, Debug)]
pub struct Report {
    /// The rows that were written, at most [`MOST_REPORT`]; 0 on a refusal.
    pub count: u32,
    /// 0; or 20, the image's refusal, 1 to 14, or 25.
    pub refusal: u8,
}

/// The answer of a call that writes an image.
#[repr(C)]
#[derive(Clone, Copy, Debug)]
pub struct Image {
    /// The bytes that were written, those of the image; 0 on a refusal.
    pub length: u32,
    /// 0; or the image's refusal, 1 to 14, or 26, 27, 28, 23.
    pub refusal: u8,
}

/// A text's answer.
#[repr(C)]
#[derive(Clone, Copy, Debug)]
pub struct Text {
    /// The bytes that were written, 1 to [`MOST_TEXT`]; 0 on a refusal.
    pub length: u32,
    /// 0; or 21, 24.
    pub refusal: u8,
}

/// The answer on a log's time on the air.
#[repr(C)]
#[derive(Clone, Copy, Debug)]
pub struct Airtime {
    /// The totals that were written, one for each record; 0 on a refusal.
    pub count: u32,
    /// 0; or 31, 32.
    pub refusal: u8,
}

/// A census.
#[repr(C)]
#[derive(Clone, Copy, Debug)]
pub struct Census {
    /// How many dials get each code, that of code 1 first; all 0 on a refusal.
    pub counts: [u32; CODES],
    /// 0; or 20 to 22, 1 to 14, 15, 33, 34.
    pub refusal: u8,
}

/// Whether a table is tidy.
#[repr(C)]
#[derive(Clone, Copy, Debug)]
pub struct Tidiness {
    /// 1 where the image is accepted and its table tidy; else 0.
    pub tidy: u8,
    /// 0; else the image's refusal, 1 to 14.
    pub refusal: u8,
}

/// Where a table is wrong.
#[repr(C)]
#[derive(Clone, Copy, Debug)]
pub struct Fault {
    /// The record's index in its table; [`RECORD_NONE`] where `place` is not 2.
    pub record: u16,
    /// [`Table`](crate::Table), by its number; [`TABLE_NONE`] where `place` is not 2.
    pub table: u8,
    /// 0 none is named, 1 the general block, 2 a record.
    pub place: u8,
    /// 0 accepted; else the image's refusal, 1 to 14.
    pub refusal: u8,
}

const _: () = {
    assert!(size_of::<Station>() == 40);
    assert!(size_of::<Edges>() == 32);
    assert!(size_of::<Fields>() == 96);
    assert!(size_of::<Decision>() == 360);
    assert!(size_of::<Ceiling>() == 368);
    assert!(size_of::<Walk>() == 40);
    assert!(size_of::<WalkAnswer>() == 48);
    assert!(size_of::<Step>() == 416);
    assert!(size_of::<Dials>() == 8);
    assert!(size_of::<Distance>() == 16);
    assert!(size_of::<Nearest>() == 16);
    assert!(size_of::<Report>() == 8);
    assert!(size_of::<Image>() == 8);
    assert!(size_of::<Text>() == 8);
    assert!(size_of::<Airtime>() == 8);
    assert!(size_of::<Census>() == 104);
    assert!(size_of::<Tidiness>() == 2);
    assert!(size_of::<Fault>() == 6);
};

extern "C" {
    fn pamuklid_version() -> u32;
    fn pamuklid_check(image: *const u8, n: usize) -> u8;
    fn pamuklid_fault_of(image: *const u8, n: usize) -> Fault;
    fn pamuklid_tidy(image: *const u8, n: usize) -> Tidiness;
    fn pamuklid_report_of(
        image: *const u8,
        n: usize,
        license: u8,
        rows: *mut u8,
        rows_len: usize,
    ) -> Report;
    fn pamuklid_write(
        f: Fields,
        figures: *const f64,
        figure_count: usize,
        codes: *const u8,
        code_count: usize,
        rules: *const u16,
        rule_count: usize,
        out: *mut u8,
        out_len: usize,
    ) -> Image;
    fn pamuklid_raise(image: *const u8, n: usize, out: *mut u8, out_len: usize) -> Image;
    fn pamuklid_lower(image: *const u8, n: usize, out: *mut u8, out_len: usize) -> Image;
    fn pamuklid_amend(
        image: *const u8,
        n: usize,
        list: *const u8,
        list_len: usize,
        day: u32,
        out: *mut u8,
        out_len: usize,
    ) -> Image;
    #[link_name = "pamuklid_fresh_2"]
    fn pamuklid_fresh() -> Station;
    #[link_name = "pamuklid_evaluate_2"]
    fn pamuklid_evaluate(
        s: Station,
        kind: u8,
        direction: u8,
        e: Edges,
        image: *const u8,
        n: usize,
    ) -> Decision;
    #[link_name = "pamuklid_unmeasured_2"]
    fn pamuklid_unmeasured(s: Station, image: *const u8, n: usize) -> Decision;
    #[link_name = "pamuklid_ceiling_of_2"]
    fn pamuklid_ceiling_of(
        s: Station,
        direction: u8,
        ordinary: Edges,
        floor: Edges,
        image: *const u8,
        n: usize,
        rungs: *const f64,
        figures: usize,
        floors: *const u8,
        floor_count: usize,
    ) -> Ceiling;
    fn pamuklid_walk_first() -> Walk;
    fn pamuklid_walk_swap(w: Walk) -> WalkAnswer;
    fn pamuklid_walk_open(w: Walk) -> WalkAnswer;
    fn pamuklid_walk_step(
        w: Walk,
        s: Station,
        direction: u8,
        ordinary: Edges,
        floor: Edges,
        image_0: *const u8,
        n_0: usize,
        image_1: *const u8,
        n_1: usize,
        rungs: *const f64,
        figures: usize,
        floors: *const u8,
        floor_count: usize,
    ) -> Step;
    #[link_name = "pamuklid_safe_dials_2"]
    fn pamuklid_safe_dials(
        s: Station,
        direction: u8,
        e: Edges,
        image: *const u8,
        n: usize,
        rows: *mut u8,
        rows_len: usize,
    ) -> Dials;
    fn pamuklid_distance_of(
        dial_hz: f64,
        flags: u8,
        channel_band: u8,
        count: u32,
        rows: *const u8,
        rows_len: usize,
    ) -> Distance;
    fn pamuklid_nearest_dial(
        s: Station,
        direction: u8,
        e: Edges,
        image: *const u8,
        n: usize,
    ) -> Nearest;
    fn pamuklid_text_at(hz: f64, text: *mut u8, room: usize) -> Text;
    fn pamuklid_text_khz(hz: f64, text: *mut u8, room: usize) -> Text;
    fn pamuklid_text_hertz(hz: f64, text: *mut u8, room: usize) -> Text;
    fn pamuklid_airtime_of(
        starts: *const u64,
        start_count: usize,
        bands: *const u8,
        band_count: usize,
        seconds: *const u16,
        second_count: usize,
        totals: *mut u64,
        total_count: usize,
    ) -> Airtime;
    fn pamuklid_census_of(
        s: Station,
        kind: u8,
        direction: u8,
        e: Edges,
        image: *const u8,
        n: usize,
        first: i64,
        last: i64,
    ) -> Census;
}

/// `pamuklid_version`: the version of the library that is linked.
#[inline]
pub fn version() -> u32 {
    unsafe { pamuklid_version() }
}

/// `pamuklid_check`: 0, or the image's first refusal, 1 to 14.
#[inline]
pub fn check(image: &[u8]) -> u8 {
    unsafe { pamuklid_check(image.as_ptr(), image.len()) }
}

/// `pamuklid_fault_of`.
#[inline]
pub fn fault_of(image: &[u8]) -> Fault {
    unsafe { pamuklid_fault_of(image.as_ptr(), image.len()) }
}

/// `pamuklid_tidy`.
#[inline]
pub fn tidy(image: &[u8]) -> Tidiness {
    unsafe { pamuklid_tidy(image.as_ptr(), image.len()) }
}

/// `pamuklid_report_of`.
#[inline]
pub fn report(image: &[u8], license: u8, rows: &mut [u8]) -> Report {
    let (at, len) = (rows.as_mut_ptr(), rows.len());
    unsafe { pamuklid_report_of(image.as_ptr(), image.len(), license, at, len) }
}

/// `pamuklid_write`: the records of the nine tables one after the other, [`RECORD_FIGURES`],
/// [`RECORD_CODES`] and [`RECORD_RULES`] each.
#[inline]
pub fn write(
    fields: Fields,
    figures: &[f64],
    codes: &[u8],
    rules: &[u16],
    out: &mut [u8],
) -> Image {
    unsafe {
        pamuklid_write(
            fields,
            figures.as_ptr(),
            figures.len(),
            codes.as_ptr(),
            codes.len(),
            rules.as_ptr(),
            rules.len(),
            out.as_mut_ptr(),
            out.len(),
        )
    }
}

/// `pamuklid_raise`.
#[inline]
pub fn raise(image: &[u8], out: &mut [u8]) -> Image {
    let (at, len) = (out.as_mut_ptr(), out.len());
    unsafe { pamuklid_raise(image.as_ptr(), image.len(), at, len) }
}

/// `pamuklid_lower`.
#[inline]
pub fn lower(image: &[u8], out: &mut [u8]) -> Image {
    let (at, len) = (out.as_mut_ptr(), out.len());
    unsafe { pamuklid_lower(image.as_ptr(), image.len(), at, len) }
}

/// `pamuklid_amend`: a list of [`AMENDMENT`] bytes for each.
#[inline]
pub fn amend(image: &[u8], list: &[u8], day: u32, out: &mut [u8]) -> Image {
    unsafe {
        pamuklid_amend(
            image.as_ptr(),
            image.len(),
            list.as_ptr(),
            list.len(),
            day,
            out.as_mut_ptr(),
            out.len(),
        )
    }
}

/// `pamuklid_fresh`.
#[inline]
pub fn fresh() -> Station {
    unsafe { pamuklid_fresh() }
}

/// `pamuklid_evaluate`.
#[inline]
pub fn evaluate(s: Station, kind: u8, direction: u8, e: Edges, image: &[u8]) -> Decision {
    unsafe { pamuklid_evaluate(s, kind, direction, e, image.as_ptr(), image.len()) }
}

/// `pamuklid_unmeasured`.
#[inline]
pub fn unmeasured(s: Station, image: &[u8]) -> Decision {
    unsafe { pamuklid_unmeasured(s, image.as_ptr(), image.len()) }
}

/// `pamuklid_ceiling_of`: rungs as figures, [`RUNG_FIGURES`] each, and a floor byte for each rung.
#[inline]
pub fn ceiling(
    s: Station,
    direction: u8,
    ordinary: Edges,
    floor: Edges,
    image: &[u8],
    rungs: &[f64],
    floors: &[u8],
) -> Ceiling {
    unsafe {
        pamuklid_ceiling_of(
            s,
            direction,
            ordinary,
            floor,
            image.as_ptr(),
            image.len(),
            rungs.as_ptr(),
            rungs.len(),
            floors.as_ptr(),
            floors.len(),
        )
    }
}

/// `pamuklid_walk_first`.
#[inline]
pub fn walk_first() -> Walk {
    unsafe { pamuklid_walk_first() }
}

/// `pamuklid_walk_swap`.
#[inline]
pub fn walk_swap(w: Walk) -> WalkAnswer {
    unsafe { pamuklid_walk_swap(w) }
}

/// `pamuklid_walk_open`.
#[inline]
pub fn walk_open(w: Walk) -> WalkAnswer {
    unsafe { pamuklid_walk_open(w) }
}

/// `pamuklid_walk_step`: rungs as figures, [`RUNG_FIGURES`] each, and a floor byte for each rung.
#[allow(clippy::too_many_arguments)]
#[inline]
pub fn walk_step(
    w: Walk,
    s: Station,
    direction: u8,
    ordinary: Edges,
    floor: Edges,
    image_0: &[u8],
    image_1: &[u8],
    rungs: &[f64],
    floors: &[u8],
) -> Step {
    unsafe {
        pamuklid_walk_step(
            w,
            s,
            direction,
            ordinary,
            floor,
            image_0.as_ptr(),
            image_0.len(),
            image_1.as_ptr(),
            image_1.len(),
            rungs.as_ptr(),
            rungs.len(),
            floors.as_ptr(),
            floors.len(),
        )
    }
}

/// `pamuklid_safe_dials`.
#[inline]
pub fn safe_dials(s: Station, direction: u8, e: Edges, image: &[u8], rows: &mut [u8]) -> Dials {
    let (at, len) = (rows.as_mut_ptr(), rows.len());
    unsafe { pamuklid_safe_dials(s, direction, e, image.as_ptr(), image.len(), at, len) }
}

/// `pamuklid_distance_of`.
#[inline]
pub fn distance(dial_hz: f64, flags: u8, channel_band: u8, count: u32, rows: &[u8]) -> Distance {
    let (at, len) = (rows.as_ptr(), rows.len());
    unsafe { pamuklid_distance_of(dial_hz, flags, channel_band, count, at, len) }
}

/// `pamuklid_nearest_dial`.
#[inline]
pub fn nearest_dial(s: Station, direction: u8, e: Edges, image: &[u8]) -> Nearest {
    unsafe { pamuklid_nearest_dial(s, direction, e, image.as_ptr(), image.len()) }
}

/// `pamuklid_text_at`: kilohertz, three decimals.
#[inline]
pub fn text_at(hz: f64, text: &mut [u8]) -> Text {
    unsafe { pamuklid_text_at(hz, text.as_mut_ptr(), text.len()) }
}

/// `pamuklid_text_khz`: kilohertz, as many decimals as it needs.
#[inline]
pub fn text_khz(hz: f64, text: &mut [u8]) -> Text {
    unsafe { pamuklid_text_khz(hz, text.as_mut_ptr(), text.len()) }
}

/// `pamuklid_text_hertz`: whole hertz.
#[inline]
pub fn text_hertz(hz: f64, text: &mut [u8]) -> Text {
    unsafe { pamuklid_text_hertz(hz, text.as_mut_ptr(), text.len()) }
}

/// `pamuklid_airtime_of`.
#[inline]
pub fn airtime(starts: &[u64], bands: &[u8], seconds: &[u16], totals: &mut [u64]) -> Airtime {
    unsafe {
        pamuklid_airtime_of(
            starts.as_ptr(),
            starts.len(),
            bands.as_ptr(),
            bands.len(),
            seconds.as_ptr(),
            seconds.len(),
            totals.as_mut_ptr(),
            totals.len(),
        )
    }
}

/// `pamuklid_census_of`.
#[inline]
pub fn census(
    s: Station,
    kind: u8,
    direction: u8,
    e: Edges,
    image: &[u8],
    first: i64,
    last: i64,
) -> Census {
    unsafe { pamuklid_census_of(s, kind, direction, e, image.as_ptr(), image.len(), first, last) }
}

/// The figures of rungs, one rung after the other: edges are four figures in the order of a rung.
pub fn figures(rungs: &[Edges]) -> &[f64] {
    unsafe { std::slice::from_raw_parts(rungs.as_ptr().cast(), RUNG_FIGURES * rungs.len()) }
}

/// The bytes of marks: a bool is a byte, 0 or 1.
pub fn bytes(marks: &[bool]) -> &[u8] {
    unsafe { std::slice::from_raw_parts(marks.as_ptr().cast(), marks.len()) }
}
