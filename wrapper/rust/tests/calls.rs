//! Every call through the wrapper, on the practice table; the answers are the papers', not the
//! library's.

use pamuklid::{
    airtime, ceiling, census, check, distance, evaluate, fault_of, lower, nearest_dial, raise, raw,
    report, safe_dials, text_at, text_hertz, text_khz, tidy, unmeasured, version, Code, Control,
    DialRow, DialRows, Direction, Distance, Edge, Edges, Fault, Guidance, Kind, License, Nearest,
    Overshoot, Place, Policy, Range, Refusal, ReportRow, Rule, Segment, Sideband, SixtyNotes,
    Station, Table, Verdict, MOST_DIALS, MOST_LOG, MOST_REPORT, MOST_TEXT, REPORT_ROW, ROW,
    VERSION,
};

static IMAGE: &[u8] = include_bytes!("../../../tools/reference/practice.bin");

const EDGES: Edges = Edges::both(1_250.0, 1_750.0);

fn station(dial_hz: f64) -> Station {
    Station {
        policy: Policy::Rules,
        control: Some(Control::Local),
        license: Some(License::General),
        sideband: Some(Sideband::Upper),
        itu_region: 2,
        margin_lower_hz: 50.0,
        margin_upper_hz: 50.0,
        dial_hz: Some(dial_hz),
        power_w: None,
        band_plan: false,
    }
}

fn automatic(dial_hz: f64) -> Station {
    Station { control: Some(Control::Automatic), ..station(dial_hz) }
}

fn range(low_hz: f64, high_hz: f64) -> Range {
    Range { low_hz, high_hz }
}

/// The image with other bytes from a place on.
fn with(at: usize, bytes: &[u8]) -> Vec<u8> {
    let mut image = IMAGE.to_vec();
    image[at..at + bytes.len()].copy_from_slice(bytes);
    image
}

#[test]
fn library() {
    assert_eq!(version(), VERSION);
    assert_eq!(raw::version(), raw::VERSION);
}

#[test]
fn image_calls() {
    assert_eq!(check(IMAGE), Ok(()));
    assert_eq!(tidy(IMAGE), Ok(true));
    assert_eq!(check(&[]), Err(Refusal::ImageLength));
    assert_eq!(tidy(&IMAGE[..91]), Err(Refusal::ImageLength));
    let mut damaged = IMAGE.to_vec();
    *damaged.last_mut().unwrap() = b'F';
    assert_eq!(check(&damaged), Err(Refusal::Letters));
    assert_eq!(tidy(&damaged), Err(Refusal::Letters));
    // band 60 up to 15,000,000: it shares a stretch with band 20
    let untidy = with(104, &15_000_000.0f64.to_bits().to_le_bytes());
    assert_eq!(check(&untidy), Ok(()));
    assert_eq!(tidy(&untidy), Ok(false));
    assert_eq!((raw::tidy(&untidy).tidy, raw::tidy(&untidy).refusal), (0, 0));
    assert_eq!((raw::tidy(IMAGE).tidy, raw::tidy(IMAGE).refusal), (1, 0));
    assert_eq!((raw::tidy(&damaged).tidy, raw::tidy(&damaged).refusal), (0, 2));
}

/// General has 14,025,000–14,150,000 and 5,330,000–5,407,000, the others nothing; the data segments are
/// 14,000,000–14,150,000 and 5,351,500–5,366,500.
#[test]
fn reports() {
    let gap = |license, segment, low, high| ReportRow::Gap {
        license,
        segment,
        stretch: range(low, high),
    };
    let mut bytes = [7; 3 * REPORT_ROW];
    let listed = report(IMAGE, License::General, &mut bytes).unwrap();
    let general = gap(License::General, 0, 14_000_000.0, 14_025_000.0);
    assert_eq!(listed.rows().collect::<Vec<_>>(), [general]);
    let mut row = [0; REPORT_ROW];
    row[..8].copy_from_slice(&14_000_000.0f64.to_bits().to_le_bytes());
    row[8..16].copy_from_slice(&14_025_000.0f64.to_bits().to_le_bytes());
    (row[16], row[17]) = (255, 2);
    assert_eq!(listed.rows().bytes(), row);
    assert!(bytes[REPORT_ROW..].iter().all(|&b| b == 7));
    for license in [License::Novice, License::Technician, License::Advanced, License::Extra] {
        let listed = report(IMAGE, license, &mut bytes).unwrap();
        let whole = [
            gap(license, 0, 14_000_000.0, 14_150_000.0),
            gap(license, 1, 5_351_500.0, 5_366_500.0),
        ];
        assert_eq!(listed.rows().len(), 2);
        assert_eq!(listed.rows().collect::<Vec<_>>(), whole);
    }
    // band 60 up to 15,000,000, and the second privilege up to 14,030,000
    let mut slips = with(104, &15_000_000.0f64.to_bits().to_le_bytes());
    slips[264..272].copy_from_slice(&14_030_000.0f64.to_bits().to_le_bytes());
    let overlap = |table, license, low, high| ReportRow::Overlap {
        table,
        license,
        first: 0,
        second: 1,
        stretch: range(low, high),
    };
    let listed = report(&slips, License::General, &mut bytes).unwrap();
    // the privilege now covers what was a gap
    let rows = [
        overlap(Table::Bands, None, 14_000_000.0, 14_350_000.0),
        overlap(Table::Privileges, Some(License::General), 14_025_000.0, 14_030_000.0),
    ];
    assert_eq!(listed.rows().collect::<Vec<_>>(), rows);
    assert_eq!(tidy(&slips), Ok(false));
}

/// No byte is written where a report is refused.
#[test]
fn reports_refused() {
    let mut bytes = [7; 2 * REPORT_ROW];
    let refused = |image: &[u8], license, bytes: &mut [u8]| report(image, license, bytes).err();
    assert_eq!(refused(&[], License::Extra, &mut bytes), Some(Refusal::ImageLength));
    assert_eq!(refused(&with(376, b"F"), License::Extra, &mut bytes), Some(Refusal::Letters));
    for lent in [0, REPORT_ROW, 2 * REPORT_ROW - 1] {
        let lent = &mut bytes[..lent];
        assert_eq!(refused(IMAGE, License::Extra, lent), Some(Refusal::Report));
    }
    for license in [5, 255] {
        for image in [IMAGE, &[]] {
            let flat = raw::report(image, license, &mut bytes);
            assert_eq!((flat.count, flat.refusal), (0, 20));
        }
    }
    assert_eq!(bytes, [7; 2 * REPORT_ROW]);
    let flat = raw::report(IMAGE, 2, &mut bytes);
    assert_eq!((flat.count, flat.refusal), (1, 0));
    assert_eq!(MOST_REPORT, 2 * (256 * 255 / 2) + 256 * 257);
}

/// The dials about the practice table's edges; the station's own dial is not looked at.
#[test]
fn censuses() {
    let counted = |first, last| {
        let s = station(f64::NAN);
        census(&s, Kind::Data, Direction::Originate, &EDGES, IMAGE, first, last)
    };
    let met = |first, last| counted(first, last).unwrap().met().collect::<Vec<_>>();
    let privilege = (Code::Privilege, 10);
    assert_eq!(met(14_023_790, 14_023_809), [privilege, (Code::Permitted, 10)]);
    let outside = [(Code::OutsideDataSegment, 600), (Code::NoDataHere, 1), (Code::Permitted, 1)];
    assert_eq!(met(14_148_200, 14_148_801), outside);
    let all = counted(13_500_001, 14_500_000).unwrap();
    assert_eq!(all.total() as usize, MOST_DIALS);
    assert_eq!(all.count(Code::Permitted), 14_148_200 - 14_023_800 + 1);
    assert_eq!(all.counts()[15], all.count(Code::Permitted));
    let parts =
        [counted(13_500_001, 14_100_000).unwrap(), counted(14_100_001, 14_500_000).unwrap()];
    for code in Code::ALL {
        assert_eq!(parts.iter().map(|part| part.count(*code)).sum::<u32>(), all.count(*code));
    }
    for (first, last) in [(1, 0), (i64::MAX, i64::MIN), (i64::MIN, i64::MAX), (0, 1_000_000)] {
        assert_eq!(counted(first, last), Err(Refusal::Stretch));
    }
    let far = 1 << 40;
    for (first, last) in [(far, far + 1), (-far - 1, -far), (i64::MIN, i64::MIN)] {
        assert_eq!(counted(first, last), Err(Refusal::FarDial));
    }
    assert_eq!(met(far, far), [(Code::OutOfBand, 1)]);
    let flat = raw::census(raw::fresh(), 0, 0, EDGES, &[], 0, -1);
    assert_eq!((flat.counts, flat.refusal), ([0; raw::CODES], 33));
}

/// 599 seconds count and 600 do not; the record itself counts, and of equal starts the earlier.
#[test]
fn times_on_the_air() {
    let mut totals = [7; 6];
    let starts = [0, 599, 600, 600, 600, u64::MAX];
    let (bands, seconds) = ([20, 20, 20, 255, 20, 20], [1, 10, 100, 1_000, 10_000, 65_535]);
    assert_eq!(airtime(&starts, &bands, &seconds, &mut totals), Ok(()));
    assert_eq!(totals, [1, 11, 110, 1_000, 10_110, 65_535]);
    assert_eq!(airtime(&[], &[], &[], &mut []), Ok(()));
    let flat = raw::airtime(&starts[..2], &bands[..2], &seconds[..2], &mut totals[..2]);
    assert_eq!((flat.count, flat.refusal), (2, 0));
}

/// The most records there may be, all of one band and one start.
#[test]
fn longest_log() {
    let starts = vec![u64::MAX; MOST_LOG + 1];
    let (bands, seconds) = (vec![0; MOST_LOG + 1], vec![65_535; MOST_LOG + 1]);
    let mut totals = vec![7; MOST_LOG + 1];
    assert_eq!(airtime(&starts, &bands, &seconds, &mut totals), Err(Refusal::Runs));
    assert!(totals.iter().all(|&n| n == 7));
    let n = MOST_LOG;
    assert_eq!(airtime(&starts[..n], &bands[..n], &seconds[..n], &mut totals[..n]), Ok(()));
    assert!(totals[..n].iter().zip(1..).all(|(&total, k)| total == 65_535 * k));
    assert_eq!(totals[n], 7);
}

/// Nothing is written where a log is refused; 31 comes before 32.
#[test]
fn times_refused() {
    let (starts, bands, seconds) = ([5, 5, 6], [1, 1, 1], [2, 2, 2]);
    let mut totals = [7; 3];
    for short in 0..4 {
        let to = |run: usize| if run == short { 2 } else { 3 };
        let (s, b, n) = (&starts[..to(0)], &bands[..to(1)], &seconds[..to(2)]);
        assert_eq!(airtime(s, b, n, &mut totals[..to(3)]), Err(Refusal::Runs), "run {short}");
    }
    for starts in [[5, 4, 6], [5, 6, 5], [1, 0, 0]] {
        assert_eq!(airtime(&starts, &bands, &seconds, &mut totals), Err(Refusal::Starts));
        assert_eq!(airtime(&starts, &[], &seconds, &mut totals), Err(Refusal::Starts));
        let flat = raw::airtime(&starts, &bands, &[], &mut totals);
        assert_eq!((flat.count, flat.refusal), (0, 31));
    }
    assert_eq!(totals, [7; 3]);
}

/// The practice table in edition 2, put together here: docs/IMAGE.md has the places.
fn second(channel: f64, segment: f64) -> Vec<u8> {
    let mut image = IMAGE[..64].to_vec();
    image.extend(channel.to_bits().to_le_bytes());
    image.extend(segment.to_bits().to_le_bytes());
    image.extend(&IMAGE[64..370]);
    image.extend(368u32.to_le_bytes());
    image.extend([2, 0]);
    image.extend(b"EDGE");
    image
}

#[test]
fn editions() {
    let edition_2 = second(100.0, 9.15);
    assert_eq!((check(&edition_2), tidy(&edition_2)), (Ok(()), Ok(true)));
    let mut lent = [7; 400];
    assert_eq!(raise(IMAGE, &mut lent), Ok(&edition_2[..]));
    assert_eq!(lent[396..], [7; 4]);
    let mut lent = [7; 400];
    assert_eq!(lower(&edition_2, &mut lent), Ok(IMAGE));
    assert_eq!(lent[380..], [7; 20]);
    // just room enough
    assert!(raise(IMAGE, &mut [7; 396]).is_ok());
    assert!(lower(&edition_2, &mut [7; 380]).is_ok());
    // a warning on a 60 m channel strictly above the table's own watts
    let channel = |watts, image: &[u8]| {
        let station = Station { power_w: Some(watts), ..station(5_330_500.0) };
        evaluate(&station, Kind::Data, Direction::Originate, &EDGES, image).unwrap().verdict
    };
    let other = second(50.0, 9.15);
    assert_eq!(channel(100.0, &edition_2), Verdict::Legal);
    assert_eq!(channel(100.5, &edition_2), Verdict::Warning);
    assert_eq!(channel(50.0, &other), Verdict::Legal);
    assert_eq!(channel(50.5, &other), Verdict::Warning);
}

/// No byte is written where an image is not raised or lowered.
#[test]
fn editions_refused() {
    let edition_2 = second(100.0, 9.15);
    let mut lent = [7; 400];
    for (image, refusal) in [
        (&[][..], Refusal::ImageLength),
        (&with(376, b"F"), Refusal::Letters),
        (&edition_2, Refusal::Edition),
        (&with(352, &[3]), Refusal::Counts),
        (&with(41, &[3]), Refusal::CodedByte),
    ] {
        assert_eq!(raise(image, &mut lent), Err(refusal));
    }
    assert_eq!(raise(IMAGE, &mut lent[..395]), Err(Refusal::Rows));
    for (image, refusal) in [
        (IMAGE, Refusal::Edition),
        (&second(f64::NAN, 9.15), Refusal::ImageFigure),
        (&second(50.0, 9.15), Refusal::Watts),
        (&second(100.0, 9.0), Refusal::Watts),
    ] {
        assert_eq!(lower(image, &mut lent), Err(refusal));
    }
    assert_eq!(lower(&second(100.0, 9.0), &mut []), Err(Refusal::Watts));
    assert_eq!(lower(&edition_2, &mut lent[..379]), Err(Refusal::Rows));
    assert_eq!(lent, [7; 400]);
    // 3 comes before 4
    let mut both = edition_2;
    both[368] = 3;
    assert_eq!(raise(&both, &mut lent), Err(Refusal::Edition));
    let flat = raw::lower(&both, &mut lent);
    assert_eq!((flat.length, flat.refusal), (0, 4));
}

/// tools/reference/practice.txt has the offsets.
#[test]
fn places() {
    let at = |table, index| Place::Record { table, index }.bytes(IMAGE);
    assert_eq!(Place::General.bytes(IMAGE), Some(0..64));
    assert_eq!(at(Table::Bands, 0), Some(64..96));
    assert_eq!(at(Table::Segments, 1), Some(160..192));
    assert_eq!(at(Table::Channels, 0), Some(192..224));
    assert_eq!(at(Table::Automatic, 1), Some(320..352));
    assert_eq!(at(Table::Bands, 65_535), None);
    assert_eq!(Place::General.bytes(&IMAGE[..63]), None);
    let edition_2 = second(100.0, 9.15);
    assert_eq!(Place::General.bytes(&edition_2), Some(0..80));
    let last = Place::Record { table: Table::Automatic, index: 1 };
    assert_eq!(last.bytes(&edition_2), Some(336..368));
    assert_eq!(Place::Record { table: Table::Bands, index: 0 }.bytes(&[0; 27]), None);
}

/// Places of the practice table that were spoilt (tools/reference/practice.txt has its bytes): the first
/// that the refusal's own test meets, or none.
#[test]
fn faults() {
    let at = |refusal, place| Err(Fault { refusal, place });
    let record = |table, index| Some(Place::Record { table, index });
    let figure = |x: f64| x.to_bits().to_le_bytes();
    assert_eq!(fault_of(IMAGE), Ok(()));
    // the form: no place
    assert_eq!(fault_of(&[]), at(Refusal::ImageLength, None));
    assert_eq!(fault_of(&with(376, b"F")), at(Refusal::Letters, None));
    assert_eq!(fault_of(&with(374, &[3])), at(Refusal::Edition, None));
    assert_eq!(fault_of(&with(374, &[2])), at(Refusal::Counts, None), "16 bytes are missing");
    assert_eq!(fault_of(&with(352, &[3])), at(Refusal::Counts, None));
    // 5: the reading; a band's class; a privilege's class; of both the general block
    assert_eq!(fault_of(&with(41, &[3])), at(Refusal::CodedByte, Some(Place::General)));
    assert_eq!(fault_of(&with(64 + 25, &[1])), at(Refusal::CodedByte, record(Table::Bands, 0)));
    let privilege = with(256 + 25, &[5]);
    assert_eq!(fault_of(&privilege), at(Refusal::CodedByte, record(Table::Privileges, 1)));
    let mut both = privilege;
    both[41] = 3;
    assert_eq!(fault_of(&both), at(Refusal::CodedByte, Some(Place::General)));
    // 5: without channels their band, width and the like are zero, and their table is empty
    let mut part = with(42, &[11]);
    part[16..40].fill(0);
    part[43] = 0;
    part[52..54].fill(0);
    assert_eq!(fault_of(&part), at(Refusal::CodedByte, record(Table::Channels, 0)));
    // 6: the general limit; an automatic segment's end
    let nan = figure(f64::NAN);
    assert_eq!(fault_of(&with(0, &nan)), at(Refusal::ImageFigure, Some(Place::General)));
    let end = with(320 + 8, &figure(-0.0));
    assert_eq!(fault_of(&end), at(Refusal::ImageFigure, record(Table::Automatic, 1)));
    // 7 to 10, 12, 13: the second of two
    let low = |start: usize, low: f64| fault_of(&with(start, &figure(low)));
    assert_eq!(low(96, 5_407_000.0), at(Refusal::BandRange, record(Table::Bands, 1)));
    assert_eq!(low(160, 5_366_500.0), at(Refusal::SegmentRange, record(Table::Segments, 1)));
    assert_eq!(low(320, 14_112_000.0), at(Refusal::AutomaticRange, record(Table::Automatic, 1)));
    assert_eq!(low(256, 5_407_000.0), at(Refusal::PrivilegeRange, record(Table::Privileges, 1)));
    assert_eq!(low(160, 5_329_999.0), at(Refusal::SegmentOutside, record(Table::Segments, 1)));
    assert_eq!(
        fault_of(&with(160 + 27, &[1])),
        at(Refusal::OwnLimit, record(Table::Segments, 1)),
        "an own limit of 0"
    );
    // 14: no place
    assert_eq!(fault_of(&with(0, &figure(0.0))), at(Refusal::GeneralLimit, None));
    let f = raw::fault_of(&with(0, &figure(0.0)));
    assert_eq!((f.refusal, f.place, f.table, f.record), (14, 0, 255, 65_535));
    let f = raw::fault_of(IMAGE);
    assert_eq!((f.refusal, f.place, f.table, f.record), (0, 0, 255, 65_535));
}

#[test]
fn fresh_station() {
    let fresh = Station::fresh();
    let bare = Station {
        policy: Policy::Unset,
        control: None,
        license: None,
        sideband: None,
        itu_region: 2,
        margin_lower_hz: 50.0,
        margin_upper_hz: 50.0,
        dial_hz: None,
        power_w: None,
        band_plan: false,
    };
    assert_eq!(fresh, bare);
}

#[test]
fn a_whole_decision() {
    let d = evaluate(&station(14_148_500.0), Kind::Data, Direction::Originate, &EDGES, IMAGE);
    let d = d.unwrap();
    assert_eq!((d.verdict, d.code), (Verdict::Blocked, Code::OutsideDataSegment));
    assert!(!d.allowed());
    assert_eq!(d.overshoot, Overshoot::Beyond { by_hz: 250.0, edge: Edge::Upper });
    assert_eq!(d.audio, range(1_250.0, 1_750.0));
    assert_eq!(d.width_hz, 500.0);
    assert_eq!(d.air, Some(range(14_149_750.0, 14_150_250.0)));
    assert_eq!(d.band, Some(20));
    assert_eq!(d.automatic_segment, None);
    assert_eq!(d.guidance, Guidance::NoGuidance);
    assert!(d.power.is_empty());
}

#[test]
fn permitted_with_its_segment() {
    let d = evaluate(&station(14_023_800.0), Kind::Data, Direction::Originate, &EDGES, IMAGE);
    let d = d.unwrap();
    assert_eq!((d.verdict, d.code), (Verdict::Legal, Code::Permitted));
    assert!(d.allowed());
    let segment = Segment { range: range(14_000_000.0, 14_150_000.0), rule: Rule::Table(13) };
    assert_eq!(d.segment, Some(segment));
    assert_eq!(d.overshoot, Overshoot::NoOvershoot);
}

#[test]
fn automatic_with_its_segment() {
    let d = evaluate(&automatic(14_097_700.0), Kind::Data, Direction::Originate, &EDGES, IMAGE);
    let d = d.unwrap();
    assert_eq!((d.verdict, d.code), (Verdict::Legal, Code::AutomaticSegment));
    assert_eq!(d.automatic_segment, Some(range(14_095_000.0, 14_099_500.0)));
}

/// Answering a station that is itself under automatic control (document 02, 3): outside the automatic
/// segments blocked with 20 where an answer to another is legal with 21, and in every call what calling
/// it would be.
#[test]
fn another_robot() {
    // the guarded range 14,099,200 to 14,099,800 leaves the segment that ends at 14,099,500; it is as
    // wide as elsewhere allows
    let (outside, inside) = (automatic(14_098_000.0), automatic(14_097_700.0));
    let at = |s: &Station, direction| evaluate(s, Kind::Data, direction, &EDGES, IMAGE);
    let d = at(&outside, Direction::RespondToAutomatic).unwrap();
    assert_eq!((d.verdict, d.code), (Verdict::Blocked, Code::AutomaticOriginate));
    assert_eq!((d.rule, d.automatic_segment), (Rule::Table(8), None));
    let d = at(&outside, Direction::Respond).unwrap();
    assert_eq!((d.verdict, d.code), (Verdict::Legal, Code::AutomaticResponse));
    let d = at(&inside, Direction::RespondToAutomatic).unwrap();
    assert_eq!((d.verdict, d.code), (Verdict::Legal, Code::AutomaticSegment));

    // with rung 1 the guarded range leaves the segment by 50, 500 wide
    let s = automatic(14_097_750.0);
    let rungs = [Edges::both(1_250.0, 1_700.0), EDGES];
    let climb =
        |direction| ceiling(&s, direction, &rungs[0], &rungs[0], IMAGE, &rungs, &[false; 2]);
    let c = climb(Direction::RespondToAutomatic).unwrap();
    assert_eq!((c.rung, c.limit.map(|d| d.code)), (Some(0), Some(Code::AutomaticOriginate)));
    let c = climb(Direction::Respond).unwrap();
    assert_eq!((c.rung, c.limit), (Some(1), None));

    let list = |s: &Station, direction| {
        let mut bytes = [7; 4 * ROW];
        let count = safe_dials(s, direction, &EDGES, IMAGE, &mut bytes).unwrap().rows().len();
        (count, bytes)
    };
    let (count, bytes) = list(&outside, Direction::RespondToAutomatic);
    let dials: Vec<Range> = DialRows::new(&bytes[..count * ROW]).map(|row| row.dial).collect();
    assert_eq!(dials, [range(14_093_800.0, 14_097_700.0), range(14_099_300.0, 14_110_200.0)]);
    let (count, bytes) = list(&outside, Direction::Respond);
    let dials: Vec<Range> = DialRows::new(&bytes[..count * ROW]).map(|row| row.dial).collect();
    assert!(dials.contains(&range(14_023_800.0, 14_148_200.0)), "{dials:?}");

    for s in [&outside, &inside, &automatic(14_148_500.0), &station(14_098_000.0)] {
        for kind in Kind::ALL {
            let at = |direction| evaluate(s, *kind, direction, &EDGES, IMAGE);
            assert_eq!(at(Direction::RespondToAutomatic), at(Direction::Originate));
        }
        assert_eq!(list(s, Direction::RespondToAutomatic), list(s, Direction::Originate));
    }
    assert_eq!(climb(Direction::RespondToAutomatic), climb(Direction::Originate));
}

/// A direction of 4 and up, which the bare boundary can be given, meets 20 in each call.
#[test]
fn no_such_direction() {
    let s = raw::Station {
        margin_lower_hz: 50.0,
        margin_upper_hz: 50.0,
        dial_hz: 14_098_000.0,
        power_w: 0.0,
        policy: 2,
        control: 2,
        license: 2,
        sideband: 0,
        itu_region: 2,
        band_plan: 0,
        dial_known: 1,
        power_known: 0,
    };
    let rung = [1_250.0, 1_750.0, 1_250.0, 1_750.0];
    for direction in 0..=255 {
        let want = if direction < 4 { 0 } else { 20 };
        let d = raw::evaluate(s, 0, direction, EDGES, IMAGE);
        assert_eq!((d.refusal, d.verdict == 2 && d.code == 0), (want, want == 20));
        let c = raw::ceiling(s, direction, EDGES, EDGES, IMAGE, &rung, &[0]);
        assert_eq!((c.refusal, c.limit.verdict), (want, 2));
        let mut bytes = [7; 4 * ROW];
        let rows = raw::safe_dials(s, direction, EDGES, IMAGE, &mut bytes);
        assert_eq!((rows.refusal, rows.count == 0), (want, want == 20));
        assert_eq!(bytes == [7; 4 * ROW], want == 20);
        let near = raw::nearest_dial(s, direction, EDGES, IMAGE);
        assert_eq!((near.refusal, near.answer), (want, u8::from(want == 0)));
        assert_eq!(near.dial_hz == f64::INFINITY, want == 20);
    }
}

#[test]
fn sixty_metres() {
    let at = |kind, power_w| {
        let s = Station { power_w, ..station(5_330_550.0) };
        evaluate(&s, kind, Direction::Originate, &EDGES, IMAGE).unwrap()
    };
    let shared = SixtyNotes { channel_power: false, shared: true, segment_power: false };
    let d = at(Kind::Data, Some(100.0));
    assert_eq!((d.verdict, d.code, d.sixty), (Verdict::Legal, Code::SixtyChannel, shared));
    let d = at(Kind::Data, Some(100.125));
    let above = SixtyNotes { channel_power: true, ..shared };
    assert_eq!((d.verdict, d.code, d.sixty), (Verdict::Warning, Code::SixtyChannel, above));
    assert!(d.allowed());
    let d = at(Kind::Test, None);
    assert_eq!((d.verdict, d.code), (Verdict::Blocked, Code::SixtyEmission));
}

/// On 60 m a segment that holds the signal with its margin goes before a channel that doesn't (document
/// 02, 4). The practice table's channel stands off its segment: here it is moved to 5,353,000, so it is
/// 5,351,600 to 5,354,400, its carrier 5,351,500, and the segment 5,351,500 to 5,366,500.
#[test]
fn channel_against_segment() {
    let image = with(192, &5_353_000f64.to_le_bytes());
    let at = |kind, dial_hz, power_w, edges: &Edges| {
        let s = Station { power_w, ..station(dial_hz) };
        evaluate(&s, kind, Direction::Originate, edges, &image).unwrap()
    };
    let segment = Segment { range: range(5_351_500.0, 5_366_500.0), rule: Rule::Table(14) };
    let channel = Segment { range: range(5_351_600.0, 5_354_400.0), rule: Rule::Table(10) };
    let none = SixtyNotes { channel_power: false, shared: false, segment_power: false };
    let above = SixtyNotes { segment_power: true, ..none };

    // 5,351,500 to 5,352,100 with the margin; the last two reach past the channel's upper end
    for dial_hz in [5_350_300.0, 5_350_399.875, 5_352_600.125, 5_353_200.0] {
        let d = at(Kind::Data, dial_hz, None, &EDGES);
        assert_eq!((d.verdict, d.code), (Verdict::Legal, Code::SixtySegment));
        assert_eq!((d.rule, d.segment, d.sixty), (Rule::Table(14), Some(segment), none));
        assert_eq!(d.air, Some(range(dial_hz + 1_250.0, dial_hz + 1_750.0)));
        let d = at(Kind::Data, dial_hz, Some(50.0), &EDGES);
        assert_eq!((d.verdict, d.code, d.sixty), (Verdict::Warning, Code::SixtySegment, above));
    }
    // held by both: the channel decides, on its carrier and off it
    for dial_hz in [5_350_400.0, 5_351_500.0, 5_352_600.0] {
        let d = at(Kind::Data, dial_hz, None, &EDGES);
        let fits = dial_hz == 5_351_500.0;
        let verdict = if fits { Verdict::Legal } else { Verdict::Blocked };
        assert_eq!((d.verdict, d.code), (verdict, Code::SixtyChannel));
        assert_eq!((d.rule, d.segment), (Rule::Table(10), Some(channel)));
    }
    // wider than the general limit of 2,800
    let d = at(Kind::Data, 5_352_000.0, None, &Edges::both(100.0, 2_900.125));
    assert_eq!((d.verdict, d.code), (Verdict::Blocked, Code::TooWide));
    assert_eq!((d.rule, d.segment), (Rule::Table(7), Some(segment)));
    // a CW carrier on the centre, wider than the channel; and one that it holds
    let wide = Edges::both(-1_450.0, 1_450.0);
    let d = at(Kind::Cw, 5_353_000.0, None, &wide);
    assert_eq!((d.verdict, d.code, d.sixty), (Verdict::Legal, Code::SixtySegment, none));
    let d = at(Kind::Cw, 5_353_000.0, Some(50.0), &wide);
    assert_eq!((d.verdict, d.code, d.sixty), (Verdict::Warning, Code::SixtySegment, above));
    let d = at(Kind::Cw, 5_353_000.0, Some(50.0), &Edges::both(-1_350.0, 1_350.0));
    let shared = SixtyNotes { shared: true, ..none };
    assert_eq!((d.verdict, d.code, d.sixty), (Verdict::Legal, Code::SixtyChannel, shared));

    // the rungs reach into the channel, and the last is 2,850 wide
    let s = station(5_350_300.0);
    let rungs = [EDGES, Edges::both(1_250.0, 2_750.0), Edges::both(1_250.0, 4_100.0)];
    let climb = |rungs: &[Edges]| {
        let floors = vec![false; rungs.len()];
        ceiling(&s, Direction::Originate, &EDGES, &EDGES, &image, rungs, &floors).unwrap()
    };
    let c = climb(&rungs[..2]);
    assert_eq!((c.rung, c.limit), (Some(1), None));
    let c = climb(&rungs);
    let limit = c.limit.unwrap();
    assert_eq!((c.rung, limit.code, limit.segment), (Some(1), Code::TooWide, Some(segment)));
}

#[test]
fn unmeasured_signal() {
    let d = unmeasured(&station(14_100_000.0), IMAGE).unwrap();
    assert_eq!((d.verdict, d.code, d.rule), (Verdict::Blocked, Code::Unmeasured, Rule::Empty));
    assert_eq!(unmeasured(&station(f64::NAN), IMAGE), Err(Refusal::StationFigure));
}

#[test]
fn climbs() {
    let s = station(14_100_000.0);
    let rungs = [EDGES, Edges::both(1_000.0, 2_000.0), Edges::both(0.0, 2_900.0)];
    let climb = |rungs: &[Edges], floors: &[bool]| {
        ceiling(&s, Direction::Originate, &EDGES, &EDGES, IMAGE, rungs, floors)
    };
    let c = climb(&rungs, &[false; 3]).unwrap();
    assert_eq!(c.rung, Some(1));
    let limit = c.limit.unwrap();
    assert_eq!((limit.verdict, limit.code), (Verdict::Blocked, Code::TooWide));
    assert_eq!((limit.audio, limit.width_hz), (range(0.0, 2_900.0), 2_900.0));
    let c = climb(&rungs[..2], &[false; 2]).unwrap();
    assert_eq!((c.rung, c.limit), (Some(1), None));
    let c = climb(&rungs[2..], &[false]).unwrap();
    assert_eq!((c.rung, c.limit.map(|d| d.code)), (None, Some(Code::TooWide)));
    let c = climb(&[], &[]).unwrap();
    assert_eq!((c.rung, c.limit), (None, None));
    assert_eq!(climb(&rungs, &[false; 2]), Err(Refusal::Rungs));
    assert_eq!(climb(&[EDGES; 257], &[false; 257]), Err(Refusal::Rungs));
    let bad = Edges { spectral_high: f64::INFINITY, ..EDGES };
    assert_eq!(climb(&[EDGES, bad], &[false; 2]), Err(Refusal::SignalEdge));
}

/// What whoever forgets the marks of the bare boundary meets: blocked, no rung, and infinity.
#[test]
fn absent_parts_are_safe() {
    let s = raw::Station {
        margin_lower_hz: 50.0,
        margin_upper_hz: 50.0,
        dial_hz: 14_100_000.0,
        power_w: 0.0,
        policy: 2,
        control: 0,
        license: 2,
        sideband: 0,
        itu_region: 2,
        band_plan: 0,
        dial_known: 1,
        power_known: 0,
    };
    let climb = |rungs: &[f64], floors: &[u8]| {
        let c = raw::ceiling(s, 0, EDGES, EDGES, IMAGE, rungs, floors);
        (c.refusal, c.rung, c.limit_known, c.limit.refusal, c.limit.verdict, c.limit.code)
    };
    let rung = [1_250.0, 1_750.0, 1_250.0, 1_750.0];
    assert_eq!(climb(&rung, &[0]), (0, 0, 0, 0, 2, 0));
    assert_eq!(climb(&[], &[]), (0, -1, 0, 0, 2, 0));
    assert_eq!(climb(&rung, &[2]), (16, -1, 0, 16, 2, 0));
    assert_eq!(climb(&[0.0, 2_900.0, 0.0, 2_900.0], &[0]), (0, -1, 1, 0, 2, 12));
    let far = |dial_hz, count| {
        let d = raw::distance(dial_hz, IMAGE[42], IMAGE[43], count, &[]);
        (d.refusal, d.listed, d.distance_hz)
    };
    assert_eq!(far(14_100_000.0, 0), (0, 0, f64::INFINITY));
    assert_eq!(far(14_100_000.0, 1), (23, 0, f64::INFINITY));
    assert_eq!(far(f64::NAN, 0), (21, 0, f64::INFINITY));
    let near = |s, edges, image| {
        let near = raw::nearest_dial(s, 0, edges, image);
        (near.refusal, near.answer, near.dial_hz)
    };
    assert_eq!(near(s, EDGES, IMAGE), (0, 1, 14_100_000.0));
    assert_eq!(near(s, EDGES, &[]), (22, 0, f64::INFINITY));
    assert_eq!(near(s, Edges::both(0.0, 2_900.0), IMAGE), (0, 2, f64::INFINITY));
    assert_eq!(near(raw::Station { dial_known: 0, ..s }, EDGES, IMAGE), (0, 3, f64::INFINITY));
}

/// The floor control frame counts where a rung's mark says so.
#[test]
fn floor_frames() {
    let s = station(14_100_000.0);
    let wide = Edges::both(0.0, 2_900.0);
    let climb = |floors: &[bool]| {
        ceiling(&s, Direction::Originate, &EDGES, &wide, IMAGE, &[EDGES, EDGES], floors).unwrap()
    };
    assert_eq!(climb(&[false, false]).rung, Some(1));
    assert_eq!(climb(&[false, true]).rung, Some(0));
    assert_eq!(climb(&[true, false]).rung, None);
}

/// Lower and upper are sides of the air on either sideband (document 02, 9): the dials of 20 m's segment are
/// 14,025,000 - 1,250 + 25 to 14,150,000 - 1,750 - 450 on the upper, 14,025,000 + 1,750 + 25 to 14,150,000 +
/// 1,250 - 450 on the lower. Data is allowed at both ends of a row, and not an eighth beyond.
#[test]
fn two_margins() {
    let dials = [
        (Sideband::Upper, range(14_023_775.0, 14_147_800.0)),
        (Sideband::Lower, range(14_026_775.0, 14_150_800.0)),
    ];
    for (sideband, want) in dials {
        let s = |dial_hz| Station {
            sideband: Some(sideband),
            margin_lower_hz: 25.0,
            margin_upper_hz: 450.0,
            ..station(dial_hz)
        };
        let mut bytes = [7; 3 * ROW];
        let list = safe_dials(&s(0.0), Direction::Originate, &EDGES, IMAGE, &mut bytes).unwrap();
        let row = list.rows().last().unwrap();
        assert_eq!((row.band, row.dial), (20, want));
        let allowed = |dial_hz| {
            let d = evaluate(&s(dial_hz), Kind::Data, Direction::Originate, &EDGES, IMAGE);
            d.unwrap().verdict == Verdict::Legal
        };
        assert!(allowed(want.low_hz) && allowed(want.high_hz));
        assert!(!allowed(want.low_hz - 0.125) && !allowed(want.high_hz + 0.125));
    }
    let lower = Station { margin_lower_hz: f64::NAN, ..station(14_100_000.0) };
    let upper = Station { margin_upper_hz: f64::INFINITY, ..station(14_100_000.0) };
    for s in [lower, upper] {
        let d = evaluate(&s, Kind::Data, Direction::Originate, &EDGES, IMAGE);
        assert_eq!(d.err(), Some(Refusal::StationFigure));
    }
}

#[test]
fn dial_list() {
    let s = automatic(14_100_000.0);
    let mut bytes = [7; 3 * ROW + 5];
    let rows = safe_dials(&s, Direction::Originate, &EDGES, IMAGE, &mut bytes).unwrap().rows();
    assert_eq!(rows.len(), 2);
    assert_eq!(rows.bytes().len(), 2 * ROW);
    let rows: Vec<DialRow> = rows.collect();
    let row = |segment, dial| DialRow { segment, dial, band: 20, rule: Rule::Table(9) };
    let want = [
        row(range(14_095_000.0, 14_099_500.0), range(14_093_800.0, 14_097_700.0)),
        row(range(14_100_500.0, 14_112_000.0), range(14_099_300.0, 14_110_200.0)),
    ];
    assert_eq!(rows, want);
    assert!(bytes[2 * ROW..].iter().all(|&b| b == 7));
    assert_eq!(DialRows::new(&bytes[..2 * ROW + 35]).collect::<Vec<_>>(), want);

    let mut short = [7; 2 * ROW - 1];
    let refused = safe_dials(&s, Direction::Originate, &EDGES, IMAGE, &mut short);
    assert_eq!(refused.err(), Some(Refusal::Rows));
    assert!(short.iter().all(|&b| b == 7));
}

/// A list is empty, and not refused, where nothing is known of the station.
#[test]
fn empty_lists() {
    let s = Station { sideband: None, ..station(14_100_000.0) };
    let list = safe_dials(&s, Direction::Operator, &EDGES, IMAGE, &mut []).unwrap();
    assert_eq!(list.rows().len(), 0);
    assert_eq!(list.distance(14_100_000.0), Ok(Distance::NoneListed));
    assert_eq!(list.distance(f64::NAN), Err(Refusal::StationFigure));
    // without rules no image is looked at, and it may have no bytes 42 and 43
    let s = Station { policy: Policy::NoRules, ..station(14_100_000.0) };
    let list = safe_dials(&s, Direction::Operator, &EDGES, &[], &mut []).unwrap();
    assert_eq!(list.distance(14_100_000.0), Ok(Distance::NoneListed));
}

/// From the automatic originating list: 14,093,800 to 14,097,700 and 14,099,300 to 14,110,200.
#[test]
fn distances() {
    let s = automatic(14_100_000.0);
    let mut bytes = [7; 3 * ROW];
    let list = safe_dials(&s, Direction::Originate, &EDGES, IMAGE, &mut bytes).unwrap();
    let from = |dial_hz| list.distance(dial_hz);
    for dial_hz in [14_093_800.0, 14_095_000.0, 14_097_700.0, 14_099_300.0, 14_110_200.0] {
        assert_eq!(from(dial_hz), Ok(Distance::Hz(0.0)), "{dial_hz}");
    }
    assert_eq!(from(14_093_799.0), Ok(Distance::Hz(1.0)));
    assert_eq!(from(14_093_799.875), Ok(Distance::Hz(0.125)));
    assert_eq!(from(14_098_000.0), Ok(Distance::Hz(300.0)));
    assert_eq!(from(14_098_500.0), Ok(Distance::Hz(800.0)));
    assert_eq!(from(14_099_000.0), Ok(Distance::Hz(300.0)));
    assert_eq!(from(14_110_200.125), Ok(Distance::Hz(0.125)));
    assert_eq!(from(0.0), Ok(Distance::Hz(14_093_800.0)));
    assert_eq!(from(-14_093_800.0), Ok(Distance::Hz(28_187_600.0)));

    let most = 1_099_511_627_776.0; // 2^40
    assert_eq!(from(most), Ok(Distance::Hz(1_099_497_517_576.0)));
    for dial_hz in [most + 0.125, -most - 0.125, f64::INFINITY, f64::NEG_INFINITY, f64::NAN] {
        assert_eq!(from(dial_hz), Err(Refusal::StationFigure), "{dial_hz}");
    }
}

/// By the parts: the count says how many rows are asked.
#[test]
fn distance_of_parts() {
    let s = automatic(14_100_000.0);
    let mut bytes = [0; 2 * ROW];
    let list = safe_dials(&s, Direction::Originate, &EDGES, IMAGE, &mut bytes).unwrap();
    assert_eq!(list.rows().len(), 2);
    let rows: &[u8] = &bytes;
    let at = |dial_hz, count, rows| distance(dial_hz, IMAGE[42], IMAGE[43], count, rows);
    assert_eq!(at(14_099_300.0, 2, rows), Ok(Distance::Hz(0.0)));
    assert_eq!(at(14_099_300.0, 1, rows), Ok(Distance::Hz(1_600.0)));
    assert_eq!(at(14_099_300.0, 0, rows), Ok(Distance::NoneListed));
    assert_eq!(at(14_099_300.0, 0, &[]), Ok(Distance::NoneListed));
    assert_eq!(at(14_099_300.0, 3, rows), Err(Refusal::Rows));
    assert_eq!(at(14_099_300.0, 2, &rows[..2 * ROW - 1]), Err(Refusal::Rows));
    assert_eq!(at(14_099_300.0, u32::MAX, rows), Err(Refusal::Rows));
    assert_eq!(at(f64::NAN, 3, rows), Err(Refusal::StationFigure));
    assert_eq!(at(14_099_300.0, 1, &rows[..2 * ROW - 1]), Ok(Distance::Hz(1_600.0)));
}

/// Rows of the channel band do not count, unless the image has no channels (flag bit 2 clear).
#[test]
fn distance_off_the_channel_band() {
    let s = station(5_330_500.0);
    let mut bytes = [0; 3 * ROW];
    let list = safe_dials(&s, Direction::Originate, &EDGES, IMAGE, &mut bytes).unwrap();
    // the channel's centre less the offset, the segments of 60 m and of 20 m
    let want = [
        (60, range(5_330_500.0, 5_330_500.0)),
        (60, range(5_350_300.0, 5_364_700.0)),
        (20, range(14_023_800.0, 14_148_200.0)),
    ];
    assert_eq!(list.rows().map(|row| (row.band, row.dial)).collect::<Vec<_>>(), want);
    assert_eq!(list.distance(14_023_800.0), Ok(Distance::Hz(0.0)));
    assert_eq!(list.distance(5_330_500.0), Ok(Distance::Hz(8_693_300.0)));
    assert_eq!(list.distance(5_350_300.0), Ok(Distance::Hz(8_673_500.0)));

    let rows: &[u8] = &bytes;
    let at = |flags, channel_band, count| distance(5_330_550.0, flags, channel_band, count, rows);
    assert_eq!(at(4, 60, 3), Ok(Distance::Hz(8_693_250.0)));
    assert_eq!(at(4, 20, 3), Ok(Distance::Hz(50.0)));
    assert_eq!(at(255 - 4, 60, 3), Ok(Distance::Hz(50.0)));
    // both rows of 60 m alone
    assert_eq!(at(4, 60, 2), Ok(Distance::NoneListed));
    assert_eq!(at(0, 60, 2), Ok(Distance::Hz(50.0)));
}

/// The call for a station that originates.
fn near(s: &Station, edges: &Edges, image: &[u8]) -> Result<Nearest, Refusal> {
    nearest_dial(s, Direction::Originate, edges, image)
}

const TWO_38: f64 = 274_877_906_944.0;

/// Outside 60 m General's dials are 14,023,800 to 14,148,200, under automatic control 14,093,800 to 14,097,700
/// and 14,099,300 to 14,110,200.
#[test]
fn nearest_dials() {
    let moved =
        |s: &Station, to| assert_eq!(near(s, &EDGES, IMAGE), Ok(Nearest::Dial(to)), "{s:?}");
    for (dial_hz, to) in [
        (14_023_800.0, 14_023_800.0),
        (14_100_000.125, 14_100_000.125),
        (14_148_200.0, 14_148_200.0),
        (14_023_799.875, 14_023_800.0),
        (14_148_200.125, 14_148_200.0),
        (14_149_000.0, 14_148_200.0),
        (0.0, 14_023_800.0),
        (-0.0, 14_023_800.0),
        (-TWO_38, 14_023_800.0),
        (TWO_38, 14_148_200.0),
        // in the channel band: set up for the channel, off it, and in the segment of 60 m
        (5_330_500.0, 14_023_800.0),
        (5_330_550.125, 14_023_800.0),
        (5_360_000.0, 14_023_800.0),
    ] {
        moved(&station(dial_hz), to);
    }
    for (dial_hz, to) in [
        (14_098_000.0, 14_097_700.0),
        (14_098_499.875, 14_097_700.0),
        (14_098_500.0, 14_097_700.0), // equally far from both: the lower
        (14_098_500.125, 14_099_300.0),
        (14_148_500.0, 14_110_200.0),
    ] {
        moved(&automatic(dial_hz), to);
        let s = automatic(dial_hz);
        let to = Ok(Nearest::Dial(to));
        assert_eq!(nearest_dial(&s, Direction::RespondToAutomatic, &EDGES, IMAGE), to);
        // answering an operator's station it has all of General's dials
        let own = Ok(Nearest::Dial(dial_hz.min(14_148_200.0)));
        assert_eq!(nearest_dial(&s, Direction::Respond, &EDGES, IMAGE), own);
    }
    // the lower sideband with two margins: 14,025,000 + 1,750 + 25 to 14,150,000 + 1,250 - 450
    for (dial_hz, to) in [(14_026_774.875, 14_026_775.0), (14_150_800.125, 14_150_800.0)] {
        let (sideband, margin_lower_hz, margin_upper_hz) = (Some(Sideband::Lower), 25.0, 450.0);
        moved(&Station { sideband, margin_lower_hz, margin_upper_hz, ..station(dial_hz) }, to);
    }
    // a dial of negative zero reads as zero
    let high = Edges::both(14_030_000.0, 14_030_500.0);
    let Ok(Nearest::Dial(own)) = near(&station(-0.0), &high, IMAGE) else { panic!("no dial") };
    assert_eq!(own.to_bits(), 0);
    // 2,800 wide and no more; and nobody but General has a privilege
    let wide = Edges::both(100.0, 2_900.0);
    assert_eq!(near(&station(0.0), &wide, IMAGE), Ok(Nearest::Dial(14_024_950.0)));
    let wider = Edges::both(100.0, 2_900.125);
    assert_eq!(near(&station(14_100_000.0), &wider, IMAGE), Ok(Nearest::NoneAllowed));
    let s = Station { license: Some(License::Extra), ..station(14_100_000.0) };
    assert_eq!(near(&s, &EDGES, IMAGE), Ok(Nearest::NoneAllowed));
}

/// The dial given is allowed, an eighth nearer is not, and the list's distance is that of the dial given.
#[test]
fn nearest_beside_the_list() {
    let allowed = |s: &Station, dial_hz| {
        let s = Station { dial_hz: Some(dial_hz), ..*s };
        evaluate(&s, Kind::Data, Direction::Originate, &EDGES, IMAGE).unwrap().allowed()
    };
    for at in 0..4_000 {
        let dial_hz = 14_020_000.0 + 33.125 * f64::from(at);
        for s in [station(dial_hz), automatic(dial_hz)] {
            let Ok(Nearest::Dial(to)) = near(&s, &EDGES, IMAGE) else { panic!("{s:?}") };
            assert!(allowed(&s, to), "{s:?} to {to}");
            if to != dial_hz {
                assert!(!allowed(&s, to + 0.125 * (dial_hz - to).signum()), "{s:?} to {to}");
            }
            let mut bytes = [0; 3 * ROW];
            let list = safe_dials(&s, Direction::Originate, &EDGES, IMAGE, &mut bytes).unwrap();
            assert_eq!(list.distance(dial_hz), Ok(Distance::Hz((to - dial_hz).abs())));
        }
    }
}

/// One premise fails, each in its turn.
#[test]
fn nearest_not_judged() {
    let not_judged = Ok(Nearest::NotJudged);
    let s = station(14_149_000.0);
    let to = Ok(Nearest::Dial(14_148_200.0));
    assert_eq!(near(&s, &EDGES, IMAGE), to);
    // rules in force: of others no image is looked at
    for policy in [Policy::Unset, Policy::NoRules, Policy::Broken] {
        assert_eq!(near(&Station { policy, ..s }, &EDGES, &[]), not_judged);
    }
    for missing in [
        Station { itu_region: 1, ..s },
        Station { control: None, ..s },
        Station { license: None, ..s },
        Station { sideband: None, ..s },
        Station { dial_hz: None, ..s },
    ] {
        assert_eq!(near(&missing, &EDGES, IMAGE), not_judged, "{missing:?}");
    }
    let figure = |x: f64| x.to_bits().to_le_bytes();
    // tidy: band 60 up to 15,000,000
    assert_eq!(near(&s, &EDGES, &with(104, &figure(15_000_000.0))), not_judged);
    // the guarded width: 500 less 250 and 250; with an eighth more the signal is 1,500 to 1,500.125 above the dial
    let narrow = |upper| Station { margin_lower_hz: -250.0, margin_upper_hz: upper, ..s };
    assert_eq!(near(&narrow(-250.0), &EDGES, IMAGE), not_judged);
    let last = Ok(Nearest::Dial(14_148_499.875));
    assert_eq!(near(&narrow(-249.875), &EDGES, IMAGE), last);
    // eighths, and 2^38
    for x in [0.0625, TWO_38 + 0.125, -TWO_38 - 0.125] {
        for off in [
            Station { dial_hz: Some(x), ..s },
            Station { margin_lower_hz: x, ..s },
            Station { margin_upper_hz: x, ..s },
        ] {
            assert_eq!(near(&off, &EDGES, IMAGE), not_judged, "{off:?}");
        }
        // the pair that is read, and the other: byte 41 is the reading, 0 by power and 1 by spectrum
        for off in [
            Edges { power_low: x, ..EDGES },
            Edges { power_high: x, ..EDGES },
            Edges { spectral_low: x, ..EDGES },
            Edges { spectral_high: x, ..EDGES },
        ] {
            for reading in 0..3 {
                assert_eq!(near(&s, &off, &with(41, &[reading])), not_judged, "{off:?}");
            }
        }
    }
    // the general limit, the elsewhere limit, a channel's width, carrier offset and tolerance, a channel's centre, an
    // automatic segment's end: under local control too
    for (at, x) in [
        (0, 2_800.062_5),
        (8, 500.062_5),
        (16, 2_800.062_5),
        (24, 1_500.062_5),
        (32, 50.062_5),
        (192, 5_332_000.062_5),
        (328, 14_112_000.062_5),
        (328, TWO_38 + 0.125),
    ] {
        assert_eq!(near(&s, &EDGES, &with(at, &figure(x))), not_judged, "{x} at {at}");
    }
    assert_eq!(near(&s, &EDGES, &with(328, &figure(TWO_38))), to);
    // an own limit, under bit 0 of its segment's flags
    let mut own = with(144, &figure(2_800.062_5));
    own[155] = 1;
    assert_eq!(near(&s, &EDGES, &own), not_judged);
}

/// An image with a record more behind the last: the table's number, and its low, high and figure.
fn and(table: usize, figures: [f64; 3]) -> Vec<u8> {
    let mut image = IMAGE[..352].to_vec();
    figures.iter().for_each(|x| image.extend(x.to_bits().to_le_bytes()));
    image.extend([0; 8]);
    image.extend(&IMAGE[352..]);
    image[384 + 2 * table] += 1;
    image[384 + 18..384 + 22].copy_from_slice(&384u32.to_le_bytes());
    image
}

/// Watts are no hertz; the plan's areas count with the plan off too.
#[test]
fn nearest_of_watts_and_plans() {
    let s = station(14_149_000.0);
    let to = Ok(Nearest::Dial(14_148_200.0));
    assert_eq!(near(&s, &EDGES, &second(100.0, 9.15)), to);
    assert_eq!(near(&Station { power_w: Some(9.15), ..s }, &EDGES, IMAGE), to);
    let power = |low| and(6, [low, 14_350_000.0, 9.15]);
    assert_eq!(near(&s, &EDGES, &power(14_000_000.0)), to);
    assert_eq!(near(&s, &EDGES, &power(14_000_000.062_5)), Ok(Nearest::NotJudged));
    let plan = |low| {
        let mut image = and(7, [low, 14_112_000.0, 0.0]);
        image[42] |= raw::PART_PLAN;
        image
    };
    for band_plan in [false, true] {
        let s = Station { band_plan, ..s };
        assert_eq!(near(&s, &EDGES, &plan(14_070_000.0)), to);
        assert_eq!(near(&s, &EDGES, &plan(14_070_000.062_5)), Ok(Nearest::NotJudged));
    }
}

/// A refusal comes before "not judged".
#[test]
fn nearest_refused() {
    let s = Station { control: None, ..station(14_149_000.0) };
    assert_eq!(near(&s, &EDGES, IMAGE), Ok(Nearest::NotJudged));
    let far = Station { dial_hz: Some(4.0 * TWO_38 + 0.125), ..s };
    assert_eq!(near(&far, &EDGES, &[]), Err(Refusal::StationFigure));
    let far = Station { policy: Policy::NoRules, ..far };
    assert_eq!(near(&far, &EDGES, &[]), Err(Refusal::StationFigure));
    let edges = Edges { spectral_low: f64::NAN, ..EDGES };
    assert_eq!(near(&s, &edges, &[]), Err(Refusal::NoImage));
    assert_eq!(near(&s, &edges, &IMAGE[1..]), Err(Refusal::Counts));
    assert_eq!(near(&s, &edges, &with(41, &[3])), Err(Refusal::CodedByte));
    assert_eq!(near(&s, &edges, IMAGE), Err(Refusal::SignalEdge));
    let free = Station { policy: Policy::NoRules, ..s };
    assert_eq!(near(&free, &edges, &[]), Err(Refusal::SignalEdge));
}

/// A row by its bytes, written by hand.
#[test]
fn row_bytes() {
    let mut bytes = [0; ROW];
    for (i, x) in [1.5f64, 2.5, -3.0, 4.0].iter().enumerate() {
        bytes[8 * i..8 * i + 8].copy_from_slice(&x.to_bits().to_le_bytes());
    }
    bytes[32] = 60;
    bytes[34] = 5;
    bytes[35] = 0;
    let row = DialRow::from_bytes(&bytes);
    assert_eq!((row.segment, row.dial), (range(1.5, 2.5), range(-3.0, 4.0)));
    assert_eq!((row.band, row.rule), (60, Rule::Part97_305C));
    bytes[35] = 1;
    assert_eq!(DialRow::from_bytes(&bytes).rule, Rule::Table(261));
}

#[test]
fn refusals_of_the_state() {
    let at = |s: &Station, image| evaluate(s, Kind::Data, Direction::Originate, &EDGES, image);
    assert_eq!(at(&station(1e300), IMAGE), Err(Refusal::StationFigure));
    assert_eq!(at(&station(14_100_000.0), &[]), Err(Refusal::NoImage));
    assert_eq!(at(&station(14_100_000.0), &IMAGE[1..]), Err(Refusal::Counts));
    let edges = Edges { power_low: f64::NAN, ..EDGES };
    let s = station(14_100_000.0);
    let refused = evaluate(&s, Kind::Data, Direction::Originate, &edges, IMAGE);
    assert_eq!(refused, Err(Refusal::SignalEdge));
}

type Call = fn(f64, &mut [u8]) -> Result<&str, Refusal>;

const TEXTS: [Call; 3] = [text_at, text_khz, text_hertz];

fn writes(call: Call, hz: f64, text: &str) {
    assert_eq!(call(hz, &mut [0; MOST_TEXT]), Ok(text), "{hz}");
}

const MOST: f64 = 8_796_093_022_208.0; // 2^43

#[test]
fn texts() {
    // 14,097.7 kHz, and halves of the last digit: the quotient's exact value is a little off the half,
    // or on it (62.5 and 187.5), and then goes to the even digit
    for (hz, text) in [
        (14_097_700.0, "14097.700"),
        (0.0, "0.000"),
        (0.5, "0.001"),
        (1.5, "0.002"),
        (2.5, "0.003"),
        (4.5, "0.004"),
        (62.5, "0.062"),
        (187.5, "0.188"),
        (0.25, "0.000"),
        (999.75, "1.000"),
        (MOST, "8796093022.208"),
    ] {
        writes(text_at, hz, text);
        writes(text_at, -hz, &format!("-{text}"));
    }
    for (hz, text) in [
        (14_100_000.0, "14100"),
        (14_097_700.0, "14097.7"),
        (14_097_750.0, "14097.750"),
        (0.4, "0.000"),
        (0.0001, "0"),
        (0.001, "0.000"),
        (0.000_999, "0"),
        (999.999, "1.000"),
        (999.999_5, "1"),
        (100.000_09, "0.1"),
        (100.000_1, "0.100"),
        (0.0, "0"),
        (MOST, "8796093022.208"),
    ] {
        writes(text_khz, hz, text);
        writes(text_khz, -hz, &format!("-{text}"));
    }
    for (hz, text) in [
        (2_300.0, "2300"),
        (2_300.5, "2300"),
        (2_301.5, "2302"),
        (0.0, "0"),
        (0.5, "0"),
        (1.5, "2"),
        (0.500_1, "1"),
        (5e-324, "0"),
        (MOST, "8796093022208"),
    ] {
        writes(text_hertz, hz, text);
        writes(text_hertz, -hz, &format!("-{text}"));
    }
}

/// The original's `khz`.
fn khz(hz: f64) -> String {
    let k = hz / 1000.0;
    if (k - k.round()).abs() < 1e-6 {
        format!("{k:.0}")
    } else if (k * 10.0 - (k * 10.0).round()).abs() < 1e-6 {
        format!("{k:.1}")
    } else {
        format!("{k:.3}")
    }
}

/// Rust's own texts of figures of every size: whole, in eighths, a step beside, and of any bits.
#[test]
fn texts_as_rust_has_them() {
    let mut seed = 1u64;
    let mut random = || {
        // SplitMix64
        seed = seed.wrapping_add(0x9e37_79b9_7f4a_7c15);
        let mut z = seed;
        z = (z ^ (z >> 30)).wrapping_mul(0xbf58_476d_1ce4_e5b9);
        z = (z ^ (z >> 27)).wrapping_mul(0x94d0_49bb_1331_11eb);
        z ^ (z >> 31)
    };
    for _ in 0..20_000 {
        let whole = (random() >> (21 + random() % 43)) as f64;
        let eighths = whole / 8.0;
        let beside = f64::from_bits(whole.to_bits() + 1);
        let bits = f64::from_bits((random() >> 1) % (MOST.to_bits() + 1));
        for hz in [whole, eighths, beside, bits, whole / 1e6].into_iter().filter(|&hz| hz <= MOST) {
            for hz in [hz, -hz] {
                writes(text_at, hz, &format!("{:.3}", hz / 1000.0));
                writes(text_khz, hz, &khz(hz));
                writes(text_hertz, hz, &format!("{hz:.0}"));
            }
        }
    }
}

/// 21, then 24; a refusal changes no byte, a text none past itself.
#[test]
fn texts_in_lent_bytes() {
    let above = f64::from_bits(MOST.to_bits() + 1);
    for call in TEXTS {
        for hz in [above, f64::MAX, f64::INFINITY, f64::NAN] {
            for hz in [hz, -hz] {
                let mut room = [7; MOST_TEXT];
                assert_eq!(call(hz, &mut room), Err(Refusal::StationFigure), "{hz}");
                assert_eq!(room, [7; MOST_TEXT]);
                assert_eq!(call(hz, &mut []), Err(Refusal::StationFigure), "{hz}");
            }
        }
        for hz in [-MOST, -0.0, 0.0, 14_097_700.0, 14_097_750.0] {
            let text = call(hz, &mut [0; MOST_TEXT]).unwrap().to_owned();
            assert!(!text.is_empty() && text.is_ascii());
            for room in 0..=20 {
                let mut bytes = [7; 20];
                let lent = &mut bytes[..room];
                if room < text.len() {
                    assert_eq!(call(hz, lent), Err(Refusal::Text), "{hz} in {room}");
                    assert_eq!(bytes, [7; 20]);
                } else {
                    assert_eq!(call(hz, lent), Ok(&*text), "{hz} in {room}");
                    assert_eq!(&bytes[..text.len()], text.as_bytes());
                    assert!(bytes[text.len()..].iter().all(|&b| b == 7));
                }
            }
        }
    }
    writes(text_at, -MOST, "-8796093022.208");
    assert_eq!("-8796093022.208".len(), MOST_TEXT);
    let mut room = [7; 4];
    let flat = raw::text_at(14_097_700.0, &mut room);
    assert_eq!((flat.length, flat.refusal, room), (0, 24, [7; 4]));
    let flat = raw::text_khz(f64::NAN, &mut room);
    assert_eq!((flat.length, flat.refusal, room), (0, 21, [7; 4]));
    let flat = raw::text_hertz(500.0, &mut room);
    assert_eq!((flat.length, flat.refusal, &room), (3, 0, b"500\x07"));
}
