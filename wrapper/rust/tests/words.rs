//! Every answer in words: the text of each case, written by hand.

use std::collections::HashSet;
use std::fmt::Display;

use pamuklid::{
    Ceiling, Code, Control, Decision, DialRow, Direction, Distance, Edge, Fault, Guidance, Hertz,
    Kilohertz, Kind, License, Nearest, Overshoot, Place, Policy, PowerNotes, Range, Refusal,
    ReportRow, Rule, Segment, Sideband, SixtyNotes, Table, Verdict, Version,
};

fn range(low_hz: f64, high_hz: f64) -> Range {
    Range { low_hz, high_hz }
}

fn reads<T: Display>(value: T, text: &str) {
    assert_eq!(value.to_string(), text);
}

/// Each value's text is its own, and none is empty.
fn all_differ<T: Display>(all: &[T]) {
    let texts: HashSet<String> = all.iter().map(T::to_string).collect();
    assert_eq!(texts.len(), all.len(), "{texts:?}");
    assert!(!texts.contains(""));
}

#[test]
fn figures() {
    reads(Hertz(0.0), "0 Hz");
    reads(Hertz(999.0), "999 Hz");
    reads(Hertz(1_000.0), "1000 Hz");
    reads(Hertz(-1_000.0), "-1000 Hz");
    reads(Hertz(1_099_511_627_776.0), "1099511627776 Hz");
    assert_eq!(format!("[{:>10}]", Hertz(1_000.0)), "[   1000 Hz]");
    reads(Hertz(range(1_250.0, 1_750.0)), "1250 to 1750 Hz");
    reads(Kilohertz(0.0), "0.000 kHz");
    reads(Kilohertz(14_097_700.0), "14097.700 kHz");
    reads(Kilohertz(-50.0), "-0.050 kHz");
    assert_eq!(format!("[{:<15}]", Kilohertz(14_097_700.0)), "[14097.700 kHz  ]");
    reads(Kilohertz(range(14_025_050.0, 14_025_550.0)), "14025.050 to 14025.550 kHz");
    reads(range(14_000_000.0, 14_150_000.0), "14000 to 14150 kHz");
    reads(range(5_330_600.0, 5_333_450.0), "5330.6 to 5333.450 kHz");
    let segment = Segment { range: range(14_095_000.0, 14_099_500.0), rule: Rule::Table(13) };
    reads(segment, "14095 to 14099.5 kHz (rule 13 of the table)");
    reads(Version { major: 0, minor: 14, patch: 0 }, "0.14.0");
    reads(Version::from_number(123_456), "12.34.56");
}

/// A figure that is not whole hertz is not shown as if it were.
#[test]
fn figures_that_are_not_whole() {
    reads(Hertz(49.875), "about 50 Hz");
    reads(Hertz(2_800.125), "about 2800 Hz");
    reads(Hertz(-999.5), "about -1000 Hz"); // a half to the even one
    reads(Hertz(-998.5), "about -998 Hz");
    reads(Hertz(0.125), "under 1 Hz");
    reads(Hertz(0.5), "under 1 Hz");
    reads(Hertz(0.75), "about 1 Hz");
    reads(Hertz(5e-324), "under 1 Hz");
    reads(Hertz(-0.125), "about -0 Hz");
    reads(Hertz(range(0.125, 2_900.0)), "about 0 to 2900 Hz");
    reads(Hertz(range(-0.125, 2_900.25)), "about -0 to about 2900 Hz");
    reads(Kilohertz(14_097_700.125), "about 14097.700 kHz");
    reads(Kilohertz(0.25), "under 1 Hz");
    reads(Kilohertz(0.5), "about 0.001 kHz"); // 0.0005 is a little more than the half
    reads(Kilohertz(range(14_025_049.875, 14_025_550.0)), "about 14025.050 to 14025.550 kHz");
    reads(range(14_000_000.0, 14_150_000.125), "14000 to about 14150.000 kHz");
    // within a millionth of a kilohertz
    reads(range(14_000_000.000_5, 14_150_000.0), "about 14000 to 14150 kHz");
    assert_eq!(format!("[{:>12}]", Hertz(49.875)), "[ about 50 Hz]");
}

/// Figures that have no text.
#[test]
fn figures_in_words_alone() {
    let most = 8_796_093_022_208.0; // 2^43
    reads(Hertz(most), "8796093022208 Hz");
    reads(Kilohertz(-most), "-8796093022.208 kHz");
    reads(Kilohertz(0.125 - most), "about -8796093022.208 kHz"); // the longest of all
    for above in [most + 0.125, f64::MAX] {
        reads(Hertz(above), "above 8796093022208 Hz");
        reads(Kilohertz(-above), "below -8796093022208 Hz");
    }
    reads(Hertz(f64::INFINITY), "infinite");
    reads(Kilohertz(f64::NEG_INFINITY), "infinite, below 0");
    reads(Hertz(f64::NAN), "no number");
    reads(Kilohertz(-f64::NAN), "no number");
    reads(Hertz(range(f64::NAN, 1_750.0)), "no number to 1750 Hz");
    reads(range(14_000_000.0, f64::INFINITY), "14000 kHz to infinite");
    reads(Kilohertz(range(f64::MIN, 0.0)), "below -8796093022208 Hz to 0.000 kHz");
}

#[test]
fn settings() {
    reads(Policy::Unset, "no rules chosen");
    reads(Policy::NoRules, "no rules apply");
    reads(Policy::Rules, "the rules of a table");
    reads(Policy::Broken, "rules that could not be loaded");
    reads(Control::Local, "local control");
    reads(Control::Remote, "remote control");
    reads(Control::Automatic, "automatic control");
    reads(License::Novice, "Novice");
    reads(License::Technician, "Technician");
    reads(License::General, "General");
    reads(License::Advanced, "Advanced");
    reads(License::Extra, "Amateur Extra");
    reads(Sideband::Upper, "upper sideband");
    reads(Sideband::Lower, "lower sideband");
    reads(Direction::Originate, "this station calls");
    reads(Direction::Respond, "this station answers");
    reads(Direction::Operator, "an operator acts");
    reads(Direction::RespondToAutomatic, "this station answers one under automatic control");
    reads(Kind::Data, "data");
    reads(Kind::Cw, "CW");
    reads(Kind::Test, "a test emission");
    reads(Kind::Nothing, "nothing");
    reads(Edge::Lower, "lower");
    reads(Edge::Upper, "upper");
}

#[test]
fn verdicts() {
    reads(Verdict::Legal, "may be sent");
    reads(Verdict::Warning, "may be sent, with a warning");
    reads(Verdict::Blocked, "blocked, may not be sent");
}

#[test]
fn codes() {
    let texts = [
        "no rules are chosen for the station",
        "the rules chosen for the station could not be loaded",
        "the station is set to send without rules",
        "the signal's spectrum is not known",
        "the table is not for the station's ITU region",
        "it is not known how the station is controlled",
        "the operator's license is not known",
        "the radio's sideband is not known",
        "the radio's dial is not known",
        "no band of the table holds the signal with its margin",
        "automatic control is not allowed on this band",
        "the signal is wider than data may be here",
        "no data segment holds the signal with its margin",
        "data is not allowed here, and no data segment is near",
        "the operator's license does not allow this here",
        "the rules permit it",
        "it lies in a segment for automatic control",
        "automatic control is not allowed outside its segments",
        "it is too wide for automatic control outside its segments",
        "outside its segments an automatic station may only answer one under local or remote control",
        "it keeps to the rule for automatic control outside its segments",
        "this kind of emission is not allowed on 60 m",
        "on 60 m it lies neither on a channel nor in the segment",
        "it is judged by a 60 m channel",
        "it lies in the 60 m segment",
    ];
    assert_eq!(texts.len(), Code::ALL.len());
    for (&code, text) in Code::ALL.iter().zip(texts) {
        reads(code, text);
        if code != Code::SixtyChannel {
            assert!(Verdict::ALL.iter().all(|&verdict| code.reason(verdict) == text));
        }
    }
    let channel = |verdict| Code::SixtyChannel.reason(verdict);
    assert_eq!(channel(Verdict::Legal), "it is set up for a 60 m channel");
    assert_eq!(channel(Verdict::Warning), "it is set up for a 60 m channel");
    assert_eq!(channel(Verdict::Blocked), "it touches a 60 m channel and is not set up for it");
    // 3, 16, 17, 21 and 25 are never blocked
    let never: Vec<u8> =
        Code::ALL.iter().filter(|c| c.what_to_do().is_none()).map(|c| c.number()).collect();
    assert_eq!(never, [3, 16, 17, 21, 25]);
    assert_eq!(Code::TooWide.what_to_do(), Some("send a narrower signal"));
}

#[test]
fn refusals() {
    let texts = [
        (1, "the image has under 92 or over 65,552 bytes"),
        (2, "the image does not end with the letters EDGE"),
        (3, "the image is of another edition"),
        (4, "the image's counts, length and distance disagree"),
        (
            5,
            "a coded byte of the image is outside its values, an unused one is not zero, or the \
             table of an absent part is not empty",
        ),
        (6, "a figure of the image is not finite, above 2^40 in size, or negative zero"),
        (7, "a band's low end is not below its high end"),
        (8, "a data segment's low end is not below its high end"),
        (9, "an automatic segment's low end is not below its high end"),
        (10, "a privilege's low end is not below its high end"),
        (11, "the table has no bands or no data segments"),
        (12, "a data segment lies in no band"),
        (13, "a data segment's own width limit is not above 0"),
        (14, "the table's general width limit is not above 0"),
        (15, "an edge of the signal is not finite or above 2^40 in size"),
        (16, "there are more than 256 rungs, or their floor marks are not one each"),
        (20, "a code of the station, or a walk's state, is outside its values"),
        (
            21,
            "the station's margin, dial or power, or a dial asked, is not finite or above 2^40 in \
             size, or a figure to be written is not finite or above 2^43 in size",
        ),
        (22, "rules are in force and there is no image"),
        (23, "the dial list or the image is longer than the rows or bytes lent"),
        (24, "the text of the figure is longer than the bytes lent"),
        (25, "the table's report is longer than the rows lent"),
        (26, "the image has other 60 m watts than 100 and 9.15, which edition 1 cannot hold"),
        (
            27,
            "the amendments are not 40 bytes each, or one names a table above 8 or a record that its \
             table does not have",
        ),
        (28, "the amended image is longer than the bytes lent"),
        (29, "a change to the other table waits already"),
        (30, "no walk is open for a step, or one is open already"),
        (31, "a record of the log starts before the one above it"),
        (
            32,
            "the log's starts, bands, seconds and totals are not one for each record, or there are \
             more than 65,536 records",
        ),
        (33, "the first dial lies above the last, or there are more than 1,000,000 dials"),
        (34, "the first or the last dial is above 2^40 Hz in size"),
    ];
    assert_eq!(texts.len(), Refusal::ALL.len());
    for (&refusal, (number, text)) in Refusal::ALL.iter().zip(texts) {
        assert_eq!(refusal.number(), number);
        assert_eq!(refusal.reason(), text);
        assert_eq!(refusal.is_about_image(), number < 15);
        reads(refusal, &format!("refusal {number}: {text}"));
    }
    let hints: HashSet<&str> = Refusal::ALL.iter().map(|r| r.what_to_do()).collect();
    assert_eq!(hints.len(), Refusal::ALL.len());
    assert_eq!(Refusal::Rows.what_to_do(), "lend more rows, or more bytes");
}

#[test]
fn rules() {
    let texts = [
        ("no rule", None),
        ("§97.301", Some("bands and privileges")),
        ("§97.109", Some("control of a station")),
        ("§97.305(a)", Some("CW")),
        ("§97.305(b)", Some("test emissions")),
        ("§97.305(c)", Some("where data may be sent")),
        ("§97.307(f)(9)", Some("the emissions that a license allows")),
        ("rule 7 of the table", None),
    ];
    for (number, (text, subject)) in (0..).zip(texts) {
        reads(Rule::from_number(number), text);
        assert_eq!(Rule::from_number(number).subject(), subject);
    }
    reads(Rule::Table(65_535), "rule 65535 of the table");
}

#[test]
fn parts_of_an_answer() {
    reads(Overshoot::NoOvershoot, "it is not judged against the edges of a data segment");
    let beyond = |by_hz, edge| Overshoot::Beyond { by_hz, edge };
    reads(beyond(250.0, Edge::Upper), "it reaches 250 Hz beyond the upper edge of the segment");
    reads(
        beyond(1_000.125, Edge::Lower),
        "it reaches about 1000 Hz beyond the lower edge of the segment",
    );
    reads(beyond(0.125, Edge::Upper), "it reaches under 1 Hz beyond the upper edge of the segment");
    for &edge in Edge::ALL {
        let text = "it lies inside the segment, closer to an edge than the margin";
        reads(Overshoot::TooClose { edge }, text);
    }
    reads(Guidance::NoGuidance, "the band plan says nothing");
    reads(Guidance::Avoid(3), "the band plan asks to keep clear of its area 3 to avoid");
    reads(Guidance::Inside(255), "it lies in the band plan's area 255 for data");
    reads(Guidance::Outside, "the band plan puts data elsewhere");
    reads(Distance::Hz(0.0), "the dial is listed");
    reads(Distance::Hz(0.125), "the nearest listed dial is under 1 Hz away");
    reads(Distance::Hz(8_693_300.0), "the nearest listed dial is 8693300 Hz away");
    reads(Distance::NoneListed, "no dial is listed outside the channel band");
    reads(Nearest::Dial(14_148_200.0), "the nearest dial for data is 14148.200 kHz");
    reads(Nearest::Dial(14_148_199.5), "the nearest dial for data is about 14148.200 kHz");
    reads(Nearest::NoneAllowed, "no dial outside the channel band allows data");
    reads(Nearest::NotJudged, "the nearest dial for data was not judged");
    let power = |records: &[usize]| records.iter().copied().collect::<PowerNotes>();
    reads(PowerNotes::NONE, "the power is above no power limit of the table");
    reads(power(&[3]), "the power is above the table's power limit 3");
    reads(power(&[255, 0]), "the power is above the table's power limits 0 and 255");
    reads(power(&[0, 7, 8]), "the power is above the table's power limits 0, 7 and 8");
    let row = DialRow {
        segment: range(14_095_000.0, 14_099_500.0),
        dial: range(14_093_800.0, 14_097_700.0),
        band: 20,
        rule: Rule::Table(9),
    };
    reads(
        row,
        "dials 14093.800 to 14097.700 kHz keep it in 14095 to 14099.5 kHz (band 20, by rule 9 of the \
         table)",
    );
}

#[test]
fn faults() {
    all_differ(Table::ALL);
    let names: HashSet<&str> = Table::ALL.iter().map(|t| t.record()).collect();
    assert_eq!(names.len(), Table::ALL.len());
    reads(Table::Segments, "data segments");
    assert_eq!(Table::Segments.record(), "data segment");
    reads(Place::General, "the general block");
    let place = Place::Record { table: Table::Privileges, index: 1 };
    reads(place, "record 1 of the privileges, counted from 0");
    reads(
        Fault { refusal: Refusal::PrivilegeRange, place: Some(place) },
        "refusal 10: a privilege's low end is not below its high end (in record 1 of the privileges, \
         counted from 0)",
    );
    reads(
        Fault { refusal: Refusal::Letters, place: None },
        "refusal 2: the image does not end with the letters EDGE",
    );
}

#[test]
fn rows_of_a_report() {
    let overlap = |table, license, first, second, stretch| ReportRow::Overlap {
        table,
        license,
        first,
        second,
        stretch,
    };
    reads(
        overlap(Table::Bands, None, 0, 3, range(7_000_000.0, 7_125_500.0)),
        "bands 0 and 3 share 7000 to 7125.5 kHz",
    );
    reads(
        overlap(Table::Segments, None, 254, 255, range(14_100_500.0, 14_112_050.0)),
        "data segments 254 and 255 share 14100.5 to 14112.050 kHz",
    );
    let class = Some(License::General);
    reads(
        overlap(Table::Privileges, class, 2, 5, range(14_025_000.0, 14_150_000.0)),
        "privileges 2 and 5 of General share 14025 to 14150 kHz",
    );
    let gap = |license, stretch| ReportRow::Gap { license, segment: 0, stretch };
    reads(
        gap(License::Extra, range(14_000_000.0, 14_025_000.0)),
        "no privilege of Amateur Extra covers 14000 to 14025 kHz of data segment 0",
    );
    // by an eighth of a hertz
    reads(
        gap(License::Novice, range(14_000_000.0, 14_000_000.125)),
        "no privilege of Novice covers 14000 to about 14000.000 kHz of data segment 0",
    );
}

const NO_NOTES: SixtyNotes =
    SixtyNotes { channel_power: false, shared: false, segment_power: false };

/// An answer that knows nothing but a signal of 500 Hz.
fn decision(verdict: Verdict, code: Code, rule: Rule) -> Decision {
    Decision {
        verdict,
        code,
        rule,
        band: None,
        segment: None,
        automatic_segment: None,
        audio: range(1_250.0, 1_750.0),
        width_hz: 500.0,
        air: None,
        overshoot: Overshoot::NoOvershoot,
        guidance: Guidance::NoGuidance,
        sixty: NO_NOTES,
        power: PowerNotes::NONE,
    }
}

/// In band 20 of the practice table, at a dial, against its segment.
fn at(dial_hz: f64, verdict: Verdict, code: Code, rule: Rule) -> Decision {
    Decision {
        band: Some(20),
        air: Some(range(dial_hz + 1_250.0, dial_hz + 1_750.0)),
        segment: Some(Segment { range: range(14_000_000.0, 14_150_000.0), rule: Rule::Table(13) }),
        ..decision(verdict, code, rule)
    }
}

#[test]
fn decisions() {
    reads(
        decision(Verdict::Blocked, Code::NoDial, Rule::Empty),
        "Blocked: the radio's dial is not known (code 9, no_dial). The signal is 500 Hz wide.",
    );
    let d = decision(Verdict::Blocked, Code::Unmeasured, Rule::Empty);
    reads(d, "Blocked: the signal's spectrum is not known (code 4, unmeasured).");
    assert_eq!(d.reason(), "the signal's spectrum is not known");
    assert_eq!(d.what_to_do(), Some("measure the signal's edges"));

    let mut d = decision(Verdict::Blocked, Code::OutOfBand, Rule::Part97_301);
    d.air = Some(range(13_999_000.0, 13_999_500.0));
    let why =
        "Blocked: no band of the table holds the signal with its margin (code 10, out_of_band, \
               by §97.301). The signal is 500 Hz wide, at 13999.000 to 13999.500 kHz";
    reads(d, &format!("{why}."));
    d.band = Some(20);
    reads(d, &format!("{why}, and touches band 20."));

    let d = at(14_023_800.0, Verdict::Legal, Code::Permitted, Rule::Table(13));
    reads(
        d,
        "May be sent: the rules permit it (code 16, permitted, by rule 13 of the table). The signal is \
         500 Hz wide, at 14025.050 to 14025.550 kHz in band 20; the segment is 14000 to 14150 kHz \
         (rule 13 of the table).",
    );
    assert_eq!(d.what_to_do(), None);
    assert!(d.allowed());
}

#[test]
fn decisions_outside_a_segment() {
    let place =
        "The signal is 500 Hz wide, at 14149.750 to 14150.250 kHz in band 20; the segment is \
                 14000 to 14150 kHz (rule 13 of the table).";
    let mut d = at(14_148_500.0, Verdict::Blocked, Code::OutsideDataSegment, Rule::Table(13));
    d.overshoot = Overshoot::Beyond { by_hz: 250.0, edge: Edge::Upper };
    let why = "Blocked: no data segment holds the signal with its margin (code 13, \
               outside_data_segment, by rule 13 of the table).";
    let how = "It reaches 250 Hz beyond the upper edge of the segment.";
    reads(d, &format!("{why} {how} {place}"));
    assert_eq!(format!("{d:#}"), format!("{why}\n{how}\n{place}"));

    // 1 Hz inside the lower edge: the edge that the gate names is the upper
    let mut d = at(13_998_751.0, Verdict::Blocked, Code::OutsideDataSegment, Rule::Table(13));
    d.overshoot = Overshoot::TooClose { edge: Edge::Upper };
    let text = d.to_string();
    let how = "It lies inside the segment, 1 Hz from the lower edge and 149499 Hz from the upper: \
               closer than the margin.";
    assert!(text.starts_with(&format!("{why} {how} The signal is 500 Hz wide, at ")), "{text}");
    // an eighth inside, in words that are true of it
    d.air = Some(range(14_000_000.125, 14_000_500.125));
    let text = d.to_string();
    let how =
        "It lies inside the segment, under 1 Hz from the lower edge and about 149500 Hz from the \
               upper: closer than the margin.";
    assert!(
        text.starts_with(&format!("{why} {how} The signal is 500 Hz wide, at about ")),
        "{text}"
    );
    // without a segment, which no answer of the library is
    d.segment = None;
    let text = d.to_string();
    let how = "It lies inside the segment, closer to an edge than the margin.";
    assert!(text.starts_with(&format!("{why} {how} The signal is")), "{text}");
}

#[test]
fn decisions_with_notes() {
    let mut d = at(14_097_700.0, Verdict::Warning, Code::AutomaticSegment, Rule::Table(9));
    d.automatic_segment = Some(range(14_095_000.0, 14_099_500.0));
    d.power = [2, 5].into_iter().collect();
    d.guidance = Guidance::Avoid(1);
    assert_eq!(
        format!("{d:#}"),
        "May be sent, with a warning: it lies in a segment for automatic control (code 17, \
         automatic_segment, by rule 9 of the table).\n\
         The signal is 500 Hz wide, at 14098.950 to 14099.450 kHz in band 20; the segment is \
         14000 to 14150 kHz (rule 13 of the table); the segment for automatic control is \
         14095 to 14099.5 kHz.\n\
         The power is above the table's power limits 2 and 5.\n\
         The band plan asks to keep clear of its area 1 to avoid."
    );
    assert_eq!(d.what_to_do(), None);

    let mut d = at(5_330_550.0, Verdict::Warning, Code::SixtyChannel, Rule::Table(10));
    d.band = Some(60);
    d.segment = Some(Segment { range: range(5_330_600.0, 5_333_400.0), rule: Rule::Table(10) });
    d.sixty = SixtyNotes { channel_power: true, shared: true, segment_power: true };
    assert_eq!(
        format!("{d:#}"),
        "May be sent, with a warning: it is set up for a 60 m channel (code 24, sixty_channel, by rule \
         10 of the table).\n\
         The signal is 500 Hz wide, at 5331.800 to 5332.300 kHz in band 60; the channel is 5330.6 \
         to 5333.4 kHz (rule 10 of the table).\n\
         The power is above the watts of a 60 m channel.\n\
         60 m is shared with government stations: keep transmissions short.\n\
         The power is above the watts of the 60 m segment."
    );
    assert_eq!(NO_NOTES.clauses().count(), 0);
    (d.verdict, d.sixty) = (Verdict::Blocked, NO_NOTES);
    assert!(d
        .to_string()
        .starts_with("Blocked: it touches a 60 m channel and is not set up for it"));
    assert!(d.what_to_do().unwrap().starts_with("set the dial to the channel's carrier"));
}

/// Every code in words: the verdict, then the reason, then number and name.
#[test]
fn every_code() {
    for &code in Code::ALL {
        for &verdict in Verdict::ALL {
            let text = decision(verdict, code, Rule::Empty).to_string();
            let begins = match verdict {
                Verdict::Legal => "May be sent: ",
                Verdict::Warning => "May be sent, with a warning: ",
                Verdict::Blocked => "Blocked: ",
            };
            let (reason, number, name) = (code.reason(verdict), code.number(), code.name());
            assert!(text.starts_with(&format!("{begins}{reason} (code {number}, {name}).")));
            assert!(text.ends_with('.'));
        }
    }
}

#[test]
fn ceilings() {
    let limit = decision(Verdict::Blocked, Code::TooWide, Rule::Table(7));
    let why =
        "Blocked: the signal is wider than data may be here (code 12, too_wide, by rule 7 of the \
               table). The signal is 500 Hz wide.";
    let of = |rung, limit| Ceiling { rung, limit };
    reads(of(None, None), "There are no rungs.");
    reads(of(Some(0), None), "Rung 0 may be sent. There is none above.");
    reads(of(Some(255), None), "Rungs 0 to 255 may be sent. There is none above.");
    reads(
        of(None, Some(limit)),
        &format!("No rung may be sent. Rung 0 with its control frame: {why}"),
    );
    let c = of(Some(1), Some(limit));
    reads(c, &format!(
            "Rungs 0 to 1 may be sent. Rung 2 with its control frame and what the slower ones occupy: \
             {why}"
        ));
    assert!(format!("{c:#}").starts_with("Rungs 0 to 1 may be sent.\nRung 2 with"));
}
