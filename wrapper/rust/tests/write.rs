//! Images written from fields and records: the bytes, and every refusal. The practice table is that of
//! tools/reference/practice.py, which made practice.bin.

use pamuklid::{check, raise, raw, tidy, write, Fields, Record, Refusal, Table, Tables};

static IMAGE: &[u8] = include_bytes!("../../../tools/reference/practice.bin");

/// Region 2, the wider reading, 2,800 Hz; elsewhere 500 Hz in answer alone; channels of band 60; data and CW
/// on 60 m.
const FIELDS: Fields = Fields {
    edition: 1,
    data_limit: 2_800.0,
    elsewhere_limit: 500.0,
    channel_width: 2_800.0,
    carrier_offset: 1_500.0,
    carrier_tolerance: 50.0,
    channel_watts: 0.0,
    segment_watts: 0.0,
    region: 2,
    reading: raw::READING_WIDER,
    flags: raw::PART_ELSEWHERE + raw::PART_RESPONSE + raw::PART_CHANNELS + raw::PART_EMISSIONS,
    channel_band: 60,
    sideband: 0,
    emissions: raw::EMISSION_DATA + raw::EMISSION_CW,
    data_rule: 7,
    elsewhere_rule: 8,
    automatic_rule: 9,
    channels_rule: 10,
    emissions_rule: 11,
    privileges_rule: 12,
};

const NONE: Record = Record {
    low: 0.0,
    high: 0.0,
    figure: 0.0,
    band: 0,
    class: 0,
    emissions: 0,
    flags: 0,
    rule: 0,
    second_rule: 0,
};

const BANDS: [Record; 2] = [
    Record { low: 14_000_000.0, high: 14_350_000.0, band: 20, ..NONE },
    Record { low: 5_330_000.0, high: 5_407_000.0, band: 60, ..NONE },
];
const SEGMENTS: [Record; 2] = [
    Record { low: 14_000_000.0, high: 14_150_000.0, band: 20, rule: 13, ..NONE },
    Record { low: 5_351_500.0, high: 5_366_500.0, band: 60, rule: 14, ..NONE },
];
const CHANNELS: [Record; 1] = [Record { low: 5_332_000.0, ..NONE }];
const PRIVILEGES: [Record; 2] = [
    Record { low: 14_025_000.0, high: 14_150_000.0, class: 2, ..NONE },
    Record { low: 5_330_000.0, high: 5_407_000.0, class: 2, ..NONE },
];
const AUTOMATIC: [Record; 2] = [
    Record { low: 14_095_000.0, high: 14_099_500.0, ..NONE },
    Record { low: 14_100_500.0, high: 14_112_000.0, ..NONE },
];

const TABLES: Tables = Tables {
    bands: &BANDS,
    segments: &SEGMENTS,
    channels: &CHANNELS,
    privileges: &PRIVILEGES,
    automatic: &AUTOMATIC,
    excluded: &[],
    power: &[],
    plan_data: &[],
    plan_avoid: &[],
};

/// Edition 2 with these watts.
fn second(channel_watts: f64, segment_watts: f64) -> Fields {
    Fields { edition: 2, channel_watts, segment_watts, ..FIELDS }
}

/// What is refused, with no byte changed.
fn refused(fields: &Fields, tables: &Tables) -> Option<Refusal> {
    let mut lent = vec![7; raw::IMAGE_MOST];
    let refusal = write(fields, tables, &mut lent).err();
    assert!(refusal.is_none() || lent.iter().all(|&b| b == 7));
    refusal
}

fn in_tables(refusal: Refusal, tables: Tables) {
    assert_eq!(refused(&FIELDS, &tables), Some(refusal));
}

fn in_block(refusal: Refusal, fields: Fields) {
    assert_eq!(refused(&fields, &TABLES), Some(refusal));
}

#[test]
fn practice_table() {
    let mut lent = [7; 400];
    assert_eq!(write(&FIELDS, &TABLES, &mut lent), Ok(IMAGE));
    assert_eq!(lent[380..], [7; 20]);
    // just room enough, and one byte less
    assert_eq!(write(&FIELDS, &TABLES, &mut lent[..380]), Ok(IMAGE));
    let mut short = [7; 379];
    assert_eq!(write(&FIELDS, &TABLES, &mut short), Err(Refusal::Rows));
    assert_eq!(short, [7; 379]);
    assert_eq!(write(&FIELDS, &TABLES, &mut []), Err(Refusal::Rows));
}

/// The watts stand at 64 and 72, with any size and sign; edition 1 does not look at them.
#[test]
fn editions() {
    let (mut lent, mut raised) = ([7; 400], [0; 396]);
    let edition_2 = raise(IMAGE, &mut raised).unwrap();
    assert_eq!(write(&second(100.0, 9.15), &TABLES, &mut lent), Ok(edition_2));
    assert_eq!(lent[396..], [7; 4]);
    assert_eq!(write(&second(100.0, 9.15), &TABLES, &mut [7; 395]), Err(Refusal::Rows));
    let image = write(&second(-1.5, 0.0), &TABLES, &mut lent).unwrap();
    let watts = |at: usize| f64::from_le_bytes(image[at..at + 8].try_into().unwrap());
    assert_eq!((watts(64), watts(72), check(image)), (-1.5, 0.0, Ok(())));
    assert_eq!(image[80..386], edition_2[80..386]);
    let odd = Fields { edition: 1, ..second(f64::NAN, f64::INFINITY) };
    assert_eq!(write(&odd, &TABLES, &mut lent), Ok(IMAGE));
}

/// Every field of the general block and of a record, each with a number of its own, at its place
/// (docs/IMAGE.md).
#[test]
fn every_field() {
    let fields = Fields {
        edition: 2,
        data_limit: 1.0,
        elsewhere_limit: 2.0,
        channel_width: 3.0,
        carrier_offset: 4.0,
        carrier_tolerance: 5.0,
        channel_watts: 6.0,
        segment_watts: 7.0,
        region: 200,
        reading: 1,
        flags: 31,
        channel_band: 201,
        sideband: 1,
        emissions: 15,
        data_rule: 0x102,
        elsewhere_rule: 0x304,
        automatic_rule: 0x506,
        channels_rule: 0x708,
        emissions_rule: 0x90a,
        privileges_rule: 0xb0c,
    };
    let band = Record { low: 10.0, high: 90.0, band: 9, ..NONE };
    // an own limit with its rule; a list of emissions with a rule; classes
    let segment = Record { figure: 8.0, flags: 3, rule: 0xd0e, second_rule: 0xf10, ..band };
    let privilege =
        Record { low: 11.0, high: 12.0, class: 4, emissions: 15, flags: 3, rule: 0x1112, ..NONE };
    let excluded = Record { band: 17, rule: 0x1314, ..NONE };
    let power =
        Record { low: 13.0, high: 14.0, figure: 15.0, class: 31, flags: 1, rule: 1, ..NONE };
    let area = |low| Record { low, high: low + 1.0, rule: 2, ..NONE };
    let tables = Tables {
        bands: &[band],
        segments: &[segment],
        channels: &[Record { low: 16.0, ..NONE }],
        privileges: &[privilege],
        automatic: &[Record { low: 17.0, high: 18.0, ..NONE }],
        excluded: &[excluded],
        power: &[power],
        plan_data: &[area(20.0), area(30.0)],
        plan_avoid: &[area(40.0)],
    };
    let mut lent = [7; 80 + 10 * 32 + 28];
    let image = write(&fields, &tables, &mut lent).unwrap();
    assert_eq!((image.len(), check(image)), (428, Ok(())));
    let figures = |figures: &[f64]| -> Vec<u8> {
        figures.iter().flat_map(|x| x.to_bits().to_le_bytes()).collect()
    };
    let mut want = figures(&[1.0, 2.0, 3.0, 4.0, 5.0]);
    want.extend([200, 1, 31, 201, 1, 15]);
    want.extend([2, 1, 4, 3, 6, 5, 8, 7, 10, 9, 12, 11, 0, 0, 0, 0, 0, 0]);
    want.extend(figures(&[6.0, 7.0]));
    for (record, rest) in [
        ([10.0, 90.0, 0.0], [9, 0, 0, 0, 0, 0, 0, 0]),
        ([10.0, 90.0, 8.0], [9, 0, 0, 3, 14, 13, 16, 15]),
        ([16.0, 0.0, 0.0], [0; 8]),
        ([11.0, 12.0, 0.0], [0, 4, 15, 3, 18, 17, 0, 0]),
        ([17.0, 18.0, 0.0], [0; 8]),
        ([0.0; 3], [17, 0, 0, 0, 20, 19, 0, 0]),
        ([13.0, 14.0, 15.0], [0, 31, 0, 1, 1, 0, 0, 0]),
        ([20.0, 21.0, 0.0], [0, 0, 0, 0, 2, 0, 0, 0]),
        ([30.0, 31.0, 0.0], [0, 0, 0, 0, 2, 0, 0, 0]),
        ([40.0, 41.0, 0.0], [0, 0, 0, 0, 2, 0, 0, 0]),
    ] {
        want.extend(figures(&record));
        want.extend(rest);
    }
    want.extend([1, 0, 1, 0, 1, 0, 1, 0, 1, 0, 1, 0, 1, 0, 2, 0, 1, 0]);
    want.extend(400u32.to_le_bytes());
    want.extend(*b"\x02\x00EDGE");
    assert_eq!(image, want);
}

/// Each number that a table can have, met by one change of the practice table.
#[test]
fn refusals() {
    let band = |low, high| [BANDS[0], Record { low, high, ..BANDS[1] }];
    let segment = |low, high| [SEGMENTS[0], Record { low, high, ..SEGMENTS[1] }];
    in_tables(Refusal::BandRange, Tables { bands: &band(5_407_000.0, 5_407_000.0), ..TABLES });
    in_tables(Refusal::SegmentRange, Tables { segments: &segment(5e6 + 1.0, 5e6), ..TABLES });
    let automatic = [Record { low: 5.0, high: 5.0, ..NONE }];
    in_tables(Refusal::AutomaticRange, Tables { automatic: &automatic, ..TABLES });
    let privileges = [Record { low: 5.0, high: 4.0, ..NONE }];
    in_tables(Refusal::PrivilegeRange, Tables { privileges: &privileges, ..TABLES });
    in_tables(Refusal::EmptyTable, Tables { bands: &[], ..TABLES });
    in_tables(Refusal::EmptyTable, Tables { segments: &[], ..TABLES });
    in_tables(
        Refusal::SegmentOutside,
        Tables { segments: &segment(5_351_500.0, 5_407_000.125), ..TABLES },
    );
    let own = [Record { flags: 1, ..SEGMENTS[0] }];
    in_tables(Refusal::OwnLimit, Tables { segments: &own, ..TABLES });
    // a coded byte, a byte that the table does not use, and a table of a part that is not there
    let coded = [Record { class: 5, ..PRIVILEGES[0] }];
    in_tables(Refusal::CodedByte, Tables { privileges: &coded, ..TABLES });
    in_tables(
        Refusal::CodedByte,
        Tables { channels: &[Record { band: 60, ..CHANNELS[0] }], ..TABLES },
    );
    in_tables(
        Refusal::CodedByte,
        Tables { channels: &[Record { high: -0.0, ..CHANNELS[0] }], ..TABLES },
    );
    in_tables(Refusal::CodedByte, Tables { plan_avoid: &AUTOMATIC, ..TABLES });
    for low in [f64::NAN, f64::INFINITY, -0.0, 2f64.powi(40) + 1.0] {
        in_tables(Refusal::ImageFigure, Tables { bands: &band(low, 5_407_000.0), ..TABLES });
    }
    for edition in [0, 3, 255, 256, 257, 65_535] {
        in_block(Refusal::Edition, Fields { edition, ..FIELDS });
    }
    in_block(Refusal::CodedByte, Fields { reading: 3, ..FIELDS });
    in_block(Refusal::CodedByte, Fields { flags: FIELDS.flags - raw::PART_ELSEWHERE, ..FIELDS });
    in_block(Refusal::ImageFigure, Fields { carrier_offset: f64::NEG_INFINITY, ..FIELDS });
    for watts in [f64::NAN, -0.0, f64::INFINITY] {
        in_block(Refusal::ImageFigure, second(watts, 9.15));
        in_block(Refusal::ImageFigure, second(100.0, watts));
    }
    in_block(Refusal::GeneralLimit, Fields { data_limit: 0.0, ..FIELDS });
    in_block(Refusal::GeneralLimit, Fields { data_limit: -1.0, ..FIELDS });
}

/// Of two that are met the first in the order 1, 3, 4, 5 to 14, 23 is answered.
#[test]
fn order() {
    let many = [BANDS[0]; 257];
    let crowded = Tables {
        bands: &many[..256],
        segments: &many[..256],
        privileges: &many[..256],
        automatic: &many[..256],
        excluded: &many[..256],
        power: &many[..256],
        plan_data: &many[..256],
        plan_avoid: &many[..254],
        ..Tables::default()
    };
    let no_edition = Fields { edition: 0, ..FIELDS };
    assert_eq!(refused(&no_edition, &crowded), Some(Refusal::ImageLength), "2,046 records");
    let one_less = Tables { plan_avoid: &many[..253], ..crowded };
    assert_eq!(refused(&no_edition, &one_less), Some(Refusal::Edition), "2,045 records");
    let overfull = Tables { bands: &many, ..TABLES };
    assert_eq!(refused(&no_edition, &overfull), Some(Refusal::Edition));
    let coded = Fields { reading: 3, data_limit: f64::NAN, ..FIELDS };
    assert_eq!(refused(&coded, &overfull), Some(Refusal::Counts));
    assert_eq!(refused(&coded, &TABLES), Some(Refusal::CodedByte));
    let figure = Fields { data_limit: f64::NAN, ..FIELDS };
    let turned = [Record { low: 2.0, high: 1.0, ..BANDS[0] }];
    assert_eq!(refused(&figure, &Tables { bands: &turned, ..TABLES }), Some(Refusal::ImageFigure));
    let limit = Fields { data_limit: 0.0, ..FIELDS };
    assert_eq!(refused(&limit, &Tables { bands: &turned, ..TABLES }), Some(Refusal::BandRange));
    assert_eq!(write(&limit, &TABLES, &mut []), Err(Refusal::GeneralLimit));
}

/// The largest image of each edition, in 65,532 and 65,548 bytes.
#[test]
fn largest() {
    let (area, excluded) = (Record { low: 1.0, high: 2.0, ..NONE }, NONE);
    let band = |i: usize| Record { low: i as f64, high: i as f64 + 1.0, band: 1, ..NONE };
    let bands: Vec<Record> = (0..256).map(band).collect();
    let areas = [area; 256];
    let tables = Tables {
        bands: &bands,
        segments: &bands,
        channels: &[],
        privileges: &areas,
        automatic: &areas,
        excluded: &[excluded; 256],
        power: &areas,
        plan_data: &areas,
        plan_avoid: &areas[..253],
    };
    let fields = Fields { edition: 1, data_limit: 1.0, flags: raw::PART_PLAN, ..Fields::default() };
    let mut lent = vec![7; raw::IMAGE_MOST];
    let image = write(&fields, &tables, &mut lent).unwrap();
    assert_eq!((image.len(), check(image), tidy(image)), (65_532, Ok(()), Ok(false)));
    assert_eq!(lent[65_532..], [7; 20]);
    let second = Fields { edition: 2, ..fields };
    let image = write(&second, &tables, &mut lent).unwrap();
    assert_eq!((image.len(), check(image)), (65_548, Ok(())));
    assert_eq!(lent[65_548..], [7; 4]);
    let more = Tables { plan_avoid: &areas[..254], ..tables };
    assert_eq!(refused(&fields, &more), Some(Refusal::ImageLength));
    assert_eq!(refused(&second, &more), Some(Refusal::ImageLength));
}

/// Tables whose count is no u16, some with a small number as its last 16 bits.
#[test]
fn long_tables() {
    let long = vec![BANDS[0]; 65_536 + 2];
    for n in [2_046, 65_535, 65_536, 65_537, 65_538] {
        let long = &long[..n];
        for tables in [
            Tables { bands: long, ..TABLES },
            Tables { segments: long, ..TABLES },
            Tables { plan_avoid: long, ..TABLES },
            Tables { bands: long, segments: long, plan_avoid: long, ..Tables::default() },
        ] {
            assert_eq!(refused(&FIELDS, &tables), Some(Refusal::ImageLength), "{n}");
        }
    }
    let overfull = Tables { privileges: &long[..257], ..TABLES };
    assert_eq!(refused(&FIELDS, &overfull), Some(Refusal::Counts));
}

/// The bare call: a run that is an element short or long.
#[test]
fn runs() {
    let mut counts = [0; raw::TABLES];
    counts[usize::from(Table::Bands.number())] = 1;
    counts[usize::from(Table::Segments.number())] = 1;
    let fields = raw::Fields { data_limit: 1.0, edition: 1, counts, ..raw::Fields::default() };
    let figures = [1.0, 2.0, 0.0, 1.0, 2.0, 0.0, 0.0];
    let (codes, rules) = ([0; 9], [0; 5]);
    let mut lent = [7; 160];
    let mut written = |f: usize, c: usize, r: usize| {
        let flat = raw::write(fields, &figures[..f], &codes[..c], &rules[..r], &mut lent);
        (flat.length, flat.refusal, lent != [7; 160])
    };
    for (f, c, r) in [(5, 8, 4), (7, 8, 4), (6, 7, 4), (6, 9, 4), (6, 8, 3), (6, 8, 5), (0, 0, 0)] {
        assert_eq!(written(f, c, r), (0, 4, false), "{f}, {c}, {r}");
    }
    assert_eq!(written(6, 8, 4), (156, 0, true));
    assert_eq!((check(&lent[..156]), &lent[156..]), (Ok(()), &[7; 4][..]));
}
