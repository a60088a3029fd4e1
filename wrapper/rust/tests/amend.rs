//! Amendments with a day, on the practice table: the effective image byte by byte, and every refusal.

use pamuklid::{
    amend, check, evaluate, raise, raw, write, Amendment, Code, Control, Direction, Edges, Fields,
    Kind, License, Place, Policy, Record, Refusal, Sideband, Station, Table, Tables, AMENDMENT,
};

static IMAGE: &[u8] = include_bytes!("../../../tools/reference/practice.bin");

/// The bytes of a record of an image.
fn bytes(image: &[u8], table: Table, index: u16) -> [u8; 32] {
    let at = Place::Record { table, index }.bytes(image).unwrap();
    image[at].try_into().unwrap()
}

fn record(table: Table, index: u16) -> Record {
    Record::from_bytes(&bytes(IMAGE, table, index))
}

/// The first data segment up to another end, from a day on.
fn segment(high: f64, day: u32) -> Amendment {
    let record = Record { high, ..record(Table::Segments, 0) };
    Amendment { table: Table::Segments, index: 0, day, record }
}

fn list(all: &[Amendment]) -> Vec<u8> {
    all.iter().flat_map(|a| a.to_bytes()).collect()
}

/// The image with records in place of others.
fn with(image: &[u8], all: &[Amendment]) -> Vec<u8> {
    let mut out = image.to_vec();
    for a in all {
        let at = Place::Record { table: a.table, index: a.index }.bytes(image).unwrap();
        out[at].copy_from_slice(&a.record.to_bytes());
    }
    out
}

/// The effective image; bytes past it are as lent.
fn effective(image: &[u8], all: &[Amendment], day: u32) -> Vec<u8> {
    let mut lent = vec![7; image.len() + 3];
    let out = amend(image, &list(all), day, &mut lent).unwrap().to_vec();
    assert_eq!((out.len(), &lent[image.len()..]), (image.len(), &[7; 3][..]));
    assert_eq!(lent[..image.len()], out);
    out
}

/// What is refused, with no byte changed.
fn refused(image: &[u8], list: &[u8], day: u32, room: usize) -> Option<Refusal> {
    let mut lent = vec![7; room];
    let refusal = amend(image, list, day, &mut lent).err();
    assert!(refusal.is_none() || lent.iter().all(|&b| b == 7));
    refusal
}

/// A record is read from its bytes and put back as they were.
#[test]
fn records() {
    for (table, n) in [(Table::Bands, 2), (Table::Segments, 2), (Table::Privileges, 2)] {
        for i in 0..n {
            assert_eq!(record(table, i).to_bytes(), bytes(IMAGE, table, i));
        }
    }
    let band = Record { low: 14_000_000.0, high: 14_350_000.0, band: 20, ..Record::default() };
    assert_eq!(record(Table::Bands, 0), band);
}

#[test]
fn days() {
    assert_eq!(effective(IMAGE, &[], 0), IMAGE);
    assert_eq!(effective(IMAGE, &[], u32::MAX), IMAGE);
    for day in [0, 1, 20_000, u32::MAX] {
        let a = segment(14_100_000.0, day);
        let want = with(IMAGE, &[a]);
        assert_ne!(want, IMAGE);
        assert_eq!(effective(IMAGE, &[a], day), want);
        assert_eq!(effective(IMAGE, &[a], u32::MAX), want);
        if let Some(before) = day.checked_sub(1) {
            assert_eq!(effective(IMAGE, &[a], before), IMAGE);
            assert_eq!(effective(IMAGE, &[a], 0), IMAGE);
        }
    }
}

/// The latest day not after the one asked, wherever it stands; of equal days the later in the list.
#[test]
fn latest() {
    let (a, b, c) = (segment(1.4e7 + 1.0, 2), segment(1.4e7 + 2.0, 1), segment(1.4e7 + 3.0, 2));
    let is = |all: &[Amendment], day, want: &[Amendment]| {
        assert_eq!(effective(IMAGE, all, day), with(IMAGE, want));
    };
    is(&[a, b], 3, &[a]);
    is(&[a, b], 1, &[b]);
    is(&[a, b], 0, &[]);
    is(&[b, a], 2, &[a]);
    is(&[a, b, c], 2, &[c]);
    is(&[c, b, a], 2, &[a]);
    is(&[c, a, b], 9, &[a]);
    is(&[a, a, b, b], 9, &[a]);
    // one that is not yet in force does not stand before one that is
    is(&[a, segment(1.4e7 + 4.0, 10)], 9, &[a]);
    is(&[segment(1.4e7 + 4.0, 10), a], 10, &[segment(1.4e7 + 4.0, 10)]);
}

/// Each record is replaced by itself: the first, the last and those of one table beside each other.
#[test]
fn each_record() {
    let mut all = Vec::new();
    for (table, n) in [
        (Table::Bands, 2),
        (Table::Segments, 2),
        (Table::Channels, 1),
        (Table::Privileges, 2),
        (Table::Automatic, 2),
    ] {
        for index in 0..n {
            let old = record(table, index);
            let record = match table {
                Table::Bands => Record { band: old.band + 1, ..old },
                Table::Channels => Record { low: old.low + 1.0, ..old },
                _ => Record { high: old.high - 1.0, ..old },
            };
            let a = Amendment { table, index, day: 5, record };
            assert_eq!(effective(IMAGE, &[a], 5), with(IMAGE, &[a]), "{table} {index}");
            all.push(a);
        }
    }
    let want = with(IMAGE, &all);
    assert_eq!(effective(IMAGE, &all, 5), want);
    all.reverse();
    assert_eq!(effective(IMAGE, &all, 5), want);
    // amended again it is the same
    assert_eq!(effective(&want, &all, 5), want);
    // the general block and the trailer are the base's
    assert_eq!((&want[..64], &want[352..]), (&IMAGE[..64], &IMAGE[352..]));
    let mut raised = [0; 396];
    let raised = raise(IMAGE, &mut raised).unwrap();
    assert_eq!(effective(raised, &all, 5), with(raised, &all));
    assert_eq!(effective(raised, &all, 4), raised);
}

/// Data up to 14,100,000 Hz from day 20,000 on.
#[test]
fn judged() {
    let station = Station {
        policy: Policy::Rules,
        control: Some(Control::Local),
        license: Some(License::General),
        sideband: Some(Sideband::Upper),
        dial_hz: Some(14_098_300.0),
        ..Station::fresh()
    };
    let code = |day| {
        let image = effective(IMAGE, &[segment(14_100_000.0, 20_000)], day);
        let edges = Edges::both(1_250.0, 1_750.0);
        evaluate(&station, Kind::Data, Direction::Originate, &edges, &image).unwrap().code
    };
    assert_eq!(code(19_999), Code::Permitted);
    assert_eq!(code(20_000), Code::OutsideDataSegment);
}

/// 27 is met by every amendment of the list, in force or not, whatever its record holds.
#[test]
fn stray() {
    let good = list(&[segment(14_100_000.0, 1)]);
    for n in [1, 8, 39, 41, 79] {
        assert_eq!(refused(IMAGE, &good.repeat(2)[..n], 0, 380), Some(Refusal::Amendments), "{n}");
    }
    let of = |table: u16, index: u16, day: u32| {
        let mut out = [0xff; AMENDMENT];
        out[..2].copy_from_slice(&table.to_le_bytes());
        out[2..4].copy_from_slice(&index.to_le_bytes());
        out[4..8].copy_from_slice(&day.to_le_bytes());
        out
    };
    for (table, index) in [
        (9, 0),
        (256, 0),
        (65_535, 0),
        (0, 2),
        (0, 256),
        (0, 65_535),
        (1, 2),
        (2, 1),
        (4, 2),
        (5, 0),
        (8, 0),
    ] {
        for day in [0, 5, u32::MAX] {
            let stray = of(table, index, day);
            let refused = |list: Vec<u8>| refused(IMAGE, &list, 5, 380);
            assert_eq!(refused(stray.to_vec()), Some(Refusal::Amendments), "{table} {index}");
            assert_eq!(refused([&good, &stray[..]].concat()), Some(Refusal::Amendments));
            assert_eq!(refused([&stray[..], &good].concat()), Some(Refusal::Amendments));
        }
    }
    // of a record that is not in force, or superseded, no byte is looked at
    let later = of(1, 0, 6).to_vec();
    let mut lent = [0; 380];
    assert_eq!(amend(IMAGE, &later, 5, &mut lent), Ok(IMAGE));
    let both = [&of(1, 0, 0)[..], &good].concat();
    let want = with(IMAGE, &[segment(14_100_000.0, 1)]);
    assert_eq!(amend(IMAGE, &both, 5, &mut lent), Ok(&want[..]));
    assert_eq!(refused(IMAGE, &both, 0, 380), Some(Refusal::CodedByte));
}

/// Each number that an amended table can have; 12 by a segment and by a band that moved.
#[test]
fn spoilt() {
    let is = |refusal, table, index, change: fn(Record) -> Record| {
        let record = change(record(table, index));
        let a = Amendment { table, index, day: 5, record };
        assert_eq!(refused(IMAGE, &a.to_bytes(), 5, 380), Some(refusal), "{a:?}");
        assert_eq!(check(&with(IMAGE, &[a])), Err(refusal), "{a:?}");
        assert_eq!(refused(IMAGE, &a.to_bytes(), 4, 380), None, "{a:?}");
    };
    is(Refusal::CodedByte, Table::Privileges, 1, |r| Record { class: 5, ..r });
    is(Refusal::CodedByte, Table::Channels, 0, |r| Record { high: 1.0, ..r });
    is(Refusal::ImageFigure, Table::Automatic, 1, |r| Record { high: f64::NAN, ..r });
    is(Refusal::ImageFigure, Table::Bands, 0, |r| Record { low: -0.0, ..r });
    is(Refusal::BandRange, Table::Bands, 1, |r| Record { low: r.high, ..r });
    is(Refusal::SegmentRange, Table::Segments, 1, |r| Record { high: r.low, ..r });
    is(Refusal::AutomaticRange, Table::Automatic, 0, |r| Record { high: r.low - 1.0, ..r });
    is(Refusal::PrivilegeRange, Table::Privileges, 0, |r| Record { low: r.high + 1.0, ..r });
    is(Refusal::SegmentOutside, Table::Segments, 0, |r| Record { high: 14_350_000.125, ..r });
    is(Refusal::SegmentOutside, Table::Bands, 0, |r| Record { low: 14_000_000.125, ..r });
    is(Refusal::OwnLimit, Table::Segments, 0, |r| Record { flags: 1, ..r });
    // the band moves away from its segment, and the segment with it
    let moved = [(Table::Bands, 1), (Table::Segments, 1)].map(|(table, index)| {
        let old = record(table, index);
        let record = Record { low: old.low + 1e6, high: old.high + 1e6, ..old };
        Amendment { table, index, day: 5, record }
    });
    assert_eq!(refused(IMAGE, &list(&moved[..1]), 5, 380), Some(Refusal::SegmentOutside));
    assert_eq!(refused(IMAGE, &list(&moved[1..]), 5, 380), Some(Refusal::SegmentOutside));
    assert_eq!(effective(IMAGE, &moved, 5), with(IMAGE, &moved));
}

/// Of two that are met the first in the order 1 to 14 of the base, 27, 28, and those of the effective image.
#[test]
fn order() {
    let spoilt =
        Amendment { record: Record { flags: 9, ..record(Table::Segments, 0) }, ..segment(0.0, 5) };
    let (spoilt, odd) = (spoilt.to_bytes(), [0; 41]);
    for (base, refusal) in [
        (vec![], Refusal::ImageLength),
        (with(IMAGE, &[])[..379].to_vec(), Refusal::Letters),
        (with(IMAGE, &[segment(14_000_000.0, 0)]), Refusal::SegmentRange),
        ([&[0; 8], &IMAGE[8..]].concat(), Refusal::GeneralLimit),
    ] {
        assert_eq!(refused(&base, &odd, 5, 0), Some(refusal));
        assert_eq!(refused(&base, &spoilt, 5, 400), Some(refusal));
    }
    assert_eq!(refused(IMAGE, &odd, 5, 0), Some(Refusal::Amendments));
    for room in [0, 1, 379] {
        assert_eq!(refused(IMAGE, &spoilt, 5, room), Some(Refusal::AmendedRoom));
        assert_eq!(refused(IMAGE, &[], 5, room), Some(Refusal::AmendedRoom));
    }
    assert_eq!(refused(IMAGE, &spoilt, 5, 380), Some(Refusal::CodedByte));
    let flat = raw::amend(IMAGE, &spoilt, 5, &mut [0; 380]);
    assert_eq!((flat.length, flat.refusal), (0, 5));
    let flat = raw::amend(IMAGE, &[], 5, &mut [0; 380]);
    assert_eq!((flat.length, flat.refusal), (380, 0));
}

/// Every record of the largest image, and a list that is longer than the image.
#[test]
fn largest() {
    let band =
        |i: usize| Record { low: i as f64, high: i as f64 + 1.0, band: 1, ..Record::default() };
    let bands: Vec<Record> = (0..256).map(band).collect();
    let area = Record { low: 1.0, high: 2.0, ..Record::default() };
    let tables = Tables {
        bands: &bands,
        segments: &bands,
        privileges: &[area; 256],
        automatic: &[area; 256],
        excluded: &[Record::default(); 256],
        power: &[area; 256],
        plan_data: &[area; 256],
        plan_avoid: &[area; 253],
        ..Tables::default()
    };
    let fields = Fields { edition: 2, data_limit: 1.0, flags: raw::PART_PLAN, ..Fields::default() };
    let mut room = vec![0; raw::IMAGE_MOST];
    let image = write(&fields, &tables, &mut room).unwrap();
    assert_eq!(image.len(), 65_548);
    let mut all = Vec::new();
    for day in [3, 2, 1, 9] {
        for &table in Table::ALL {
            let n = [256, 256, 0, 256, 256, 256, 256, 256, 253][usize::from(table.number())];
            for index in 0..n {
                let old = Record::from_bytes(&bytes(image, table, index));
                let record = match table {
                    Table::Bands | Table::Segments | Table::Excluded => {
                        Record { band: day as u8, ..old }
                    }
                    _ => Record { high: 2.0 + f64::from(day), ..old },
                };
                all.push(Amendment { table, index, day, record });
            }
        }
    }
    let n = all.len() / 4;
    assert_eq!(n, 2_045);
    assert_eq!(effective(image, &all, 0), image);
    assert_eq!(effective(image, &all, 1), with(image, &all[2 * n..3 * n]));
    assert_eq!(effective(image, &all, 8), with(image, &all[..n]));
    assert_eq!(effective(image, &all, 9), with(image, &all[3 * n..]));
}
