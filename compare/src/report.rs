//! The trustee's table report, from document 02, 5: its refusals and its rows. The ends of the ranges are
//! put in order and walked from the lowest up, so that what is open at a place is known there. With the
//! feature `stub` this file is built a second time, for the stub.

use crate::image::{BANDS, PRIVILEGES, Record, SEGMENTS, Table};

/// "A row is 24 bytes".
pub const ROW: usize = 24;

/// "a byte 0 bands, 1 segments, 3 privileges or 255 gap": the tables' own numbers, and this.
pub const GAP: u8 = 255;

#[derive(Clone, Copy, Debug, PartialEq)]
pub struct Row {
    pub low: f64,
    pub high: f64,
    pub kind: u8,
    pub class: u8,
    pub first: u16,
    pub second: u16,
}

impl Row {
    /// "low and high of the stretch (f64), a byte 0 bands, 1 segments, 3 privileges or 255 gap, the class
    /// byte (0 where none), u16 first and second index (a gap gives its segment twice), two zero bytes"
    pub fn encode(&self) -> [u8; ROW] {
        let mut out = [0; ROW];
        out[0..8].copy_from_slice(&self.low.to_bits().to_le_bytes());
        out[8..16].copy_from_slice(&self.high.to_bits().to_le_bytes());
        out[16..18].copy_from_slice(&[self.kind, self.class]);
        out[18..20].copy_from_slice(&self.first.to_le_bytes());
        out[20..22].copy_from_slice(&self.second.to_le_bytes());
        out
    }

    pub fn is_overlap(&self) -> bool {
        self.kind != GAP
    }
}

/// The ends of some records from the lowest up: the end, whether a range begins there, and the record's
/// index. Where one ends and another begins, the one ends first: "shares a positive stretch".
fn ends(records: &[(u16, &Record)]) -> Vec<(f64, bool, u16)> {
    let mut out = Vec::with_capacity(2 * records.len());
    for &(index, r) in records {
        out.push((r.low, true, index));
        out.push((r.high, false, index));
    }
    out.sort_by(|a, b| a.0.total_cmp(&b.0).then(a.1.cmp(&b.1)).then(a.2.cmp(&b.2)));
    out
}

/// The pairs of some records that share a stretch. A range that ends shares, with each that is still
/// open, what lies between the beginning of the later one and this end.
fn pairs(records: &[(u16, &Record)], kind: usize, class: u8, out: &mut Vec<Row>) {
    // in the order of their beginnings
    let mut open: Vec<(u16, f64)> = Vec::new();
    for (at, begins, index) in ends(records) {
        if begins {
            open.push((index, at));
            continue;
        }
        let place = open.iter().position(|&(i, _)| i == index).expect("it began before it ends");
        let (_, began) = open.remove(place);
        for (n, &(other, later)) in open.iter().enumerate() {
            out.push(Row {
                low: if n < place { began } else { later },
                high: at,
                kind: kind as u8,
                class,
                first: index.min(other),
                second: index.max(other),
            });
        }
    }
}

/// What some records cover together: stretches from the lowest up that touch at most.
fn covered(records: &[(u16, &Record)]) -> Vec<(f64, f64)> {
    let mut out: Vec<(f64, f64)> = Vec::new();
    let mut open = 0;
    for (at, begins, _) in ends(records) {
        if !begins {
            open -= 1;
            out.last_mut().expect("it began before it ends").1 = at;
            continue;
        }
        open += 1;
        if open == 1 {
            out.push((at, at));
        }
    }
    out
}

/// "every stretch of a data segment that no privilege of a chosen class covers"; "as long as it can be and
/// of positive length".
fn gaps(segment: &Record, covered: &[(f64, f64)]) -> Vec<(f64, f64)> {
    let mut out = Vec::new();
    let mut from = segment.low;
    for &(low, high) in covered {
        if low >= segment.high {
            break;
        }
        if low > from {
            out.push((from, low));
        }
        if high > from {
            from = high;
        }
    }
    if from < segment.high {
        out.push((from, segment.high));
    }
    out
}

fn indexed(records: &[Record]) -> impl Iterator<Item = (u16, &Record)> {
    records.iter().enumerate().map(|(i, r)| (i as u16, r))
}

/// "list every pair of bands, of data segments, or of privileges of one class that shares a positive
/// stretch [...] Rows come by table, then by first and second index, the first the smaller; gaps follow by
/// segment, lowest first." Pairs of privileges are those of every class, and a gap has the chosen class
/// (docs/DECISIONS.md).
pub fn rows(t: &Table, class: u8) -> Vec<Row> {
    let mut out = Vec::new();
    for table in [BANDS, SEGMENTS] {
        let records: Vec<_> = indexed(&t.tables[table]).collect();
        pairs(&records, table, 0, &mut out);
    }
    let privileges =
        |class| indexed(&t.tables[PRIVILEGES]).filter(move |(_, p)| p.class == class).collect();
    for class in 0..=4 {
        let records: Vec<_> = privileges(class);
        pairs(&records, PRIVILEGES, class, &mut out);
    }
    out.sort_by_key(|row| (row.kind, row.first, row.second));
    let records: Vec<_> = privileges(class);
    let covered = covered(&records);
    for (first, segment) in indexed(&t.tables[SEGMENTS]) {
        for (low, high) in gaps(segment, &covered) {
            out.push(Row { low, high, kind: GAP, class, first, second: first });
        }
    }
    out
}

/// "each data segment lies in a band of its number"
pub fn at_home(t: &Table) -> bool {
    t.tables[SEGMENTS].iter().all(|s| {
        t.tables[BANDS].iter().any(|b| b.band == s.band && b.low <= s.low && s.high <= b.high)
    })
}

/// "A chosen class above 4 meets 20", before the image's own refusal.
pub fn refusal(image: u8, class: u8) -> u8 {
    if class > 4 { 20 } else { image }
}

/// 25 "when the rows lent are too few".
pub fn too_few(count: usize, lent: usize) -> bool {
    count > lent / ROW
}
