//! The declarations agree: the C header (include/pamuklid.h), this crate (src/raw.rs) and the library's
//! own source (crates/flat/src, crates/flat_answers/src, crates/pamuklid_c/src). Structs field by field, calls argument by argument, and the
//! header's numbers by their names.

use std::collections::{BTreeMap, BTreeSet};
use std::fs;
use std::path::Path;

use pamuklid::{
    raw, Amendment, Code, Control, DialRow, Direction, Edge, Guidance, Kind, License, Nearest,
    Overshoot, Policy, Range, Record, Refusal, ReportRow, Rule, Sideband, Table, Verdict, VERSION,
};

fn file(name: &str) -> String {
    let path = Path::new(env!("CARGO_MANIFEST_DIR")).join(name);
    fs::read_to_string(&path).unwrap_or_else(|e| panic!("{}: {e}", path.display()))
}

fn header() -> String {
    file("../../include/pamuklid.h")
}

// ------------------------------------------------------------------------------ versions

#[test]
fn one_version() {
    assert_eq!(VERSION.to_string(), env!("CARGO_PKG_VERSION"));
    assert_eq!(defines()["VERSION"], i64::from(raw::VERSION));
}

// ------------------------------------------------------------------------------- numbers

/// The header's numbers, by what follows `PAMUKLID_` in their names.
fn defines() -> BTreeMap<String, i64> {
    let header = header();
    let mut out = BTreeMap::new();
    for line in header.lines() {
        let Some(rest) = line.strip_prefix("#define PAMUKLID_") else {
            continue;
        };
        let mut words = rest.split_whitespace();
        let (name, value) = (words.next().unwrap(), words.next());
        let value = value.map(|v| v.trim_start_matches('(').trim_end_matches(')'));
        if let Some(Ok(number)) = value.map(str::parse) {
            assert!(out.insert(name.to_owned(), number).is_none(), "{name} twice");
        }
    }
    out
}

/// The header's numbers that are still to be accounted for.
struct Numbers(BTreeMap<String, i64>);

impl Numbers {
    fn take(&mut self, name: &str, number: i64) {
        assert_eq!(self.0.remove(name), Some(number), "PAMUKLID_{name}");
    }

    /// One for each value of an enum, under its name in capitals.
    fn take_all(&mut self, prefix: &str, values: impl Iterator<Item = (&'static str, u8)>) {
        for (name, number) in values {
            self.take(&format!("{prefix}{}", name.to_uppercase()), number.into());
        }
    }
}

macro_rules! values {
    ($type:ident) => {
        $type::ALL.iter().map(|value| (value.name(), value.number()))
    };
}

#[test]
fn every_number() {
    let mut numbers = Numbers(defines());
    numbers.take("VERSION", raw::VERSION.into());
    numbers.take_all("POLICY_", values!(Policy));
    numbers.take_all("CONTROL_", values!(Control));
    numbers.take_all("LICENSE_", values!(License));
    numbers.take_all("SIDEBAND_", values!(Sideband));
    numbers.take_all("DIRECTION_", values!(Direction));
    numbers.take_all("KIND_", values!(Kind));
    numbers.take_all("", values!(Verdict));
    numbers.take_all("EDGE_", values!(Edge));
    numbers.take_all("CODE_", values!(Code));
    numbers.take_all("REFUSAL_", values!(Refusal));
    numbers.take_all("TABLE_", values!(Table));
    numbers.take("ACCEPTED", 0);
    numbers.take("CODE_NONE", 0);
    for (name, rule) in [
        ("EMPTY", Rule::Empty),
        ("97_301", Rule::Part97_301),
        ("97_109", Rule::Part97_109),
        ("97_305_A", Rule::Part97_305A),
        ("97_305_B", Rule::Part97_305B),
        ("97_305_C", Rule::Part97_305C),
        ("97_307_F_9", Rule::Part97_307F9),
        ("FIRST_OWN", Rule::Table(7)),
    ] {
        numbers.take(&format!("RULE_{name}"), rule.number().into());
        assert_eq!(Rule::from_number(rule.number()), rule);
    }
    let edge = Edge::Upper;
    for (name, overshoot) in [
        ("NONE", Overshoot::NoOvershoot),
        ("BEYOND", Overshoot::Beyond { by_hz: 1.0, edge }),
        ("TOO_CLOSE", Overshoot::TooClose { edge }),
    ] {
        numbers.take(&format!("OVERSHOOT_{name}"), overshoot.number().into());
    }
    for (name, guidance) in [
        ("NONE", Guidance::NoGuidance),
        ("AVOID", Guidance::Avoid(0)),
        ("INSIDE", Guidance::Inside(0)),
        ("OUTSIDE", Guidance::Outside),
    ] {
        numbers.take(&format!("GUIDANCE_{name}"), guidance.number().into());
    }
    numbers.take("NEAREST_REFUSED", 0);
    assert_eq!(Nearest::from_numbers(0, 1.0), None);
    for (name, nearest) in [
        ("DIAL", Nearest::Dial(1.0)),
        ("NONE", Nearest::NoneAllowed),
        ("NOT_JUDGED", Nearest::NotJudged),
    ] {
        numbers.take(&format!("NEAREST_{name}"), nearest.number().into());
    }
    for (name, place) in [("NONE", 0), ("GENERAL", 1), ("RECORD", 2)] {
        numbers.take(&format!("PLACE_{name}"), place);
    }
    for (name, table) in
        [("BANDS", Table::Bands), ("SEGMENTS", Table::Segments), ("PRIVILEGES", Table::Privileges)]
    {
        numbers.take(&format!("REPORT_{name}"), table.number().into());
    }
    numbers.take("REPORT_GAP", raw::REPORT_GAP.into());
    numbers.take("ABSENT", raw::ABSENT.into());
    numbers.take("RUNG_NONE", raw::RUNG_NONE.into());
    numbers.take("TABLE_NONE", raw::TABLE_NONE.into());
    numbers.take("RECORD_NONE", raw::RECORD_NONE.into());
    for (name, size) in [
        ("MOST_NOTES", raw::MOST_NOTES),
        ("MOST_RUNGS", raw::MOST_RUNGS),
        ("RUNG_FIGURES", raw::RUNG_FIGURES),
        ("ROW", raw::ROW),
        ("MOST_ROWS", raw::MOST_ROWS),
        ("REPORT_ROW", raw::REPORT_ROW),
        ("AMENDMENT", raw::AMENDMENT),
        ("MOST_REPORT", raw::MOST_REPORT),
        ("MOST_TEXT", raw::MOST_TEXT),
        ("MOST_LOG", raw::MOST_LOG),
        ("MOST_DIALS", raw::MOST_DIALS),
        ("CODES", raw::CODES),
        ("IMAGE_LEAST", raw::IMAGE_LEAST),
        ("IMAGE_MOST", raw::IMAGE_MOST),
        ("IMAGE_GENERAL", raw::IMAGE_GENERAL),
        ("IMAGE_WATTS", raw::IMAGE_WATTS),
        ("IMAGE_RECORD", raw::IMAGE_RECORD),
        ("IMAGE_TRAILER", raw::IMAGE_TRAILER),
        ("MOST_RECORDS", raw::MOST_RECORDS),
        ("IMAGE_MOST_RECORDS", raw::IMAGE_MOST_RECORDS),
        ("TABLES", raw::TABLES),
        ("RECORD_FIGURES", raw::RECORD_FIGURES),
        ("RECORD_CODES", raw::RECORD_CODES),
        ("RECORD_RULES", raw::RECORD_RULES),
        ("IMAGE_FLAGS", raw::IMAGE_FLAGS),
        ("IMAGE_CHANNEL_BAND", raw::IMAGE_CHANNEL_BAND),
    ] {
        numbers.take(name, size as i64);
    }
    for (name, code) in [
        ("READING_POWER", raw::READING_POWER),
        ("READING_SPECTRAL", raw::READING_SPECTRAL),
        ("READING_WIDER", raw::READING_WIDER),
        ("PART_ELSEWHERE", raw::PART_ELSEWHERE),
        ("PART_RESPONSE", raw::PART_RESPONSE),
        ("PART_CHANNELS", raw::PART_CHANNELS),
        ("PART_EMISSIONS", raw::PART_EMISSIONS),
        ("PART_PLAN", raw::PART_PLAN),
        ("EMISSION_DATA", raw::EMISSION_DATA),
        ("EMISSION_CW", raw::EMISSION_CW),
        ("EMISSION_TEST", raw::EMISSION_TEST),
        ("EMISSION_NOTHING", raw::EMISSION_NOTHING),
    ] {
        numbers.take(name, code.into());
    }
    assert_eq!(raw::TABLES, Table::ALL.len());
    for (name, at) in ROW_PARTS {
        numbers.take(&format!("ROW_{name}"), at as i64);
    }
    for (name, at) in REPORT_PARTS {
        numbers.take(&format!("REPORT_ROW_{name}"), at as i64);
    }
    for (name, at) in AMENDMENT_PARTS {
        numbers.take(&format!("AMENDMENT_{name}"), at as i64);
    }
    assert!(numbers.0.is_empty(), "not accounted for: {:?}", numbers.0);
}

const ROW_PARTS: [(&str, usize); 7] = [
    ("SEGMENT_LOW", 0),
    ("SEGMENT_HIGH", 8),
    ("DIAL_LOW", 16),
    ("DIAL_HIGH", 24),
    ("BAND", 32),
    ("ZERO", 33),
    ("RULE", 34),
];

const REPORT_PARTS: [(&str, usize); 7] = [
    ("LOW", 0),
    ("HIGH", 8),
    ("KIND", 16),
    ("LICENSE", 17),
    ("FIRST", 18),
    ("SECOND", 20),
    ("ZERO", 22),
];

const AMENDMENT_PARTS: [(&str, usize); 4] = [("TABLE", 0), ("INDEX", 2), ("DAY", 4), ("RECORD", 8)];

/// The parts of an amendment, each at its offset.
#[test]
fn amendment_parts() {
    let at = |name: &str| AMENDMENT_PARTS.iter().find(|part| part.0 == name).unwrap().1;
    let record = Record { low: 1.0, band: 2, second_rule: 0x304, ..Record::default() };
    let a = Amendment { table: Table::Power, index: 0x506, day: 0x708_090a, record };
    let bytes = a.to_bytes();
    assert_eq!(bytes[at("TABLE")..][..2], [6, 0]);
    assert_eq!(bytes[at("INDEX")..][..2], [6, 5]);
    assert_eq!(bytes[at("DAY")..][..4], [10, 9, 8, 7]);
    assert_eq!(bytes[at("RECORD")..], record.to_bytes());
    assert_eq!(raw::AMENDMENT, at("RECORD") + raw::IMAGE_RECORD);
}

/// The parts of a report's row, each at its offset.
#[test]
fn report_parts() {
    let at = |name: &str| REPORT_PARTS.iter().find(|part| part.0 == name).unwrap().1;
    let mut bytes = [0; raw::REPORT_ROW];
    for (name, x) in [("LOW", 1.0f64), ("HIGH", 2.0)] {
        bytes[at(name)..at(name) + 8].copy_from_slice(&x.to_bits().to_le_bytes());
    }
    bytes[at("KIND")] = Table::Privileges.number();
    bytes[at("LICENSE")] = License::Extra.number();
    (bytes[at("FIRST")], bytes[at("SECOND")]) = (7, 8);
    let want = ReportRow::Overlap {
        table: Table::Privileges,
        license: Some(License::Extra),
        first: 7,
        second: 8,
        stretch: Range { low_hz: 1.0, high_hz: 2.0 },
    };
    assert_eq!(ReportRow::from_bytes(&bytes), Some(want));
    bytes[at("ZERO")] = 9;
    assert_eq!(ReportRow::from_bytes(&bytes), Some(want));
}

/// The parts of a row, each at its offset.
#[test]
fn row_parts() {
    let at = |name: &str| ROW_PARTS.iter().find(|part| part.0 == name).unwrap().1;
    let mut bytes = [0; raw::ROW];
    for (name, x) in
        [("SEGMENT_LOW", 1.0f64), ("SEGMENT_HIGH", 2.0), ("DIAL_LOW", 3.0), ("DIAL_HIGH", 4.0)]
    {
        bytes[at(name)..at(name) + 8].copy_from_slice(&x.to_bits().to_le_bytes());
    }
    bytes[at("BAND")] = 5;
    bytes[at("RULE")] = 6;
    let row = DialRow::from_bytes(&bytes);
    let figures = [row.segment.low_hz, row.segment.high_hz, row.dial.low_hz, row.dial.high_hz];
    assert_eq!(figures, [1.0, 2.0, 3.0, 4.0]);
    assert_eq!((row.band, row.rule), (5, Rule::Part97_307F9));
}

// ------------------------------------------------------------------------ structs and calls

/// The words and marks of a source, comments left out.
fn tokens(source: &str) -> Vec<String> {
    let mut out: Vec<String> = Vec::new();
    let mut rest = source;
    while let Some(c) = rest.chars().next() {
        if rest.starts_with("//") {
            rest = &rest[rest.find('\n').unwrap_or(rest.len())..];
        } else if rest.starts_with("/*") {
            rest = &rest[rest.find("*/").map_or(rest.len(), |at| at + 2)..];
        } else if rest.starts_with("->") {
            out.push("->".to_owned());
            rest = &rest[2..];
        } else if c.is_alphanumeric() || c == '_' {
            let word = |c: char| c.is_alphanumeric() || c == '_';
            let end = rest.find(|c: char| !word(c)).unwrap_or(rest.len());
            out.push(rest[..end].to_owned());
            rest = &rest[end..];
        } else {
            if !c.is_whitespace() {
                out.push(c.to_string());
            }
            rest = &rest[c.len_utf8()..];
        }
    }
    out
}

/// A type's name in this crate.
fn plain(word: &str) -> String {
    let scalar = match word {
        "double" => "f64",
        "uint8_t" => "u8",
        "uint16_t" => "u16",
        "uint32_t" => "u32",
        "uint64_t" => "u64",
        "int32_t" => "i32",
        "int64_t" => "i64",
        "size_t" => "usize",
        _ => "",
    };
    if !scalar.is_empty() {
        return scalar.to_owned();
    }
    if let Some(name) = word.strip_prefix("Flat") {
        return name.to_owned();
    }
    match word.strip_prefix("pamuklid_") {
        Some(name) => name.split('_').map(|part| part[..1].to_uppercase() + &part[1..]).collect(),
        None => word.to_owned(),
    }
}

/// A struct's fields: names and types, an array's with its length.
type Structs = BTreeMap<String, Vec<(String, String)>>;
/// A call's argument types, and what it returns.
type Calls = BTreeMap<String, (Vec<String>, String)>;

/// From the token after an opening mark to the one before its closing mark.
fn inside(t: &[String], open: usize) -> &[String] {
    let close = match t[open].as_str() {
        "{" => "}",
        "(" => ")",
        "[" => "]",
        other => panic!("{other} opens nothing"),
    };
    let mut depth = 0;
    for at in open..t.len() {
        if t[at] == t[open] {
            depth += 1;
        } else if t[at] == close {
            depth -= 1;
            if depth == 0 {
                return &t[open + 1..at];
            }
        }
    }
    panic!("{} is not closed", t[open])
}

fn parts<'a>(t: &'a [String], mark: &'a str) -> impl Iterator<Item = &'a [String]> {
    t.split(move |word| word == mark).filter(|part| !part.is_empty())
}

fn length(word: &str) -> String {
    match word {
        "MOST_NOTES" | "PAMUKLID_MOST_NOTES" => raw::MOST_NOTES.to_string(),
        "CODES" | "PAMUKLID_CODES" => raw::CODES.to_string(),
        "TABLES" | "PAMUKLID_TABLES" => raw::TABLES.to_string(),
        _ => word.to_owned(),
    }
}

/// `typedef struct { TYPE FIELD; .. } NAME;` and `TYPE NAME(..);`. A call is named by its symbol: after
/// `#define NAME SYMBOL` by that.
fn of_c(source: &str) -> (Structs, Calls) {
    let t = tokens(source);
    let (mut structs, mut calls) = (Structs::new(), Calls::new());
    let mut symbols = BTreeMap::new();
    for at in 0..t.len() {
        if t[at] == "define" && t[at + 1].starts_with("pamuklid_") {
            symbols.insert(t[at + 1].clone(), t[at + 2].clone());
        }
        if t[at] == "typedef" {
            let body = inside(&t, at + 2);
            let name = plain(&t[at + 2 + body.len() + 2]);
            let fields = parts(body, ";").map(|f| match f {
                [of, name] => (name.clone(), plain(of)),
                [of, name, _, n, _] => (name.clone(), format!("[{}; {}]", plain(of), length(n))),
                _ => panic!("{f:?}"),
            });
            structs.insert(name, fields.collect());
        }
        let called = t[at].starts_with("pamuklid_") && t.get(at + 1).is_some_and(|w| w == "(");
        if called && t[at + 1 + inside(&t, at + 1).len() + 2] == ";" {
            let arguments =
                parts(inside(&t, at + 1), ",").filter(|a| *a != ["void"]).map(|a| match a {
                    [of, _] => plain(of),
                    [a, of, star, _] if a == "const" && star == "*" => {
                        format!("*const {}", plain(of))
                    }
                    [of, star, _] if star == "*" => format!("*mut {}", plain(of)),
                    _ => panic!("{a:?}"),
                });
            let symbol = symbols.get(&t[at]).unwrap_or(&t[at]);
            calls.insert(symbol.clone(), (arguments.collect(), plain(&t[at - 1])));
        }
    }
    (structs, calls)
}

/// A type of Rust or Rattle, as the types that cross: a slice is a pointer and a count.
fn crossing(t: &[String]) -> Vec<String> {
    let words: Vec<&str> = t.iter().map(String::as_str).collect();
    match words[..] {
        ["*", kind, of] => vec![format!("*{kind} {}", plain(of))],
        ["&", "[", of, "]"] => vec![format!("*const {}", plain(of)), "usize".to_owned()],
        ["&", "mut", "[", of, "]"] => vec![format!("*mut {}", plain(of)), "usize".to_owned()],
        ["[", of, ";", n, "]"] => vec![format!("[{}; {}]", plain(of), length(n))],
        [of] => vec![plain(of)],
        _ => panic!("{t:?}"),
    }
}

/// `#[repr(C)] .. pub struct NAME { pub FIELD: TYPE, .. }` and `fn pamuklid_..(ARGUMENT: TYPE, ..) -> TYPE`,
/// by its symbol where it has `#[link_name = "SYMBOL"]`
fn of_rust(source: &str) -> (Structs, Calls) {
    let t = tokens(source);
    let (mut structs, mut calls) = (Structs::new(), Calls::new());
    let mut crosses = false;
    for at in 0..t.len() {
        if t[at] == "repr" && t[at + 2] == "C" {
            crosses = true;
        }
        if t[at] == "struct" && crosses {
            crosses = false;
            let fields = parts(inside(&t, at + 2), ",").map(|f| {
                assert_eq!((f[0].as_str(), f[2].as_str()), ("pub", ":"), "{f:?}");
                (f[1].clone(), crossing(&f[3..]).concat())
            });
            structs.insert(plain(&t[at + 1]), fields.collect());
        }
        if t[at] == "fn" && t[at + 1].starts_with("pamuklid_") {
            let list = inside(&t, at + 2);
            let arguments = parts(list, ",").flat_map(|a| crossing(&a[2..]));
            let after = at + 2 + list.len() + 2;
            assert_eq!(t[after], "->");
            let symbol = match at.checked_sub(6).map(|from| &t[from..at]) {
                Some([of, _, _, symbol, ..]) if of == "link_name" => symbol,
                _ => &t[at + 1],
            };
            calls.insert(symbol.clone(), (arguments.collect(), plain(&t[after + 1])));
        }
    }
    (structs, calls)
}

/// The library's own source.
fn library() -> String {
    let crates = Path::new(env!("CARGO_MANIFEST_DIR")).join("../../crates");
    let source = |name| fs::read_to_string(crates.join(name).join("src/lib.rt"));
    ["flat", "flat_answers", "pamuklid_c"]
        .map(|name| source(name).expect("the library's source"))
        .concat()
}

#[test]
fn structs_and_calls() {
    let (c_structs, c_calls) = of_c(&header());
    let (structs, calls) = of_rust(&file("src/raw.rs"));
    let (their_structs, their_calls) = of_rust(&library());
    let names = |of: &Structs| of.keys().cloned().collect::<BTreeSet<_>>();
    assert_eq!(c_structs.len(), 18);
    assert_eq!(c_calls.len(), 25);
    assert_eq!(names(&structs), names(&c_structs));
    assert_eq!(names(&structs), names(&their_structs));
    for (name, fields) in &structs {
        assert_eq!(fields, &c_structs[name], "{name}");
        assert_eq!(fields, &their_structs[name], "{name}");
    }
    assert_eq!(calls, c_calls);
    assert_eq!(calls, their_calls);
}

/// The header checks the offset of every field, and the size of every struct.
#[test]
fn every_offset() {
    let header = header();
    let checked: BTreeSet<&str> =
        header.lines().filter_map(|l| l.strip_prefix("PAMUKLID_AT(")).collect();
    let mut offsets = 0;
    for (name, fields) in of_c(&header).0 {
        let name = name.chars().fold("pamuklid".to_owned(), |out, c| match c.is_uppercase() {
            true => out + "_" + &c.to_lowercase().to_string(),
            false => out + &c.to_string(),
        });
        assert!(header.contains(&format!("\nPAMUKLID_SIZE({name}, ")), "{name}");
        for (field, _) in fields {
            let begins = format!("{name}, {field}, ");
            assert!(checked.iter().any(|line| line.starts_with(&begins)), "{name}.{field}");
            offsets += 1;
        }
    }
    assert_eq!(checked.len(), offsets);
}
