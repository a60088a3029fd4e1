//! Every number that an enum knows goes to a value and back; every other stands for none.

use std::fmt::Debug;
use std::str::FromStr;

use pamuklid::{
    Code, Control, Direction, Distance, Edge, Guidance, Kind, License, Nearest, Overshoot, Policy,
    Refusal, Rule, Sideband, Table, UnknownName, Verdict,
};

/// All 256 bytes: those of `numbers` are values, each its own, and no other byte is. Each value has a
/// name of its own, and the names are those of `NAMES`.
macro_rules! round_trip {
    ($type:ident, $numbers:expr) => {{
        let numbers: Vec<u8> = $numbers;
        for byte in 0..=255 {
            match $type::from_number(byte) {
                Some(value) => {
                    assert!(numbers.contains(&byte), "{byte} is {value:?}");
                    assert_eq!(value.number(), byte);
                    assert!($type::ALL.contains(&value));
                }
                None => assert!(!numbers.contains(&byte), "{byte} is nothing"),
            }
        }
        let all: Vec<_> = numbers.iter().map(|&n| $type::from_number(n).unwrap()).collect();
        assert_eq!(all, $type::ALL);
        named($type::ALL, $type::NAMES, $type::name, $type::from_name);
    }};
}

fn named<T>(all: &[T], names: &[&str], name: fn(T) -> &'static str, of: fn(&str) -> Option<T>)
where
    T: Copy + Debug + PartialEq + FromStr<Err = UnknownName>,
{
    assert_eq!(all.iter().map(|&value| name(value)).collect::<Vec<_>>(), names);
    for (&value, text) in all.iter().zip(names) {
        assert_eq!(of(text), Some(value));
        assert_eq!(text.parse(), Ok(value));
        assert_eq!(names.iter().filter(|n| *n == text).count(), 1, "{text}");
    }
    assert_eq!(of("no such name"), None);
    let unknown = "".parse::<T>().unwrap_err();
    assert_eq!(unknown.names, names);
}

fn numbers(from: u8, to: u8) -> Vec<u8> {
    (from..=to).collect()
}

#[test]
fn every_byte() {
    round_trip!(Policy, numbers(0, 3));
    round_trip!(Control, numbers(0, 2));
    round_trip!(License, numbers(0, 4));
    round_trip!(Sideband, numbers(0, 1));
    round_trip!(Direction, numbers(0, 3));
    round_trip!(Kind, numbers(0, 3));
    round_trip!(Verdict, numbers(0, 2));
    round_trip!(Edge, numbers(0, 1));
    round_trip!(Table, numbers(0, 8));
    round_trip!(Code, numbers(1, 25));
    round_trip!(Refusal, [numbers(1, 16), numbers(20, 34)].concat());
}

#[test]
fn unknown_names() {
    let unknown = "robot".parse::<Control>().unwrap_err();
    assert_eq!(unknown.to_string(), "no such control: the names are local, remote and automatic");
    assert_eq!("USB".parse::<Sideband>().unwrap_err().what, "sideband");
}

/// The numbers' meanings, as the papers give them.
#[test]
fn meanings() {
    let codes =
        "no_profile, profile_broken, no_rules, unmeasured, region, no_control, no_license, \
                 no_sideband, no_dial, out_of_band, automatic_excluded, too_wide, \
                 outside_data_segment, no_data_here, privilege, permitted, automatic_segment, \
                 automatic_outside, automatic_bandwidth, automatic_originate, automatic_response, \
                 sixty_emission, sixty_off_channel, sixty_channel, sixty_segment";
    for (i, name) in codes.split(", ").enumerate() {
        assert_eq!(Code::from_number(i as u8 + 1).map(Code::name), Some(name));
    }
    assert_eq!([Policy::Unset, Policy::NoRules, Policy::Rules, Policy::Broken], *Policy::ALL);
    assert_eq!([Control::Local, Control::Remote, Control::Automatic], *Control::ALL);
    let classes =
        [License::Novice, License::Technician, License::General, License::Advanced, License::Extra];
    assert_eq!(classes, *License::ALL);
    assert_eq!([Sideband::Upper, Sideband::Lower], *Sideband::ALL);
    let directions = [
        Direction::Originate,
        Direction::Respond,
        Direction::Operator,
        Direction::RespondToAutomatic,
    ];
    assert_eq!(directions, *Direction::ALL);
    assert_eq!("respond_to_automatic".parse(), Ok(Direction::RespondToAutomatic));
    assert_eq!([Kind::Data, Kind::Cw, Kind::Test, Kind::Nothing], *Kind::ALL);
    assert_eq!([Verdict::Legal, Verdict::Warning, Verdict::Blocked], *Verdict::ALL);
    assert_eq!([Edge::Lower, Edge::Upper], *Edge::ALL);
    let tables = [
        Table::Bands,
        Table::Segments,
        Table::Channels,
        Table::Privileges,
        Table::Automatic,
        Table::Excluded,
        Table::Power,
        Table::PlanData,
        Table::PlanAvoid,
    ];
    assert_eq!(tables, *Table::ALL);
}

/// Every rule number is a rule; the first seven have names of their own.
#[test]
fn rules() {
    for number in 0..=u16::MAX {
        let rule = Rule::from_number(number);
        assert_eq!(rule.number(), number);
        assert_eq!(matches!(rule, Rule::Table(_)), number > 6);
    }
}

/// An overshoot, a guidance, a distance and a nearest dial by all bytes of their numbers.
#[test]
fn numbers_with_parts() {
    for byte in 0..=255 {
        for edge in 0..=255 {
            let value = Overshoot::from_numbers(byte, edge, 250.0);
            let want = match (byte, Edge::from_number(edge)) {
                (0, _) => Some(Overshoot::NoOvershoot),
                (1, Some(edge)) => Some(Overshoot::Beyond { by_hz: 250.0, edge }),
                (2, Some(edge)) => Some(Overshoot::TooClose { edge }),
                _ => None,
            };
            assert_eq!(value, want);
            if let Some(value) = value {
                assert_eq!(value.number(), byte);
            }
        }
        for index in [0, 1, 255, 65_535] {
            let value = Guidance::from_numbers(byte, index);
            let want = match byte {
                0 => Some(Guidance::NoGuidance),
                1 => Some(Guidance::Avoid(index)),
                2 => Some(Guidance::Inside(index)),
                3 => Some(Guidance::Outside),
                _ => None,
            };
            assert_eq!(value, want);
            if let Some(value) = value {
                assert_eq!(value.number(), byte);
            }
        }
        for hertz in [0.0, 0.125, 300.0] {
            let value = Distance::from_numbers(byte, hertz);
            let want = match byte {
                0 => Some(Distance::NoneListed),
                1 => Some(Distance::Hz(hertz)),
                _ => None,
            };
            assert_eq!(value, want);
            if let Some(value) = value {
                assert_eq!(value.number(), byte);
            }
            let value = Nearest::from_numbers(byte, hertz);
            let want = match byte {
                1 => Some(Nearest::Dial(hertz)),
                2 => Some(Nearest::NoneAllowed),
                3 => Some(Nearest::NotJudged),
                _ => None,
            };
            assert_eq!(value, want);
            if let Some(value) = value {
                assert_eq!(value.number(), byte);
            }
        }
    }
}
