//! The numbers of the boundary as enums, each value with its number and its name.

use std::error::Error;
use std::fmt;
use std::str::FromStr;

/// An enum whose values have numbers and names.
macro_rules! numbered {
    ($(#[$about:meta])* $name:ident: $what:literal {
        $($(#[$says:meta])* $value:ident = $number:literal $word:literal,)*
    }) => {
        $(#[$about])*
        #[derive(Clone, Copy, Debug, PartialEq, Eq, Hash)]
        #[repr(u8)]
        pub enum $name {
            $($(#[$says])* $value = $number,)*
        }

        impl $name {
            /// Every value, by its number.
            pub const ALL: &'static [Self] = &[$(Self::$value),*];

            /// Every value's name, by its number.
            pub const NAMES: &'static [&'static str] = &[$($word),*];

            /// The value of a number; `None` for a number that stands for none.
            pub const fn from_number(number: u8) -> Option<Self> {
                match number {
                    $($number => Some(Self::$value),)*
                    _ => None,
                }
            }

            /// The number, as the library and its C header have it.
            pub const fn number(self) -> u8 {
                self as u8
            }

            /// The value of a name; `None` for a name that stands for none.
            pub fn from_name(name: &str) -> Option<Self> {
                match name {
                    $($word => Some(Self::$value),)*
                    _ => None,
                }
            }

            /// The short name, in lower case, as logs and settings have it; the C header has it in
            /// capitals.
            pub const fn name(self) -> &'static str {
                match self {
                    $(Self::$value => $word,)*
                }
            }
        }

        impl FromStr for $name {
            type Err = UnknownName;

            fn from_str(name: &str) -> Result<Self, UnknownName> {
                Self::from_name(name).ok_or(UnknownName { what: $what, names: Self::NAMES })
            }
        }
    };
}
pub(crate) use numbered;

/// A name that stands for no value, where a text was to be one (`"general".parse::<License>()`).
#[derive(Clone, Copy, Debug, PartialEq, Eq)]
pub struct UnknownName {
    /// What was to be named.
    pub what: &'static str,
    /// The names that there are.
    pub names: &'static [&'static str],
}

impl fmt::Display for UnknownName {
    fn fmt(&self, f: &mut fmt::Formatter<'_>) -> fmt::Result {
        write!(f, "no such {}: the names are ", self.what)?;
        for (i, name) in self.names.iter().enumerate() {
            let before = match i {
                0 => "",
                _ if i + 1 == self.names.len() => " and ",
                _ => ", ",
            };
            write!(f, "{before}{name}")?;
        }
        Ok(())
    }
}

impl Error for UnknownName {}

numbered! {
    /// What governs a station.
    Policy: "policy" {
        /// Nothing was chosen: blocked ([`Code::NoProfile`]).
        Unset = 0 "unset",
        /// No rules apply: everything is legal ([`Code::NoRules`]).
        NoRules = 1 "no_rules",
        /// The rules of the image.
        Rules = 2 "rules",
        /// The rules could not be loaded: blocked ([`Code::ProfileBroken`]).
        Broken = 3 "broken",
    }
}

numbered! {
    /// How a station is controlled (§97.109).
    Control: "control" {
        /// An operator at the station.
        Local = 0 "local",
        /// An operator at a distance.
        Remote = 1 "remote",
        /// None: the station acts by itself (§97.221).
        Automatic = 2 "automatic",
    }
}

numbered! {
    /// The class of the operator's license.
    License: "license" {
        /// Novice.
        Novice = 0 "novice",
        /// Technician.
        Technician = 1 "technician",
        /// General.
        General = 2 "general",
        /// Advanced.
        Advanced = 3 "advanced",
        /// Amateur Extra.
        Extra = 4 "extra",
    }
}

numbered! {
    /// The sideband that the radio puts the audio on.
    Sideband: "sideband" {
        /// Air edges are the dial plus the audio edges.
        Upper = 0 "upper",
        /// Air edges are the dial less the audio edges.
        Lower = 1 "lower",
    }
}

numbered! {
    /// Who begins, and who is answered. A station under automatic control is judged by §97.221 in
    /// every direction but [`Operator`](Direction::Operator). Outside the automatic segments §97.221(c)
    /// lets it answer a station under local or remote control; it does not cover an answer to one that
    /// is itself under automatic control. Which of the two is answered is taken on the caller's word.
    Direction: "direction" {
        /// This station calls.
        Originate = 0 "originate",
        /// It answers a station that is known to be under local or remote control.
        Respond = 1 "respond",
        /// An operator acts.
        Operator = 2 "operator",
        /// It answers a station under automatic control. Judged as [`Originate`](Direction::Originate)
        /// is.
        RespondToAutomatic = 3 "respond_to_automatic",
    }
}

numbered! {
    /// What is sent.
    Kind: "kind" {
        /// Data.
        Data = 0 "data",
        /// Morse, as an identification.
        Cw = 1 "cw",
        /// A test emission.
        Test = 2 "test",
        /// Nothing: only the dial is judged off 60 m.
        Nothing = 3 "nothing",
    }
}

numbered! {
    /// The verdict.
    Verdict: "verdict" {
        /// May be sent.
        Legal = 0 "legal",
        /// May be sent; the operator should know of the guidance or the notes.
        Warning = 1 "warning",
        /// May not be sent.
        Blocked = 2 "blocked",
    }
}

numbered! {
    /// An edge of a segment.
    Edge: "edge" {
        /// The lower.
        Lower = 0 "lower",
        /// The upper.
        Upper = 1 "upper",
    }
}

numbered! {
    /// The reason of a verdict.
    Code: "code" {
        /// No policy was chosen.
        NoProfile = 1 "no_profile",
        /// The policy could not be loaded.
        ProfileBroken = 2 "profile_broken",
        /// No rules apply: legal.
        NoRules = 3 "no_rules",
        /// The spectrum is not known.
        Unmeasured = 4 "unmeasured",
        /// The station is in another region than the table.
        Region = 5 "region",
        /// The station's control is not known.
        NoControl = 6 "no_control",
        /// The operator's license is not known.
        NoLicense = 7 "no_license",
        /// The sideband is not known.
        NoSideband = 8 "no_sideband",
        /// The dial is not known.
        NoDial = 9 "no_dial",
        /// No band holds the signal with its margin.
        OutOfBand = 10 "out_of_band",
        /// Automatic control is not allowed in this band.
        AutomaticExcluded = 11 "automatic_excluded",
        /// Wider than the limit here.
        TooWide = 12 "too_wide",
        /// Beyond an edge of a data segment, or too close to it: see [`Overshoot`].
        OutsideDataSegment = 13 "outside_data_segment",
        /// No data segment is near.
        NoDataHere = 14 "no_data_here",
        /// The license does not allow it here.
        Privilege = 15 "privilege",
        /// Permitted: legal or a warning.
        Permitted = 16 "permitted",
        /// Automatic, inside an automatic segment: legal or a warning.
        AutomaticSegment = 17 "automatic_segment",
        /// Automatic, outside the automatic segments, where the table has no rule for elsewhere.
        AutomaticOutside = 18 "automatic_outside",
        /// Automatic, outside the automatic segments, and too wide for elsewhere.
        AutomaticBandwidth = 19 "automatic_bandwidth",
        /// Automatic, outside the automatic segments, and not in answer to a station under local or
        /// remote control.
        AutomaticOriginate = 20 "automatic_originate",
        /// Automatic, outside the automatic segments, by the rule for elsewhere: legal or a warning.
        AutomaticResponse = 21 "automatic_response",
        /// 60 m: an emission that is not allowed there.
        SixtyEmission = 22 "sixty_emission",
        /// 60 m: on no channel and not in the segment.
        SixtyOffChannel = 23 "sixty_off_channel",
        /// 60 m: on a channel: legal, a warning, or blocked where the signal doesn't fit it. By the
        /// first channel that the signal touches, unless that one doesn't hold it and the segment does.
        SixtyChannel = 24 "sixty_channel",
        /// 60 m: in the segment, and not held by the first channel that it touches, if any: legal or a
        /// warning.
        SixtySegment = 25 "sixty_segment",
    }
}

numbered! {
    /// Why a call was not answered. The order of looking: 29, 30, 20, 21, 22, 1 to 14, 26, 27, 28, 15,
    /// 33, 34, 16, 23, 24, 25, 31, 32; [`amend`](crate::amend) has 5 to 10, 12 and 13 of the effective image
    /// after 28.
    Refusal: "refusal" {
        /// The image has under 92 or over 65,552 bytes; or it is to be written, with more records than
        /// 2,045.
        ImageLength = 1 "image_length",
        /// The image does not end with its letters.
        Letters = 2 "letters",
        /// The image is of another edition than 1 and 2, or is to be written as one; or it is to be raised
        /// or lowered, and of another edition than that asks for.
        Edition = 3 "edition",
        /// A count of the image is over 256, or its length or distance disagrees with the counts; or a
        /// table that is to be written has more records than 256.
        Counts = 4 "counts",
        /// A coded byte of the image is outside its values, an unused one is not zero, or a table of
        /// an absent part is not empty.
        CodedByte = 5 "coded_byte",
        /// A figure of the image is not finite, above 2^40 in size, or negative zero.
        ImageFigure = 6 "image_figure",
        /// A band has no length.
        BandRange = 7 "band_range",
        /// A data segment has no length.
        SegmentRange = 8 "segment_range",
        /// An automatic segment has no length.
        AutomaticRange = 9 "automatic_range",
        /// A privilege has no length.
        PrivilegeRange = 10 "privilege_range",
        /// The table has no band or no data segment.
        EmptyTable = 11 "empty_table",
        /// A data segment lies in no band.
        SegmentOutside = 12 "segment_outside",
        /// A data segment's own limit is not above 0.
        OwnLimit = 13 "own_limit",
        /// The general limit is not above 0.
        GeneralLimit = 14 "general_limit",
        /// An edge is not finite or above 2^40 in size.
        SignalEdge = 15 "signal_edge",
        /// The rungs are more than 256, or their floor marks are not one each.
        Rungs = 16 "rungs",
        /// A code of the station, the direction, the kind or the license of a report is outside its
        /// values, or no call gives the state of a walk; this crate's enums have no such code, and its
        /// [`Walk`](crate::Walk) no such state.
        StationCode = 20 "station_code",
        /// A figure of the station, or a dial whose distance is asked, is not finite or above 2^40 in
        /// size; or a figure to be written is not finite or above 2^43 in size.
        StationFigure = 21 "station_figure",
        /// [`Policy::Rules`] and an image of no bytes.
        NoImage = 22 "no_image",
        /// The dial list is longer than the whole rows lent: those to write, or those to ask a
        /// distance of. Or an image that is to be written, raised or lowered is longer than the bytes
        /// lent for it.
        Rows = 23 "rows",
        /// The text of a figure is longer than the bytes lent.
        Text = 24 "text",
        /// The report of a table is longer than the whole rows lent.
        Report = 25 "report",
        /// The image is to be lowered, and has other watts than 100 and 9.15, which edition 1 can't hold.
        Watts = 26 "watts",
        /// A list of amendments is not in forties, or has a table above 8 or an index beyond its table, in
        /// force or not.
        Amendments = 27 "amendments",
        /// An image that is to be amended is longer than the bytes lent for it.
        AmendedRoom = 28 "amended_room",
        /// A swap of a walk's images while one waits.
        SecondSwap = 29 "second_swap",
        /// A step with no walk open, or an opening while one is open.
        Walk = 30 "walk",
        /// A start of a log is below the one before it.
        Starts = 31 "starts",
        /// Starts, bands, seconds and totals of a log are not one for each record, or there are more than
        /// 65,536 records.
        Runs = 32 "runs",
        /// The first dial of a census is above its last, or there are more than 1,000,000.
        Stretch = 33 "stretch",
        /// The first or the last dial of a census is above 2^40 in size.
        FarDial = 34 "far_dial",
    }
}

impl Error for Refusal {}

/// A rule: one that has a number for every table, or one of the trustee's text list.
#[derive(Clone, Copy, Debug, PartialEq, Eq, Hash)]
pub enum Rule {
    /// 0: no rule is named.
    Empty,
    /// 1: §97.301, bands and privileges.
    Part97_301,
    /// 2: §97.109, control.
    Part97_109,
    /// 3: §97.305(a), CW.
    Part97_305A,
    /// 4: §97.305(b), test emissions.
    Part97_305B,
    /// 5: §97.305(c), data segments.
    Part97_305C,
    /// 6: §97.307(f)(9), emissions of a license.
    Part97_307F9,
    /// 7 and above: that number of the trustee's text list.
    Table(u16),
}

impl Rule {
    /// The rule of a number. Every number is one.
    pub const fn from_number(number: u16) -> Self {
        match number {
            0 => Self::Empty,
            1 => Self::Part97_301,
            2 => Self::Part97_109,
            3 => Self::Part97_305A,
            4 => Self::Part97_305B,
            5 => Self::Part97_305C,
            6 => Self::Part97_307F9,
            _ => Self::Table(number),
        }
    }

    /// The number, as the library and the image have it.
    pub const fn number(self) -> u16 {
        match self {
            Self::Empty => 0,
            Self::Part97_301 => 1,
            Self::Part97_109 => 2,
            Self::Part97_305A => 3,
            Self::Part97_305B => 4,
            Self::Part97_305C => 5,
            Self::Part97_307F9 => 6,
            Self::Table(number) => number,
        }
    }
}

/// How a signal lies outside a data segment ([`Code::OutsideDataSegment`]).
#[derive(Clone, Copy, Debug, PartialEq)]
pub enum Overshoot {
    /// It doesn't: the code is another.
    NoOvershoot,
    /// Beyond an edge, so far.
    Beyond {
        /// How far, in hertz.
        by_hz: f64,
        /// The edge.
        edge: Edge,
    },
    /// Inside, but closer to an edge than the margin.
    TooClose {
        /// The edge that the gate names: always the upper, whichever of the two is too close.
        edge: Edge,
    },
}

impl Overshoot {
    /// The value of its three numbers in an answer; `None` where a number stands for nothing. The
    /// edge and the distance are read only where the first number has a use for them.
    pub const fn from_numbers(number: u8, edge: u8, by_hz: f64) -> Option<Self> {
        match (number, Edge::from_number(edge)) {
            (0, _) => Some(Self::NoOvershoot),
            (1, Some(edge)) => Some(Self::Beyond { by_hz, edge }),
            (2, Some(edge)) => Some(Self::TooClose { edge }),
            _ => None,
        }
    }

    /// The first of its numbers.
    pub const fn number(self) -> u8 {
        match self {
            Self::NoOvershoot => 0,
            Self::Beyond { .. } => 1,
            Self::TooClose { .. } => 2,
        }
    }
}

/// What the voluntary band plan says, where the station asks for it.
#[derive(Clone, Copy, Debug, PartialEq, Eq, Hash)]
pub enum Guidance {
    /// Nothing.
    NoGuidance,
    /// Keep clear: the plan record to avoid, by its index in the image.
    Avoid(u16),
    /// Inside a data area: the plan record, by its index in the image.
    Inside(u16),
    /// The plan puts data elsewhere.
    Outside,
}

impl Guidance {
    /// The value of its two numbers in an answer; `None` where the first stands for nothing. The
    /// index is read only where the first number has a use for it.
    pub const fn from_numbers(number: u8, index: u16) -> Option<Self> {
        match number {
            0 => Some(Self::NoGuidance),
            1 => Some(Self::Avoid(index)),
            2 => Some(Self::Inside(index)),
            3 => Some(Self::Outside),
            _ => None,
        }
    }

    /// The first of its numbers.
    pub const fn number(self) -> u8 {
        match self {
            Self::NoGuidance => 0,
            Self::Avoid(_) => 1,
            Self::Inside(_) => 2,
            Self::Outside => 3,
        }
    }
}

/// A value that the library's number has in this crate.
pub(crate) fn known<N: fmt::Display, T>(what: &str, number: N, value: Option<T>) -> T {
    match value {
        Some(value) => value,
        None => panic!(
            "libpamuklid.a answers {what} {number}, which the crate pamuklid has no name for"
        ),
    }
}

/// The refusal of a number; 0 is none.
pub(crate) fn refused(number: u8) -> Result<(), Refusal> {
    match number {
        0 => Ok(()),
        _ => Err(known("refusal", number, Refusal::from_number(number))),
    }
}

/// Whether a mark is set; 1 is, 0 is not.
pub(crate) fn marked(what: &str, number: u8) -> bool {
    let value = match number {
        0 => Some(false),
        1 => Some(true),
        _ => None,
    };
    known(what, number, value)
}
