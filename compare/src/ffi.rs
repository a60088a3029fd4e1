//! The library's boundary for the driver: the wrapper crate's structs and calls (`pamuklid::raw`), and
//! what the driver asks of them: parts by name, differences, texts.

#[cfg(fault)]
pub use pamuklid::raw::fault_of;
#[cfg(feature = "stub")]
pub use pamuklid::raw::{Airtime, Census, Dials, Report, Step, Tidiness};
pub use pamuklid::raw::{
    Ceiling, Decision, Distance, Edges, Fault, Fields, Image, Nearest, Station, Text, VERSION,
    Walk, WalkAnswer, airtime, amend, ceiling, census, check, distance, evaluate, fresh, lower,
    nearest_dial, raise, report, safe_dials, text_at, text_hertz, text_khz, tidy, unmeasured,
    version, walk_first, walk_open, walk_step, walk_swap, write,
};

/// Every part absent, and blocked.
pub const NOTHING: Decision = Decision::ABSENT;

/// "A refusal gives its number, Blocked, all else absent, count 0." With 0 it is the limit of a ceiling
/// that has none (docs/DECISIONS.md).
pub fn refused(number: u8) -> Decision {
    Decision { refusal: number, ..NOTHING }
}

/// An answer, part by part.
pub trait Parts {
    fn floats(&self) -> [(&'static str, f64); 10];
    fn words(&self) -> [(&'static str, u16); 3];
    fn bytes(&self) -> [(&'static str, u8); 16];
    /// The first part in which two answers differ, floats by their bits.
    fn difference(&self, want: &Decision) -> Option<String>;
    fn text(&self) -> String;
}

impl Parts for Decision {
    fn floats(&self) -> [(&'static str, f64); 10] {
        [
            ("segment_low", self.segment_low),
            ("segment_high", self.segment_high),
            ("automatic_low", self.automatic_low),
            ("automatic_high", self.automatic_high),
            ("audio_low", self.audio_low),
            ("audio_high", self.audio_high),
            ("width", self.width),
            ("air_low", self.air_low),
            ("air_high", self.air_high),
            ("beyond_hz", self.beyond_hz),
        ]
    }

    fn words(&self) -> [(&'static str, u16); 3] {
        [
            ("rule", self.rule),
            ("segment_rule", self.segment_rule),
            ("guidance_index", self.guidance_index),
        ]
    }

    fn bytes(&self) -> [(&'static str, u8); 16] {
        [
            ("refusal", self.refusal),
            ("verdict", self.verdict),
            ("code", self.code),
            ("rule_known", self.rule_known),
            ("band_known", self.band_known),
            ("band", self.band),
            ("segment_known", self.segment_known),
            ("automatic_known", self.automatic_known),
            ("audio_known", self.audio_known),
            ("air_known", self.air_known),
            ("overshoot", self.overshoot),
            ("edge", self.edge),
            ("guidance", self.guidance),
            ("note_channel_power", self.note_channel_power),
            ("note_shared", self.note_shared),
            ("note_segment_power", self.note_segment_power),
        ]
    }

    fn difference(&self, want: &Decision) -> Option<String> {
        for ((name, a), (_, b)) in self.bytes().into_iter().zip(want.bytes()) {
            if a != b {
                return Some(format!("{name}: library {a}, expected {b}"));
            }
        }
        for ((name, a), (_, b)) in self.words().into_iter().zip(want.words()) {
            if a != b {
                return Some(format!("{name}: library {a}, expected {b}"));
            }
        }
        for ((name, a), (_, b)) in self.floats().into_iter().zip(want.floats()) {
            if a.to_bits() != b.to_bits() {
                return Some(format!(
                    "{name}: library {a:e} ({:#018x}), expected {b:e} ({:#018x})",
                    a.to_bits(),
                    b.to_bits()
                ));
            }
        }
        if self.notes != want.notes {
            let i = (0..256).find(|&i| self.notes[i] != want.notes[i]).unwrap();
            return Some(format!(
                "notes[{i}]: library {}, expected {}",
                self.notes[i], want.notes[i]
            ));
        }
        None
    }

    fn text(&self) -> String {
        let mut out = String::new();
        for (name, x) in self.bytes() {
            out += &format!("{name} {x}  ");
        }
        for (name, x) in self.words() {
            out += &format!("{name} {x}  ");
        }
        for (name, x) in self.floats() {
            out += &format!("{name} {x:?}  ");
        }
        let set: Vec<usize> = (0..256).filter(|&i| self.notes[i] != 0).collect();
        out + &format!("notes at {set:?}")
    }
}

/// A station's record, part by part.
pub trait StationParts {
    fn floats(&self) -> [(&'static str, f64); 4];
    fn bytes(&self) -> [(&'static str, u8); 8];
}

impl StationParts for Station {
    fn floats(&self) -> [(&'static str, f64); 4] {
        [
            ("margin_lower_hz", self.margin_lower_hz),
            ("margin_upper_hz", self.margin_upper_hz),
            ("dial_hz", self.dial_hz),
            ("power_w", self.power_w),
        ]
    }

    fn bytes(&self) -> [(&'static str, u8); 8] {
        [
            ("policy", self.policy),
            ("control", self.control),
            ("license", self.license),
            ("sideband", self.sideband),
            ("itu_region", self.itu_region),
            ("band_plan", self.band_plan),
            ("dial_known", self.dial_known),
            ("power_known", self.power_known),
        ]
    }
}

/// Edges as four figures, in the order of a rung.
pub trait Figures {
    fn figures(&self) -> [f64; 4];
    fn of(f: [f64; 4]) -> Self;
}

impl Figures for Edges {
    fn figures(&self) -> [f64; 4] {
        [self.power_low, self.power_high, self.spectral_low, self.spectral_high]
    }

    fn of(f: [f64; 4]) -> Self {
        Self { power_low: f[0], power_high: f[1], spectral_low: f[2], spectral_high: f[3] }
    }
}
