//! What a caller knows: the station and the signal.

use crate::codes::{known, marked, Control, License, Policy, Sideband};
use crate::raw::{self, Edges, ABSENT};
use crate::version;

impl Edges {
    /// The same edges under both readings.
    pub const fn both(low: f64, high: f64) -> Self {
        Self { power_low: low, power_high: high, spectral_low: low, spectral_high: high }
    }
}

/// The station's record. What is not known is `None`, and what needs it is blocked.
#[derive(Clone, Copy, Debug, PartialEq)]
pub struct Station {
    /// What governs the station.
    pub policy: Policy,
    /// How it is controlled.
    pub control: Option<Control>,
    /// The operator's license.
    pub license: Option<License>,
    /// The sideband of the radio.
    pub sideband: Option<Sideband>,
    /// The ITU region, compared with the image's.
    pub itu_region: u8,
    /// Hertz that are kept free below the signal on the air, on either sideband; may be negative.
    pub margin_lower_hz: f64,
    /// Hertz that are kept free above it; may be negative.
    pub margin_upper_hz: f64,
    /// The radio's dial.
    pub dial_hz: Option<f64>,
    /// The transmit power.
    pub power_w: Option<f64>,
    /// Whether the operator wants to hear of the voluntary band plan.
    pub band_plan: bool,
}

impl Station {
    /// A fresh station: region 2, margins of 50 Hz, the plan off, and nothing else known. Its policy is
    /// unset, so it permits nothing.
    pub fn fresh() -> Self {
        version::checked();
        Self::of(&raw::fresh())
    }

    fn of(s: &raw::Station) -> Self {
        Self {
            policy: known("policy", s.policy, Policy::from_number(s.policy)),
            control: part("control", s.control, Control::from_number),
            license: part("license", s.license, License::from_number),
            sideband: part("sideband", s.sideband, Sideband::from_number),
            itu_region: s.itu_region,
            margin_lower_hz: s.margin_lower_hz,
            margin_upper_hz: s.margin_upper_hz,
            dial_hz: marked("dial mark", s.dial_known).then_some(s.dial_hz),
            power_w: marked("power mark", s.power_known).then_some(s.power_w),
            band_plan: marked("plan mark", s.band_plan),
        }
    }

    pub(crate) fn flat(&self) -> raw::Station {
        raw::Station {
            margin_lower_hz: self.margin_lower_hz,
            margin_upper_hz: self.margin_upper_hz,
            dial_hz: self.dial_hz.unwrap_or(0.0),
            power_w: self.power_w.unwrap_or(0.0),
            policy: self.policy.number(),
            control: self.control.map_or(ABSENT, Control::number),
            license: self.license.map_or(ABSENT, License::number),
            sideband: self.sideband.map_or(ABSENT, Sideband::number),
            itu_region: self.itu_region,
            band_plan: self.band_plan.into(),
            dial_known: self.dial_hz.is_some().into(),
            power_known: self.power_w.is_some().into(),
        }
    }
}

fn part<T>(what: &str, number: u8, of: fn(u8) -> Option<T>) -> Option<T> {
    match number {
        ABSENT => None,
        _ => Some(known(what, number, of(number))),
    }
}

#[cfg(test)]
mod tests {
    use super::*;

    /// A station goes to the boundary and back unchanged, in each of its parts.
    #[test]
    fn there_and_back() {
        let bare = Station {
            policy: Policy::Unset,
            control: None,
            license: None,
            sideband: None,
            itu_region: 0,
            margin_lower_hz: 0.0,
            margin_upper_hz: 0.0,
            dial_hz: None,
            power_w: None,
            band_plan: false,
        };
        let mut stations = vec![
            bare,
            Station { itu_region: 3, ..bare },
            Station { margin_lower_hz: -1.5, ..bare },
            Station { margin_upper_hz: 2.5, ..bare },
            Station { dial_hz: Some(0.0), ..bare },
            Station { dial_hz: Some(14_100_000.125), ..bare },
            Station { power_w: Some(0.0), ..bare },
            Station { power_w: Some(9.15), ..bare },
            Station { band_plan: true, ..bare },
        ];
        stations.extend(Policy::ALL.iter().map(|&policy| Station { policy, ..bare }));
        stations.extend(Control::ALL.iter().map(|&x| Station { control: Some(x), ..bare }));
        stations.extend(License::ALL.iter().map(|&x| Station { license: Some(x), ..bare }));
        stations.extend(Sideband::ALL.iter().map(|&x| Station { sideband: Some(x), ..bare }));
        for s in stations {
            assert_eq!(Station::of(&s.flat()), s);
        }
    }
}
