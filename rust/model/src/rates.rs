//! Rates and ranges of rates.

use crate::codes::rate;

/// Whether a byte is a rate code.
pub fn is_rate(byte: u8) -> bool {
    matches!(byte, rate::G_1_5 | rate::G_3_0)
}

/// A range of rates, both ends in it.
#[derive(Clone, Copy)]
pub struct Rates {
    pub lowest: u8,
    pub highest: u8,
}

impl Rates {
    pub fn contains(self, rate: u8) -> bool {
        (self.lowest..=self.highest).contains(&rate)
    }

    /// Both ends are rate codes, and the range is not inverted.
    pub fn is_sound(self) -> bool {
        is_rate(self.lowest) && is_rate(self.highest) && self.lowest <= self.highest
    }

    pub fn is_within(self, outer: Rates) -> bool {
        outer.lowest <= self.lowest && self.highest <= outer.highest
    }
}
