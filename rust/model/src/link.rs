//! The link rule, and a link reset.

use crate::codes::{device, rate};
use crate::layout::entity;
use crate::rates::{is_rate, Rates};
use crate::state::{Phy, PHY_RESET_PROBLEM};

/// "With no device: 0. Else the highest rate inside both the programmed and the device range.
/// If none: 2 (failed)."
pub fn link_rule(attached: bool, programmed: Rates, device: Rates) -> u8 {
    if !attached {
        return rate::UNKNOWN;
    }
    [rate::G_3_0, rate::G_1_5]
        .into_iter()
        .find(|&rate| programmed.contains(rate) && device.contains(rate))
        .unwrap_or(rate::FAILED)
}

/// What the link rule gives for a phy. Held at spin-up, "a link rule result of 8 or 9 becomes 3"
/// (W-205); 0 and 2 stay.
pub fn rule_of(phy: &Phy) -> u8 {
    let result = link_rule(
        phy.device_type() != device::NONE,
        phy.programmed(),
        phy.device(),
    );
    if phy.spinup_hold == 1 && is_rate(result) {
        return rate::SATA_SPINUP_HOLD;
    }
    result
}

/// "A link reset that gives 2 adds one to the phy reset problem counter, which holds at
/// 4,294,967,295." Code 21, which alone resets a link, has set the hold to 0 before: none gives 3.
pub fn reset(phy: &mut Phy) {
    let negotiated = rule_of(phy);
    phy.entity[entity::NEGOTIATED] = negotiated;
    if negotiated == rate::FAILED {
        let counter = &mut phy.counters[PHY_RESET_PROBLEM];
        *counter = counter.saturating_add(1);
    }
}
