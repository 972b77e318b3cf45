//! Code 21: set phy info.

use super::phys::existing_mut;
use crate::codes::{rate, status};
use crate::fields;
use crate::layout::{entity, set_phy_info as at};
use crate::link;
use crate::rates::{is_rate, Rates};
use crate::state::State;

/// "21: phy exists; not fixed; ..", and then the change.
pub fn set_phy_info(state: &mut State, information: &[u8; at::SIZE]) -> Result<u32, u32> {
    let phy = existing_mut(state, information[at::PHY])?;
    if phy.fixed != 0 {
        return Err(status::PHY_INFO_NOT_CHANGEABLE);
    }
    // "negotiated byte 0 (enable) or 1 (disable), class 0–3"
    let (negotiated, class) = (information[at::NEGOTIATED], information[at::SIGNAL_CLASS]);
    if negotiated > 1 || class > fields::MAX_CLASS {
        return Err(status::INVALID_PARAMETER);
    }
    let current = phy.programmed();
    let programmed = Rates {
        lowest: programmed_rate(information[at::MINIMUM], current.lowest)?,
        highest: programmed_rate(information[at::MAXIMUM], current.highest)?,
    };
    // "the resulting range within hardware and not inverted"
    if !programmed.is_sound() || !programmed.is_within(phy.hardware()) {
        return Err(status::LINK_RATE_OUT_OF_RANGE);
    }
    // "sets the byte to 0 before its link reset, and also when it disables the phy" (W-205)
    phy.spinup_hold = 0;
    // "Then store class and rates"
    phy.entity[entity::SIGNAL_CLASS] = class;
    phy.set_programmed(programmed);
    // "negotiated becomes 1 if disabled, else a link reset"
    if negotiated == 1 {
        phy.entity[entity::NEGOTIATED] = rate::DISABLED;
    } else {
        link::reset(phy);
    }
    Ok(status::PHY_INFO_CHANGED)
}

/// "each programmed byte 0 (unchanged), 8 or 9".
fn programmed_rate(byte: u8, current: u8) -> Result<u8, u32> {
    match byte {
        0 => Ok(current),
        rate if is_rate(rate) => Ok(rate),
        _ => Err(status::LINK_RATE_OUT_OF_RANGE),
    }
}
