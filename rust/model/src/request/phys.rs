//! The phy that a request means: by its identifier, or for code 25 by phy and port.

use crate::codes::{status, NOT_GIVEN};
use crate::state::{Phy, State};

/// "phy exists".
pub fn existing(state: &State, identifier: u8) -> Result<&Phy, u32> {
    state
        .live_phys()
        .get(usize::from(identifier))
        .ok_or(status::PHY_DOES_NOT_EXIST)
}

pub fn existing_mut(state: &mut State, identifier: u8) -> Result<&mut Phy, u32> {
    state
        .live_phys_mut()
        .get_mut(usize::from(identifier))
        .ok_or(status::PHY_DOES_NOT_EXIST)
}

/// The number of the phy that a phy and a port identifier select. "A port identifier never stands
/// for a phy identifier."
pub fn select(state: &State, phy: u8, port: u8) -> Result<usize, u32> {
    // "phy and port not both FFh"
    if phy == NOT_GIVEN && port == NOT_GIVEN {
        return Err(status::SELECT_PHY_OR_PORT);
    }
    // "phy, if not FFh, below p"
    if phy != NOT_GIVEN {
        existing(state, phy)?;
    }
    if port == NOT_GIVEN {
        return Ok(usize::from(phy));
    }
    // "port, if not FFh, that of some phy"
    let lowest = state
        .live_phys()
        .iter()
        .position(|phy| phy.port() == port)
        .ok_or(status::PORT_DOES_NOT_EXIST)?;
    // "A port alone selects its lowest phy."
    if phy == NOT_GIVEN {
        return Ok(lowest);
    }
    // "both given: that phy has that port"
    if existing(state, phy)?.port() != port {
        return Err(status::PHY_DOES_NOT_MATCH_PORT);
    }
    Ok(usize::from(phy))
}
