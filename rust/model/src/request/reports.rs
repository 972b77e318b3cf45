//! Codes 1, 2, 3, 20, 26 and 30: what the state holds, filled in.

use super::phys::existing;
use crate::codes::status;
use crate::layout::{
    connector_info, phy_info, sata_signature as at, CONTROLLER_CONFIG, CONTROLLER_STATUS,
    DRIVER_INFO,
};
use crate::state::State;

/// "1, 20: fill Information".
pub fn driver_info(state: &State, information: &mut [u8; DRIVER_INFO]) -> Result<u32, u32> {
    *information = state.driver_info;
    Ok(status::SUCCESS)
}

/// Code 2 (W-204): fill Configuration, its reserved bytes too.
pub fn controller_config(
    state: &State,
    configuration: &mut [u8; CONTROLLER_CONFIG],
) -> Result<u32, u32> {
    *configuration = state.controller_config;
    Ok(status::SUCCESS)
}

/// Code 3 (W-204): fill Status, its reserved bytes too.
pub fn controller_status(
    state: &State,
    reported: &mut [u8; CONTROLLER_STATUS],
) -> Result<u32, u32> {
    *reported = state.controller_status;
    Ok(status::SUCCESS)
}

/// "1, 20: fill Information; phys from p on and reserved bytes of the phy count's word are zero";
/// the state's phys are.
pub fn get_phy_info(state: &State, information: &mut [u8; phy_info::SIZE]) -> Result<u32, u32> {
    let (count, entities) = information.split_at_mut(phy_info::PHYS);
    count.copy_from_slice(&[state.p, 0, 0, 0]);
    for (entity, phy) in entities.as_chunks_mut().0.iter_mut().zip(&state.phys) {
        *entity = phy.entity;
    }
    Ok(status::SUCCESS)
}

/// "26: phy exists; SATA phy; signature held; fill it in."
pub fn sata_signature(state: &State, signature: &mut [u8; at::SIZE]) -> Result<u32, u32> {
    let phy = existing(state, signature[at::PHY])?;
    if !phy.is_sata() {
        return Err(status::NO_SATA_DEVICE);
    }
    if phy.held == 0 {
        return Err(status::NO_SATA_SIGNATURE);
    }
    signature[at::SIGNATURE..].copy_from_slice(&phy.signature);
    Ok(status::SUCCESS)
}

/// Code 30 (W-204): fill Reference. "References from p on are zero"; the state's connectors are.
pub fn connector_info(
    state: &State,
    references: &mut [u8; connector_info::SIZE],
) -> Result<u32, u32> {
    let references = references.as_chunks_mut().0;
    for (reference, connector) in references.iter_mut().zip(&state.connectors) {
        *reference = connector.0;
    }
    Ok(status::SUCCESS)
}
