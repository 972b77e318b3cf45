//! Code 25: STP passthrough.

use super::phys::select;
use crate::bytes::{array_at, u32_at};
use crate::codes::{fis_type, status};
use crate::disk::Outcome;
use crate::layout::{fis, stp as at};
use crate::rates::is_rate;
use crate::state::{Phy, State};

const OPEN_ACCEPT: u8 = 0;

/// "25: FIS byte 0 is 27h and connection rate is 0, 8 or 9; ..", the selection, the connection,
/// "Then the disk." `data` is bDataBuffer, and what follows it.
pub fn stp_passthrough(
    state: &State,
    medium: &mut [u8],
    parameters: &mut [u8; at::DATA],
    data: &mut [u8],
) -> Result<u32, u32> {
    let command = array_at(parameters, at::COMMAND_FIS);
    let rate = parameters[at::RATE];
    if command[fis::TYPE] != fis_type::COMMAND || !(rate == 0 || is_rate(rate)) {
        return Err(status::INVALID_PARAMETER);
    }
    let selected = select(state, parameters[at::PHY], parameters[at::PORT])?;
    let destination = array_at(parameters, at::DESTINATION);
    if !connects(&state.phys[selected], rate, destination) {
        return Err(status::CONNECTION_FAILED);
    }

    let outcome = Outcome::of(&command);
    let moved = outcome.data_bytes();
    // "If the data of a success exceeds uDataLength: code 3."
    if moved as u64 > u64::from(u32_at(parameters, at::DATA_LENGTH)) {
        return Err(status::INVALID_PARAMETER);
    }
    // "Phy n's disk is the n-th run of 8,192 bytes of the medium"
    let disk = &mut medium.as_chunks_mut().0[selected];
    outcome.perform(disk, &mut data[..moved]);

    // "connection OPEN_ACCEPT; status FIS ..; uSCR and reserved bytes 0; uDataBytes .."
    parameters[at::CONNECTION_STATUS..at::STATUS_FIS].copy_from_slice(&[OPEN_ACCEPT, 0, 0, 0]);
    parameters[at::STATUS_FIS..at::SCR].copy_from_slice(&outcome.status_fis(&command));
    parameters[at::SCR..at::DATA_BYTES].fill(0);
    parameters[at::DATA_BYTES..].copy_from_slice(&(moved as u32).to_le_bytes());
    Ok(status::SUCCESS)
}

/// "Connected if it is a SATA phy, negotiated 8 or 9, connection rate not above that,
/// destination = attached SAS address". A phy held at spin-up has negotiated no rate (W-205).
fn connects(phy: &Phy, rate: u8, destination: [u8; 8]) -> bool {
    phy.is_sata()
        && is_rate(phy.negotiated())
        && rate <= phy.negotiated()
        && destination == phy.attached_sas_address()
}
