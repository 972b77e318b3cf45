//! Codes 27 and 28: the rows, searched by SAS address and LUN or by the OS bytes.

use crate::codes::status;
use crate::layout::{device_address as by_os, scsi_address as by_sas};
use crate::state::State;

/// "27: the row with that SAS address and LUN gives the four OS bytes".
pub fn scsi_address(state: &State, address: &mut [u8; by_sas::SIZE]) -> Result<u32, u32> {
    let row = state
        .live_rows()
        .iter()
        .find(|row| {
            address[..by_sas::SAS_LUN] == row.sas_address
                && address[by_sas::SAS_LUN..by_sas::OS] == row.sas_lun
        })
        .ok_or(status::NO_SCSI_ADDRESS)?;
    address[by_sas::OS..].copy_from_slice(&row.os);
    Ok(status::SUCCESS)
}

/// "28: the other way."
pub fn device_address(state: &State, address: &mut [u8; by_os::SIZE]) -> Result<u32, u32> {
    let row = state
        .live_rows()
        .iter()
        .find(|row| address[..by_os::SAS_ADDRESS] == row.os)
        .ok_or(status::NO_DEVICE_ADDRESS)?;
    address[by_os::SAS_ADDRESS..by_os::SAS_LUN].copy_from_slice(&row.sas_address);
    address[by_os::SAS_LUN..].copy_from_slice(&row.sas_lun);
    Ok(status::SUCCESS)
}
