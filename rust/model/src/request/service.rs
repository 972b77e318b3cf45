//! What a request does once its header's checks and the level have let it through: the control
//! code's own checks, and its work. Nothing here knows a header or a level.

use super::control::Control;
use super::{addresses, firmware, link_errors, passthrough, reports, set_phy_info};
use crate::codes::status;
use crate::state::State;

/// "then the code's own checks", and its work: the return code, and `Err` if a check gave it.
/// `body` is the buffer after the header.
pub fn serve(
    control: Control,
    state: &mut State,
    medium: &mut [u8],
    stage: &mut [u8],
    body: &mut [u8],
) -> Result<u32, u32> {
    match control {
        Control::DriverInfo => reports::driver_info(state, structure(body)?),
        Control::ControllerConfig => reports::controller_config(state, structure(body)?),
        Control::ControllerStatus => reports::controller_status(state, structure(body)?),
        Control::FirmwareDownload => {
            let (information, data) = with_data(body)?;
            firmware::firmware_download(state, stage, information, data)
        }
        Control::GetPhyInfo => reports::get_phy_info(state, structure(body)?),
        Control::SetPhyInfo => set_phy_info::set_phy_info(state, structure(body)?),
        Control::LinkErrors => link_errors::link_errors(state, structure(body)?),
        Control::StpPassthrough => {
            let (parameters, data) = with_data(body)?;
            passthrough::stp_passthrough(state, medium, parameters, data)
        }
        Control::SataSignature => reports::sata_signature(state, structure(body)?),
        Control::ScsiAddress => addresses::scsi_address(state, structure(body)?),
        Control::DeviceAddress => addresses::device_address(state, structure(body)?),
        Control::ConnectorInfo => reports::connector_info(state, structure(body)?),
    }
}

/// The structure at the start of the body, which the Length check has found there.
fn structure<const SIZE: usize>(body: &mut [u8]) -> Result<&mut [u8; SIZE], u32> {
    body.first_chunk_mut().ok_or(status::INVALID_PARAMETER)
}

/// The structure, and bDataBuffer with what follows it.
fn with_data<const SIZE: usize>(body: &mut [u8]) -> Result<(&mut [u8; SIZE], &mut [u8]), u32> {
    body.split_first_chunk_mut()
        .ok_or(status::INVALID_PARAMETER)
}
