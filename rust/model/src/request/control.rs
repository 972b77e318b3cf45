//! The control codes: the signature, the size and the need of each.

use crate::bytes::u32_at;
use crate::codes::control;
use crate::codes::link_error::RESET_COUNTS;
use crate::layout::{
    connector_info, device_address, firmware, fis, link_errors, phy_info, sata_signature,
    scsi_address, set_phy_info, stp, CONTROLLER_CONFIG, CONTROLLER_STATUS, DRIVER_INFO,
};
use crate::level::Level;

#[derive(Clone, Copy, PartialEq, Eq)]
pub enum Control {
    DriverInfo,
    ControllerConfig,
    ControllerStatus,
    FirmwareDownload,
    GetPhyInfo,
    SetPhyInfo,
    LinkErrors,
    StpPassthrough,
    SataSignature,
    ScsiAddress,
    DeviceAddress,
    ConnectorInfo,
}

impl Control {
    /// "Every other code is unknown for now."
    pub fn of_code(code: u32) -> Option<Control> {
        Some(match code {
            control::DRIVER_INFO => Control::DriverInfo,
            control::CNTLR_CONFIG => Control::ControllerConfig,
            control::CNTLR_STATUS => Control::ControllerStatus,
            control::FIRMWARE_DOWNLOAD => Control::FirmwareDownload,
            control::PHY_INFO => Control::GetPhyInfo,
            control::SET_PHY_INFO => Control::SetPhyInfo,
            control::LINK_ERRORS => Control::LinkErrors,
            control::STP_PASSTHRU => Control::StpPassthrough,
            control::SATA_SIGNATURE => Control::SataSignature,
            control::SCSI_ADDRESS => Control::ScsiAddress,
            control::DEVICE_ADDRESS => Control::DeviceAddress,
            control::CONNECTOR_INFO => Control::ConnectorInfo,
            _ => return None,
        })
    }

    /// "CSMIALL for code 1, CSMISAS for the rest, then a zero byte"; "CSMIALL for 2 and 3, CSMISAS
    /// for 30" (W-204); CSMIALL for 4 (W-207).
    pub fn signature(self) -> &'static [u8; 8] {
        match self {
            Control::DriverInfo
            | Control::ControllerConfig
            | Control::ControllerStatus
            | Control::FirmwareDownload => b"CSMIALL\0",
            _ => b"CSMISAS\0",
        }
    }

    /// "the structure's size without header (for 25: without bDataBuffer ..)", for 4 too.
    pub fn size(self) -> usize {
        match self {
            Control::DriverInfo => DRIVER_INFO,
            Control::ControllerConfig => CONTROLLER_CONFIG,
            Control::ControllerStatus => CONTROLLER_STATUS,
            Control::FirmwareDownload => firmware::DATA,
            Control::GetPhyInfo => phy_info::SIZE,
            Control::SetPhyInfo => set_phy_info::SIZE,
            Control::LinkErrors => link_errors::SIZE,
            Control::StpPassthrough => stp::DATA,
            Control::SataSignature => sata_signature::SIZE,
            Control::ScsiAddress => scsi_address::SIZE,
            Control::DeviceAddress => device_address::SIZE,
            Control::ConnectorInfo => connector_info::SIZE,
        }
    }

    /// Bytes of data behind the structure, which Length counts: "plus uDataLength" for 25, and
    /// uBufferLength for 4 whatever its flags (W-207). `body` holds the structure.
    pub fn data_length(self, body: &[u8]) -> u32 {
        match self {
            Control::StpPassthrough => u32_at(body, stp::DATA_LENGTH),
            Control::FirmwareDownload => u32_at(body, firmware::BUFFER_LENGTH),
            _ => 0,
        }
    }

    /// "Need, the lowest level that may do it". "A code 22 request with its reset byte at 1 needs
    /// Full from now on; with any other byte it still needs Restricted" (W-202). "Serve code 4 at
    /// Limited" (W-207). `body` holds the structure.
    pub fn need(self, body: &[u8]) -> Level {
        match self {
            Control::FirmwareDownload => Level::Limited,
            Control::SetPhyInfo => Level::Full,
            Control::LinkErrors if body[link_errors::RESET] == RESET_COUNTS => Level::Full,
            Control::StpPassthrough => Level::of_command(body[stp::COMMAND_FIS + fis::COMMAND]),
            _ => Level::Restricted,
        }
    }
}
