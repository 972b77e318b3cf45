//! Numbers and offsets: the model's, the library's prefixes, lines and totals of a session, and what the comparison has besides.

use crate::wire::word;
pub use library::{prefix, record, totals};
pub use model::codes::{
    ata, device, direction, fis_type, link_error, pinout, rate, status, NOT_GIVEN,
};
pub use model::layout::{
    connector, connector_info, device_address, file, fis, header, link_errors, linux_header,
    phy_info, row, sata_signature, scsi_address, set_phy_info, state, stp, CONTROLLER_CONFIG,
    CONTROLLER_STATUS, DISK, DRIVER_INFO, ENTITY, MAX_PHYS, MAX_ROWS, REVISIONS, SECTOR, SECTORS,
    STAGE,
};

/// The call's numbers.
pub mod call {
    pub use model::codes::call::*;
    /// Every number of an opening.
    pub const OPENINGS: [u32; 7] = [
        DONE,
        TEXT,
        FILE_LENGTH,
        BLOCK_CHECK,
        COUNT_OR_FIELD,
        SHARED_ROW,
        MEDIUM_LENGTH,
    ];
    /// Every number of a request; in a run 106 is the stage's.
    pub const REQUESTS: [u32; 4] = [DONE, BUFFER_LENGTH, MEDIUM_LENGTH, STATE];
}

/// Control codes.
pub mod code {
    pub use model::codes::control::*;
    pub const ALL: [u32; 12] = [
        DRIVER_INFO,
        CNTLR_CONFIG,
        CNTLR_STATUS,
        FIRMWARE_DOWNLOAD,
        PHY_INFO,
        SET_PHY_INFO,
        LINK_ERRORS,
        STP_PASSTHRU,
        SATA_SIGNATURE,
        SCSI_ADDRESS,
        DEVICE_ADDRESS,
        CONNECTOR_INFO,
    ];

    /// Those of a console's front page, which show a table each (W-204).
    pub const FRONT_PAGE: [u32; 3] = [CNTLR_CONFIG, CNTLR_STATUS, CONNECTOR_INFO];
}

/// A phy's bytes, its entity's first.
pub mod phy {
    pub use model::layout::entity::*;
    pub use model::layout::phy::*;
}

/// Code 4, and an image of it.
pub mod firmware {
    pub use model::codes::firmware::*;
    pub use model::layout::controller_config::FIRMWARE_REVISIONS;
    pub use model::layout::firmware::*;
    pub use model::layout::image::MAX_BLOCKS;
}

/// The longest request that the program takes; the library takes longer ones.
pub const PROGRAM_LONGEST: usize = 32_768;

pub const CSMI_ALL: [u8; 8] = *b"CSMIALL\0";
pub const CSMI_SAS: [u8; 8] = *b"CSMISAS\0";

/// The signature of a code's header.
pub fn signature(control: u32) -> [u8; 8] {
    match control {
        code::DRIVER_INFO | code::CNTLR_CONFIG | code::CNTLR_STATUS | code::FIRMWARE_DOWNLOAD => {
            CSMI_ALL
        }
        _ => CSMI_SAS,
    }
}

/// The length of the data behind a code's structure, which the body holds: uBufferLength of code 4, uDataLength of code 25, 0 of the others.
pub fn data_length(control: u32, body: &[u8]) -> usize {
    match control {
        code::FIRMWARE_DOWNLOAD => word(body, firmware::BUFFER_LENGTH) as usize,
        code::STP_PASSTHRU => word(body, stp::DATA_LENGTH) as usize,
        _ => 0,
    }
}

/// The size of a code's structure without header; of codes 4 and 25, without bDataBuffer.
pub fn body_size(control: u32) -> Option<usize> {
    match control {
        code::DRIVER_INFO => Some(DRIVER_INFO),
        code::CNTLR_CONFIG => Some(CONTROLLER_CONFIG),
        code::CNTLR_STATUS => Some(CONTROLLER_STATUS),
        code::FIRMWARE_DOWNLOAD => Some(firmware::DATA),
        code::PHY_INFO => Some(phy_info::SIZE),
        code::SET_PHY_INFO => Some(set_phy_info::SIZE),
        code::LINK_ERRORS => Some(link_errors::SIZE),
        code::STP_PASSTHRU => Some(stp::DATA),
        code::SATA_SIGNATURE => Some(sata_signature::SIZE),
        code::SCSI_ADDRESS => Some(scsi_address::SIZE),
        code::DEVICE_ADDRESS => Some(device_address::SIZE),
        code::CONNECTOR_INFO => Some(connector_info::SIZE),
        _ => None,
    }
}

#[cfg(test)]
mod tests {
    #[test]
    fn the_library_and_the_model_have_states_and_stages_of_one_size() {
        assert_eq!(library::STATE_SIZE, super::state::SIZE);
        assert_eq!(library::STAGE_SIZE, super::STAGE);
    }
}
