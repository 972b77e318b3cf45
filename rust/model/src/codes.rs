//! Codes, each said once. Section 10 of the source decides where it gives a number.

/// Control codes.
pub mod control {
    pub const DRIVER_INFO: u32 = 1;
    pub const CNTLR_CONFIG: u32 = 2;
    pub const CNTLR_STATUS: u32 = 3;
    pub const FIRMWARE_DOWNLOAD: u32 = 4;
    pub const PHY_INFO: u32 = 20;
    pub const SET_PHY_INFO: u32 = 21;
    pub const LINK_ERRORS: u32 = 22;
    pub const STP_PASSTHRU: u32 = 25;
    pub const SATA_SIGNATURE: u32 = 26;
    pub const SCSI_ADDRESS: u32 = 27;
    pub const DEVICE_ADDRESS: u32 = 28;
    pub const CONNECTOR_INFO: u32 = 30;
}

/// The call's own number.
pub mod call {
    pub const DONE: u32 = 0;
    pub const BUFFER_LENGTH: u32 = 100;
    pub const TEXT: u32 = 101;
    pub const FILE_LENGTH: u32 = 102;
    pub const BLOCK_CHECK: u32 = 103;
    pub const COUNT_OR_FIELD: u32 = 104;
    pub const SHARED_ROW: u32 = 105;
    pub const MEDIUM_LENGTH: u32 = 106;
    pub const STAGE_LENGTH: u32 = MEDIUM_LENGTH;
    pub const STATE: u32 = 107;
}

/// The return code, which the header has a place for: from "changed" on, each is one lower than
/// document 01 prints it.
pub mod status {
    pub const SUCCESS: u32 = 0;
    pub const FAILED: u32 = 1;
    pub const BAD_CNTL_CODE: u32 = 2;
    pub const INVALID_PARAMETER: u32 = 3;
    pub const WRITE_ATTEMPTED: u32 = 4;
    pub const PHY_INFO_CHANGED: u32 = SUCCESS;
    pub const PHY_INFO_NOT_CHANGEABLE: u32 = 2000;
    pub const LINK_RATE_OUT_OF_RANGE: u32 = 2001;
    pub const PHY_DOES_NOT_EXIST: u32 = 2002;
    pub const PHY_DOES_NOT_MATCH_PORT: u32 = 2003;
    pub const SELECT_PHY_OR_PORT: u32 = 2005;
    pub const PORT_DOES_NOT_EXIST: u32 = 2006;
    pub const CONNECTION_FAILED: u32 = 2008;
    pub const NO_SATA_DEVICE: u32 = 2009;
    pub const NO_SATA_SIGNATURE: u32 = 2010;
    pub const NO_SCSI_ADDRESS: u32 = 2013;
    pub const NO_DEVICE_ADDRESS: u32 = 2014;
}

/// The Direction of a Linux header.
pub mod direction {
    pub const DATA_READ: u16 = 0;
    pub const DATA_WRITE: u16 = 1;
}

/// The flag of code 4 that is read, and the status and severity that it writes.
pub mod firmware {
    pub const FWD_VALIDATE: u32 = 0x0000_0001;
    pub const FWD_SUCCESS: u16 = 0;
    pub const FWD_INFORMATION: u16 = 0;
}

/// The reset byte of code 22.
pub mod link_error {
    pub const DONT_RESET_COUNTS: u8 = 0;
    pub const RESET_COUNTS: u8 = 1;
}

/// Attached device types.
pub mod device {
    pub const NONE: u8 = 0x00;
    pub const END: u8 = 0x10;
    pub const EDGE_EXPANDER: u8 = 0x20;
    pub const FANOUT_EXPANDER: u8 = 0x30;
}

/// "Rate codes are 8 (1.5 Gb/s) and 9 (3.0)"; negotiated may be one that is no rate, "3, spin-up
/// hold" (W-205) among them.
pub mod rate {
    pub const UNKNOWN: u8 = 0;
    pub const DISABLED: u8 = 1;
    pub const FAILED: u8 = 2;
    pub const SATA_SPINUP_HOLD: u8 = 3;
    pub const G_1_5: u8 = 8;
    pub const G_3_0: u8 = 9;
}

/// The pinout bits of a connector.
pub mod pinout {
    pub const UNKNOWN: u32 = 0x0000_0001;
    pub const SFF_8482: u32 = 0x0000_0002;
    pub const SFF_8470_LANE_1: u32 = 0x0000_0100;
    pub const SFF_8470_LANE_2: u32 = 0x0000_0200;
    pub const SFF_8470_LANE_3: u32 = 0x0000_0400;
    pub const SFF_8470_LANE_4: u32 = 0x0000_0800;
    pub const SFF_8484_LANE_1: u32 = 0x0001_0000;
    pub const SFF_8484_LANE_2: u32 = 0x0002_0000;
    pub const SFF_8484_LANE_3: u32 = 0x0004_0000;
    pub const SFF_8484_LANE_4: u32 = 0x0008_0000;

    const SFF_8470: u32 = SFF_8470_LANE_1 | SFF_8470_LANE_2 | SFF_8470_LANE_3 | SFF_8470_LANE_4;
    const SFF_8484: u32 = SFF_8484_LANE_1 | SFF_8484_LANE_2 | SFF_8484_LANE_3 | SFF_8484_LANE_4;
    pub const ALL: u32 = UNKNOWN | SFF_8482 | SFF_8470 | SFF_8484;
}

/// A phy or port identifier of code 25 that is not given.
pub const NOT_GIVEN: u8 = 0xFF;

/// The types of a FIS, its byte 0.
pub mod fis_type {
    pub const COMMAND: u8 = 0x27;
    pub const STATUS: u8 = 0x34;
}

/// The commands that the disk knows, and its answers.
pub mod ata {
    pub const READ_SECTORS: u8 = 0x20;
    pub const WRITE_SECTORS: u8 = 0x30;
    pub const CHECK_POWER_MODE: u8 = 0xE5;
    pub const IDENTIFY_DEVICE: u8 = 0xEC;

    /// Bit 6 of the device byte, which sector commands need.
    pub const LBA_MODE: u8 = 0x40;

    pub const STATUS_GOOD: u8 = 0x50;
    pub const STATUS_ERROR: u8 = 0x51;
    pub const ERROR_ABORT: u8 = 0x04;
    pub const ERROR_PAST_END: u8 = 0x10;
}
