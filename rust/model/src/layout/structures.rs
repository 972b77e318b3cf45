//! The structures of 001, packed in the order shown. Those behind the header count from its end.

/// "the phy count p (1–32)": as many as code 20 has places for.
pub const MAX_PHYS: usize = 32;
/// A PHY_ENTITY (6.7.4.2).
pub const ENTITY: usize = 64;
/// The driver info (6.1.4.1): the structure of code 1.
pub const DRIVER_INFO: usize = 174;
/// The controller's configuration (6.2.4.3): the structure of code 2.
pub const CONTROLLER_CONFIG: usize = 176;
/// The controller's status (6.3.4.1): the structure of code 3.
pub const CONTROLLER_STATUS: usize = 36;

/// The revisions of a firmware: major, minor, build and release, 16 bits each.
pub const REVISIONS: usize = 8;

/// SRB_IO_CONTROL (4.1.3.1).
pub mod header {
    pub const HEADER_LENGTH: usize = 0;
    pub const SIGNATURE: usize = 4;
    pub const TIMEOUT: usize = 12;
    pub const CONTROL_CODE: usize = 16;
    pub const RETURN_CODE: usize = 20;
    pub const LENGTH: usize = 24;
    pub const SIZE: usize = 28;
}

/// The Linux header (4.2.3.1): 18 bytes, and two that are ignored.
pub mod linux_header {
    pub const CONTROLLER_NUMBER: usize = 0;
    pub const LENGTH: usize = 4;
    pub const RETURN_CODE: usize = 8;
    pub const TIMEOUT: usize = 12;
    pub const DIRECTION: usize = 16;
    pub const IGNORED: usize = 18;
    pub const SIZE: usize = 20;
}

/// The controller's configuration (6.2.4.3).
pub mod controller_config {
    /// "its first four revision fields" (W-207).
    pub const FIRMWARE_REVISIONS: usize = 133;
}

/// Code 4: Information, bDataBuffer.
pub mod firmware {
    pub const BUFFER_LENGTH: usize = 0;
    pub const FLAGS: usize = 4;
    pub const STATUS: usize = 40;
    pub const SEVERITY: usize = 42;
    /// Where bDataBuffer starts: the structure's size without it.
    pub const DATA: usize = 44;
}

/// Code 20: the phy count's word, and the phys.
pub mod phy_info {
    pub const PHYS: usize = 4;
    pub const SIZE: usize = PHYS + super::MAX_PHYS * super::ENTITY;
}

/// Code 21.
pub mod set_phy_info {
    pub const PHY: usize = 0;
    pub const NEGOTIATED: usize = 1;
    pub const MINIMUM: usize = 2;
    pub const MAXIMUM: usize = 3;
    pub const SIGNAL_CLASS: usize = 4;
    pub const SIZE: usize = 8;
}

/// Code 22.
pub mod link_errors {
    pub const PHY: usize = 0;
    pub const RESET: usize = 1;
    pub const COUNTERS: usize = 4;
    pub const SIZE: usize = 20;
}

/// Code 25: Parameters, Status, bDataBuffer.
pub mod stp {
    pub const PHY: usize = 0;
    pub const PORT: usize = 1;
    pub const RATE: usize = 2;
    pub const DESTINATION: usize = 4;
    pub const COMMAND_FIS: usize = 16;
    pub const FLAGS: usize = 36;
    pub const DATA_LENGTH: usize = 40;
    pub const CONNECTION_STATUS: usize = 44;
    pub const STATUS_FIS: usize = 48;
    pub const SCR: usize = 68;
    pub const DATA_BYTES: usize = 132;
    /// Where bDataBuffer starts: the structure's size without it.
    pub const DATA: usize = 136;
}

/// Code 26.
pub mod sata_signature {
    pub const PHY: usize = 0;
    pub const SIGNATURE: usize = 4;
    pub const SIZE: usize = SIGNATURE + super::fis::SIZE;
}

/// Code 27; the SAS address is first.
pub mod scsi_address {
    pub const SAS_LUN: usize = 8;
    pub const OS: usize = 16;
    pub const SIZE: usize = 20;
}

/// Code 28; the OS bytes are first.
pub mod device_address {
    pub const SAS_ADDRESS: usize = 4;
    pub const SAS_LUN: usize = 12;
    pub const SIZE: usize = 20;
}

/// Code 30: a connector for each phy.
pub mod connector_info {
    pub const SIZE: usize = super::MAX_PHYS * super::connector::SIZE;
}

/// A command or status FIS.
pub mod fis {
    pub const TYPE: usize = 0;
    pub const COMMAND: usize = 2;
    /// Of a status FIS.
    pub const STATUS: usize = 2;
    pub const ERROR: usize = 3;
    /// The lowest byte of the LBA.
    pub const LBA: usize = 4;
    pub const DEVICE: usize = 7;
    pub const COUNT: usize = 12;
    pub const SIZE: usize = 20;
}

/// The connector of a phy (6.18.4.1), a Reference of code 30.
pub mod connector {
    pub const PINOUT: usize = 0;
    pub const SIZE: usize = 36;
}

/// A PHY_ENTITY (6.7.4.2).
pub mod entity {
    pub const PHY_IDENTIFIER: usize = 20;
    pub const SIGNAL_CLASS: usize = 21;
    pub const PORT_IDENTIFIER: usize = 28;
    pub const NEGOTIATED: usize = 29;
    pub const MINIMUM: usize = 30;
    pub const MAXIMUM: usize = 31;
    /// The 28 Attached bytes run from here to the end; the first is the device type.
    pub const ATTACHED: usize = 36;
    pub const ATTACHED_TARGET_PROTOCOLS: usize = 39;
    pub const ATTACHED_SAS_ADDRESS: usize = 48;
}
