//! What codes 2, 3 and 30 show, and what code 4 staged: where a state has it, and the places in it, which are those in the body of a reply too. Each constant has
//! its name of `include/ascheknopf.h`, without `ASCHEKNOPF_`.

/// The controller's configuration, which code 2 shows. It is packed. Revisions are four numbers of 16 bits: major, minor, build, release.
pub const CONTROLLER: usize = 4817;
pub const CONTROLLER_SIZE: usize = 176;
/// Base I/O address, 4 bytes; base memory address, 4 bytes the low half and 4 the high; subsystem id, 4 bytes.
pub const CONTROLLER_BASE_IO: usize = 0;
pub const CONTROLLER_BASE_MEMORY: usize = 4;
pub const CONTROLLER_BOARD: usize = 12;
/// Slot number, 2 bytes; class and bus type, a byte each; bus address, 32 bytes.
pub const CONTROLLER_SLOT: usize = 16;
pub const CONTROLLER_CLASS: usize = 18;
pub const CONTROLLER_BUS_TYPE: usize = 19;
pub const CONTROLLER_BUS_ADDRESS: usize = 20;
/// Serial number, 81 bytes; revisions of firmware and BIOS.
pub const CONTROLLER_SERIAL: usize = 52;
pub const CONTROLLER_FIRMWARE: usize = 133;
pub const CONTROLLER_BIOS: usize = 141;
/// Controller flags, 4 bytes; revisions of the redundant ROM's firmware and BIOS; 7 reserved bytes.
pub const CONTROLLER_FLAGS: usize = 149;
pub const CONTROLLER_RROM_FIRMWARE: usize = 153;
pub const CONTROLLER_RROM_BIOS: usize = 161;
pub const CONTROLLER_RESERVED: usize = 169;

/// The controller's status, which code 3 shows; the last 28 bytes are reserved.
pub const STATUS: usize = 4993;
pub const STATUS_SIZE: usize = 36;
/// Status and offline reason, 4 bytes each.
pub const STATUS_STATUS: usize = 0;
pub const STATUS_OFFLINE_REASON: usize = 4;

/// The connector of phy 0, which code 30 shows; those of the other 31 phys follow. The last 15 bytes of each are reserved.
pub const CONNECTOR: usize = 5029;
pub const CONNECTOR_SIZE: usize = 36;
/// Pinout, 4 bytes; name, 16 bytes; location, a byte.
pub const CONNECTOR_PINOUT: usize = 0;
pub const CONNECTOR_NAME: usize = 4;
pub const CONNECTOR_LOCATION: usize = 20;

/// Whether a firmware image is staged, a byte 1 or 0, and the revisions of that image, four numbers of 16 bits.
pub const STAGED: usize = 6181;
pub const STAGED_REVISIONS: usize = 6182;
pub const STAGED_REVISIONS_SIZE: usize = 8;

/// The body of a code 4: the length of the image and the flags, 4 bytes each; status and severity, 2 bytes each; the image behind the
/// structure, in blocks of 512 bytes as an adapter file has them, 1 to 32, with its revisions in its first 8 bytes.
pub const DOWNLOAD_BUFFER_LENGTH: usize = 0;
pub const DOWNLOAD_FLAGS: usize = 4;
pub const DOWNLOAD_STATUS: usize = 40;
pub const DOWNLOAD_SEVERITY: usize = 42;
pub const DOWNLOAD_DATA: usize = 44;
/// The flag that an image is validated and staged; without it the staged one is made current.
pub const DOWNLOAD_VALIDATE: u32 = 1;
