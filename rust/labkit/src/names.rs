//! The names of numbers: control codes and return codes from 001's section 10, the call's own numbers from document 01, and the
//! few others that a reply shows.

use crate::named::{name, Names};

/// Control codes under their names of section 10, without `CC_CSMI_SAS_` and in lower case.
pub const CONTROL_CODES: [(u32, &str); 18] = [
    (1, "get-driver-info"),
    (2, "get-cntlr-config"),
    (3, "get-cntlr-status"),
    (4, "firmware-download"),
    (10, "get-raid-info"),
    (11, "get-raid-config"),
    (20, "get-phy-info"),
    (21, "set-phy-info"),
    (22, "get-link-errors"),
    (23, "smp-passthru"),
    (24, "ssp-passthru"),
    (25, "stp-passthru"),
    (26, "get-sata-signature"),
    (27, "get-scsi-address"),
    (28, "get-device-address"),
    (29, "task-management"),
    (30, "get-connector-info"),
    (60, "phy-control"),
];

/// The return codes of a granted request, and of a denied one, STATUS_WRITE_ATTEMPTED.
pub const SUCCESS: u32 = 0;
pub const DENIED: u32 = 4;

/// The call's number for a buffer under its header.
pub const BUFFER_SHORT: u32 = 100;

const RETURN_CODES: [(u32, &str); 20] = [
    (SUCCESS, "success"),
    (1, "failed"),
    (2, "bad control code"),
    (3, "invalid parameter"),
    (DENIED, "denied, write attempted"),
    (2000, "phy info not changeable"),
    (2001, "link rate out of range"),
    (2002, "phy does not exist"),
    (2003, "phy does not match port"),
    (2004, "phy cannot be selected"),
    (2005, "select phy or port"),
    (2006, "port does not exist"),
    (2007, "port cannot be selected"),
    (2008, "connection failed"),
    (2009, "no SATA device"),
    (2010, "no SATA signature"),
    (2011, "SCSI emulation"),
    (2012, "not an end device"),
    (2013, "no SCSI address"),
    (2014, "no device address"),
];

const CALL_NUMBERS: [(u32, &str); 8] = [
    (BUFFER_SHORT, "buffer too short"),
    (101, "bad level text"),
    (102, "file length"),
    (103, "block check"),
    (104, "count or field"),
    (105, "shared row"),
    (106, "medium or stage length"),
    (107, "state breaks the rules"),
];

/// The levels from 0 on.
pub const LEVELS: [&str; 4] = ["None", "Restricted", "Limited", "Full"];

/// The negotiated rate of a phy that is disabled, and of one held at spin-up.
pub const DISABLED: u8 = 1;
pub const SATA_SPINUP_HOLD: u8 = 3;

const LINK_RATES: [(u32, &str); 6] = [
    (0, "unknown"),
    (DISABLED as u32, "disabled"),
    (2, "failed"),
    (SATA_SPINUP_HOLD as u32, "spin-up hold"),
    (8, "1.5 Gb/s"),
    (9, "3.0 Gb/s"),
];

const DEVICE_TYPES: [(u32, &str); 4] = [
    (0x00, "no device"),
    (0x10, "end device"),
    (0x20, "edge expander"),
    (0x30, "fanout expander"),
];

/// uSlotNumber, SLOT_NUMBER_UNKNOWN.
pub const SLOTS: Names = &[(0xFFFF, "unknown")];

/// bControllerClass.
pub const CLASSES: Names = &[(5, "hba")];

/// bIoBusType; section 10 has no other.
pub const BUSES: Names = &[(3, "pci"), (4, "pcmcia")];

/// uControllerFlags.
pub const CONTROLLER_FLAGS: Names = &[
    (0x0000_0001, "sas-hba"),
    (0x0000_0002, "sas-raid"),
    (0x0000_0004, "sata-hba"),
    (0x0000_0008, "sata-raid"),
    (0x0001_0000, "fwd-support"),
    (0x0002_0000, "fwd-online"),
    (0x0004_0000, "fwd-sreset"),
    (0x0008_0000, "fwd-hreset"),
    (0x0010_0000, "fwd-rrom"),
];

/// uDownloadFlags.
pub const DOWNLOADS: Names = &[(1, "validate"), (2, "soft-reset"), (4, "hard-reset")];

/// usStatus of a firmware download.
pub const DOWNLOAD_STATUSES: Names = &[
    (0, "success"),
    (1, "failed"),
    (2, "using-rrom"),
    (3, "reject"),
    (4, "downrev"),
];

/// usSeverity of a firmware download.
pub const SEVERITIES: Names = &[
    (0, "information"),
    (1, "warning"),
    (2, "error"),
    (3, "fatal"),
];

/// uStatus of a controller.
pub const STATUSES: Names = &[(1, "good"), (2, "failed"), (3, "offline"), (4, "poweroff")];

/// uOfflineReason.
pub const OFFLINE_REASONS: Names = &[
    (0, "no-reason"),
    (1, "initializing"),
    (2, "backside-bus-degraded"),
    (3, "backside-bus-failure"),
];

/// uPinout. An opening refuses all other bits.
pub const PINOUTS: Names = &[
    (0x0000_0001, "unknown"),
    (0x0000_0002, "sff-8482"),
    (0x0000_0100, "sff-8470-lane-1"),
    (0x0000_0200, "sff-8470-lane-2"),
    (0x0000_0400, "sff-8470-lane-3"),
    (0x0000_0800, "sff-8470-lane-4"),
    (0x0001_0000, "sff-8484-lane-1"),
    (0x0002_0000, "sff-8484-lane-2"),
    (0x0004_0000, "sff-8484-lane-3"),
    (0x0008_0000, "sff-8484-lane-4"),
];

/// bLocation; the last two are the published header's alone.
pub const LOCATIONS: Names = &[
    (0x01, "unknown"),
    (0x02, "internal"),
    (0x04, "external"),
    (0x08, "switchable"),
    (0x10, "auto"),
    (0x20, "not-present"),
    (0x80, "not-connected"),
];

pub fn control_name(code: u32) -> Option<&'static str> {
    name(code, &CONTROL_CODES)
}

pub fn control_code(name: &str) -> Option<u32> {
    CONTROL_CODES
        .iter()
        .find(|row| row.1 == name)
        .map(|row| row.0)
}

/// A return code with its name: `2002 phy does not exist`.
pub fn return_words(code: u32) -> String {
    with_name(code, name(code, &RETURN_CODES))
}

/// A call's own number with its meaning: `100 buffer too short`.
pub fn call_words(number: u32) -> String {
    with_name(number, name(number, &CALL_NUMBERS))
}

/// A link rate with its name: `9 (3.0 Gb/s)`.
pub fn rate_words(rate: u32) -> String {
    let name = name(rate, &LINK_RATES).unwrap_or("not a rate");
    format!("{rate} ({name})")
}

pub fn device_words(device_type: u32) -> String {
    match name(device_type, &DEVICE_TYPES) {
        Some(name) => name.to_string(),
        None => format!("device type {device_type:02X}h"),
    }
}

/// What status and error of a status FIS mean, of those that document 01 names.
pub fn ata_meaning(status: u8, error: u8) -> Option<&'static str> {
    match (status, error) {
        (0x50, 0x00) => Some("success"),
        (0x51, 0x04) => Some("error, aborted"),
        (0x51, 0x10) => Some("error, past the last sector"),
        _ => None,
    }
}

/// Status and error of a status FIS in words: `ATA 51h 04h error, aborted`.
pub fn ata_words(status: u8, error: u8) -> String {
    let meaning = ata_meaning(status, error).unwrap_or("(no name)");
    format!("ATA {status:02X}h {error:02X}h {meaning}")
}

/// A level under its name.
pub fn level_name(level: u8) -> &'static str {
    LEVELS
        .get(usize::from(level))
        .copied()
        .unwrap_or("no level")
}

fn with_name(number: u32, name: Option<&str>) -> String {
    format!("{number} {}", name.unwrap_or("(no name)"))
}

#[cfg(test)]
mod tests {
    use super::*;
    use crate::named::mask;

    #[test]
    fn names_of_section_10() {
        assert_eq!(control_code("stp-passthru"), Some(25));
        assert_eq!(control_name(28), Some("get-device-address"));
        assert_eq!(control_name(99), None);
        assert_eq!(return_words(0), "0 success");
        assert_eq!(return_words(2002), "2002 phy does not exist");
        assert_eq!(return_words(77), "77 (no name)");
        assert_eq!(call_words(104), "104 count or field");
        assert_eq!(rate_words(8), "8 (1.5 Gb/s)");
        assert_eq!(rate_words(3), "3 (spin-up hold)");
        assert_eq!(device_words(0x20), "edge expander");
        assert_eq!(ata_words(0x51, 0x04), "ATA 51h 04h error, aborted");
        assert_eq!(ata_words(0x41, 0x00), "ATA 41h 00h (no name)");
        assert_eq!((level_name(3), level_name(4)), ("Full", "no level"));
    }

    #[test]
    fn no_number_twice() {
        let rising = |table: &[(u32, &str)]| table.windows(2).all(|w| w[0].0 < w[1].0);
        assert!(rising(&CONTROL_CODES) && rising(&RETURN_CODES) && rising(&CALL_NUMBERS));
        assert!(rising(&LINK_RATES));
        for names in [
            BUSES,
            STATUSES,
            OFFLINE_REASONS,
            DOWNLOAD_STATUSES,
            SEVERITIES,
        ] {
            assert!(rising(names));
        }
    }

    #[test]
    fn names_of_bits() {
        for names in [CONTROLLER_FLAGS, PINOUTS, LOCATIONS, DOWNLOADS] {
            assert!(names.windows(2).all(|w| w[0].0 < w[1].0));
            assert!(names.iter().all(|row| row.0.count_ones() == 1));
        }
        assert_eq!(mask(PINOUTS), 0x000F_0F03);
    }
}
