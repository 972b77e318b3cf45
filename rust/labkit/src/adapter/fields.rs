//! The named fields of an adapter file: the driver info (6.1.4.1), a phy's block, a row, the controller's configuration (6.2.4.3) and
//! status (6.3.4.1), and a phy's connector (6.18.4.1).

use crate::field::{bits, byte, bytes, code, field, named, number, Field, Kind};
use crate::names::{
    BUSES, CLASSES, CONTROLLER_FLAGS, LOCATIONS, OFFLINE_REASONS, PINOUTS, SLOTS, STATUSES,
};

/// The driver info, 174 bytes, from its own start.
pub const DRIVER: [Field; 8] = [
    field("name", 0, 81, Kind::Text),
    field("description", 81, 81, Kind::Text),
    number("major", 162, 2),
    number("minor", 164, 2),
    number("build", 166, 2),
    number("release", 168, 2),
    number("csmi-major", 170, 2),
    number("csmi-minor", 172, 2),
];

/// A phy's block: the PHY_ENTITY (6.7.4.2) in bytes 0 to 63, then what document 01 and W-205 put behind it.
pub const PHY: [Field; 37] = [
    code("device-type", 0),
    code("restricted", 1),
    code("initiator", 2),
    code("target", 3),
    bytes("restricted2", 4, 8),
    bytes("address", 12, 8),
    byte("identifier", IDENTIFIER),
    byte("class", 21),
    bytes("identify-reserved", 22, 6),
    byte("port", PORT),
    byte("negotiated", NEGOTIATED),
    field("hardware-minimum", MINIMUM, 1, Kind::Low),
    field("programmed-minimum", MINIMUM, 1, Kind::High),
    field("programmed-maximum", MAXIMUM, 1, Kind::High),
    field("hardware-maximum", MAXIMUM, 1, Kind::Low),
    byte("changes", 32),
    code("discover", 33),
    bytes("reserved", 34, 2),
    code("attached-type", ATTACHED_TYPE),
    code("attached-restricted", 37),
    code("attached-initiator", 38),
    code("attached-target", ATTACHED_TARGET),
    bytes("attached-restricted2", 40, 8),
    bytes("attached-address", ATTACHED_ADDRESS, 8),
    byte("attached-identifier", ATTACHED_IDENTIFIER),
    byte("attached-class", 57),
    bytes("attached-reserved", 58, 6),
    number("invalid-dword", 64, 4),
    number("running-disparity", 68, 4),
    number("loss-of-sync", 72, 4),
    number("reset-problem", 76, 4),
    bytes("signature", SIGNATURE, 20),
    byte("held", HELD),
    byte("fixed", 101),
    byte("lowest", LOWEST),
    byte("highest", HIGHEST),
    byte("spin-up-hold", SPINUP_HOLD),
];

pub const IDENTIFIER: usize = 20;
pub const PORT: usize = 28;
pub const NEGOTIATED: usize = 29;
pub const MINIMUM: usize = 30;
pub const MAXIMUM: usize = 31;
pub const ATTACHED_TYPE: usize = 36;
pub const ATTACHED_TARGET: usize = 39;
pub const ATTACHED_ADDRESS: usize = 48;
pub const ATTACHED_IDENTIFIER: usize = 56;
pub const SIGNATURE: usize = 80;
pub const HELD: usize = 100;
pub const LOWEST: usize = 102;
pub const HIGHEST: usize = 103;
pub const SPINUP_HOLD: usize = 104;

/// A row; codes 27 and 28 carry the same fields.
pub const ROW: [Field; 6] = [
    bytes("address", 0, 8),
    bytes("lun", 8, 8),
    byte("host", 16),
    byte("path", 17),
    byte("target", 18),
    byte("os-lun", 19),
];

/// The controller's configuration, 176 bytes.
pub const CONTROLLER: [Field; 30] = [
    field("base-io", 0, 4, Kind::Code),
    field("base-memory-low", 4, 4, Kind::Code),
    field("base-memory-high", 8, 4, Kind::Code),
    field("board", BOARD, 4, Kind::Code),
    named("slot", SLOT, 2, SLOTS),
    named("class", CLASS, 1, CLASSES),
    named("bus", BUS, 1, BUSES),
    byte("pci-bus", PCI_ADDRESS),
    byte("pci-device", PCI_ADDRESS + 1),
    byte("pci-function", PCI_ADDRESS + 2),
    bytes("bus-reserved", 23, 29),
    field("serial", SERIAL, 81, Kind::Text),
    number("major", FIRMWARE, 2),
    number("minor", 135, 2),
    number("build", 137, 2),
    number("release", 139, 2),
    number("bios-major", BIOS, 2),
    number("bios-minor", 143, 2),
    number("bios-build", 145, 2),
    number("bios-release", 147, 2),
    bits("flags", FLAGS, 4, CONTROLLER_FLAGS),
    number("rrom-major", RROM_FIRMWARE, 2),
    number("rrom-minor", 155, 2),
    number("rrom-build", 157, 2),
    number("rrom-release", 159, 2),
    number("rrom-bios-major", RROM_BIOS, 2),
    number("rrom-bios-minor", 163, 2),
    number("rrom-bios-build", 165, 2),
    number("rrom-bios-release", 167, 2),
    bytes("reserved", 169, 7),
];

pub const BOARD: usize = 12;
pub const SLOT: usize = 16;
pub const CLASS: usize = 18;
pub const BUS: usize = 19;
pub const PCI_ADDRESS: usize = 20;
pub const SERIAL: usize = 52;
pub const FIRMWARE: usize = 133;
pub const BIOS: usize = 141;
pub const FLAGS: usize = 149;
pub const RROM_FIRMWARE: usize = 153;
pub const RROM_BIOS: usize = 161;

/// The controller's status, 36 bytes.
pub const STATUS: [Field; 3] = [
    named("status", 0, 4, STATUSES),
    named("offline-reason", 4, 4, OFFLINE_REASONS),
    bytes("reserved", 8, 28),
];

/// A phy's connector, 36 bytes, by the names that a reference of code 30 shows.
pub const CONNECTOR: [Field; 4] = [
    bits("pinout", PINOUT, 4, PINOUTS),
    field("connector", CONNECTOR_NAME, 16, Kind::Text),
    bits("location", LOCATION, 1, LOCATIONS),
    bytes("connector-reserved", 21, 15),
];

pub const PINOUT: usize = 0;
pub const CONNECTOR_NAME: usize = 4;
pub const LOCATION: usize = 20;

#[cfg(test)]
mod tests {
    use super::*;

    /// Every byte of what W-204 added stands in a named field, and in no other.
    #[test]
    fn fields_cover_the_structures() {
        for (table, size) in [
            (&CONTROLLER[..], 176),
            (&STATUS[..], 36),
            (&CONNECTOR[..], 36),
        ] {
            let mut at = 0;
            for field in table {
                assert_eq!(field.at, at, "{}", field.name);
                at += field.size;
            }
            assert_eq!(at, size);
        }
    }

    /// A phy's line has the fields of its block and those of its connector.
    #[test]
    fn no_name_twice_on_a_phys_line() {
        let in_block = |field: &&Field| PHY.iter().any(|other| other.name == field.name);
        assert_eq!(CONNECTOR.iter().filter(in_block).count(), 0);
    }
}
