//! Where the fields of a request stand: for each control code the signature, the size and the named fields of its structure, offsets
//! from the end of the header.

use crate::adapter::{
    CONNECTOR_BYTES, CONTROLLER, CONTROLLER_BYTES, DRIVER, DRIVER_BYTES, ENTITY_BYTES, MOST_PHYS,
    ROW, STATUS, STATUS_BYTES,
};
use crate::field::{bits, byte, bytes, code, field, named, number, Field, Kind};
use crate::names::{DOWNLOADS, DOWNLOAD_STATUSES, SEVERITIES};

/// The structure of one control code.
#[derive(Debug, Clone, Copy)]
pub struct Layout {
    pub signature: &'static str,
    /// Its size without the header, and of codes 4 and 25 without bDataBuffer.
    pub size: usize,
    pub fields: &'static [Field],
}

pub const DRIVER_INFO: u32 = 1;
/// The control codes that a console's front page shows.
pub const CNTLR_CONFIG: u32 = 2;
pub const CNTLR_STATUS: u32 = 3;
pub const CONNECTOR_INFO: u32 = 30;
/// The control code of firmware, whose structure ends with a data buffer; uBufferLength, uDownloadFlags, usStatus and usSeverity.
pub const FIRMWARE_DOWNLOAD: u32 = 4;
pub const DOWNLOAD_LENGTH: Field = number("buffer-length", 0, 4);
pub const DOWNLOAD_FLAGS: Field = bits("flags", 4, 4, DOWNLOADS);
pub const DOWNLOAD_STATUS: Field = named("status", 40, 2, DOWNLOAD_STATUSES);
pub const DOWNLOAD_SEVERITY: Field = named("severity", 42, 2, SEVERITIES);
/// The control code that changes a phy.
pub const SET_PHY_INFO: u32 = 21;
/// The other control code whose structure ends with a data buffer, where the command stands in it, and uDataLength.
pub const STP_PASSTHRU: u32 = 25;
pub const ATA_COMMAND: usize = 18;
pub const DATA_LENGTH: Field = number("data-length", 40, 4);

/// The structure of a control code. A code without a table here has no named fields.
pub fn layout(control: u32) -> Layout {
    let (signature, size, fields): (_, _, &'static [Field]) = match control {
        DRIVER_INFO => ("CSMIALL", DRIVER_BYTES, &DRIVER),
        CNTLR_CONFIG => ("CSMIALL", CONTROLLER_BYTES, &CONTROLLER),
        CNTLR_STATUS => ("CSMIALL", STATUS_BYTES, &STATUS),
        FIRMWARE_DOWNLOAD => ("CSMIALL", 44, &FIRMWARE),
        10 | 11 => ("CSMIARY", 0, &[]),
        20 => ("CSMISAS", 2052, &PHY_INFO),
        SET_PHY_INFO => ("CSMISAS", 8, &PHY_CHANGE),
        22 => ("CSMISAS", 20, &LINK_ERRORS),
        23 => ("CSMISAS", 2064, &[]),
        STP_PASSTHRU => ("CSMISAS", 136, &STP),
        26 => ("CSMISAS", 24, &SATA_SIGNATURE),
        27 => ("CSMISAS", 20, &ROW),
        28 => ("CSMISAS", 20, &DEVICE_ADDRESS),
        CONNECTOR_INFO => ("CSMISAS", REFERENCES, &CONNECTORS),
        60 => ("CSMIPHY", 56, &[]),
        _ => ("CSMISAS", 0, &[]),
    };
    Layout {
        signature,
        size,
        fields,
    }
}

const FIRMWARE: [Field; 5] = [
    DOWNLOAD_LENGTH,
    DOWNLOAD_FLAGS,
    bytes("reserved", 8, 32),
    DOWNLOAD_STATUS,
    DOWNLOAD_SEVERITY,
];

const PHY_INFO: [Field; 3] = [
    byte("phys", 0),
    bytes("reserved", 1, 3),
    bytes("entities", 4, MOST_PHYS * ENTITY_BYTES),
];

const PHY_CHANGE: [Field; 6] = [
    byte("phy", 0),
    byte("negotiated", 1),
    byte("minimum", 2),
    byte("maximum", 3),
    byte("class", 4),
    bytes("reserved", 5, 3),
];

const LINK_ERRORS: [Field; 7] = [
    byte("phy", 0),
    byte("reset", 1),
    bytes("reserved", 2, 2),
    number("invalid-dword", 4, 4),
    number("running-disparity", 8, 4),
    number("loss-of-sync", 12, 4),
    number("reset-problem", 16, 4),
];

/// The command FIS is bytes 16 to 35; `device` is the high four bits of its byte 7, where 4 sets bit 6.
const STP: [Field; 24] = [
    code("phy", 0),
    code("port", 1),
    byte("rate", 2),
    code("reserved", 3),
    bytes("destination", 4, 8),
    bytes("reserved2", 12, 4),
    code("fis-type", 16),
    code("fis-flags", 17),
    code("command", ATA_COMMAND),
    code("features", 19),
    field("lba", 20, 4, Kind::Lba),
    field("device", 23, 1, Kind::High),
    bytes("lba-extended", 24, 3),
    code("features-extended", 27),
    byte("count", 28),
    byte("count-extended", 29),
    bytes("fis-rest", 30, 6),
    field("flags", 36, 4, Kind::Code),
    DATA_LENGTH,
    code("connection", 44),
    bytes("status-reserved", 45, 3),
    bytes("status-fis", 48, 20),
    bytes("scr", 68, 64),
    number("data-bytes", 132, 4),
];

const SATA_SIGNATURE: [Field; 3] = [
    byte("phy", 0),
    bytes("reserved", 1, 3),
    bytes("signature-fis", 4, 20),
];

/// A connector for each phy.
const REFERENCES: usize = MOST_PHYS * CONNECTOR_BYTES;
const CONNECTORS: [Field; 1] = [bytes("references", 0, REFERENCES)];

const DEVICE_ADDRESS: [Field; 6] = [
    byte("host", 0),
    byte("path", 1),
    byte("target", 2),
    byte("os-lun", 3),
    bytes("address", 4, 8),
    bytes("lun", 12, 8),
];

#[cfg(test)]
mod tests {
    use super::*;
    use crate::names::CONTROL_CODES;

    /// Every byte of a served structure stands in a named field, so a request can be said by its fields.
    #[test]
    fn fields_cover_the_structures() {
        for (control, name) in CONTROL_CODES {
            let layout = layout(control);
            if layout.fields.is_empty() {
                continue;
            }
            let mut at = 0;
            for field in layout.fields {
                assert!(field.at <= at, "{name}: a gap before {}", field.name);
                at = at.max(field.at + field.size);
            }
            assert_eq!(at, layout.size, "{name}");
        }
    }
}
