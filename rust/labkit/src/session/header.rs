//! The two headers that a request may have: where their fields stand, and what a sound one holds.

use super::layout::{layout, ATA_COMMAND, FIRMWARE_DOWNLOAD, SET_PHY_INFO, STP_PASSTHRU};
use crate::field::{bytes, field, number, Field, Kind};

/// The header of a request.
#[derive(Debug, Clone, Copy, PartialEq, Eq)]
pub enum Header {
    /// The first header, SRB_IO_CONTROL (4.1.3.1), 28 bytes. It holds the control code.
    Srb,
    /// The Linux header (4.2.3.1), 18 bytes and two that are ignored. The control code is handed in beside the buffer.
    Linux { control: u32 },
}

const SRB_SIZE: usize = 28;
const SRB_CONTROL: Field = number("control", 16, 4);
const SRB_RETURN_CODE: Field = number("return-code", 20, 4);
const SRB_LENGTH: Field = number("length", 24, 4);
const SRB_FIELDS: [Field; 6] = [
    number("header-length", 0, 4),
    field("signature", 4, 8, Kind::Text),
    number("timeout", 12, 4),
    SRB_CONTROL,
    SRB_RETURN_CODE,
    SRB_LENGTH,
];

const LINUX_SIZE: usize = 20;
const LINUX_LENGTH: Field = number("length", 4, 4);
const LINUX_RETURN_CODE: Field = number("return-code", 8, 4);
/// The direction of the data, in the Linux header.
pub const DIRECTION: Field = number("direction", 16, 2);
const LINUX_FIELDS: [Field; 6] = [
    number("controller", 0, 4),
    LINUX_LENGTH,
    LINUX_RETURN_CODE,
    number("timeout", 12, 4),
    DIRECTION,
    bytes("ignored", 18, 2),
];

/// CSMI_ALL_TIMEOUT, at 12 in both headers.
const TIMEOUT: (usize, u8) = (12, 60);
/// The values of Direction.
const DATA_READ: u8 = 0;
const DATA_WRITE: u8 = 1;
/// The ATA command that writes sectors.
const WRITE_SECTORS: u8 = 0x30;

impl Header {
    /// Its bytes.
    pub const fn size(self) -> usize {
        match self {
            Header::Srb => SRB_SIZE,
            Header::Linux { .. } => LINUX_SIZE,
        }
    }

    pub fn fields(self) -> &'static [Field] {
        match self {
            Header::Srb => &SRB_FIELDS,
            Header::Linux { .. } => &LINUX_FIELDS,
        }
    }

    pub const fn return_code(self) -> Field {
        match self {
            Header::Srb => SRB_RETURN_CODE,
            Header::Linux { .. } => LINUX_RETURN_CODE,
        }
    }

    /// Length, which counts the Linux header and not the first.
    pub const fn length(self) -> Field {
        match self {
            Header::Srb => SRB_LENGTH,
            Header::Linux { .. } => LINUX_LENGTH,
        }
    }

    pub fn is_linux(self) -> bool {
        matches!(self, Header::Linux { .. })
    }

    /// The control code of a buffer that has a whole header.
    pub fn control(self, buffer: &[u8]) -> Option<u32> {
        let header = buffer.get(..self.size())?;
        Some(match self {
            Header::Srb => SRB_CONTROL.get(header),
            Header::Linux { control } => control,
        })
    }

    /// The header that a sound request of a control code has before this body.
    pub fn sound(self, control: u32, body: &[u8]) -> Vec<u8> {
        match self {
            Header::Srb => srb(control, body.len() as u32).to_vec(),
            Header::Linux { .. } => linux(control, body).to_vec(),
        }
    }
}

/// A sound first header.
pub fn srb(control: u32, length: u32) -> [u8; SRB_SIZE] {
    let mut header = [0; SRB_SIZE];
    header[0] = SRB_SIZE as u8;
    header[4..11].copy_from_slice(layout(control).signature.as_bytes());
    header[TIMEOUT.0] = TIMEOUT.1;
    header[SRB_CONTROL.at..][..4].copy_from_slice(&control.to_le_bytes());
    header[SRB_LENGTH.at..][..4].copy_from_slice(&length.to_le_bytes());
    header
}

fn linux(control: u32, body: &[u8]) -> [u8; LINUX_SIZE] {
    let mut header = [0; LINUX_SIZE];
    let length = (LINUX_SIZE + body.len()) as u32;
    header[LINUX_LENGTH.at..][..4].copy_from_slice(&length.to_le_bytes());
    header[TIMEOUT.0] = TIMEOUT.1;
    header[DIRECTION.at] = direction(control, body);
    header
}

/// The Direction that a console gives: DATA_WRITE with firmware, with a change of a phy and with a write of sectors, else DATA_READ.
fn direction(control: u32, body: &[u8]) -> u8 {
    let command = body.get(ATA_COMMAND).copied();
    match control {
        FIRMWARE_DOWNLOAD | SET_PHY_INFO => DATA_WRITE,
        STP_PASSTHRU if command == Some(WRITE_SECTORS) => DATA_WRITE,
        _ => DATA_READ,
    }
}

#[cfg(test)]
mod tests {
    use super::*;

    /// Every byte of a header stands in a named field.
    #[test]
    fn fields_cover_the_headers() {
        for header in [Header::Srb, Header::Linux { control: 0 }] {
            let mut at = 0;
            for field in header.fields() {
                assert_eq!(field.at, at, "{}", field.name);
                at += field.size;
            }
            assert_eq!(at, header.size());
        }
    }

    /// Signature and Length of the codes that a front page asks for, and of firmware without an image; Linux's Length counts its header.
    #[test]
    fn sound_headers_of_the_controllers_codes() {
        for (control, signature, size, way) in [
            (2, b"CSMIALL\0", 176, DATA_READ),
            (3, b"CSMIALL\0", 36, DATA_READ),
            (4, b"CSMIALL\0", 44, DATA_WRITE),
            (30, b"CSMISAS\0", 1152, DATA_READ),
        ] {
            let body = vec![0; layout(control).size];
            let first = Header::Srb.sound(control, &body);
            assert_eq!(first[4..12], *signature);
            assert_eq!(SRB_CONTROL.get(&first), control);
            assert_eq!(SRB_LENGTH.get(&first), size);
            let linux = Header::Linux { control }.sound(control, &body);
            assert_eq!(LINUX_LENGTH.get(&linux), 20 + size);
            assert_eq!(DIRECTION.get(&linux), u32::from(way));
        }
    }

    #[test]
    fn a_sound_linux_header() {
        let linux = Header::Linux { control: 22 };
        let mut expected = [0; 20];
        (expected[4], expected[12]) = (40, 60);
        assert_eq!(linux.sound(22, &[0; 20]), expected);
        assert_eq!(linux.control(&expected), Some(22));
        assert_eq!(linux.control(&expected[..19]), None);
    }

    #[test]
    fn directions_of_sound_requests() {
        let mut write = [0; 136];
        write[18] = 0x30;
        assert_eq!(direction(21, &[0; 8]), DATA_WRITE);
        assert_eq!(direction(4, &[0; 44]), DATA_WRITE);
        assert_eq!(direction(25, &write), DATA_WRITE);
        assert_eq!(direction(25, &[0; 136]), DATA_READ);
        assert_eq!(direction(22, &write), DATA_READ);
        assert_eq!(direction(25, &[]), DATA_READ);
    }
}
