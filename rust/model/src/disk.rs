//! One phy's disk: 16 sectors, and the ATA commands it knows.

use crate::codes::ata::*;
use crate::codes::fis_type;
use crate::layout::fis::{COMMAND, COUNT, DEVICE, LBA, SIZE};
use crate::layout::{DISK, SECTOR, SECTORS};
use std::ops::Range;

/// A command or status FIS.
pub type Fis = [u8; SIZE];

/// "FFh in byte 12": the disk is active.
const ACTIVE: u8 = 0xFF;

/// "medium length 8,192 × p".
pub fn medium_length(p: u8) -> usize {
    DISK * usize::from(p)
}

/// What a command moves; a range is of bytes on the disk.
enum Transfer {
    Nothing,
    Read(Range<usize>),
    Write(Range<usize>),
    Identify,
}

/// What a command comes to, before anything is moved.
pub struct Outcome {
    pub status: u8,
    pub error: u8,
    /// Byte 12 of the status FIS.
    count: u8,
    transfer: Transfer,
}

impl Outcome {
    /// The outcome of a command FIS. It depends on no byte of the disk.
    pub fn of(fis: &Fis) -> Outcome {
        match fis[COMMAND] {
            READ_SECTORS => Outcome::of_sectors(fis, Transfer::Read),
            WRITE_SECTORS => Outcome::of_sectors(fis, Transfer::Write),
            IDENTIFY_DEVICE => Outcome::success(fis[COUNT], Transfer::Identify),
            CHECK_POWER_MODE => Outcome::success(ACTIVE, Transfer::Nothing),
            _ => Outcome::failure(fis, ERROR_ABORT),
        }
    }

    fn of_sectors(fis: &Fis, transfer: fn(Range<usize>) -> Transfer) -> Outcome {
        if fis[DEVICE] & LBA_MODE == 0 {
            return Outcome::failure(fis, ERROR_ABORT);
        }
        let lba = [fis[LBA], fis[LBA + 1], fis[LBA + 2], fis[DEVICE] & 0x0F];
        let lba = u32::from_le_bytes(lba) as usize;
        // "count byte 12, where 0 means 256"
        let count = match fis[COUNT] {
            0 => 256,
            count => usize::from(count),
        };
        if lba + count > SECTORS {
            return Outcome::failure(fis, ERROR_PAST_END);
        }
        let range = lba * SECTOR..(lba + count) * SECTOR;
        Outcome::success(fis[COUNT], transfer(range))
    }

    fn success(count: u8, transfer: Transfer) -> Outcome {
        Outcome {
            status: STATUS_GOOD,
            error: 0,
            count,
            transfer,
        }
    }

    fn failure(fis: &Fis, error: u8) -> Outcome {
        Outcome {
            status: STATUS_ERROR,
            error,
            count: fis[COUNT],
            transfer: Transfer::Nothing,
        }
    }

    /// The bytes that this outcome moves; 8,192 at most.
    pub fn data_bytes(&self) -> usize {
        match &self.transfer {
            Transfer::Nothing => 0,
            Transfer::Read(range) | Transfer::Write(range) => range.len(),
            Transfer::Identify => SECTOR,
        }
    }

    /// "status FIS 34h, 0, status, error, bytes 4–13 of the command FIS (byte 12 as above),
    /// then 0".
    pub fn status_fis(&self, fis: &Fis) -> Fis {
        let mut reply = [0; SIZE];
        reply[..4].copy_from_slice(&[fis_type::STATUS, 0, self.status, self.error]);
        reply[4..14].copy_from_slice(&fis[4..14]);
        reply[COUNT] = self.count;
        reply
    }

    /// Moves the data, "to or from the start of bDataBuffer". `data` is `data_bytes` long.
    pub fn perform(&self, disk: &mut [u8; DISK], data: &mut [u8]) {
        match &self.transfer {
            Transfer::Nothing => {}
            Transfer::Read(range) => data.copy_from_slice(&disk[range.clone()]),
            Transfer::Write(range) => disk[range.clone()].copy_from_slice(data),
            Transfer::Identify => data.copy_from_slice(&IDENTIFY_DATA),
        }
    }
}

/// "512 bytes, word 49 = 0200h, word 60 = 16, else 0".
const IDENTIFY_DATA: [u8; SECTOR] = {
    let mut data = [0; SECTOR];
    data[2 * 49 + 1] = 0x02;
    data[2 * 60] = SECTORS as u8;
    data
};
