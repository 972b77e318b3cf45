//! Command FISes.

use crate::names::ata::*;
pub use crate::names::fis::*;
use crate::names::{fis_type, SECTOR, SECTORS};
use crate::random::Random;

pub type Fis = [u8; SIZE];

/// A FIS of this command, the LBA bit set; bytes that no rule names are random.
pub fn command(random: &mut Random, command: u8, lba: u32, count: u8) -> Fis {
    let mut fis: Fis = random.array();
    fis[TYPE] = fis_type::COMMAND;
    fis[COMMAND] = command;
    fis[DEVICE] |= LBA_MODE;
    fis[COUNT] = count;
    set_lba(&mut fis, lba);
    fis
}

/// Any FIS: mostly reads and writes, mostly within the disk.
pub fn any(random: &mut Random) -> Fis {
    let code = match random.below(10) {
        0..=3 => WRITE_SECTORS,
        4..=6 => READ_SECTORS,
        7 => IDENTIFY_DEVICE,
        8 => CHECK_POWER_MODE,
        _ => random.byte(),
    };
    let (lba, count) = range(random);
    command(random, code, lba, count)
}

fn range(random: &mut Random) -> (u32, u8) {
    if random.one_in(5) {
        return edge(random);
    }
    let lba = random.below(SECTORS);
    let count = match random.below(3) {
        0 => random.within(1, SECTORS - lba),
        _ => random.within(1, (SECTORS - lba).min(2)),
    };
    (lba as u32, count as u8)
}

/// LBAs and counts near the ends of their ranges.
pub fn edge(random: &mut Random) -> (u32, u8) {
    let lba = random.pick(&[
        0, 1, 14, 15, 16, 17, 0x100, 0x10000, 0x100_0000, 0x100_000F, 0xFFF_FFF0, 0xFFF_FFFF,
    ]);
    let count = random.pick(&[0, 1, 2, 15, 16, 17, 255]);
    (lba, count)
}

fn set_lba(fis: &mut Fis, lba: u32) {
    let bytes = lba.to_le_bytes();
    fis[LBA..DEVICE].copy_from_slice(&bytes[..3]);
    fis[DEVICE] = fis[DEVICE] & 0xF0 | bytes[3] & 0x0F;
}

pub fn lba(fis: &[u8]) -> usize {
    usize::from(fis[LBA])
        + (usize::from(fis[LBA + 1]) << 8)
        + (usize::from(fis[LBA + 2]) << 16)
        + (usize::from(fis[DEVICE] & 0x0F) << 24)
}

/// The sectors that the count byte means: 0 is 256.
pub fn sectors(fis: &[u8]) -> usize {
    match fis[COUNT] {
        0 => 256,
        count => usize::from(count),
    }
}

/// The bytes that a success of this FIS moves.
pub fn data(fis: &[u8]) -> usize {
    match fis[COMMAND] {
        READ_SECTORS | WRITE_SECTORS => SECTOR * sectors(fis),
        IDENTIFY_DEVICE => SECTOR,
        _ => 0,
    }
}

#[cfg(test)]
mod tests {
    use super::*;

    #[test]
    fn an_lba_comes_back() {
        let mut random = Random::new(1);
        for number in [0, 15, 16, 0x123_4567, 0xFFF_FFFF] {
            let fis = command(&mut random, READ_SECTORS, number, 3);
            assert_eq!(lba(&fis), number as usize);
            assert_eq!(fis[DEVICE] & LBA_MODE, LBA_MODE);
        }
    }

    #[test]
    fn count_0_means_256() {
        let fis = command(&mut Random::new(2), WRITE_SECTORS, 0, 0);
        assert_eq!(data(&fis), 256 * SECTOR);
    }
}
