//! Media of wrong lengths.

use crate::names::DISK;
use crate::random::Random;

/// A medium of any other length than that of p disks.
pub fn of_wrong_length(random: &mut Random, p: usize) -> Vec<u8> {
    let right = p * DISK;
    let length = match random.below(6) {
        0 => 0,
        1 => right - 1,
        2 => right + 1,
        3 => right - DISK,
        4 => right + DISK,
        _ => right + random.within(1, DISK),
    };
    random.bytes(length)
}
