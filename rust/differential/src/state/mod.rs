//! States that a caller makes: sound ones, ones with a byte altered, and any bytes at all.

pub mod alter;
pub mod made;
pub mod reading;

use crate::adapter::Adapter;
use crate::names::{state, DISK, MAX_PHYS, MAX_ROWS, REVISIONS};
use crate::random::Random;
use crate::text::LEVELS;

/// Bytes that some rule tells from others.
const EDGES: [u8; 16] = [
    0, 1, 2, 3, 4, 5, 8, 9, 0x10, 0x20, 0x30, 0x40, 0x88, 0x98, 0x99, 0xFF,
];

/// Any state: random bytes, zeros or a sound state, as they are or with some bytes changed.
pub fn any(random: &mut Random, adapter: &Adapter) -> Vec<u8> {
    let level = random.pick(&LEVELS);
    let mut bytes = match random.below(6) {
        0 => random.bytes(state::SIZE),
        1 => edges(random),
        2 => vec![0; state::SIZE],
        3 => counted(random),
        _ => adapter.state(level),
    };
    for _ in 0..random.pick(&[0, 0, 1, 1, 2, 8]) {
        let at = match random.below(8) {
            0 => random.within(state::STAGED, state::SIZE - 1),
            _ => random.below(bytes.len()),
        };
        bytes[at] = match random.below(2) {
            0 => random.pick(&EDGES),
            _ => random.byte(),
        };
    }
    bytes
}

/// Random bytes of the edges alone.
fn edges(random: &mut Random) -> Vec<u8> {
    (0..state::SIZE).map(|_| random.pick(&EDGES)).collect()
}

/// Random bytes behind a sound level and sound counts.
fn counted(random: &mut Random) -> Vec<u8> {
    let mut bytes = random.bytes(state::SIZE);
    bytes[state::LEVEL] = random.pick(&LEVELS);
    bytes[state::PHY_COUNT] = random.within(1, MAX_PHYS) as u8;
    bytes[state::ROW_COUNT] = random.within(0, MAX_ROWS) as u8;
    bytes
}

/// A staged image in a sound state; its revisions may be 0.
pub fn put_staged(random: &mut Random, bytes: &mut [u8]) {
    let revisions: [u8; REVISIONS] = match random.one_in(6) {
        true => [0; REVISIONS],
        false => random.array(),
    };
    bytes[state::STAGED] = 1;
    bytes[state::STAGED_REVISIONS..].copy_from_slice(&revisions);
}

/// The length of the medium that belongs to a state, by its phy count.
pub fn medium_length(bytes: &[u8]) -> usize {
    DISK * usize::from(bytes[state::PHY_COUNT])
}
