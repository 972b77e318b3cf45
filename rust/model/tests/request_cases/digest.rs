//! The numbers that stand for every byte of a slice and of a state, its place and its value, as
//! `crates/case_lines/specs/Digest.antt` defines them.

use model::layout::{phy, state};
use model::{Phy, State};

const MODULUS: u64 = 4_294_967_311;

/// What stands before the first byte.
const START: u64 = 1;

/// One more number after what came before.
fn mix(before: u64, number: u32) -> u64 {
    (before % MODULUS * 257 + u64::from(number)) % MODULUS
}

/// The bytes after what came before.
fn after(before: u64, bytes: &[u8]) -> u64 {
    let numbers = bytes.iter().map(|&byte| u32::from(byte));
    numbers.fold(before, mix)
}

/// A phy, its counters, each a number, behind its other bytes.
fn after_phy(before: u64, phy: &Phy) -> u64 {
    let bytes = phy.to_bytes();
    let entity = after(before, &bytes[..phy::COUNTERS]);
    let others = after(entity, &bytes[phy::SIGNATURE..]);
    phy.counters.into_iter().fold(others, mix)
}

pub fn of_bytes(bytes: &[u8]) -> u64 {
    after(START, bytes)
}

/// The level, the counts and the driver info, the phys, the rows, the controller's configuration and
/// status, the connectors, and what is staged.
pub fn of_state(state: &State) -> u64 {
    let bytes = state.to_bytes();
    let before = after(START, &bytes[..state::PHYS]);
    let phys = state.phys.iter().fold(before, after_phy);
    after(phys, &bytes[state::ROWS..])
}
