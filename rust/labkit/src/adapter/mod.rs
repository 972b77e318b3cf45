//! The adapter file (document 01, "Adapter file", W-204 and W-205): blocks of 512 bytes, each with its check; block 0 with counts and driver
//! info, a block for each phy, the rows, a block with the controller's configuration and status, and a block for each phy's connector.

mod describe;
mod fields;
mod front;
mod parse;
mod phy;
mod upgrade;
mod warnings;

pub use describe::describe;
pub use fields::{CONNECTOR, CONTROLLER, DRIVER, PHY, ROW, STATUS};
pub use front::{connector_words, controller_lines, revision_words, status_line, REVISIONS_BYTES};
pub use parse::parse;
pub use phy::{entity_words, phy_value};
pub use upgrade::{is_old, upgrade};
pub use warnings::warnings;

pub const BLOCK: usize = 512;
/// The bytes of a row, and the rows of a block.
const ROW_BYTES: usize = 20;
const ROWS_IN_BLOCK: usize = 25;
/// The most phys of a file, and of one that the program opens.
pub const MOST_PHYS: usize = 32;
pub const PROGRAM_PHYS: usize = 7;
pub const MOST_ROWS: usize = 64;

/// Where the driver info stands in block 0, and its bytes.
const DRIVER_AT: usize = 4;
pub const DRIVER_BYTES: usize = 174;
/// The bytes of a PHY_ENTITY, with which a phy's block begins.
pub const ENTITY_BYTES: usize = 64;
/// The controller's configuration; its status right behind it in their block; and a connector.
pub const CONTROLLER_BYTES: usize = 176;
pub const STATUS_BYTES: usize = 36;
pub const CONNECTOR_BYTES: usize = 36;
/// Where the check stands in a block.
pub const CHECK_AT: usize = 508;

/// The check of a block: the sum of the 127 little-endian words before it, plus the block's number, plus 1.
pub fn check(block: &[u8], number: usize) -> u32 {
    let word = |w: &[u8]| u32::from_le_bytes([w[0], w[1], w[2], w[3]]);
    let sum = |n: u32, w: &[u8]| n.wrapping_add(word(w));
    let first = (number as u32).wrapping_add(1);
    block[..CHECK_AT].chunks(4).fold(first, sum)
}

/// Writes the check of every whole block.
pub fn seal(file: &mut [u8]) {
    for (number, block) in file.chunks_exact_mut(BLOCK).enumerate() {
        let check = check(block, number);
        block[CHECK_AT..].copy_from_slice(&check.to_le_bytes());
    }
}

/// Puts bytes at a place of a file.
fn store(file: &mut [u8], at: usize, bytes: &[u8]) {
    file[at..at + bytes.len()].copy_from_slice(bytes);
}

/// Where row i stands in a file of p phys.
pub fn row_at(phys: usize, i: usize) -> usize {
    BLOCK * (1 + phys + i / ROWS_IN_BLOCK) + ROW_BYTES * (i % ROWS_IN_BLOCK)
}

/// Where the configuration stands in a file of p phys and a rows: behind the rows. The layout before W-204 ended there.
pub fn controller_at(phys: usize, rows: usize) -> usize {
    BLOCK * (1 + phys + rows.div_ceil(ROWS_IN_BLOCK))
}

/// Where the status stands.
pub fn status_at(phys: usize, rows: usize) -> usize {
    controller_at(phys, rows) + CONTROLLER_BYTES
}

/// Where the connector of phy n stands.
pub fn connector_at(phys: usize, rows: usize, n: usize) -> usize {
    controller_at(phys, rows) + BLOCK * (1 + n)
}

/// The length of a file of p phys and a rows.
pub fn file_length(phys: usize, rows: usize) -> usize {
    connector_at(phys, rows, phys)
}

#[cfg(test)]
mod tests {
    use super::*;

    #[test]
    fn the_starred_check_and_lengths() {
        assert_eq!(check(&[0; BLOCK], 3), 4);
        assert_eq!(file_length(4, 25), 5632);
        assert_eq!(file_length(4, 26), 6144);
        assert_eq!(file_length(PROGRAM_PHYS, MOST_ROWS), 9728);
        assert_eq!(row_at(4, 25), 3072);
        assert_eq!(controller_at(4, 25), 3072);
        assert_eq!(connector_at(4, 25, 3), 5120);
        assert_eq!(check(&[0xFF; BLOCK], 0), 1u32.wrapping_sub(127));
    }
}
