//! Where things stand in the bytes of a state, as `include/ascheknopf.h` has them.

use labkit::field::{byte, number, Field};

pub const LEVEL: usize = 0;
pub const PHY_COUNT: usize = 1;
pub const ROW_COUNT: usize = 2;
pub const DRIVER: usize = 3;
pub const DRIVER_SIZE: usize = 174;
pub const PHYS: usize = 32;
pub const PHY_SIZE: usize = 105;
pub const ROWS: usize = 64;
pub const ROW_SIZE: usize = 20;
/// Behind the rows the controller's configuration, its status, a connector for each phy, whether a firmware image is staged, and its
/// revisions.
pub use library::{
    CONNECTOR, CONNECTOR_SIZE, CONTROLLER, CONTROLLER_SIZE, STAGED, STAGED_REVISIONS, STATUS,
    STATUS_SIZE,
};
/// Where the revisions that run stand in the configuration; and the bytes of revisions.
pub use library::{CONTROLLER_FIRMWARE as RUNNING, STAGED_REVISIONS_SIZE as REVISIONS_SIZE};

/// What is staged, by name.
pub const STAGED_FIELDS: [Field; 5] = [
    byte("staged", 0),
    number("staged-major", 1, 2),
    number("staged-minor", 3, 2),
    number("staged-build", 5, 2),
    number("staged-release", 7, 2),
];
pub const STAGED_SIZE: usize = 1 + REVISIONS_SIZE;

/// The bytes of a disk, and of a sector; and of a block of the stage.
pub const DISK: usize = 8192;
pub const SECTOR: usize = 512;
pub const BLOCK: usize = 512;

pub const fn phy_at(n: usize) -> usize {
    DRIVER + DRIVER_SIZE + PHY_SIZE * n
}

pub const fn row_at(i: usize) -> usize {
    phy_at(PHYS) + ROW_SIZE * i
}

pub const fn connector_at(n: usize) -> usize {
    CONNECTOR + CONNECTOR_SIZE * n
}

/// A part of each state.
pub fn parts<'a>(states: &[&'a [u8]], at: usize, size: usize) -> Vec<&'a [u8]> {
    let part = |state: &&'a [u8]| state.get(at..at + size).unwrap_or(&[]);
    states.iter().map(part).collect()
}

#[cfg(test)]
mod tests {
    use super::*;

    #[test]
    fn the_parts_fill_a_state() {
        assert_eq!((phy_at(0), phy_at(1), row_at(0)), (177, 282, 3537));
        assert_eq!(row_at(ROWS), CONTROLLER);
        assert_eq!(CONTROLLER + CONTROLLER_SIZE, STATUS);
        assert_eq!(STATUS + STATUS_SIZE, connector_at(0));
        assert_eq!(connector_at(PHYS), STAGED);
        assert_eq!(STAGED + 1, STAGED_REVISIONS);
        assert_eq!(STAGED + STAGED_SIZE, library::STATE_SIZE);
        assert_eq!(RUNNING + REVISIONS_SIZE, library::CONTROLLER_BIOS);
    }
}
