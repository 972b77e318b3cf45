//! Offsets and sizes, each said once: of the structures of 001, of the adapter file, of a state as
//! bytes, and of a run's record. Plain numbers, which the comparison and its tests share.

mod structures;

pub use structures::*;

/// "the row count a (0–64)".
pub const MAX_ROWS: usize = 64;

/// "Phy n's disk is the n-th run of 8,192 bytes of the medium": 16 sectors.
pub const SECTOR: usize = 512;
pub const SECTORS: usize = 16;
pub const DISK: usize = SECTOR * SECTORS;

/// "An image is 1 to 32 blocks in the file's block form, revisions in the first eight bytes of
/// block 0" (W-207).
pub mod image {
    pub const MAX_BLOCKS: usize = 32;
    pub const REVISIONS: usize = 0;
}

/// "a lent stage of 16,384 bytes" (W-207): room for the largest image.
pub const STAGE: usize = image::MAX_BLOCKS * file::BLOCK;

/// A phy: in a state, and in its block of the file. The PHY_ENTITY is first.
pub mod phy {
    pub const COUNTERS: usize = super::ENTITY;
    pub const SIGNATURE: usize = 80;
    pub const HELD: usize = 100;
    pub const FIXED: usize = 101;
    pub const LOWEST: usize = 102;
    pub const HIGHEST: usize = 103;
    /// "Byte 104 of a phy block" (W-205).
    pub const SPINUP_HOLD: usize = 104;
    pub const SIZE: usize = 105;
}

/// A row: in a state, and in the file. The SAS address is first.
pub mod row {
    pub const SAS_LUN: usize = 8;
    /// Host index, path, target, LUN.
    pub const OS: usize = 16;
    pub const SIZE: usize = 20;
}

/// The adapter file: a block's check, block 0, the rows of a block, and the controller's block. A
/// phy and a connector start their blocks.
pub mod file {
    pub const BLOCK: usize = 512;
    pub const CHECK: usize = 508;
    pub const PHY_COUNT: usize = 0;
    pub const ROW_COUNT: usize = 1;
    pub const DRIVER_INFO: usize = 4;
    pub const DRIVER_INFO_END: usize = DRIVER_INFO + super::DRIVER_INFO;
    pub const ROWS_PER_BLOCK: usize = 25;
    pub const ROWS_END: usize = ROWS_PER_BLOCK * super::row::SIZE;
    pub const CONTROLLER_CONFIG: usize = 0;
    pub const CONTROLLER_STATUS: usize = CONTROLLER_CONFIG + super::CONTROLLER_CONFIG;
    pub const CONTROLLER_END: usize = CONTROLLER_STATUS + super::CONTROLLER_STATUS;

    /// Where the block of phy n starts.
    pub const fn phy_at(n: usize) -> usize {
        (1 + n) * BLOCK
    }
}

/// A state as the bytes that a caller lends.
pub mod state {
    pub const LEVEL: usize = 0;
    pub const PHY_COUNT: usize = 1;
    pub const ROW_COUNT: usize = 2;
    pub const DRIVER_INFO: usize = 3;
    pub const PHYS: usize = DRIVER_INFO + super::DRIVER_INFO;
    pub const ROWS: usize = phy_at(super::MAX_PHYS);
    pub const CONTROLLER_CONFIG: usize = row_at(super::MAX_ROWS);
    pub const CONTROLLER_STATUS: usize = CONTROLLER_CONFIG + super::CONTROLLER_CONFIG;
    pub const CONNECTORS: usize = CONTROLLER_STATUS + super::CONTROLLER_STATUS;
    /// Whether an image is staged (W-207), and its revisions.
    pub const STAGED: usize = connector_at(super::MAX_PHYS);
    pub const STAGED_REVISIONS: usize = STAGED + 1;
    pub const SIZE: usize = STAGED_REVISIONS + super::REVISIONS;

    /// Where phy n starts.
    pub const fn phy_at(n: usize) -> usize {
        PHYS + n * super::phy::SIZE
    }

    /// Where row i starts.
    pub const fn row_at(i: usize) -> usize {
        ROWS + i * super::row::SIZE
    }

    /// Where the connector of phy n starts.
    pub const fn connector_at(n: usize) -> usize {
        CONNECTORS + n * super::connector::SIZE
    }
}

/// A run's record: a line for each request.
pub mod record {
    /// The call's number.
    pub const NUMBER: usize = 0;
    /// The return code.
    pub const CODE: usize = 4;
    pub const SIZE: usize = 8;
    /// In the place of a return code where none was written.
    pub const NO_CODE: u32 = 0xFFFF_FFFF;
}
