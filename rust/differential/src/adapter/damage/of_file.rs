//! What a file alone can have.

use super::breaks::*;
use super::one::{check, field, length, Damage};
use crate::names::file::{BLOCK, CHECK, CONTROLLER_END, DRIVER_INFO, DRIVER_INFO_END, ROW_COUNT};
use crate::names::{connector, phy};

/// A wrong length, a wrong check, and bytes that are not named.
pub const FILE: &[Damage] = &[
    length("no file", |_, file| keep(file, 0)),
    length("under one block", |r, file| keep(file, r.below(BLOCK))),
    length("a block less", |_, file| {
        keep(file, file.bytes.len() - BLOCK)
    }),
    length("bytes missing", |r, file| {
        keep(file, file.bytes.len() - r.within(1, BLOCK - 1))
    }),
    length("bytes too many", |r, file| {
        add(file, r.within(1, BLOCK - 1))
    }),
    length("blocks too many", |r, file| {
        add(file, r.within(1, 5) * BLOCK)
    }),
    length("the end behind the rows, as before W-204", |_, file| {
        keep(file, file.controller())
    }),
    length("no connectors", |_, file| keep(file, file.connector(0))),
    length("a block behind the rows left out", without_block),
    length("another phy count", other_phy_count),
    length("another number of row blocks", other_row_count),
    check("block 0's check", |r, file| bump_check(r, file, 0)),
    check("another block's check", |r, file| {
        let block = r.within(1, file.bytes.len() / BLOCK - 1);
        bump_check(r, file, block)
    }),
    check("the check of the controller's block", |r, file| {
        bump_check(r, file, file.controller() / BLOCK)
    }),
    check("the check of a connector's block", |r, file| {
        let at = file.connector(r.below(file.p()));
        bump_check(r, file, at / BLOCK)
    }),
    check("the check of another block number", check_of_other_number),
    check("a changed byte", |r, file| {
        let at = r.below(file.bytes.len());
        change(r, file, at)
    }),
    field("bytes 2 and 3", |r, file| {
        spoil(r, file, ROW_COUNT + 1, DRIVER_INFO)
    }),
    field("after the driver info", |r, file| {
        spoil(r, file, DRIVER_INFO_END, CHECK)
    }),
    field("after a phy's bytes", |r, file| {
        let at = file.phy(r.below(file.p()));
        spoil(r, file, at + phy::SIZE, at + CHECK)
    }),
    field("past the last row", past_last_row),
    field("between row blocks", between_row_blocks),
    field("after the controller's status", |r, file| {
        let at = file.controller();
        spoil(r, file, at + CONTROLLER_END, at + CHECK)
    }),
    field("after a connector", |r, file| {
        let at = file.connector(r.below(file.p()));
        spoil(r, file, at + connector::SIZE, at + CHECK)
    }),
];
