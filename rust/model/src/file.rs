//! The adapter file, and opening an adapter from it.

use crate::bytes::{all_zero, array_at, u32_at};
use crate::codes::call;
use crate::disk;
use crate::fields;
use crate::layout::file::{
    BLOCK, CHECK, CONTROLLER_CONFIG, CONTROLLER_END, CONTROLLER_STATUS, DRIVER_INFO,
    DRIVER_INFO_END, PHY_COUNT, ROWS_END, ROWS_PER_BLOCK, ROW_COUNT,
};
use crate::layout::{connector, phy, row};
use crate::level::Level;
use crate::state::{Connector, Phy, Row, State};

/// Opens an adapter: the call's number, and the state.
pub fn open(text: &[u8], file: &[u8], medium: &[u8]) -> (u32, State) {
    match checked(text, file, medium) {
        Ok(state) => (call::DONE, state),
        Err(number) => (number, State::ZERO),
    }
}

/// "Opening checks, in order".
fn checked(text: &[u8], file: &[u8], medium: &[u8]) -> Result<State, u32> {
    let level = Level::of_text(text).ok_or(call::TEXT)?;
    let blocks = file.as_chunks::<BLOCK>().0;
    let first = blocks.first().ok_or(call::FILE_LENGTH)?;
    if !is_intact(first, 0) {
        return Err(call::BLOCK_CHECK);
    }
    let (p, a) = (first[PHY_COUNT], first[ROW_COUNT]);
    if !fields::counts_are_sound(p, a) {
        return Err(call::COUNT_OR_FIELD);
    }
    if file.len() != file_length(p, a) {
        return Err(call::FILE_LENGTH);
    }
    if !are_intact(blocks) {
        return Err(call::BLOCK_CHECK);
    }
    let parts = Parts::of(first, &blocks[1..]);
    let state = parts.held(level);
    if !parts.unnamed_are_zero() || !fields::fields_are_sound(&state) {
        return Err(call::COUNT_OR_FIELD);
    }
    if !fields::rows_are_distinct(state.live_rows()) {
        return Err(call::SHARED_ROW);
    }
    if medium.len() != disk::medium_length(p) {
        return Err(call::MEDIUM_LENGTH);
    }
    Ok(state)
}

/// "the sum of the 127 little-endian words before it, plus the block's number, plus 1, modulo
/// 4,294,967,296".
pub fn block_check(block: &[u8; BLOCK], number: u32) -> u32 {
    block[..CHECK]
        .as_chunks::<4>()
        .0
        .iter()
        .fold(number.wrapping_add(1), |sum, word| {
            sum.wrapping_add(u32::from_le_bytes(*word))
        })
}

fn is_intact(block: &[u8; BLOCK], number: u32) -> bool {
    u32_at(block, CHECK) == block_check(block, number)
}

/// Whether each of these blocks, "numbered from 0", has its check.
pub fn are_intact(blocks: &[[u8; BLOCK]]) -> bool {
    blocks.iter().zip(0..).all(|(block, k)| is_intact(block, k))
}

/// The row blocks, "a/25 rounded up".
fn row_blocks(a: u8) -> usize {
    usize::from(a).div_ceil(ROWS_PER_BLOCK)
}

/// "file length (1 + p + a/25 rounded up) × 512"; "The adapter file grows by one block for the
/// controller and status and one block for each phy's connector" (W-204).
pub fn file_length(p: u8, a: u8) -> usize {
    let p = usize::from(p);
    (1 + p + row_blocks(a) + 1 + p) * BLOCK
}

/// The blocks of a file, by what they hold, in the order of the file.
struct Parts<'a> {
    first: &'a [u8; BLOCK],
    phys: &'a [[u8; BLOCK]],
    rows: &'a [[u8; BLOCK]],
    controller: &'a [u8; BLOCK],
    connectors: &'a [[u8; BLOCK]],
}

impl Parts<'_> {
    /// The parts of a file whose counts are sound and whose length is theirs.
    fn of<'a>(first: &'a [u8; BLOCK], others: &'a [[u8; BLOCK]]) -> Parts<'a> {
        let (phys, others) = others.split_at(usize::from(first[PHY_COUNT]));
        let (rows, others) = others.split_at(row_blocks(first[ROW_COUNT]));
        Parts {
            first,
            phys,
            rows,
            controller: &others[0],
            connectors: &others[1..],
        }
    }

    /// "The state is the level and what the file holds, zero past p and a." An opening leaves
    /// nothing staged (W-207).
    fn held(&self, level: Level) -> State {
        let mut state = State::ZERO;
        state.level = level as u8;
        state.p = self.first[PHY_COUNT];
        state.a = self.first[ROW_COUNT];
        state.driver_info = array_at(self.first, DRIVER_INFO);
        for (phy, block) in state.phys.iter_mut().zip(self.phys) {
            *phy = Phy::from_bytes(&array_at(block, 0));
        }
        let rows = usize::from(state.a);
        for (row, bytes) in state.rows[..rows].iter_mut().zip(self.row_places()) {
            *row = Row::from_bytes(bytes);
        }
        state.controller_config = array_at(self.controller, CONTROLLER_CONFIG);
        state.controller_status = array_at(self.controller, CONTROLLER_STATUS);
        for (connector, block) in state.connectors.iter_mut().zip(self.connectors) {
            *connector = Connector(array_at(block, 0));
        }
        state
    }

    /// The places for rows, used or not.
    fn row_places(&self) -> impl Iterator<Item = &[u8; row::SIZE]> {
        self.rows
            .iter()
            .flat_map(|block| block[..ROWS_END].as_chunks().0)
    }

    /// "Bytes not named, and bytes past the last row, are 0."
    fn unnamed_are_zero(&self) -> bool {
        let zero_from = |blocks: &[[u8; BLOCK]], end: usize| {
            blocks.iter().all(|block| all_zero(&block[end..CHECK]))
        };
        all_zero(&self.first[ROW_COUNT + 1..DRIVER_INFO])
            && all_zero(&self.first[DRIVER_INFO_END..CHECK])
            && zero_from(self.phys, phy::SIZE)
            && zero_from(self.rows, ROWS_END)
            && self
                .row_places()
                .skip(usize::from(self.first[ROW_COUNT]))
                .all(|bytes| all_zero(bytes))
            && all_zero(&self.controller[CONTROLLER_END..CHECK])
            && zero_from(self.connectors, connector::SIZE)
    }
}
