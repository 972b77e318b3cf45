//! Code 22: link errors.

use super::phys::existing_mut;
use crate::codes::link_error::{DONT_RESET_COUNTS, RESET_COUNTS};
use crate::codes::status;
use crate::layout::link_errors as at;
use crate::state::State;

/// "22: reset byte 0 or 1; phy exists; report the counters, then clear all four if 1."
pub fn link_errors(state: &mut State, information: &mut [u8; at::SIZE]) -> Result<u32, u32> {
    let reset = information[at::RESET];
    if !matches!(reset, DONT_RESET_COUNTS | RESET_COUNTS) {
        return Err(status::INVALID_PARAMETER);
    }
    let phy = existing_mut(state, information[at::PHY])?;
    let reported = information[at::COUNTERS..].as_chunks_mut().0;
    for (field, counter) in reported.iter_mut().zip(phy.counters) {
        *field = counter.to_le_bytes();
    }
    if reset == RESET_COUNTS {
        phy.counters = [0; 4];
    }
    Ok(status::SUCCESS)
}
