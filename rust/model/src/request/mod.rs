//! One request, with either header: the order of its checks, and the control codes.

mod addresses;
mod control;
mod firmware;
mod header;
mod link_errors;
mod linux;
mod passthrough;
mod phys;
mod reports;
mod service;
mod set_phy_info;

use crate::codes::{call, status};
use crate::disk;
use crate::fields;
use crate::layout::{header as first_header, linux_header, STAGE};
use crate::state::State;
use control::Control;
use header::{Admitted, Refusal};

/// What a reply goes by: the header's size, and the place of its return code.
struct Form {
    size: usize,
    return_code: usize,
}

const FIRST: Form = Form {
    size: first_header::SIZE,
    return_code: first_header::RETURN_CODE,
};

const LINUX: Form = Form {
    size: linux_header::SIZE,
    return_code: linux_header::RETURN_CODE,
};

/// Handles one request: the call's number.
pub fn request(state: &mut State, medium: &mut [u8], stage: &mut [u8], buffer: &mut [u8]) -> u32 {
    match tested(state, medium, stage) {
        Ok(()) => answer(state, medium, stage, buffer),
        Err(number) => number,
    }
}

/// Handles one request with the Linux header, "with the control code .. handed in beside the
/// buffer": the call's number.
pub fn request_linux(
    state: &mut State,
    medium: &mut [u8],
    stage: &mut [u8],
    control: u32,
    buffer: &mut [u8],
) -> u32 {
    match tested(state, medium, stage) {
        Ok(()) => answer_linux(state, medium, stage, control, buffer),
        Err(number) => number,
    }
}

/// The first checks of a request, "state; medium length", and "straight after the medium length"
/// that of the stage (W-207); `Err` is the call's number.
pub fn tested(state: &State, medium: &[u8], stage: &[u8]) -> Result<(), u32> {
    if !fields::state_is_sound(state) {
        return Err(call::STATE);
    }
    if medium.len() != disk::medium_length(state.p) {
        return Err(call::MEDIUM_LENGTH);
    }
    if stage.len() != STAGE {
        return Err(call::STAGE_LENGTH);
    }
    Ok(())
}

/// A request from the buffer's check on, for a caller that has made those of `tested`. They still
/// pass after it, so that a run may make them once. Where they fail it may answer anything, or
/// panic.
pub fn answer(state: &mut State, medium: &mut [u8], stage: &mut [u8], buffer: &mut [u8]) -> u32 {
    let permitted = match header::admit(buffer) {
        Ok(admitted) if is_denied(&admitted, state) => Err(Refusal::Code(status::WRITE_ATTEMPTED)),
        Ok(admitted) => Ok(admitted.control),
        Err(refusal) => Err(refusal),
    };
    reply(FIRST, permitted, state, medium, stage, buffer)
}

/// The same of a request with the Linux header: these "are never denied".
pub fn answer_linux(
    state: &mut State,
    medium: &mut [u8],
    stage: &mut [u8],
    control: u32,
    buffer: &mut [u8],
) -> u32 {
    let permitted = linux::admit(control, buffer);
    reply(LINUX, permitted, state, medium, stage, buffer)
}

/// "A request is denied if it passes all before the level and its need is above it." One with the
/// Linux header never is.
pub fn denied(state: &State, medium: &[u8], stage: &[u8], buffer: &[u8]) -> bool {
    tested(state, medium, stage).is_ok()
        && header::admit(buffer).is_ok_and(|admitted| is_denied(&admitted, state))
}

fn is_denied(admitted: &Admitted, state: &State) -> bool {
    admitted.need as u8 > state.level
}

/// Serves what is permitted, and writes the return code.
fn reply(
    form: Form,
    permitted: Result<Control, Refusal>,
    state: &mut State,
    medium: &mut [u8],
    stage: &mut [u8],
    buffer: &mut [u8],
) -> u32 {
    let code = match permitted {
        Err(Refusal::Call(number)) => return number,
        Err(Refusal::Code(code)) => code,
        Ok(control) => {
            match service::serve(control, state, medium, stage, &mut buffer[form.size..]) {
                Ok(code) | Err(code) => code,
            }
        }
    };
    buffer[form.return_code..][..4].copy_from_slice(&code.to_le_bytes());
    call::DONE
}
