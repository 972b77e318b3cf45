//! The Linux header: its checks and their order, every code at every level, and that it gives
//! what the first header gives at Full.

mod checks;
mod codes;
mod order;
mod sameness;

use super::adapter::{medium, sample, stage};
use crate::{request_linux, State};

/// A sound buffer with this body; the bytes that are not read hold anything.
pub fn buffer(body: &[u8]) -> Vec<u8> {
    [
        &0x4444_4444u32.to_le_bytes()[..],
        &(20 + body.len() as u32).to_le_bytes(),
        &0x5555_5555u32.to_le_bytes(),
        &60u32.to_le_bytes(),
        &[0, 0, 0x66, 0x77],
        body,
    ]
    .concat()
}

fn return_code(buffer: &[u8]) -> u32 {
    u32::from_le_bytes(buffer[8..12].try_into().unwrap())
}

/// The return code of a request whose call's number is 0; of the header only the code's bytes
/// change, of the body, the state, the medium and the stage nothing if it isn't 0, and the level
/// never.
pub fn code_of(
    state: &mut State,
    medium: &mut [u8],
    stage: &mut [u8],
    control: u32,
    buffer: &mut [u8],
) -> u32 {
    let before = (state.clone(), medium.to_vec(), buffer.to_vec());
    let stage_before = stage.to_vec();
    assert_eq!(request_linux(state, medium, stage, control, buffer), 0);
    let code = return_code(buffer);
    assert_eq!(buffer[..8], before.2[..8]);
    assert_eq!(buffer[12..20], before.2[12..20]);
    assert_eq!(state.level, before.0.level);
    if code != 0 {
        assert_eq!(*state, before.0);
        assert_eq!(*medium, before.1);
        assert_eq!(*stage, stage_before);
        assert_eq!(buffer[20..], before.2[20..]);
    }
    code
}

/// The return code of one request to the sample.
fn answer(control: u32, buffer: &mut [u8]) -> u32 {
    let (mut state, mut medium, mut stage) = (sample(), medium(5), stage());
    code_of(&mut state, &mut medium, &mut stage, control, buffer)
}
