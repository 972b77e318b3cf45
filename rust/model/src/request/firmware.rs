//! Code 4 (W-207): firmware, validated then made current.

use crate::bytes::{u16_at, u32_at};
use crate::codes::firmware::{FWD_INFORMATION, FWD_SUCCESS, FWD_VALIDATE};
use crate::codes::status;
use crate::file;
use crate::layout::controller_config::FIRMWARE_REVISIONS;
use crate::layout::file::BLOCK;
use crate::layout::{firmware as at, image, REVISIONS};
use crate::state::State;

/// "With the validate flag the image is checked and copied to the start of a lent stage ..",
/// without it "the staged image becomes the running one"; "other flags are not read". `data` is
/// bDataBuffer, and what follows it.
pub fn firmware_download(
    state: &mut State,
    stage: &mut [u8],
    information: &mut [u8; at::DATA],
    data: &[u8],
) -> Result<u32, u32> {
    // the Length check has found these bytes there
    let image = &data[..u32_at(information, at::BUFFER_LENGTH) as usize];
    if u32_at(information, at::FLAGS) & FWD_VALIDATE != 0 {
        validate(state, stage, image)?;
    } else {
        commit(state, image)?;
    }
    // "Code 0 sets status and severity to 0"
    information[at::STATUS..at::SEVERITY].copy_from_slice(&FWD_SUCCESS.to_le_bytes());
    information[at::SEVERITY..].copy_from_slice(&FWD_INFORMATION.to_le_bytes());
    Ok(status::SUCCESS)
}

/// Checks an image and stages it. The stage behind it stays.
fn validate(state: &mut State, stage: &mut [u8], image: &[u8]) -> Result<(), u32> {
    let (blocks, rest) = image.as_chunks::<BLOCK>();
    // "a length that isn't 1 to 32 blocks"
    if !rest.is_empty() || !(1..=image::MAX_BLOCKS).contains(&blocks.len()) {
        return Err(status::INVALID_PARAMETER);
    }
    // "in the file's block form"
    if !file::are_intact(blocks) {
        return Err(status::FAILED);
    }
    stage[..image.len()].copy_from_slice(image);
    state.staged = 1;
    state.staged_revisions = [0, 2, 4, 6].map(|at| u16_at(image, image::REVISIONS + at));
    Ok(())
}

/// Makes the staged image the running one: "the controller reply of W-204 shows its revisions in
/// its first four revision fields". It "doesn't read the stage".
fn commit(state: &mut State, image: &[u8]) -> Result<(), u32> {
    // "Bytes without the flag"
    if !image.is_empty() {
        return Err(status::INVALID_PARAMETER);
    }
    if state.staged == 0 {
        return Err(status::FAILED);
    }
    let running = &mut state.controller_config[FIRMWARE_REVISIONS..][..REVISIONS];
    let fields = running.as_chunks_mut().0;
    for (field, revision) in fields.iter_mut().zip(state.staged_revisions) {
        *field = revision.to_le_bytes();
    }
    // "A commit leaves nothing staged"
    state.staged = 0;
    state.staged_revisions = [0; 4];
    Ok(())
}
