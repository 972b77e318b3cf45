//! The Linux header (W-201): its checks. "Section 5.2 leaves protection to the root account", so
//! that there is no check of a signature or of the level.

use super::control::Control;
use super::header::{length_is_sound, Refusal};
use crate::bytes::{u16_at, u32_at};
use crate::codes::direction::{DATA_READ, DATA_WRITE};
use crate::codes::{call, status};
use crate::layout::linux_header::{DIRECTION, LENGTH, SIZE};

/// "A buffer under 20 bytes is 100. A Direction other than the two constants of section 10 is
/// code 3, in the place of the HeaderLength check"; code known; Length, in this order. `code` is
/// what was "handed in beside the buffer".
pub fn admit(code: u32, buffer: &[u8]) -> Result<Control, Refusal> {
    let Some((header, body)) = buffer.split_first_chunk::<SIZE>() else {
        return Err(Refusal::Call(call::BUFFER_LENGTH));
    };
    if !matches!(u16_at(header, DIRECTION), DATA_READ | DATA_WRITE) {
        return Err(Refusal::Code(status::INVALID_PARAMETER));
    }
    let Some(control) = Control::of_code(code) else {
        return Err(Refusal::Code(status::BAD_CNTL_CODE));
    };
    // "Length counting all 20 bytes"
    let length = u32_at(header, LENGTH).checked_sub(SIZE as u32);
    if !length.is_some_and(|length| length_is_sound(control, length, body)) {
        return Err(Refusal::Code(status::INVALID_PARAMETER));
    }
    Ok(control)
}
