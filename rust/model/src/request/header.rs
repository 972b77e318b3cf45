//! The first header: the checks of the buffer before the level.

use super::control::Control;
use crate::bytes::u32_at;
use crate::codes::{call, status};
use crate::layout::header::{CONTROL_CODE, HEADER_LENGTH, LENGTH, SIGNATURE, SIZE, TIMEOUT};
use crate::level::Level;

/// A request that has passed "all before the level".
pub struct Admitted {
    pub control: Control,
    pub need: Level,
}

pub enum Refusal {
    /// The call's number.
    Call(u32),
    /// The return code.
    Code(u32),
}

/// "buffer of 28 bytes; HeaderLength 28; code known; signature ..; Length ..", in this order.
pub fn admit(buffer: &[u8]) -> Result<Admitted, Refusal> {
    let Some((header, body)) = buffer.split_first_chunk::<SIZE>() else {
        return Err(Refusal::Call(call::BUFFER_LENGTH));
    };
    if u32_at(header, HEADER_LENGTH) != SIZE as u32 {
        return Err(Refusal::Code(status::INVALID_PARAMETER));
    }
    let Some(control) = Control::of_code(u32_at(header, CONTROL_CODE)) else {
        return Err(Refusal::Code(status::BAD_CNTL_CODE));
    };
    if header[SIGNATURE..TIMEOUT] != *control.signature() {
        return Err(Refusal::Code(status::BAD_CNTL_CODE));
    }
    if !length_is_sound(control, u32_at(header, LENGTH), body) {
        return Err(Refusal::Code(status::INVALID_PARAMETER));
    }
    Ok(Admitted {
        control,
        need: control.need(body),
    })
}

/// "Length at least the structure's size without header (for 25: without bDataBuffer, plus
/// uDataLength) and 28 + Length inside the buffer"; for 4 as for 25. `body` is the buffer after the
/// header, which `length` does not count.
pub fn length_is_sound(control: Control, length: u32, body: &[u8]) -> bool {
    let Ok(length) = usize::try_from(length) else {
        return false;
    };
    if length < control.size() || length > body.len() {
        return false;
    }
    u64::from(control.data_length(body)) <= (length - control.size()) as u64
}
