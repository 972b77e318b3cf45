//! Requests with the first header, SRB_IO_CONTROL.

use super::{any_code, fault, sound, Request};
use crate::adapter::Adapter;
use crate::names::{header as at, signature};
use crate::random::Random;
use crate::wire::put_word;

/// A sound header before a body, whose Length is the body's.
pub fn of_body(control: u32, body: &[u8]) -> Request {
    let mut buffer = vec![0; at::SIZE];
    put_word(&mut buffer, at::HEADER_LENGTH, at::SIZE as u32);
    put_word(&mut buffer, at::CONTROL_CODE, control);
    put_word(&mut buffer, at::LENGTH, body.len() as u32);
    buffer[at::SIGNATURE..at::TIMEOUT].copy_from_slice(&signature(control));
    buffer.extend(body);
    Request::first(buffer)
}

/// A sound request of this code; what is not read holds anything.
pub fn sound(random: &mut Random, adapter: &Adapter, control: u32) -> Request {
    let mut request = of_body(control, &sound::body(random, adapter, control));
    fill(random, &mut request);
    request
}

/// Anything in the bytes that are not read.
pub fn fill(random: &mut Random, request: &mut Request) {
    random.fill(&mut request.buffer[at::TIMEOUT..at::CONTROL_CODE]);
    random.fill(&mut request.buffer[at::RETURN_CODE..at::LENGTH]);
}

/// Any request: two of three are sound.
pub fn any(random: &mut Random, adapter: &Adapter) -> Request {
    let control = any_code(random);
    let mut request = sound(random, adapter, control);
    fault::sometimes(random, adapter, &mut request);
    request
}
