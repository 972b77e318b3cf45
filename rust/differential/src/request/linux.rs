//! Requests with the Linux header.

use super::{any_code, fault, first, sound, Request};
use crate::adapter::Adapter;
use crate::names::direction::{DATA_READ, DATA_WRITE};
use crate::names::{header, linux_header as at};
use crate::random::Random;
use crate::wire::{put_word, word};

/// A sound header before a body, whose Length is the whole buffer's.
pub fn of_body(control: u32, body: &[u8]) -> Request {
    let mut buffer = vec![0; at::SIZE];
    put_word(&mut buffer, at::LENGTH, (at::SIZE + body.len()) as u32);
    buffer.extend(body);
    Request::linux(control, buffer)
}

/// A sound request of this code; what is not read holds anything.
pub fn sound(random: &mut Random, adapter: &Adapter, control: u32) -> Request {
    let mut request = of_body(control, &sound::body(random, adapter, control));
    fill(random, &mut request);
    request
}

/// One of the two Directions, and anything in the bytes that are not read.
pub fn fill(random: &mut Random, request: &mut Request) {
    let buffer = &mut request.buffer;
    random.fill(&mut buffer[at::CONTROLLER_NUMBER..at::LENGTH]);
    random.fill(&mut buffer[at::RETURN_CODE..at::DIRECTION]);
    random.fill(&mut buffer[at::IGNORED..at::SIZE]);
    put_direction(buffer, random.pick(&[DATA_READ, DATA_WRITE]));
}

pub fn put_direction(buffer: &mut [u8], direction: u16) {
    buffer[at::DIRECTION..at::IGNORED].copy_from_slice(&direction.to_le_bytes());
}

/// The code and the body of a request with the first header, and a Length that says the same. A buffer that is too short for the
/// first header stays as it is, with any code.
pub fn turned(random: &mut Random, first: &Request) -> Request {
    if first.is_short() {
        return Request::linux(any_code(random), first.buffer.clone());
    }
    let mut request = of_body(first.control(), first.body());
    fill(random, &mut request);
    let length = word(&first.buffer, header::LENGTH).wrapping_add(at::SIZE as u32);
    put_word(&mut request.buffer, at::LENGTH, length);
    request
}

/// Any request: one made for this header, or one with the first header turned, at times with a fault more.
pub fn any(random: &mut Random, adapter: &Adapter) -> Request {
    if random.one_in(2) {
        let control = any_code(random);
        let mut request = sound(random, adapter, control);
        fault::sometimes(random, adapter, &mut request);
        return request;
    }
    let first = first::any(random, adapter);
    let mut request = turned(random, &first);
    if random.one_in(6) {
        fault::in_either(random, adapter, &mut request);
    }
    request
}
