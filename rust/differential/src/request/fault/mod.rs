//! Faults put into requests: each changes one thing.

mod body;
mod header;
mod length;

use super::{Header, Request};
use crate::adapter::Adapter;
use crate::random::Random;
pub use body::fault as of_body;

/// Nothing, two times of three; else a fault, or two. A few buffers become longer than the program takes.
pub fn sometimes(random: &mut Random, adapter: &Adapter, request: &mut Request) {
    match random.below(12) {
        0..=7 => {}
        8 | 9 => in_body(random, adapter, request),
        10 => in_header(random, request),
        _ => {
            in_either(random, adapter, request);
            in_either(random, adapter, request);
        }
    }
    if random.one_in(60) {
        length::lengthen(random, request);
    }
}

pub fn in_either(random: &mut Random, adapter: &Adapter, request: &mut Request) {
    if random.one_in(2) {
        in_body(random, adapter, request);
    } else {
        in_header(random, request);
    }
}

/// A fault in the header, beside it or in the buffer's length.
fn in_header(random: &mut Random, request: &mut Request) {
    if request.is_short() {
        return;
    }
    let buffer = &mut request.buffer;
    match random.below(8) {
        0..=2 => match &mut request.header {
            Header::First => header::in_first(random, buffer),
            Header::Linux { control } => header::in_linux(random, control, buffer),
        },
        3 | 4 => length::wrong(random, request),
        5 => buffer.truncate(random.below(request.header.size())),
        6 => buffer.truncate(random.below(buffer.len())),
        _ => {
            let more = random.within(1, 64);
            buffer.extend(random.bytes(more));
        }
    }
}

/// A fault in the body, by the request's code.
fn in_body(random: &mut Random, adapter: &Adapter, request: &mut Request) {
    if !request.is_short() {
        let control = request.control();
        of_body(random, adapter, control, request.body_mut());
    }
}
