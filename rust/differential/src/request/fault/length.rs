//! Length: wrong ones, and buffers that are longer than need be.

use crate::names::{body_size, code, firmware, linux_header, stp, PROGRAM_LONGEST};
use crate::random::Random;
use crate::request::Request;
use crate::wire::put_word;

/// A Length that is short, beyond the buffer, with or without the header, or near the end of 32 bits; or one that is still right.
pub fn wrong(random: &mut Random, request: &mut Request) {
    let counted = request.header.counted() as u32;
    let header = request.header.size() as u32;
    let size = body_size(request.control()).unwrap_or(0) as u32;
    let inside = request.body().len() as u32;
    let chosen = random.pick(&[
        0,
        linux_header::RETURN_CODE as u32 + 3,
        linux_header::TIMEOUT as u32,
        size,
        (counted + size).saturating_sub(1),
        counted + size,
        inside,
        (counted + inside).saturating_sub(1),
        counted + inside + 1,
        counted + inside + header,
        u32::MAX - header + 1,
        u32::MAX - header,
        u32::MAX,
    ]);
    put(request, chosen);
    if random.one_in(4) {
        let more = random.within(1, 40);
        request.buffer.extend(random.bytes(more));
        put(request, counted + inside + more as u32);
    }
}

fn put(request: &mut Request, length: u32) {
    put_word(&mut request.buffer, request.header.length(), length);
}

/// Bytes behind the buffer, up to a length near the program's limit or above it; sometimes Length takes them in, and of a passthrough
/// uDataLength, of a download uBufferLength. No rule forbids them but of a download, whose image is then too long.
pub fn lengthen(random: &mut Random, request: &mut Request) {
    let length = random.pick(&[
        PROGRAM_LONGEST - 1,
        PROGRAM_LONGEST,
        PROGRAM_LONGEST + 1,
        2 * PROGRAM_LONGEST + 1,
        100_000,
    ]);
    let more = length.saturating_sub(request.buffer.len());
    request.buffer.extend(random.bytes(more));
    if random.one_in(2) {
        return;
    }
    let inside = request.body().len();
    put(request, (request.header.counted() + inside) as u32);
    let (place, structure) = match request.control() {
        code::FIRMWARE_DOWNLOAD => (firmware::BUFFER_LENGTH, firmware::DATA),
        code::STP_PASSTHRU => (stp::DATA_LENGTH, stp::DATA),
        _ => return,
    };
    if random.one_in(2) {
        put_word(request.body_mut(), place, (inside - structure) as u32);
    }
}
