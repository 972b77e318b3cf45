//! Firmware as W-207 words it: what a code 4 asks for, what it gets, and what is staged and runs after it. It is worked out from the file,
//! the stage at the start, the requests as sent and their replies, not by the model.

mod claims;
mod followed;
mod lender;
mod walk;

pub use claims::{check, check_each, check_request, check_unread};
pub use followed::Firmware;
pub use lender::{places, Lender};
pub use walk::walk;

use crate::adapter::check as block_check;
use crate::case::Exchange;
use crate::names::file::{BLOCK, CHECK};
use crate::names::firmware::{self as at, FWD_VALIDATE, MAX_BLOCKS};
use crate::names::{call, code, status};
use crate::need::passes_header;
use crate::request::{Header, Request};
use crate::side::return_code;
use crate::wire::word;

/// What a code 4 past its header's checks asks for.
#[derive(Clone, Copy, Debug, PartialEq, Eq, PartialOrd, Ord)]
pub enum Asked {
    /// With the flag, 1 to 32 blocks whose checks are right.
    Validation,
    /// With the flag, 1 to 32 blocks, and a wrong check among them.
    WrongImage,
    /// With the flag, any other length.
    WrongLength,
    /// Bytes without the flag.
    Bytes,
    /// Neither the flag nor bytes.
    Commit,
}

impl Asked {
    fn of_body(body: &[u8]) -> Self {
        let image = image(body);
        let validates = word(body, at::FLAGS) & FWD_VALIDATE != 0;
        match validates {
            false if image.is_empty() => Asked::Commit,
            false => Asked::Bytes,
            true if !is_image_length(image.len()) => Asked::WrongLength,
            true if !is_sealed(image) => Asked::WrongImage,
            true => Asked::Validation,
        }
    }

    /// Of a request that is a code 4 past its header's checks.
    pub fn of_request(header: Header, request: &[u8]) -> Option<Self> {
        let passes =
            passes_header(header, request) && header.control(request) == code::FIRMWARE_DOWNLOAD;
        passes.then(|| Asked::of_body(header.body(request)))
    }

    /// Of one that was answered.
    pub fn of_exchange(exchange: &Exchange) -> Option<Self> {
        let answered = exchange.number == call::DONE;
        answered
            .then(|| Asked::of_request(exchange.header, exchange.request))
            .flatten()
    }
}

/// bDataBuffer of a body past the header's checks.
fn image(body: &[u8]) -> &[u8] {
    &body[at::DATA..][..word(body, at::BUFFER_LENGTH) as usize]
}

/// "1 to 32 blocks".
fn is_image_length(length: usize) -> bool {
    length.is_multiple_of(BLOCK) && (1..=MAX_BLOCKS).contains(&(length / BLOCK))
}

/// "in the file's block form": each block has the check of its number.
fn is_sealed(image: &[u8]) -> bool {
    let mut blocks = image.chunks(BLOCK).enumerate();
    blocks.all(|(number, block)| word(block, CHECK) == block_check(block, number))
}

/// Whether a request was a validation that was granted, the only one that may change the stage.
pub fn is_granted_validation(request: &Request, number: u32, reply: &[u8]) -> bool {
    let header = request.header;
    number == call::DONE
        && return_code(number, header, reply) == status::SUCCESS
        && Asked::of_request(header, &request.buffer) == Some(Asked::Validation)
}
