//! Which requests document 01 calls denied, and which granted; the need of code 22 is W-202's, that of code 4 W-207's.

use crate::case::Exchange;
use crate::names::direction::{DATA_READ, DATA_WRITE};
use crate::names::link_error::RESET_COUNTS;
use crate::names::{
    body_size, call, code, data_length, header as first, link_errors, linux_header, signature,
    status, stp,
};
use crate::request::{fis, Header};
use crate::text::{FULL, LIMITED, RESTRICTED};
use crate::wire::word;

/// The commands of Table 8 that Restricted may do.
const RESTRICTED_COMMANDS: [u8; 23] = [
    0x00, 0x20, 0x24, 0x25, 0x26, 0x27, 0x29, 0x2F, 0x40, 0x42, 0x70, 0x90, 0xA1, 0xB0, 0xC4, 0xC7,
    0xC8, 0xE4, 0xE5, 0xE7, 0xEA, 0xEC, 0xF8,
];
const LIMITED_COMMANDS: [u8; 2] = [0x92, 0xE8];

/// The lowest level that may do a command.
fn of_command(command: u8) -> u8 {
    if RESTRICTED_COMMANDS.contains(&command) {
        RESTRICTED
    } else if LIMITED_COMMANDS.contains(&command) {
        LIMITED
    } else {
        FULL
    }
}

/// The lowest level that may do a request with the first header, whose body is whole.
fn of_request(control: u32, body: &[u8]) -> u8 {
    match control {
        code::FIRMWARE_DOWNLOAD => LIMITED,
        code::SET_PHY_INFO => FULL,
        code::LINK_ERRORS if body[link_errors::RESET] == RESET_COUNTS => FULL,
        code::STP_PASSTHRU => of_command(body[stp::COMMAND_FIS + fis::COMMAND]),
        _ => RESTRICTED,
    }
}

/// Whether a request passes all checks before the level and needs more than this one, after an accepted opening. Those with the Linux
/// header "are never denied".
pub fn denied(level: u8, header: Header, request: &[u8]) -> bool {
    header == Header::First
        && passes_header(header, request)
        && of_request(header.control(request), header.body(request)) > level
}

/// Whether a request passes its header's checks: all that come before the level.
pub fn passes_header(header: Header, request: &[u8]) -> bool {
    request.len() >= header.size()
        && passes_fields(header, request)
        && passes_length(header, request)
}

fn passes_fields(header: Header, request: &[u8]) -> bool {
    match header {
        Header::First => {
            let named = &request[first::SIGNATURE..first::TIMEOUT];
            word(request, first::HEADER_LENGTH) as usize == first::SIZE
                && *named == signature(header.control(request))
        }
        Header::Linux { .. } => {
            let direction = &request[linux_header::DIRECTION..linux_header::IGNORED];
            [DATA_READ, DATA_WRITE]
                .map(u16::to_le_bytes)
                .iter()
                .any(|known| direction == known)
        }
    }
}

/// Whether the code is known, and Length takes in its structure and data and is inside the buffer.
fn passes_length(header: Header, request: &[u8]) -> bool {
    let (control, body) = (header.control(request), header.body(request));
    let Some(size) = body_size(control) else {
        return false;
    };
    let length = word(request, header.length()) as usize;
    let (counted, inside) = (header.counted(), body.len());
    let whole = length >= counted + size && length <= counted + inside;
    whole && length >= counted + size + data_length(control, body)
}

/// Granted: the call's number is 0 and the return code says success, or that the phy info has changed.
pub fn granted(exchange: &Exchange) -> bool {
    exchange.number == call::DONE
        && [status::SUCCESS, status::PHY_INFO_CHANGED].contains(&exchange.code)
}
