//! Requests with either header: sound ones, most of which an adapter grants, and ones with a fault.

pub mod fault;
pub mod firmware;
pub mod first;
pub mod fis;
pub mod header;
pub mod linux;
pub mod passthrough;
pub mod sound;

use crate::adapter::Adapter;
use crate::names::code;
use crate::random::Random;
pub use header::Header;

/// A request as sent: its header, and the whole buffer.
#[derive(Clone, Debug, PartialEq, Eq)]
pub struct Request {
    pub header: Header,
    pub buffer: Vec<u8>,
}

impl Request {
    /// A buffer with the first header.
    pub fn first(buffer: Vec<u8>) -> Self {
        Request {
            header: Header::First,
            buffer,
        }
    }

    /// A control code, and a buffer with the Linux header.
    pub fn linux(control: u32, buffer: Vec<u8>) -> Self {
        Request {
            header: Header::Linux { control },
            buffer,
        }
    }

    /// Whether the buffer is too short for its header.
    pub fn is_short(&self) -> bool {
        self.buffer.len() < self.header.size()
    }

    /// The control code, if the buffer is not too short.
    pub fn control(&self) -> u32 {
        self.header.control(&self.buffer)
    }

    /// The body, if the buffer is not too short.
    pub fn body(&self) -> &[u8] {
        self.header.body(&self.buffer)
    }

    pub fn body_mut(&mut self) -> &mut [u8] {
        &mut self.buffer[self.header.size()..]
    }
}

/// A request of a control code and a body.
pub type OfBody = fn(u32, &[u8]) -> Request;

/// A sound header before a body, each.
pub const HEADERS: [OfBody; 2] = [first::of_body, linux::of_body];

/// A code, the passthrough, the change of a phy and the firmware more often than the others.
pub fn any_code(random: &mut Random) -> u32 {
    match random.below(13) {
        0..=3 => code::STP_PASSTHRU,
        4..=7 => random.pick(&[code::SET_PHY_INFO, code::LINK_ERRORS]),
        8 => code::FIRMWARE_DOWNLOAD,
        _ => random.pick(&code::ALL),
    }
}

/// Any request, with either header.
pub fn any(random: &mut Random, adapter: &Adapter) -> Request {
    if random.one_in(2) {
        first::any(random, adapter)
    } else {
        linux::any(random, adapter)
    }
}
