//! The two headers of a request, and where each has its fields.

use crate::names::{header as first, linux_header as linux};
use crate::wire::word;

#[derive(Clone, Copy, Debug, PartialEq, Eq)]
pub enum Header {
    /// The first header, SRB_IO_CONTROL, which holds the control code.
    First,
    /// The Linux header; the control code is handed in beside the buffer.
    Linux { control: u32 },
}

impl Header {
    pub fn is_linux(self) -> bool {
        self != Header::First
    }

    pub fn size(self) -> usize {
        match self {
            Header::First => first::SIZE,
            Header::Linux { .. } => linux::SIZE,
        }
    }

    /// Where the return code stands.
    pub fn return_code(self) -> usize {
        match self {
            Header::First => first::RETURN_CODE,
            Header::Linux { .. } => linux::RETURN_CODE,
        }
    }

    /// Where Length stands.
    pub fn length(self) -> usize {
        match self {
            Header::First => first::LENGTH,
            Header::Linux { .. } => linux::LENGTH,
        }
    }

    /// How many bytes of the header Length counts.
    pub fn counted(self) -> usize {
        match self {
            Header::First => 0,
            Header::Linux { .. } => linux::SIZE,
        }
    }

    /// The control code of a request whose buffer has its header.
    pub fn control(self, buffer: &[u8]) -> u32 {
        match self {
            Header::First => word(buffer, first::CONTROL_CODE),
            Header::Linux { control } => control,
        }
    }

    /// What follows the header, in a request or a reply.
    pub fn body(self, buffer: &[u8]) -> &[u8] {
        &buffer[self.size()..]
    }
}
