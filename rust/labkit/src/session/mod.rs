//! A session: requests one after the other. A request begins with the first header, the 28-byte SRB_IO_CONTROL (4.1.3.1), or with the
//! Linux header (4.2.3.1), and its body is the structure of its control code.

mod describe;
mod firmware;
mod form;
mod header;
mod image;
mod layout;
mod parse;
mod request;

pub use describe::describe_request;
pub use firmware::{in_words as firmware_words, split as split_image};
pub use form::{Form, MOST_REQUEST};
pub use header::{srb, Header, DIRECTION};
pub use image::in_words as image_words;
pub use layout::{
    layout, Layout, CNTLR_CONFIG, CNTLR_STATUS, CONNECTOR_INFO, DOWNLOAD_SEVERITY, DOWNLOAD_STATUS,
    DRIVER_INFO, FIRMWARE_DOWNLOAD, STP_PASSTHRU,
};

use crate::Fault;

/// A request: its header, and its whole buffer.
#[derive(Debug, Clone, Copy, PartialEq, Eq)]
pub struct Request<'a> {
    pub header: Header,
    pub buffer: &'a [u8],
}

impl<'a> Request<'a> {
    /// The control code, if the header is whole.
    pub fn control(&self) -> Option<u32> {
        self.header.control(self.buffer)
    }

    /// What stands behind the header, if that is whole.
    pub fn body(&self) -> Option<&'a [u8]> {
        self.buffer.get(self.header.size()..)
    }
}

/// A session cut into its requests. The tail is what is left behind the last whole request: nothing, or a request that is cut short,
/// oversized or of no header.
#[derive(Debug, PartialEq, Eq)]
pub struct Session<'a> {
    pub form: Form,
    pub requests: Vec<Request<'a>>,
    pub tail: &'a [u8],
}

impl Session<'_> {
    /// How many of the requests have the Linux header.
    pub fn linux(&self) -> usize {
        let linux = |request: &&Request| request.header.is_linux();
        self.requests.iter().filter(linux).count()
    }

    /// Whether nothing is left behind the last request.
    pub fn is_whole(&self) -> bool {
        self.tail.is_empty()
    }

    /// Whether it ends at bytes that begin no request of its form. A request that is cut short begins one.
    pub fn strays(&self) -> bool {
        !self.form.begins(self.tail)
    }
}

/// The session for the program that a description makes.
pub fn parse(text: &str) -> Result<Vec<u8>, Fault> {
    Form::Program.parse(text)
}

/// Cuts a session for the program into its requests.
pub fn split(session: &[u8]) -> Session<'_> {
    Form::Program.split(session)
}
