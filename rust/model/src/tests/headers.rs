//! The two headers, for tests of what a request does behind either.

use super::{adapter, linux};
use crate::{request, request_linux, State};

/// A call with either header: its number. The control code beside the buffer is the Linux header's.
type Call = fn(&mut State, &mut [u8], &mut [u8], u32, &mut [u8]) -> u32;

/// A header, and a request with it.
#[derive(Clone, Copy)]
pub struct Header {
    pub size: usize,
    /// Where the return code stands.
    pub code_at: usize,
    /// A sound buffer of a code with this body.
    pub buffer: fn(u32, &[u8]) -> Vec<u8>,
    pub request: Call,
    /// The lowest level at which it serves what needs Restricted.
    pub lowest: u8,
}

pub const FIRST: Header = Header {
    size: 28,
    code_at: 20,
    buffer: adapter::buffer,
    request: |state, medium, stage, _, buffer| request(state, medium, stage, buffer),
    lowest: 1,
};

pub const LINUX: Header = Header {
    size: 20,
    code_at: 8,
    buffer: |_, body| linux::buffer(body),
    request: request_linux,
    lowest: 0,
};

impl Header {
    pub fn return_code(&self, buffer: &[u8]) -> u32 {
        u32::from_le_bytes(buffer[self.code_at..][..4].try_into().unwrap())
    }

    /// A sound request of the code with this body: its return code, and the body afterwards. Of the
    /// header only the code's bytes change; of the rest, nothing if the code isn't 0.
    pub fn answer(
        &self,
        state: &mut State,
        medium: &mut [u8],
        stage: &mut [u8],
        code: u32,
        body: &[u8],
    ) -> (u32, Vec<u8>) {
        let before = (state.clone(), medium.to_vec(), stage.to_vec());
        let sent = (self.buffer)(code, body);
        let mut buffer = sent.clone();
        assert_eq!((self.request)(state, medium, stage, code, &mut buffer), 0);
        let answered = self.return_code(&buffer);
        let header = self.with_code(sent, answered)[..self.size].to_vec();
        assert_eq!(buffer[..self.size], header);
        let reply = buffer.split_off(self.size);
        if answered != 0 {
            assert_eq!(
                (&*state, &*medium, &reply[..]),
                (&before.0, &before.1[..], body)
            );
            assert_eq!(*stage, before.2);
        }
        (answered, reply)
    }

    /// The buffer with this return code.
    pub fn with_code(&self, mut buffer: Vec<u8>, code: u32) -> Vec<u8> {
        buffer[self.code_at..][..4].copy_from_slice(&code.to_le_bytes());
        buffer
    }
}
