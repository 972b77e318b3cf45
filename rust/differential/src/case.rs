//! A case: everything that a run gets, and everything that it gives.

use crate::names::record;
use crate::request::{Header, Request};
use crate::session::Framing;
use crate::stage;
use crate::wire::word;

#[derive(Clone)]
pub struct Case {
    pub seed: u64,
    pub text: Vec<u8>,
    pub file: Vec<u8>,
    pub medium: Vec<u8>,
    pub stage: Vec<u8>,
    pub framing: Framing,
    pub session: Vec<u8>,
    /// The record as it is before.
    pub record: Vec<u8>,
}

#[derive(Clone, PartialEq, Eq)]
pub struct Outcome {
    pub opening: u32,
    pub handled: usize,
    pub medium: Vec<u8>,
    pub stage: Vec<u8>,
    pub session: Vec<u8>,
    pub record: Vec<u8>,
    /// The state at the end; the library's run keeps its own inside.
    pub state: Option<Vec<u8>>,
}

/// A request as sent, and its reply: the call's number, the recorded return code and the whole buffer.
pub struct Exchange<'a> {
    pub header: Header,
    pub request: &'a [u8],
    pub number: u32,
    pub code: u32,
    pub reply: &'a [u8],
}

impl Exchange<'_> {
    /// The request, to be sent again.
    pub fn sent(&self) -> Request {
        Request {
            header: self.header,
            buffer: self.request.to_vec(),
        }
    }
}

impl Case {
    /// A case whose record has room for every request; its stage goes with the seed.
    pub fn of_requests(
        seed: u64,
        text: &[u8],
        file: &[u8],
        medium: &[u8],
        requests: &[Request],
    ) -> Self {
        let framing = Framing::of(requests);
        Case {
            seed,
            text: text.to_vec(),
            file: file.to_vec(),
            medium: medium.to_vec(),
            stage: stage::of_seed(seed),
            framing,
            session: framing.join(requests),
            record: vec![0x5A; record::SIZE * requests.len()],
        }
    }

    /// The requests that were handled, with their replies.
    pub fn exchanges<'a>(&'a self, outcome: &'a Outcome) -> Vec<Exchange<'a>> {
        let requests = self.framing.split(&self.session, outcome.handled);
        let replies = self.framing.split(&outcome.session, outcome.handled);
        let pairs = requests.into_iter().zip(replies);
        let lines = outcome.record.chunks_exact(record::SIZE);
        pairs
            .zip(lines)
            .map(|(((header, request), (_, reply)), line)| Exchange {
                header,
                request,
                number: word(line, record::NUMBER),
                code: word(line, record::CODE),
                reply,
            })
            .collect()
    }
}
