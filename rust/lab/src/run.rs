//! One run: an adapter opened at a level, and requests one after the other, each by the library's call for its header.

use crate::answer::Answer;
use crate::state;
use labkit::report::Totals;
use labkit::session::{Header, Request};
use library::record::NO_CODE;

/// A run as far as it has come.
#[derive(Clone)]
pub struct Run {
    /// `low`, `high`, or the level's name where all four run.
    pub name: &'static str,
    /// The number of the opening, 0 if it is accepted.
    pub opening: u32,
    pub state: Vec<u8>,
    pub medium: Vec<u8>,
    /// Where the library stages firmware, zero at the start of every run.
    pub stage: Vec<u8>,
    /// The header of the last request, and its reply: the call's number and the whole buffer.
    pub header: Header,
    pub call: u32,
    pub reply: Vec<u8>,
    /// A line for each request, as the library's runs record it.
    pub record: Vec<u8>,
}

impl Run {
    pub fn open(name: &'static str, text: &[u8], adapter: &[u8], medium: &[u8]) -> Run {
        let mut opened = vec![0; library::STATE_SIZE];
        Run {
            name,
            opening: library::open(text, adapter, medium, &mut opened),
            state: opened,
            medium: medium.to_vec(),
            stage: vec![0; library::STAGE_SIZE],
            header: Header::Srb,
            call: 0,
            reply: Vec::new(),
            record: Vec::new(),
        }
    }

    /// The level that the library read from the text.
    pub fn level(&self) -> u8 {
        self.state[state::LEVEL]
    }

    /// Handles a request, in a buffer of its own.
    pub fn handle(&mut self, request: &Request) {
        self.header = request.header;
        self.reply.clear();
        self.reply.extend_from_slice(request.buffer);
        let (state, medium, stage) = (&mut self.state, &mut self.medium, &mut self.stage);
        let reply = &mut self.reply;
        self.call = match request.header {
            Header::Srb => library::request(state, medium, stage, reply),
            Header::Linux { control } => {
                library::request_linux(state, medium, stage, control, reply)
            }
        };
        let code = self.answer().code.unwrap_or(NO_CODE);
        let line = [self.call, code].map(u32::to_le_bytes);
        self.record.extend_from_slice(line.as_flattened());
    }

    pub fn answer(&self) -> Answer {
        Answer::of(self.header, self.call, &self.reply)
    }

    /// What its requests came to: the library's tally of the record.
    pub fn tally(&self) -> Totals {
        Totals(library::Totals::of_record(&self.record).in_order())
    }

    /// How many blocks of the stage are not as at the start. A block that an image puts there is not zero: its check sees to that.
    pub fn written(&self) -> usize {
        let blocks = self.stage.chunks(state::BLOCK);
        blocks.filter(|block| **block != [0; state::BLOCK]).count()
    }

    /// Takes the state, the medium and the stage of another run.
    pub fn become_like(&mut self, other: &Run) {
        self.state.clone_from(&other.state);
        self.medium.clone_from(&other.medium);
        self.stage.clone_from(&other.stage);
    }

    /// Whether the last replies of two runs are the same: the call's number and the whole buffer.
    pub fn replied_as(&self, other: &Run) -> bool {
        self.call == other.call && self.reply == other.reply
    }

    /// Whether two runs left the same: every byte of the state but the level, of the medium and of the stage.
    pub fn left_as(&self, other: &Run) -> bool {
        self.state[state::LEVEL + 1..] == other.state[state::LEVEL + 1..]
            && self.medium == other.medium
            && self.stage == other.stage
    }
}
