//! What a caller lends to a request, and what it leaves of it.

use crate::adapter::Adapter;
use crate::names::{state, STAGE};
use crate::random::Random;
use crate::request::Request;
use crate::side::Side;

#[derive(Clone, PartialEq, Eq)]
pub struct Lent {
    pub state: Vec<u8>,
    pub medium: Vec<u8>,
    pub stage: Vec<u8>,
}

impl Lent {
    /// An adapter's state at a level, with any medium and stage.
    pub fn of(random: &mut Random, adapter: &Adapter, level: u8) -> Self {
        Lent {
            state: adapter.state(level),
            medium: random.bytes(adapter.medium_length()),
            stage: random.bytes(STAGE),
        }
    }

    /// The level; 0 of a state that is too short for one.
    pub fn level(&self) -> u8 {
        self.state.get(state::LEVEL).copied().unwrap_or_default()
    }

    /// One request on a side: the call's number and the reply.
    pub fn request(&mut self, side: Side, request: &Request) -> (u32, Vec<u8>) {
        let mut reply = request.buffer.clone();
        let (state, medium, stage) = (&mut self.state, &mut self.medium, &mut self.stage);
        let number = side.request(request.header, state, medium, stage, &mut reply);
        (number, reply)
    }
}
