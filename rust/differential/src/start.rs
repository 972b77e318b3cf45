//! What two runs start with, and their levels.

use crate::lent::Lent;
use crate::names::{call, state, STAGE};
use crate::need;
use crate::random::Random;
use crate::request::{Header, Request};
use crate::side::Side;
use crate::text;

/// A level, and a text that gives it.
pub struct Level {
    pub number: u8,
    pub text: Vec<u8>,
}

impl Level {
    pub fn of_number(random: &mut Random, number: u8) -> Self {
        Level {
            number,
            text: text::of_level(random, number),
        }
    }
}

/// What both runs start with, and the lower run's list.
pub struct Start<'a> {
    pub seed: u64,
    pub file: &'a [u8],
    pub medium: &'a [u8],
    pub stage: &'a [u8],
    pub requests: &'a [Request],
}

impl Start<'_> {
    /// The opening by the call, over a state of other bytes: its number, and what is lent from then on.
    pub fn opened(&self, side: Side, level: &Level) -> (u32, Lent) {
        let mut lent = Lent {
            state: vec![0x5A; state::SIZE],
            medium: self.medium.to_vec(),
            stage: self.stage.to_vec(),
        };
        let number = side.open(&level.text, self.file, self.medium, &mut lent.state);
        (number, lent)
    }

    /// Whether a request is denied at a level after this opening. With a stage of another length none is.
    pub fn denied(&self, opening: u32, level: &Level, header: Header, request: &[u8]) -> bool {
        opening == call::DONE
            && self.stage.len() == STAGE
            && need::denied(level.number, header, request)
    }
}
