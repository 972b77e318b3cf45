//! Code 4, firmware download.

use crate::adapter::seal;
use crate::names::file::{BLOCK, CHECK};
use crate::names::firmware::{
    BUFFER_LENGTH, DATA, FLAGS, FWD_VALIDATE, MAX_BLOCKS, SEVERITY, STATUS,
};
use crate::names::REVISIONS;
use crate::random::Random;
use crate::wire::put_word;

#[derive(Clone)]
pub struct Download {
    pub flags: u32,
    pub buffer_length: u32,
    /// bDataBuffer, which may be longer or shorter than its length says.
    pub data: Vec<u8>,
}

impl Download {
    /// Mostly a validation of a valid image or a commit.
    pub fn any(random: &mut Random) -> Self {
        match random.below(14) {
            0..=5 => Self::validation(random),
            6..=11 => Self::commit(random),
            12 => {
                let data = of_wrong_length(random);
                Self::validation_of(random, data)
            }
            _ => {
                let length = random.pick(&[1, BLOCK - 1, BLOCK, MAX_BLOCKS * BLOCK]);
                let data = random.bytes(length);
                Self::without_flag(random, data)
            }
        }
    }

    /// Of a valid image.
    pub fn validation(random: &mut Random) -> Self {
        let blocks = any_blocks(random);
        let image = image(random, blocks);
        Self::validation_of(random, image)
    }

    pub fn validation_of(random: &mut Random, data: Vec<u8>) -> Self {
        Self::of(random.word() | FWD_VALIDATE, data)
    }

    pub fn commit(random: &mut Random) -> Self {
        Self::without_flag(random, Vec::new())
    }

    /// A commit, or, with data, what is none.
    pub fn without_flag(random: &mut Random, data: Vec<u8>) -> Self {
        Self::of(random.word() & !FWD_VALIDATE, data)
    }

    pub fn of(flags: u32, data: Vec<u8>) -> Self {
        Download {
            flags,
            buffer_length: data.len() as u32,
            data,
        }
    }

    /// The body; status, severity and the reserved bytes hold anything, and never 0 where it is written.
    pub fn body(&self, random: &mut Random) -> Vec<u8> {
        let mut body = random.bytes(DATA);
        put_word(&mut body, BUFFER_LENGTH, self.buffer_length);
        put_word(&mut body, FLAGS, self.flags);
        for at in [STATUS, STATUS + 1, SEVERITY, SEVERITY + 1] {
            body[at] |= 1;
        }
        body.extend(&self.data);
        body
    }
}

/// A number of blocks that an image may have; often a small one.
fn any_blocks(random: &mut Random) -> usize {
    match random.below(6) {
        0 => random.within(1, MAX_BLOCKS),
        1 => random.pick(&[1, 2, MAX_BLOCKS - 1, MAX_BLOCKS]),
        _ => random.within(1, 3),
    }
}

/// An image of so many blocks, with their checks; its revisions may be 0.
pub fn image(random: &mut Random, blocks: usize) -> Vec<u8> {
    let mut image = random.bytes(BLOCK * blocks);
    if random.one_in(8) {
        image[..REVISIONS].fill(0);
    }
    seal(&mut image);
    image
}

/// Valid blocks, of another length than 1 to 32 of them.
fn of_wrong_length(random: &mut Random) -> Vec<u8> {
    let blocks = random.pick(&[1, 2, MAX_BLOCKS, MAX_BLOCKS + 1]);
    let mut data = image(random, blocks);
    match random.below(4) {
        0 => data.clear(),
        1 => data.truncate(data.len() - random.pick(&[1, BLOCK - CHECK, BLOCK - 1])),
        2 => {
            let more = random.pick(&[1, BLOCK - CHECK, BLOCK - 1]);
            data.extend(random.bytes(more));
        }
        _ => data = image(random, MAX_BLOCKS + 1),
    }
    data
}
