//! Firmware, validated then made current (W-207): the images that are staged and those that are
//! not, commits, every refusal in its place, what is staged in a state, and runs.

mod commit;
mod damage;
mod flags;
mod order;
mod runs;
mod stage;
mod state;
mod validation;
mod walk;

use super::adapter::{medium, sample, sample_at, sealed, stage as any_stage};
use super::headers::{Header, FIRST, LINUX};
use crate::State;
use std::sync::LazyLock;

/// The revisions of an image, no two bytes alike.
const REVISIONS: [u16; 4] = [0x0201, 0x0403, 0x0605, 0x8007];

/// Others.
const LATER: [u16; 4] = [0x1211, 0x1413, 0xF615, 0x1817];

/// The blocks of an image with these revisions, their checks not yet set; no byte of them is 0.
fn blocks(count: usize, revisions: [u16; 4]) -> Vec<[u8; 512]> {
    let seed = usize::from(revisions[0]);
    let byte = |k, at| 1 + ((seed + 31 * k + 7 * at) % 251) as u8;
    let mut blocks: Vec<[u8; 512]> = (0..count)
        .map(|k| std::array::from_fn(|at| byte(k, at)))
        .collect();
    if let Some(first) = blocks.first_mut() {
        first[..8].copy_from_slice(&revisions.map(u16::to_le_bytes).concat());
    }
    blocks
}

/// A sound image of this many blocks.
pub fn image(count: usize, revisions: [u16; 4]) -> Vec<u8> {
    sealed(blocks(count, revisions))
}

/// The body of a code 4 with these flags and this data; its reserved bytes, status and severity
/// hold anything.
fn body(flags: u32, data: &[u8]) -> Vec<u8> {
    let mut body = vec![0x77; 44];
    body[..4].copy_from_slice(&(data.len() as u32).to_le_bytes());
    body[4..8].copy_from_slice(&flags.to_le_bytes());
    body[40..].copy_from_slice(&[0xE1, 0xE2, 0xE3, 0xE4]);
    body.extend_from_slice(data);
    body
}

/// The body of a validation of this image.
pub fn validation(image: &[u8]) -> Vec<u8> {
    body(1, image)
}

/// The body of a commit.
pub fn commit() -> Vec<u8> {
    body(0, &[])
}

/// An adapter with what is lent to its requests.
#[derive(Clone, PartialEq, Eq, Debug)]
struct Adapter {
    state: State,
    medium: Vec<u8>,
    stage: Vec<u8>,
}

static SAMPLE: LazyLock<Adapter> = LazyLock::new(|| Adapter {
    state: sample(),
    medium: medium(5),
    stage: any_stage(),
});

impl Adapter {
    /// The sample, nothing staged.
    fn new() -> Adapter {
        SAMPLE.clone()
    }

    /// The sample at a level.
    fn at(level: u8) -> Adapter {
        Adapter {
            state: sample_at(level),
            ..Adapter::new()
        }
    }

    /// The return code of a sound code 4 with this body. Granted, it sets status and severity to 0;
    /// no other byte of the body changes, and none if it is refused.
    fn send(&mut self, header: &Header, body: &[u8]) -> u32 {
        let (code, reply) = self.answer(header, 4, body);
        let mut expected = body.to_vec();
        if code == 0 {
            expected[40..44].fill(0);
        }
        assert_eq!(reply, expected);
        code
    }

    /// The reply to a sound request with this body; a refusal changes nothing.
    fn answer(&mut self, header: &Header, code: u32, body: &[u8]) -> (u32, Vec<u8>) {
        let Adapter {
            state,
            medium,
            stage,
        } = self;
        header.answer(state, medium, stage, code, body)
    }

    /// With this image staged.
    fn staging(&self, image: &[u8]) -> Adapter {
        let mut after = self.clone();
        after.stage[..image.len()].copy_from_slice(image);
        after.state.staged = 1;
        after.state.staged_revisions =
            [0, 2, 4, 6].map(|at| u16::from_le_bytes([image[at], image[at + 1]]));
        after
    }

    /// With these revisions running, and nothing staged.
    fn running(&self, revisions: [u16; 4]) -> Adapter {
        let mut after = self.clone();
        let bytes = revisions.map(u16::to_le_bytes).concat();
        after.state.controller_config[133..141].copy_from_slice(&bytes);
        after.state.staged = 0;
        after.state.staged_revisions = [0; 4];
        after
    }

    /// The controller's configuration as code 2 replies it, behind either header.
    fn shown(&self) -> Vec<u8> {
        let [first, linux] = [FIRST, LINUX].map(|header| {
            let mut asked = self.clone();
            asked.state.level = 3;
            let (code, configuration) = asked.answer(&header, 2, &[0xCC; 176]);
            assert_eq!(code, 0);
            configuration
        });
        assert_eq!(first, linux);
        first
    }
}
