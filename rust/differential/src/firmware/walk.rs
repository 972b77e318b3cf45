//! Requests one after the other on one side, each held against W-207's statements.

use super::{check_request, check_unread, Asked};
use crate::adapter::Adapter;
use crate::lent::Lent;
use crate::names::{code, state};
use crate::random::Random;
use crate::request::{self, fault, first, linux, Request};
use crate::side::Side;
use crate::stage;
use crate::text::LEVELS;

/// What a request was answered: whether it has the Linux header, the level, and, of a code 4 past its header's checks, what it asked for and
/// its return code.
pub struct Answer {
    pub linux: bool,
    pub level: u8,
    pub firmware: Option<(Asked, u32)>,
}

/// So many requests, each at any level and with another stage too; some with stages of another length, which the others do not see.
pub fn walk(
    side: Side,
    seed: u64,
    count: usize,
    mut met: impl FnMut(Answer),
) -> Result<(), String> {
    let random = &mut Random::new(seed);
    let adapter = Adapter::sound(random);
    let mut lent = Lent::of(random, &adapter, 0);
    for n in 0..count {
        let level = random.pick(&LEVELS);
        lent.state[state::LEVEL] = level;
        let request = any(random, &adapter);
        let firmware = one(random, side, &mut lent, &request)
            .map_err(|what| format!("request {}, level {level}: {what}", n + 1))?;
        met(Answer {
            linux: request.header.is_linux(),
            level,
            firmware,
        });
    }
    Ok(())
}

/// A code 4 every second time, with either header.
fn any(random: &mut Random, adapter: &Adapter) -> Request {
    if random.one_in(2) {
        return request::any(random, adapter);
    }
    let sound = random.pick(&[first::sound, linux::sound]);
    let mut request = sound(random, adapter, code::FIRMWARE_DOWNLOAD);
    fault::sometimes(random, adapter, &mut request);
    request
}

fn one(
    random: &mut Random,
    side: Side,
    lent: &mut Lent,
    request: &Request,
) -> Result<Option<(Asked, u32)>, String> {
    if random.one_in(8) {
        let mut wrong = lent.clone();
        wrong.stage = stage::of_wrong_length(random);
        let other = random.bytes(wrong.stage.len());
        check_unread(side, &mut wrong, &other, request)?;
    }
    let other = random.bytes(lent.stage.len());
    check_unread(side, &mut lent.clone(), &other, request)?;
    check_request(side, lent, request)
}
