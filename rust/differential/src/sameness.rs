//! Sameness (W-201): "on the same adapter and medium, a request passing its header's checks gets the same return code, body, medium and state
//! (but the level) as one with the same code and body that passes the other header's checks, at Full".

use crate::adapter::Adapter;
use crate::lent::Lent;
use crate::names::{body_size, call, data_length, state};
use crate::need::passes_header;
use crate::random::Random;
use crate::request::{any_code, fault, first, linux, sound, Request};
use crate::side::{return_code, Side};
use crate::text::{FULL, LEVELS};
use crate::wire::put_word;

/// One code and body behind each header, both of which pass their header's checks. The two Lengths need not agree.
pub struct Twins {
    pub first: Request,
    pub linux: Request,
}

impl Twins {
    /// None if no Length lets the body through.
    pub fn of(random: &mut Random, control: u32, body: &[u8]) -> Option<Self> {
        let least = least_length(control, body).filter(|&least| least <= body.len())?;
        let mut twins = Twins {
            first: first::of_body(control, body),
            linux: linux::of_body(control, body),
        };
        first::fill(random, &mut twins.first);
        linux::fill(random, &mut twins.linux);
        for request in [&mut twins.first, &mut twins.linux] {
            let length = request.header.counted() + random.within(least, body.len());
            put_word(&mut request.buffer, request.header.length(), length as u32);
            assert!(passes_header(request.header, &request.buffer));
        }
        Some(twins)
    }

    /// Twins of any code; the body is sound, or has a fault, and at times is longer than need be.
    pub fn any(random: &mut Random, adapter: &Adapter) -> Self {
        loop {
            let control = any_code(random);
            let mut body = sound::body(random, adapter, control);
            if random.one_in(3) {
                fault::of_body(random, adapter, control, &mut body);
            }
            if random.one_in(3) {
                let more = random.within(1, 60);
                body.extend(random.bytes(more));
            }
            if let Some(twins) = Twins::of(random, control, &body) {
                return twins;
            }
        }
    }
}

/// The smallest Length without header: the structure, and of codes 4 and 25 their data. None if the structure is cut.
fn least_length(control: u32, body: &[u8]) -> Option<usize> {
    let size = body_size(control).filter(|&size| size <= body.len())?;
    Some(size + data_length(control, body))
}

/// One request at a level, which has to stay: the return code and the body of the reply.
fn at_level(
    side: Side,
    level: u8,
    lent: &mut Lent,
    request: &Request,
) -> Result<(u32, Vec<u8>), String> {
    lent.state[state::LEVEL] = level;
    let header = request.header;
    let (number, reply) = lent.request(side, request);
    if number != call::DONE {
        return Err(format!("call's number {number}"));
    }
    if lent.level() != level {
        return Err("the level changes".to_string());
    }
    Ok((
        return_code(number, header, &reply),
        header.body(&reply).to_vec(),
    ))
}

/// Checks the claim on one side, the Linux request in a state of this level. Gives the return code; what is lent is then as both leave it.
pub fn check(side: Side, level: u8, lent: &mut Lent, twins: &Twins) -> Result<u32, String> {
    let mut other = lent.clone();
    let (code, body) = at_level(side, FULL, lent, &twins.first)?;
    let (linux_code, linux_body) = at_level(side, level, &mut other, &twins.linux)?;
    other.state[state::LEVEL] = FULL;
    let parts = [
        ("return codes", code == linux_code),
        ("bodies", body == linux_body),
        ("states", lent.state == other.state),
        ("media", lent.medium == other.medium),
        ("stages", lent.stage == other.stage),
    ];
    match parts.iter().find(|(_, same)| !same) {
        None => Ok(code),
        Some((what, _)) => Err(format!("the {what} differ")),
    }
}

/// What twins got: the level of the Linux request, the control code and the return code.
pub struct Answer {
    pub level: u8,
    pub control: u32,
    pub code: u32,
}

/// So many twins one after the other on one adapter of a side, each at any level, with what the ones before left.
pub fn walk(
    side: Side,
    seed: u64,
    count: usize,
    mut met: impl FnMut(Answer),
) -> Result<(), String> {
    let random = &mut Random::new(seed);
    let adapter = Adapter::sound(random);
    let mut lent = Lent::of(random, &adapter, FULL);
    for n in 0..count {
        let twins = Twins::any(random, &adapter);
        let (level, control) = (random.pick(&LEVELS), twins.first.control());
        let code = check(side, level, &mut lent, &twins)
            .map_err(|what| format!("body {}, code {control}, level {level}: {what}", n + 1))?;
        met(Answer {
            level,
            control,
            code,
        });
    }
    Ok(())
}
