//! W-204's one statement: of codes 1, 2, 3, 20, 22, 26, 27, 28 and 30 "none alters the state or the medium, but for the reset of W-202",
//! refused or granted, with either header and at every level. The reset is of the counters of the phy that a granted code 22 with reset
//! byte 1 names. Nor do they alter the stage of W-207.

use crate::adapter::damage::{self, Damage};
use crate::adapter::form::Form;
use crate::adapter::Adapter;
use crate::lent::Lent;
use crate::names::link_error::RESET_COUNTS;
use crate::names::{call, code, link_errors as at, phy, state, status};
use crate::random::Random;
use crate::request::{fault, first, linux, Header, Request};
use crate::side::{return_code, Side};
use crate::text::LEVELS;
use crate::{medium, stage};

/// The codes that it speaks of.
pub const REPORTING: [u32; 9] = [
    code::DRIVER_INFO,
    code::CNTLR_CONFIG,
    code::CNTLR_STATUS,
    code::PHY_INFO,
    code::LINK_ERRORS,
    code::SATA_SIGNATURE,
    code::SCSI_ADDRESS,
    code::DEVICE_ADDRESS,
    code::CONNECTOR_INFO,
];

/// Whether it speaks of a request. A buffer that is too short for the first header has no code.
fn speaks_of(request: &Request) -> bool {
    match request.header {
        Header::First if request.is_short() => true,
        _ => REPORTING.contains(&request.control()),
    }
}

/// A request of one of these codes, with either header; one in three has a fault.
pub fn any(random: &mut Random, adapter: &Adapter) -> Request {
    loop {
        let control = random.pick(&REPORTING);
        let sound = random.pick(&[first::sound, linux::sound]);
        let mut request = sound(random, adapter, control);
        fault::sometimes(random, adapter, &mut request);
        if speaks_of(&request) {
            return request;
        }
    }
}

/// The phy whose counters a request resets, if it is granted.
pub fn resets(header: Header, request: &[u8]) -> Option<usize> {
    let body = header.body(request);
    let resets = header.control(request) == code::LINK_ERRORS && body[at::RESET] == RESET_COUNTS;
    resets.then(|| usize::from(body[at::PHY]))
}

/// Clears the counters of phy n in a state.
pub fn clear(state: &mut [u8], n: usize) {
    let start = state::phy_at(n);
    state[start + phy::COUNTERS..start + phy::SIGNATURE].fill(0);
}

/// What a request got: its code, if it has one, the call's number and the return code; and whether it was a reset.
pub struct Answer {
    pub control: Option<u32>,
    pub linux: bool,
    pub level: u8,
    pub number: u32,
    pub code: u32,
    pub reset: bool,
}

/// Checks the statement on one side. What is lent is then as the request leaves it.
pub fn check(side: Side, lent: &mut Lent, request: &Request) -> Result<Answer, String> {
    let mut expected = lent.clone();
    let header = request.header;
    let (number, reply) = lent.request(side, request);
    let code = return_code(number, header, &reply);
    let granted = number == call::DONE && code == status::SUCCESS;
    let reset = granted.then(|| resets(header, &request.buffer)).flatten();
    if let Some(n) = reset {
        clear(&mut expected.state, n);
    }
    if lent.state != expected.state {
        return Err("the state is altered".to_string());
    }
    if lent.medium != expected.medium {
        return Err("the medium is altered".to_string());
    }
    if lent.stage != expected.stage {
        return Err("the stage is altered".to_string());
    }
    Ok(Answer {
        control: (!request.is_short()).then(|| request.control()),
        linux: header.is_linux(),
        level: lent.level(),
        number,
        code,
        reset: reset.is_some(),
    })
}

/// So many requests one after the other on one side, each at any level; some to a state that breaks a rule, or with a medium or a stage of
/// another length, which the others do not see.
pub fn walk(
    side: Side,
    seed: u64,
    count: usize,
    mut met: impl FnMut(Answer),
) -> Result<(), String> {
    let random = &mut Random::new(seed);
    let adapter = Adapter::sound(random);
    let broken = damage::all(Form::State);
    let mut lent = Lent::of(random, &adapter, 0);
    for n in 0..count {
        let level = random.pick(&LEVELS);
        lent.state[state::LEVEL] = level;
        let request = any(random, &adapter);
        let answer = match random.below(8) {
            0 => check(
                side,
                &mut refused(random, &adapter, &broken, level),
                &request,
            ),
            _ => check(side, &mut lent, &request),
        };
        met(answer.map_err(|what| format!("request {}, level {level}: {what}", n + 1))?);
    }
    Ok(())
}

/// A state with a broken rule, or a sound one with a wrong medium or stage.
fn refused(random: &mut Random, adapter: &Adapter, broken: &[&Damage], level: u8) -> Lent {
    let mut lent = Lent::of(random, adapter, level);
    match random.pick(broken).state(random, adapter, level) {
        Some(state) => lent.state = state,
        None if random.one_in(2) => lent.stage = stage::of_wrong_length(random),
        None => lent.medium = medium::of_wrong_length(random, adapter.phys.len()),
    }
    lent
}
