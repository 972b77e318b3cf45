//! W-207's statements, on runs and by the calls.

use super::{image, is_granted_validation, Asked, Firmware};
use crate::case::{Case, Exchange, Outcome};
use crate::lent::Lent;
use crate::names::firmware::{DATA, STATUS};
use crate::names::{call, status};
use crate::need::denied;
use crate::request::Request;
use crate::side::{return_code, Side};
use crate::start::{Level, Start};
use crate::wire::put_word;

/// On a run: every code 4 gets its return code, codes 2 show the running revisions, and the stage at the end, and the state where the side
/// shows it, are what the granted codes 4 left. Gives how many were granted.
pub fn check(case: &Case, outcome: &Outcome, level: u8) -> Result<usize, String> {
    if outcome.opening != call::DONE {
        let stays = outcome.stage == case.stage;
        return stays.then_some(0).ok_or("the stage".to_string());
    }
    let mut firmware = Firmware::opened(&case.file, &case.stage);
    let mut writes = 0;
    for (n, exchange) in case.exchanges(outcome).iter().enumerate() {
        let done = follow(&mut firmware, level, exchange);
        writes += usize::from(done.map_err(|what| format!("request {}: {what}", n + 1))?);
    }
    firmware.agree_on_stage(&outcome.stage)?;
    if let Some(state) = &outcome.state {
        firmware.agree(state)?;
    }
    Ok(writes)
}

/// Goes on by a request at a level: whether it is a granted code 4.
fn follow(firmware: &mut Firmware, level: u8, exchange: &Exchange) -> Result<bool, String> {
    if let Some(asked) = Asked::of_exchange(exchange) {
        let expected = match denied(level, exchange.header, exchange.request) {
            true => status::WRITE_ATTEMPTED,
            false => firmware.code(asked),
        };
        if exchange.code != expected {
            return Err(format!("{asked:?} gets {}, not {expected}", exchange.code));
        }
    }
    let granted = firmware.follow(exchange).is_some();
    firmware.agree_as_shown(exchange)?;
    Ok(granted)
}

/// The same by the calls, after each request and not at the end alone.
pub fn check_each(side: Side, start: &Start, level: &Level) -> Result<(), String> {
    let (opening, mut lent) = start.opened(side, level);
    if opening != call::DONE {
        return Ok(());
    }
    let mut firmware = Firmware::opened(start.file, start.stage);
    firmware.agree(&lent.state)?;
    for (n, request) in start.requests.iter().enumerate() {
        let (number, reply) = lent.request(side, request);
        follow(
            &mut firmware,
            level.number,
            &exchange(request, number, &reply),
        )
        .and_then(|_| firmware.agree(&lent.state))
        .and_then(|()| firmware.agree_on_stage(&lent.stage))
        .map_err(|what| format!("request {}: {what}", n + 1))?;
    }
    Ok(())
}

fn exchange<'a>(request: &'a Request, number: u32, reply: &'a [u8]) -> Exchange<'a> {
    Exchange {
        header: request.header,
        request: &request.buffer,
        number,
        code: return_code(number, request.header, reply),
        reply,
    }
}

/// One request on one side, to a sound state: a code 4 past its header's checks gets what W-207 says and changes nothing but what it says,
/// every byte of reply, state, medium and stage; any other request changes nothing of the firmware. Gives what a code 4 asked for, and the
/// return code; what is lent is then as the request leaves it.
pub fn check_request(
    side: Side,
    lent: &mut Lent,
    request: &Request,
) -> Result<Option<(Asked, u32)>, String> {
    let (before, mut firmware) = (lent.clone(), Firmware::of(lent));
    let (number, reply) = lent.request(side, request);
    let exchange = exchange(request, number, &reply);
    follow(&mut firmware, before.level(), &exchange)?;
    let Some(asked) = Asked::of_exchange(&exchange) else {
        firmware.agree(&lent.state)?;
        return firmware.agree_on_stage(&lent.stage).map(|()| None);
    };
    let mut expected = before;
    firmware.put(&mut expected);
    let parts = [
        ("reply", reply == expected_reply(request, exchange.code)),
        ("state", lent.state == expected.state),
        ("medium", lent.medium == expected.medium),
        ("stage", lent.stage == expected.stage),
    ];
    match parts.iter().find(|(_, same)| !same) {
        None => Ok(Some((asked, exchange.code))),
        Some((what, _)) => Err(format!("{asked:?}, {}: the {what}", exchange.code)),
    }
}

/// "Code 0 sets status and severity to 0"; nothing else of a reply changes but the return code.
fn expected_reply(request: &Request, code: u32) -> Vec<u8> {
    let mut expected = request.clone();
    if code == status::SUCCESS {
        expected.body_mut()[STATUS..DATA].fill(0);
    }
    put_word(&mut expected.buffer, request.header.return_code(), code);
    expected.buffer
}

/// "doesn't read the stage": one request with another stage of the same length gets the same, and leaves the same but the stage, of which an
/// image is written and the rest is each one's own. What is lent is then as the request leaves it.
pub fn check_unread(
    side: Side,
    lent: &mut Lent,
    stage: &[u8],
    request: &Request,
) -> Result<(), String> {
    let mut other = Lent {
        stage: stage.to_vec(),
        ..lent.clone()
    };
    let own = lent.stage.clone();
    let (number, reply) = lent.request(side, request);
    if other.request(side, request) != (number, reply.clone()) {
        return Err("the replies differ".to_string());
    }
    if lent.state != other.state || lent.medium != other.medium {
        return Err("the states or the media differ".to_string());
    }
    let written = match is_granted_validation(request, number, &reply) {
        true => image(request.body()),
        false => &[],
    };
    let is_written =
        |after: &[u8], before: &[u8]| *after == *[written, &before[written.len()..]].concat();
    match is_written(&lent.stage, &own) && is_written(&other.stage, stage) {
        true => Ok(()),
        false => Err("a stage is altered".to_string()),
    }
}
