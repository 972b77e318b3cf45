//! Runs of each implementation: an opening, and the requests of a session in their order.

use crate::names::{record, state};
use crate::request::Header;
use crate::session::Framing;
use crate::side::{return_code, Side};
use crate::wire::put_word;
use model::State;

/// What a run writes, and how its session is framed.
pub struct Written<'a> {
    pub framing: Framing,
    pub medium: &'a mut [u8],
    pub stage: &'a mut [u8],
    pub session: &'a mut [u8],
    pub record: &'a mut [u8],
}

/// The run of the library that goes with the framing.
pub fn library(text: &[u8], file: &[u8], written: Written) -> usize {
    let Written {
        framing,
        medium,
        stage,
        session,
        record,
    } = written;
    match framing {
        Framing::First => library::run(text, file, medium, stage, session, record),
        Framing::Both => library::run_both(text, file, medium, stage, session, record),
    }
}

/// An opening, and the requests one at a time; and what is asked of the state at the end.
pub fn calls<T>(
    side: Side,
    text: &[u8],
    file: &[u8],
    written: Written,
    end: impl FnOnce(&[u8]) -> T,
) -> (usize, T) {
    let mut state = [0; state::SIZE];
    side.open(text, file, written.medium, &mut state);
    let handled = each_request(written, |header, medium, stage, buffer| {
        side.request(header, &mut state, medium, stage, buffer)
    });
    (handled, end(&state))
}

pub fn model<T>(
    text: &[u8],
    file: &[u8],
    written: Written,
    end: impl FnOnce(&State) -> T,
) -> (usize, T) {
    let (_, mut state) = model::open(text, file, written.medium);
    let handled = each_request(written, |header, medium, stage, buffer| {
        request(header, &mut state, medium, stage, buffer)
    });
    (handled, end(&state))
}

/// The model's call of a header.
pub fn request(
    header: Header,
    state: &mut State,
    medium: &mut [u8],
    stage: &mut [u8],
    buffer: &mut [u8],
) -> u32 {
    match header {
        Header::First => model::request(state, medium, stage, buffer),
        Header::Linux { control } => model::request_linux(state, medium, stage, control, buffer),
    }
}

/// The same run; where a test fails, each request gets its number.
pub fn tested_once<T>(
    text: &[u8],
    file: &[u8],
    written: Written,
    end: impl FnOnce(&State) -> T,
) -> (usize, T) {
    let (_, mut state) = model::open(text, file, written.medium);
    let handled = match model::tested(&state, written.medium, written.stage) {
        Ok(()) => each_request(written, |header, medium, stage, buffer| {
            answer(header, &mut state, medium, stage, buffer)
        }),
        Err(number) => each_request(written, |_, _, _, _| number),
    };
    (handled, end(&state))
}

/// The model's call of a header without its first three checks.
pub fn answer(
    header: Header,
    state: &mut State,
    medium: &mut [u8],
    stage: &mut [u8],
    buffer: &mut [u8],
) -> u32 {
    match header {
        Header::First => model::answer(state, medium, stage, buffer),
        Header::Linux { control } => model::answer_linux(state, medium, stage, control, buffer),
    }
}

/// The requests of a session in their order, as far as the record has room: the number of those handled.
fn each_request(
    written: Written,
    mut handle: impl FnMut(Header, &mut [u8], &mut [u8], &mut [u8]) -> u32,
) -> usize {
    let Written {
        framing,
        medium,
        stage,
        session,
        record,
    } = written;
    let mut at = 0;
    let mut handled = 0;
    for line in record.chunks_exact_mut(record::SIZE) {
        let Some((header, place)) = framing.next(session, at) else {
            break;
        };
        at = place.end;
        let buffer = &mut session[place];
        let number = handle(header, medium, stage, buffer);
        put_word(line, record::NUMBER, number);
        put_word(line, record::CODE, return_code(number, header, buffer));
        handled += 1;
    }
    handled
}
