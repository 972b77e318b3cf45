//! The tally of a record by both implementations (W-206), and of a run against its requests and replies.

use crate::case::{Case, Exchange, Outcome};
use crate::names::{call, record, state, status, totals, STAGE};
use crate::need;
use crate::pair::equal_numbers;
use crate::random::Random;
use crate::side::Side;
use crate::wire::{equal_bytes, put_word, word};
use library::Totals;
use model::LineKind;

/// Calls' numbers and return codes at the borders of the kinds, those that are one in their low byte or in another among them.
pub const NUMBERS: [u32; 12] = [
    0,
    100,
    106,
    107,
    108,
    u32::MAX,
    1,
    4,
    99,
    101,
    0x164,
    0x6400_0000,
];
pub const CODES: [u32; 12] = [
    0,
    4,
    2000,
    u32::MAX,
    1,
    3,
    5,
    100,
    0x100,
    0x104,
    0x0400_0000,
    0x8000_0000,
];

/// A record of so many bytes; of each line a number and a code at the borders, or any.
pub fn any_record(random: &mut Random, length: usize) -> Vec<u8> {
    let mut bytes = random.bytes(length);
    for line in bytes.chunks_exact_mut(record::SIZE) {
        for (at, borders) in [(record::NUMBER, NUMBERS), (record::CODE, CODES)] {
            if !random.one_in(8) {
                // the first ones are half of the draws
                let most = random.pick(&[2, borders.len()]);
                put_word(line, at, random.pick(&borders[..most]));
            }
        }
    }
    bytes
}

/// The tally on both sides over the same bytes lent: the number and every byte are equal, and the record stays. Gives the number; the
/// bytes are then what the call left.
pub fn compare(lines: &[u8], lent: &mut [u8]) -> Result<u32, String> {
    let (read, mut model) = (lines.to_vec(), lent.to_vec());
    let number = Side::Library.tally(&read, lent);
    equal_numbers(number, Side::Model.tally(lines, &mut model))?;
    equal_bytes("totals", lent, &model)?;
    equal_bytes("record, after and before", &read, lines)?;
    Ok(number)
}

/// The totals of a record, if both sides agree, and the last four sum to the first.
pub fn agreed(lines: &[u8]) -> Result<Totals, String> {
    let mut lent = [0x5A; totals::SIZE];
    match compare(lines, &mut lent)? {
        call::DONE => summed(Totals::from_bytes(&lent)),
        number => Err(format!("call's number: {number}")),
    }
}

fn summed(totals: Totals) -> Result<Totals, String> {
    let [requests, kinds @ ..] = totals.in_order();
    if kinds.iter().sum::<u64>() == requests {
        return Ok(totals);
    }
    Err(format!("the last four do not sum to the first: {totals:?}"))
}

/// The lines of a run: what its record has of the requests handled.
pub fn lines(outcome: &Outcome) -> &[u8] {
    &outcome.record[..outcome.handled * record::SIZE]
}

/// The totals of a run, if both sides agree on them and they are what its requests and replies say. The outcome is of a side that shows
/// its state.
pub fn of_run(case: &Case, outcome: &Outcome) -> Result<Totals, String> {
    // with what stands behind the lines
    agreed(&outcome.record)?;
    let totals = agreed(lines(outcome))?;
    let expected = of_replies(case, outcome);
    if totals == expected {
        return Ok(totals);
    }
    Err(format!("{totals:?}, by the replies {expected:?}"))
}

/// The totals by requests and replies, without the record.
fn of_replies(case: &Case, outcome: &Outcome) -> Totals {
    let exchanges = case.exchanges(outcome);
    let kinds: Vec<LineKind> = exchanges
        .iter()
        .map(|one| kind(case, outcome, one))
        .collect();
    let of = |kind| kinds.iter().filter(|&&of| of == kind).count() as u64;
    Totals {
        requests: outcome.handled as u64,
        granted: of(LineKind::Granted),
        denied: of(LineKind::Denied),
        otherwise_refused: of(LineKind::OtherwiseRefused),
        short: of(LineKind::Short),
    }
}

/// After a refused opening all are otherwise refused, and with a stage of another length; else a buffer too short for its header is a 100, those that document 01 denies are
/// denied, and of the rest those are granted whose reply says so.
fn kind(case: &Case, outcome: &Outcome, exchange: &Exchange) -> LineKind {
    let level = outcome.state.as_ref().expect("the state is shown")[state::LEVEL];
    let (header, sent) = (exchange.header, exchange.request);
    if outcome.opening != call::DONE || case.stage.len() != STAGE {
        LineKind::OtherwiseRefused
    } else if sent.len() < header.size() {
        LineKind::Short
    } else if need::denied(level, header, sent) {
        LineKind::Denied
    } else if word(exchange.reply, header.return_code()) == status::SUCCESS {
        LineKind::Granted
    } else {
        LineKind::OtherwiseRefused
    }
}
