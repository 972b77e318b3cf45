//! "Two runs": the higher run's list is the lower's without the requests denied there. The replies to the others, the media,
//! the stages and the states but the level are then equal.

use crate::case::{Case, Exchange, Outcome};
use crate::lent::Lent;
use crate::names::{call, state, status};
use crate::request::{Header, Request};
use crate::run;
use crate::side::{return_code, Side};
use crate::start::{Level, Start};
use crate::wire::put_word;

/// A run of one side, with its outcome.
pub struct Run {
    case: Case,
    outcome: Outcome,
}

impl Run {
    pub fn of(side: Side, start: &Start, level: &Level, list: &[Request]) -> Result<Self, String> {
        let mut case = Case::of_requests(start.seed, &level.text, start.file, start.medium, list);
        case.stage = start.stage.to_vec();
        let outcome = side.run(&case);
        if outcome.handled != list.len() {
            return Err(format!("{} of {} requests", outcome.handled, list.len()));
        }
        Ok(Run { case, outcome })
    }

    pub fn exchanges(&self) -> Vec<Exchange<'_>> {
        self.case.exchanges(&self.outcome)
    }
}

/// Checks the claim on whole runs of one side; on the states too, where the side shows them. Gives the number of denied requests.
pub fn check(side: Side, start: &Start, low: &Level, high: &Level) -> Result<usize, String> {
    let lower = Run::of(side, start, low, start.requests)?;
    let answers = lower.exchanges();
    let (denied, others): (Vec<&Exchange>, Vec<&Exchange>) = answers
        .iter()
        .partition(|one| start.denied(lower.outcome.opening, low, one.header, one.request));
    denied.iter().try_for_each(|one| only_return_code(one))?;

    same_by_part(side, start, high, &lower, &others)?;
    Ok(denied.len())
}

/// A run at this level of a part of the requests of another: they get the same replies, and it leaves the same.
pub fn same_by_part(
    side: Side,
    start: &Start,
    level: &Level,
    whole: &Run,
    part: &[&Exchange],
) -> Result<(), String> {
    let list: Vec<Request> = part.iter().map(|one| one.sent()).collect();
    let run = Run::of(side, start, level, &list)?;
    for (n, (one, other)) in part.iter().zip(run.exchanges()).enumerate() {
        if one.number != other.number || one.code != other.code || one.reply != other.reply {
            return Err(format!("reply {} differs", n + 1));
        }
    }
    equal_ends(&whole.outcome, &run.outcome)
}

fn equal_ends(one: &Outcome, other: &Outcome) -> Result<(), String> {
    if one.opening != other.opening {
        return Err("the openings differ".to_string());
    }
    if one.medium != other.medium {
        return Err("the media differ".to_string());
    }
    if one.stage != other.stage {
        return Err("the stages differ".to_string());
    }
    if one.state.as_deref().map(but_level) != other.state.as_deref().map(but_level) {
        return Err("the states differ".to_string());
    }
    Ok(())
}

/// "Tables, counters and disks are every field of the state but the level"; the running revisions and what is staged are among them.
fn but_level(bytes: &[u8]) -> &[u8] {
    &bytes[state::LEVEL + 1..]
}

/// A denied request is answered with 4, and nothing else of its buffer changes.
pub fn only_return_code(exchange: &Exchange) -> Result<(), String> {
    let mut expected = exchange.request.to_vec();
    let place = exchange.header.return_code();
    put_word(&mut expected, place, status::WRITE_ATTEMPTED);
    let right = exchange.number == call::DONE && exchange.reply == expected;
    right
        .then_some(())
        .ok_or_else(|| "a denied request gets more than its return code".to_string())
}

/// A run by the calls, as far as it has come.
struct Caller {
    side: Side,
    opening: u32,
    lent: Lent,
}

impl Caller {
    fn open(side: Side, start: &Start, level: &Level) -> Self {
        let (opening, lent) = start.opened(side, level);
        Caller {
            side,
            opening,
            lent,
        }
    }

    fn request(&mut self, request: &Request) -> (u32, Vec<u8>) {
        self.lent.request(self.side, request)
    }

    /// The same but the level.
    fn leaves_as(&self, other: &Caller) -> bool {
        let (one, other) = (&self.lent, &other.lent);
        but_level(&one.state) == but_level(&other.state)
            && one.medium == other.medium
            && one.stage == other.stage
    }

    /// The level stays the run's own; after a refused opening it is 0.
    fn keeps(&self, level: &Level) -> bool {
        let own = if self.opening == call::DONE {
            level.number
        } else {
            0
        };
        self.lent.level() == own
    }
}

/// The same claim by the calls, after each request and not at the end alone; 4 is what denied requests get and no others, and neither run's
/// level changes.
pub fn check_each(side: Side, start: &Start, low: &Level, high: &Level) -> Result<(), String> {
    let mut lower = Caller::open(side, start, low);
    let mut higher = Caller::open(side, start, high);
    for (n, request) in start.requests.iter().enumerate() {
        let reply = lower.request(request);
        let denied = start.denied(lower.opening, low, request.header, &request.buffer);
        let code = return_code(reply.0, request.header, &reply.1);
        if denied != (code == status::WRITE_ATTEMPTED) {
            return Err(format!("request {}: 4 is not where it is denied", n + 1));
        }
        if !denied && higher.request(request) != reply {
            return Err(format!("request {}: the replies differ", n + 1));
        }
        if !lower.leaves_as(&higher) {
            return Err(format!("request {}: they do not leave the same", n + 1));
        }
        if !lower.keeps(low) || !higher.keeps(high) {
            return Err(format!("request {}: a level changes", n + 1));
        }
    }
    Ok(())
}

/// The model's own `denied` is document 01's.
pub fn check_denied(start: &Start, level: &Level) -> Result<(), String> {
    let (number, mut state) = model::open(&level.text, start.file, start.medium);
    let (mut medium, mut stage) = (start.medium.to_vec(), start.stage.to_vec());
    for (n, request) in start.requests.iter().enumerate() {
        let (header, buffer) = (request.header, &request.buffer);
        let denied = start.denied(number, level, header, buffer);
        if header == Header::First && model::denied(&state, &medium, &stage, buffer) != denied {
            return Err(format!("request {}: the model's denied", n + 1));
        }
        let buffer = &mut buffer.clone();
        run::request(header, &mut state, &mut medium, &mut stage, buffer);
    }
    Ok(())
}
