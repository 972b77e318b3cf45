//! One case through both implementations, by the run and by the calls; every number and every byte has to be equal.

use crate::case::{Case, Exchange, Outcome};
use crate::names::state;
use crate::pair::Pair;
use crate::random::Random;
use crate::request::Header;
use crate::side::{return_code, Side};
use crate::wire::equal_bytes;
use std::fmt;

/// Where the two implementations differ.
pub struct Difference {
    pub seed: u64,
    pub what: String,
}

impl fmt::Display for Difference {
    fn fmt(&self, f: &mut fmt::Formatter<'_>) -> fmt::Result {
        write!(f, "seed {}: {}", self.seed, self.what)
    }
}

impl fmt::Debug for Difference {
    fn fmt(&self, f: &mut fmt::Formatter<'_>) -> fmt::Result {
        write!(f, "{self}")
    }
}

/// What both give, if they agree, and the library's run with its calls.
pub fn compare(case: &Case) -> Result<Outcome, Difference> {
    let library = Side::Library.run(case);
    let model = Side::Model.run(case);
    equal_runs(case, &library, &model)
        .and_then(|()| by_calls(case, &model))
        .map_err(|what| Difference {
            seed: case.seed,
            what,
        })?;
    Ok(model)
}

/// The opening, the count, the requests in their order, what follows them, the medium, the stage.
fn equal_runs(case: &Case, library: &Outcome, model: &Outcome) -> Result<(), String> {
    equal("opening", library.opening, model.opening)?;
    equal("requests handled", library.handled, model.handled)?;
    let exchanges = case.exchanges(library).into_iter();
    for (n, (one, other)) in exchanges.zip(case.exchanges(model)).enumerate() {
        equal_replies(&one, &other).map_err(|what| format!("{}: {what}", name(n, &one)))?;
    }
    equal_bytes("session", &library.session, &model.session)?;
    equal_bytes("record", &library.record, &model.record)?;
    equal_bytes("medium", &library.medium, &model.medium)?;
    equal_bytes("stage", &library.stage, &model.stage)
}

fn equal_replies(library: &Exchange, model: &Exchange) -> Result<(), String> {
    equal("call's number", library.number, model.number)?;
    equal("return code", library.code, model.code)?;
    equal_bytes("reply", library.reply, model.reply)
}

fn equal<T: PartialEq + fmt::Display>(name: &str, library: T, model: T) -> Result<(), String> {
    if library == model {
        return Ok(());
    }
    Err(format!("{name}: library {library}, model {model}"))
}

/// The same opening and requests by the calls, one at a time, over a state of other bytes: after each both sides are equal, and the
/// replies, the state, the medium and the stage are those of the run, which both sides gave.
fn by_calls(case: &Case, run: &Outcome) -> Result<(), String> {
    let before = Random::new(case.seed).bytes(state::SIZE);
    let mut pair = Pair::lending(&before, &case.medium, &case.stage);
    let number = pair
        .open(&case.text, &case.file)
        .map_err(|what| format!("opening by call: {what}"))?;
    equal("opening by call and in the run", number, run.opening)?;
    for (n, in_run) in case.exchanges(run).iter().enumerate() {
        call(&mut pair, in_run).map_err(|what| format!("{}, by call: {what}", name(n, in_run)))?;
    }
    let state = run.state.as_deref().unwrap_or_default();
    equal_bytes("state by calls and of the run", pair.state(), state)?;
    equal_bytes("medium by calls and of the run", pair.medium(), &run.medium)?;
    equal_bytes("stage by calls and of the run", pair.stage(), &run.stage)
}

fn call(pair: &mut Pair, in_run: &Exchange) -> Result<(), String> {
    let header = in_run.header;
    let reply = pair.request(&in_run.sent())?;
    let by_call = Exchange {
        header,
        request: in_run.request,
        number: reply.number,
        code: return_code(reply.number, header, &reply.buffer),
        reply: &reply.buffer,
    };
    equal_replies(&by_call, in_run).map_err(|what| format!("not as in the run: {what}"))
}

/// A request's number, its header and the first bytes of its body, to find it again.
fn name(n: usize, exchange: &Exchange) -> String {
    let kind = match exchange.header {
        Header::First => String::new(),
        Header::Linux { control } => format!("Linux, code {control}, "),
    };
    let shown: Vec<String> = exchange
        .request
        .iter()
        .take(72)
        .map(|byte| format!("{byte:02X}"))
        .collect();
    format!(
        "request {} ({kind}{} bytes: {})",
        n + 1,
        exchange.request.len(),
        shown.join("")
    )
}
