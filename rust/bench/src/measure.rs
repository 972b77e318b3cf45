//! The time of a session on each side.

use crate::workload::{self, Kind};
use differential::case::Case;
use differential::compare::compare;
use differential::names::{call, status};
use differential::need;
use differential::run::Written;
use differential::side::Side;
use std::time::{Duration, Instant};

/// Requests in a measured session.
pub const REQUESTS: usize = 2000;
const REPETITIONS: usize = 15;

/// The sides that are measured, by their names for a script.
pub const MEASURED: [(&str, Side); 5] = [
    ("library", Side::Library),
    ("library-calls", Side::LibraryCalls),
    ("model", Side::Model),
    ("model-calls", Side::ModelCalls),
    ("model-tested-once", Side::ModelTestedOnce),
];

/// The median time of a session, by side.
#[derive(Clone, Copy)]
pub struct Times {
    pub run: Duration,
    pub calls: Duration,
    pub model: Duration,
    pub model_calls: Duration,
    pub tested_once: Duration,
}

impl Times {
    /// What is left without the opening.
    pub fn without(self, opening: Times) -> Times {
        Times {
            run: self.run.saturating_sub(opening.run),
            calls: self.calls.saturating_sub(opening.calls),
            model: self.model.saturating_sub(opening.model),
            model_calls: self.model_calls.saturating_sub(opening.model_calls),
            tested_once: self.tested_once.saturating_sub(opening.tested_once),
        }
    }
}

/// Fresh copies of what a run writes.
pub struct Copies {
    medium: Vec<u8>,
    stage: Vec<u8>,
    session: Vec<u8>,
    record: Vec<u8>,
}

impl Copies {
    pub fn of(case: &Case) -> Self {
        Copies {
            medium: case.medium.clone(),
            stage: case.stage.clone(),
            session: case.session.clone(),
            record: case.record.clone(),
        }
    }
}

/// The measured part: an opening and the requests of a session.
#[inline(never)]
pub fn measured(side: Side, case: &Case, copies: &mut Copies) -> usize {
    let written = Written {
        framing: case.framing,
        medium: &mut copies.medium,
        stage: &mut copies.stage,
        session: &mut copies.session,
        record: &mut copies.record,
    };
    side.run_in_place(&case.text, &case.file, written)
}

/// All sides on a session, in turn, so that a slower moment of the machine meets all.
pub fn times(case: &Case) -> Times {
    let mut all = MEASURED.map(|_| Vec::new());
    for _ in 0..REPETITIONS {
        for ((_, side), times) in MEASURED.into_iter().zip(&mut all) {
            times.push(time(side, case));
        }
    }
    let [run, calls, model, model_calls, tested_once] = all.map(median);
    Times {
        run,
        calls,
        model,
        model_calls,
        tested_once,
    }
}

fn time(side: Side, case: &Case) -> Duration {
    let mut copies = Copies::of(case);
    let start = Instant::now();
    let handled = measured(side, case, &mut copies);
    let time = start.elapsed();
    std::hint::black_box((handled, copies));
    time
}

fn median(mut times: Vec<Duration>) -> Duration {
    times.sort();
    times[times.len() / 2]
}

/// A session that all sides answer alike, with every request granted, or, where there are no rows, answered; or every one denied.
pub fn checked(kind: Kind, p: usize, a: usize, requests: usize) -> Case {
    let case = workload::case(kind, p, a, requests);
    let outcome = compare(&case).unwrap_or_else(|difference| panic!("{difference}"));
    assert!(Side::ModelTestedOnce.run(&case) == outcome);
    assert!(Side::ModelCalls.run(&case) == outcome);
    let exchanges = case.exchanges(&outcome);
    assert!(exchanges
        .iter()
        .all(|exchange| exchange.number == call::DONE));
    assert!(match kind {
        Kind::Needs => exchanges
            .iter()
            .all(|exchange| exchange.code == status::WRITE_ATTEMPTED),
        _ => a == 0 || exchanges.iter().all(need::granted),
    });
    case
}
