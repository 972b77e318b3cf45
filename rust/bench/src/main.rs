//! `bench`: thousands of requests per second of the library by its run and by its calls, and of the model, also over a state as bytes and
//! with the state tested once for a run, on the same sessions, as a Markdown table; then the aims. The opening of each session is measured
//! alone and subtracted.
//!
//! `bench --count SIDE SESSION P A N`: that side alone, on that session, N times; to be counted from outside.

mod aims;
mod measure;
mod workload;

use aims::{Aims, Ratios};
use differential::names::{MAX_PHYS, MAX_ROWS};
use measure::{Copies, Times, MEASURED};
use std::process::ExitCode;
use std::time::Duration;
use workload::{Kind, SESSIONS, SIZES};

/// Requests in a session that is counted.
const COUNTED: usize = 500;

fn main() -> ExitCode {
    let arguments: Vec<String> = std::env::args().skip(1).collect();
    let arguments: Vec<&str> = arguments.iter().map(String::as_str).collect();
    match arguments[..] {
        [] => table(),
        ["--sessions"] => list(),
        ["--count", side, session, p, a, times] => {
            if count(side, session, p, a, times).is_none() {
                return wrong_use();
            }
        }
        _ => return wrong_use(),
    }
    ExitCode::SUCCESS
}

fn wrong_use() -> ExitCode {
    let sides = MEASURED.map(|(name, _)| name).join("|");
    eprintln!("use: bench [--sessions | --count {sides} SESSION P A TIMES]");
    ExitCode::from(2)
}

/// The names of the sessions, and of the counted ones the number of requests, for a script.
fn list() {
    for (name, kind) in SESSIONS {
        println!("{name} {}", if kind == Kind::Opening { 1 } else { COUNTED });
    }
}

fn table() {
    println!(
        "| session | p | a | run | calls | model | run/model | calls/model \
         | model, state as bytes | calls/that | model, state tested once | run/that |"
    );
    println!("|---|---|---|---|---|---|---|---|---|---|---|---|");
    let mut aims = Aims::new();
    for (p, a) in SIZES {
        let opening = measure::times(&measure::checked(Kind::Opening, p, a, 0));
        for (name, kind) in SESSIONS {
            let ratios = if kind == Kind::Opening {
                row(name, p, a, opening, 1)
            } else {
                let case = measure::checked(kind, p, a, measure::REQUESTS);
                let times = measure::times(&case).without(opening);
                row(name, p, a, times, measure::REQUESTS)
            };
            aims.note(kind, &format!("{name}, p = {p}, a = {a}"), &ratios);
        }
    }
    println!();
    aims.print();
}

/// Prints a row, in thousands of requests per second.
fn row(name: &str, p: usize, a: usize, times: Times, requests: usize) -> Ratios {
    let run = rate(times.run, requests);
    let calls = rate(times.calls, requests);
    let model = rate(times.model, requests);
    let model_calls = rate(times.model_calls, requests);
    let tested_once = rate(times.tested_once, requests);
    println!(
        "| {name} | {p} | {a} | {} | {} | {} | {:.2} | {:.2} | {} | {:.2} | {} | {:.2} |",
        thousands(run),
        thousands(calls),
        thousands(model),
        run / model,
        calls / model,
        thousands(model_calls),
        calls / model_calls,
        thousands(tested_once),
        run / tested_once
    );
    Ratios {
        run: run / tested_once,
        calls: calls / model,
    }
}

/// A rate in thousands, as `12,345`.
fn thousands(rate: f64) -> String {
    let number = (rate / 1000.0).round() as u64;
    match number {
        0..1000 => number.to_string(),
        _ => format!("{},{:03}", number / 1000, number % 1000),
    }
}

fn rate(time: Duration, requests: usize) -> f64 {
    requests as f64 / time.as_secs_f64().max(1e-9)
}

fn count(side: &str, session: &str, p: &str, a: &str, times: &str) -> Option<()> {
    let (_, side) = MEASURED.into_iter().find(|(name, _)| *name == side)?;
    let (p, a) = (p.parse().ok()?, a.parse().ok()?);
    let times: usize = times.parse().ok()?;
    if !(1..=MAX_PHYS).contains(&p) || a > MAX_ROWS {
        return None;
    }
    let case = workload::case(workload::kind(session)?, p, a, COUNTED);
    for _ in 0..times {
        let mut copies = Copies::of(&case);
        std::hint::black_box(measure::measured(side, &case, &mut copies));
    }
    Some(())
}
