//! Runs the simulator on one case.

use cases::case::{Case, Run};
use cases::simulator::{prints, Input};
use labkit::report::{compare, Transcript};
use std::path::Path;

/// Runs a case; the reason if it fails.
pub fn run(case: &Case, simulator: &Path, scratch: &Path) -> Result<(), String> {
    for (i, run) in case.runs.iter().enumerate() {
        let name = match (case.runs.len(), i) {
            (1, _) => "",
            (_, 0) => "low run, ",
            _ => "high run, ",
        };
        prints(simulator, scratch, input(case, run), &run.prints)
            .map_err(|reason| format!("{name}{reason}"))?;
    }
    match (&case.codes, &case.runs[..]) {
        (Some(codes), [low, high]) => check_codes(case, codes, &low.prints, &high.prints),
        _ => Ok(()),
    }
}

/// What the simulator reads in a run of the case.
fn input<'a>(case: &'a Case, run: &'a Run) -> Input<'a> {
    Input {
        level: run.level.as_deref(),
        adapter: case.adapter.as_deref(),
        session: &case.session,
    }
}

fn check_codes(case: &Case, codes: &str, low: &str, high: &str) -> Result<(), String> {
    let run = |text: &str| Transcript::parse(text).map_err(|fault| fault.to_string());
    let compared = compare(&case.session, &run(low)?, &run(high)?)?;
    let got = compared.codes();
    match got == format!("codes: {codes}") {
        true => Ok(()),
        false => Err(format!("expected 'codes: {codes}', got '{got}'")),
    }
}
