//! `long_run [REQUESTS] [SEED]`: random cases through both implementations, by the runs and by the calls, until so many requests were
//! handled (a million if not said), with the tally of each run and the properties of whole runs, of the two headers, of requests that
//! report and of firmware; then states that a caller made, every single-byte damage of a small file, and every single byte of two states altered. Prints
//! the figures; the exit status is 1 if anything differed.

mod runs;

use differential::coverage::counts;
use differential::session::Framing;
use differential::state::alter::{self, Values};
use differential::state::made;
use differential::{sweep, tally};
use library::Totals;
use runs::Runs;
use std::process::ExitCode;
use std::time::Instant;

/// One round in so many tests the claims about whole runs too, on a list of its own. It is odd, so that both framings get such rounds.
const PROPERTIES: u64 = 7;
/// One state is made for so many requests.
const STATES: u64 = 10;
/// The counts p and a of the states whose bytes are altered.
const ALTERED: [(usize, usize); 2] = [(7, 20), (32, 64)];
const SHOWN: usize = 20;

/// Says which seed it was if a side panics.
struct Seed(u64);

impl Drop for Seed {
    fn drop(&mut self) {
        if std::thread::panicking() {
            eprintln!("seed {}: a side panicked", self.0);
        }
    }
}

/// What was compared.
#[derive(Default)]
struct Compared {
    /// By the run and by the calls, each once.
    run_requests: u64,
    call_requests: u64,
    openings: u64,
    alterations: u64,
    /// Of the requests by the run.
    totals: Totals,
    differences: usize,
}

fn main() -> ExitCode {
    let Some((requests, seed)) = arguments() else {
        eprintln!("use: long_run [REQUESTS] [SEED]");
        return ExitCode::from(2);
    };
    let mut compared = Compared::default();
    compared.random_runs(requests, seed);
    compared.made_states(requests / STATES, seed);
    compared.damaged_files(seed);
    for (p, a) in ALTERED {
        compared.altered_states(seed, p, a);
    }
    println!(
        "compared: {} requests by the run, {} by the calls, {} openings, {} alterations of a state",
        compared.run_requests, compared.call_requests, compared.openings, compared.alterations
    );
    println!("{}", tallied(&compared.totals));
    println!("{} differences", compared.differences);
    ExitCode::from(u8::from(compared.differences > 0))
}

fn tallied(totals: &Totals) -> String {
    format!(
        "tallied: {} requests by the run, {} granted, {} denied, {} otherwise refused, {} 100s",
        totals.requests, totals.granted, totals.denied, totals.otherwise_refused, totals.short
    )
}

fn arguments() -> Option<(u64, u64)> {
    let given: Vec<String> = std::env::args().skip(1).collect();
    let number = |n: usize, otherwise: u64| match given.get(n) {
        None => Some(otherwise),
        Some(text) => text.parse().ok(),
    };
    (given.len() <= 2).then_some((number(0, 1_000_000)?, number(1, 1)?))
}

/// Seconds since, with one place.
fn seconds(start: Instant) -> String {
    format!("{:.1} s", start.elapsed().as_secs_f64())
}

impl Compared {
    fn random_runs(&mut self, requests: u64, seed: u64) {
        let start = Instant::now();
        let mut runs = Runs::default();
        let mut round = 0;
        while runs.coverage.requests < requests {
            let seed = seed.wrapping_mul(1 << 32).wrapping_add(round);
            let _named = Seed(seed);
            let framing = if round % 2 == 0 {
                Framing::First
            } else {
                Framing::Both
            };
            runs.compare(seed, framing);
            if round % PROPERTIES == 0 {
                runs.properties(seed, framing);
                runs.sameness(seed);
                runs.reporting(seed);
                runs.firmware(seed);
            }
            round += 1;
        }
        for what in runs.coverage.unknown() {
            runs.faults
                .push(format!("unknown to the documents: {what}"));
        }
        match tally::agreed(&runs.lines) {
            Ok(totals) => self.totals = totals,
            Err(what) => runs.faults.push(format!("tally of all runs: {what}")),
        }
        println!(
            "{} requests in {round} cases, each by the run and by the calls; two runs, last writers, spin-up holds and firmware of {} lists \
             more; {} bodies behind both headers; {} requests that report; {} of firmware; {}",
            runs.coverage.requests,
            runs.properties,
            runs.twins,
            runs.reports,
            runs.firmware,
            seconds(start)
        );
        println!("{}", runs.coverage);
        self.run_requests += runs.coverage.requests;
        self.call_requests += runs.coverage.requests;
        self.openings += round;
        self.differ(&runs.faults);
    }

    fn made_states(&mut self, count: u64, seed: u64) {
        let start = Instant::now();
        let made = made::run(seed, count);
        println!(
            "{} states that a caller made: {} requests; {}",
            made.states,
            made.requests,
            seconds(start)
        );
        println!("calls     {}", counts(&made.calls));
        println!(
            "107 for a spin-up hold alone: {} with the first header, {} with the Linux header",
            made.by_hold[0], made.by_hold[1]
        );
        println!(
            "106 for the stage alone: {} with the first header, {} with the Linux header",
            made.by_stage[0], made.by_stage[1]
        );
        self.call_requests += made.requests;
        self.differ(&made.differences);
    }

    fn damaged_files(&mut self, seed: u64) {
        let start = Instant::now();
        let sweep = sweep::run(seed, 2, 3, 1);
        println!(
            "single bytes of a file damaged: {} openings, {} accepted; {}",
            sweep.openings,
            sweep.accepted,
            seconds(start)
        );
        println!("{}", sweep.coverage.openings_met());
        self.openings += sweep.openings;
        self.differ(&sweep.differences);
    }

    fn altered_states(&mut self, seed: u64, p: usize, a: usize) {
        let start = Instant::now();
        let done = alter::run(seed, p, a, Values::Every);
        println!(
            "single bytes of a state altered, p {p} and a {a}: {} alterations, {} sound, {} requests; {}",
            done.alterations,
            done.sound,
            done.requests,
            seconds(start)
        );
        self.call_requests += done.requests;
        self.alterations += done.alterations;
        self.differ(&done.differences);
    }

    fn differ<T: std::fmt::Display>(&mut self, differences: &[T]) {
        self.differences += differences.len();
        for difference in differences.iter().take(SHOWN) {
            println!("DIFFERENCE {difference}");
        }
    }
}
