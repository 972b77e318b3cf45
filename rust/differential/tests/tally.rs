//! The tally of a record (W-206) on both implementations: any record, any bytes lent for the totals, and the records of runs.

use differential::case::{Case, Outcome};
use differential::generate;
use differential::names::{call, record, status, totals};
use differential::random::Random;
use differential::session::Framing;
use differential::tally::{agreed, any_record, compare, lines, of_run, CODES, NUMBERS};
use library::Totals;

/// W-206's totals of one line.
fn of_line(number: u32, code: u32) -> Totals {
    let mut totals = Totals {
        requests: 1,
        ..Totals::default()
    };
    match (number, code) {
        (0, 0) => totals.granted = 1,
        (0, 4) => totals.denied = 1,
        (100, _) => totals.short = 1,
        _ => totals.otherwise_refused = 1,
    }
    totals
}

fn line(number: u32, code: u32) -> [u8; record::SIZE] {
    let bytes = [number, code].map(u32::to_le_bytes);
    *bytes.as_flattened().first_chunk().unwrap()
}

#[track_caller]
fn is_counted(number: u32, code: u32) {
    let totals = agreed(&line(number, code));
    assert_eq!(totals, Ok(of_line(number, code)), "{number}, {code}");
}

#[test]
fn each_number_beside_each_code() {
    for number in NUMBERS {
        for code in CODES {
            is_counted(number, code);
        }
    }
    for number in 0..3000 {
        is_counted(0, number);
        is_counted(number, 0);
        is_counted(number, 4);
    }
}

/// Each bit and each value of a byte counts, of the number and of the code.
#[test]
fn every_value_of_each_byte_of_a_line() {
    for (number, code) in [(0, 0), (0, 4), (0, 2000), (100, u32::MAX), (107, u32::MAX)] {
        for change in 0..=255 {
            for shift in [0, 8, 16, 24] {
                is_counted(number ^ change << shift, code);
                is_counted(number, code ^ change << shift);
            }
        }
    }
}

/// A rest under 8 bytes counts nowhere, whatever it is.
#[test]
fn records_of_every_length() {
    let random = &mut Random::new(1);
    for length in 0..=64 {
        for _ in 0..300 {
            let lines = any_record(random, length);
            let totals = agreed(&lines).unwrap_or_else(|what| panic!("{what}: {lines:02X?}"));
            assert_eq!(totals.requests, (length / record::SIZE) as u64);
            let whole = &lines[..length - length % record::SIZE];
            assert_eq!(agreed(whole), Ok(totals));
        }
    }
}

/// Over 65,535 of each kind.
#[test]
fn a_long_record() {
    const EACH: usize = 70_000;
    let kinds = [(0, 0), (0, 4), (0, 2000), (100, 0)];
    let lines = kinds.map(|(number, code)| line(number, code)).concat();
    let each = EACH as u64;
    let totals = Totals {
        requests: 4 * each,
        granted: each,
        denied: each,
        otherwise_refused: each,
        short: each,
    };
    assert_eq!(agreed(&lines.repeat(EACH)), Ok(totals));
}

/// Under 40 bytes it is 100, and they stay; those past 40 stay too.
#[test]
fn totals_of_every_length() {
    let random = &mut Random::new(2);
    for length in 0..=48 {
        for size in 0..=64 {
            let (lines, lent) = (any_record(random, size), random.bytes(length));
            let mut left = lent.clone();
            let number = compare(&lines, &mut left).unwrap();
            let Some((written, rest)) = left.split_first_chunk() else {
                assert_eq!((number, left), (call::BUFFER_LENGTH, lent));
                continue;
            };
            assert_eq!((number, rest), (call::DONE, &lent[totals::SIZE..]));
            assert_eq!(Ok(Totals::from_bytes(written)), agreed(&lines));
        }
    }
}

/// The lines of runs, and what they have besides.
#[derive(Default)]
struct Met {
    lines: Vec<u8>,
    /// Requests after a refused opening.
    refused: u64,
    /// Changes of a fixed phy.
    fixed: u64,
}

impl Met {
    fn count(&mut self, case: &Case, outcome: &Outcome) {
        self.lines.extend(lines(outcome));
        if outcome.opening != call::DONE {
            self.refused += outcome.handled as u64;
        }
        let exchanges = case.exchanges(outcome);
        let fixed = exchanges
            .iter()
            .filter(|one| one.code == status::PHY_INFO_NOT_CHANGEABLE);
        self.fixed += fixed.count() as u64;
    }
}

/// Runs of a framing: each is tallied as its requests and replies say, and all together have every kind.
fn runs(framing: Framing) {
    let mut met = Met::default();
    for seed in 0..1000 {
        let case = generate::case(seed, 30, framing);
        let outcome = differential::compare::compare(&case).unwrap();
        of_run(&case, &outcome).unwrap_or_else(|what| panic!("seed {seed}: {what}"));
        met.count(&case, &outcome);
    }
    let totals = agreed(&met.lines).unwrap();
    println!("{totals:?}");
    let refused = totals.otherwise_refused - met.refused;
    for (what, count) in [
        ("granted", totals.granted),
        ("denied", totals.denied),
        ("otherwise refused", refused),
        ("100s", totals.short),
        ("after a refused opening", met.refused),
        ("changes of a fixed phy", met.fixed),
    ] {
        println!("{what}: {count}");
        assert!(count > 50, "only {count} {what}");
    }
}

#[test]
fn runs_of_the_first_header() {
    runs(Framing::First);
}

#[test]
fn runs_of_both_headers() {
    runs(Framing::Both);
}
