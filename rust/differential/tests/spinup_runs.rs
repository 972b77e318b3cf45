//! The holds at spin-up in whole runs, as W-205 has them, on every side: in sessions of the first header and in sessions of both.

use differential::adapter::Adapter;
use differential::case::Case;
use differential::generate;
use differential::random::Random;
use differential::session::Framing;
use differential::side::{CALLS, SIDES};
use differential::spinup::{check, check_each};
use differential::start::{Level, Start};
use differential::text::{FULL, LEVELS};

/// In whole runs, of every side and at every level: a hold is the file's until a granted code 21 names its phy, and then 0 to the end; the
/// rate 3 is never met without a hold.
fn holds_in_runs(framing: Framing) {
    let mut cleared = [0; 4];
    for seed in 0..480 {
        let random = &mut Random::new(seed);
        let adapter = Adapter::sound(random);
        let (file, medium) = (adapter.file(), random.bytes(adapter.medium_length()));
        let requests = generate::requests_of(random, &adapter, 100, framing);
        let number = LEVELS[seed as usize % 4];
        let level = Level::of_number(random, number);
        let case = Case::of_requests(seed, &level.text, &file, &medium, &requests);
        for side in SIDES {
            cleared[usize::from(number)] += check(&case, &side.run(&case))
                .unwrap_or_else(|what| panic!("seed {seed}, {side:?}: {what}"));
        }
        let start = Start {
            seed,
            file: &file,
            medium: &medium,
            stage: &case.stage,
            requests: &requests,
        };
        for side in CALLS {
            check_each(side, &start, &level)
                .unwrap_or_else(|what| panic!("seed {seed}, {side:?}: {what}"));
        }
    }
    let right = cleared.iter().enumerate().all(|(level, &count)| {
        let clears = framing == Framing::Both || level == usize::from(FULL);
        if clears {
            count > 50
        } else {
            count == 0
        }
    });
    assert!(right, "{cleared:?}");
}

#[test]
fn holds_in_runs_of_the_first_header() {
    holds_in_runs(Framing::First);
}

#[test]
fn holds_in_runs_of_both_headers() {
    holds_in_runs(Framing::Both);
}
