//! W-207's statements, on both implementations: only a granted validation changes the stage, no request reads it, code 4 changes nothing but
//! the stage, what is staged and the running revisions, and an opening leaves nothing staged; by the calls and in whole runs.

use differential::adapter::Adapter;
use differential::case::Case;
use differential::firmware::{check, check_each, walk, Asked};
use differential::names::{call, code, state, status, STAGE};
use differential::random::Random;
use differential::request::firmware::Download;
use differential::request::{Request, HEADERS};
use differential::session::Framing;
use differential::side::{CALLS, SIDES};
use differential::start::{Level, Start};
use differential::text::{self, FULL, LEVELS, LIMITED};
use differential::{generate, stage, two_runs};
use std::collections::BTreeSet;

/// 40,000 requests on each side, code 4 every second time, each with two stages. Each answer of code 4 is met with each header at each level.
#[test]
fn requests_one_by_one_with_two_stages() {
    for side in CALLS {
        let mut met = BTreeSet::new();
        for seed in 0..1000 {
            walk(side, seed, 40, |answer| {
                let place = (answer.linux, answer.level);
                met.extend(answer.firmware.map(|answered| (place, answered)));
            })
            .unwrap_or_else(|what| panic!("seed {seed}, {side:?}: {what}"));
        }
        assert_eq!(met, expected(), "{side:?}");
    }
}

/// Every answer of a code 4 past its header's checks, by header and level.
fn expected() -> BTreeSet<((bool, u8), (Asked, u32))> {
    use Asked::*;
    let asked = [Validation, WrongImage, WrongLength, Bytes, Commit];
    let answers = [
        (Validation, status::SUCCESS),
        (WrongImage, status::FAILED),
        (WrongLength, status::INVALID_PARAMETER),
        (Bytes, status::INVALID_PARAMETER),
        (Commit, status::SUCCESS),
        (Commit, status::FAILED),
    ];
    let denied = asked.map(|asked| (asked, status::WRITE_ATTEMPTED));
    let places = [false, true]
        .into_iter()
        .flat_map(|linux| LEVELS.map(|level| (linux, level)));
    places
        .flat_map(|(linux, level)| {
            let answers = match linux || level >= LIMITED {
                true => &answers[..],
                false => &denied,
            };
            answers.iter().map(move |answer| ((linux, level), *answer))
        })
        .collect()
}

/// In whole runs, of every side and at every level, what the granted codes 4 left is there at the end, and by the calls after each request;
/// stages of another length stay. Below Limited no request with the first header writes.
fn firmware_in_runs(framing: Framing) {
    let mut written = [0; 4];
    for seed in 0..400 {
        let random = &mut Random::new(seed);
        let adapter = Adapter::sound(random);
        let (file, medium) = (adapter.file(), random.bytes(adapter.medium_length()));
        let requests = generate::requests_of(random, &adapter, 80, framing);
        let number = LEVELS[seed as usize % 4];
        let level = Level::of_number(random, number);
        let mut case = Case::of_requests(seed, &level.text, &file, &medium, &requests);
        case.stage = stage::any(random);
        for side in SIDES {
            written[usize::from(number)] += check(&case, &side.run(&case), number)
                .unwrap_or_else(|what| panic!("seed {seed}, {side:?}: {what}"));
        }
        let start = Start {
            seed,
            file: &file,
            medium: &medium,
            stage: &case.stage,
            requests: &requests,
        };
        for side in CALLS {
            check_each(side, &start, &level)
                .unwrap_or_else(|what| panic!("seed {seed}, {side:?}: {what}"));
        }
    }
    let right = written.iter().enumerate().all(|(level, &count)| {
        let writes = framing == Framing::Both || level >= usize::from(LIMITED);
        match writes {
            true => count > 200,
            false => count == 0,
        }
    });
    assert!(right, "{written:?}");
}

#[test]
fn firmware_in_runs_of_the_first_header() {
    firmware_in_runs(Framing::First);
}

#[test]
fn firmware_in_runs_of_both_headers() {
    firmware_in_runs(Framing::Both);
}

/// Validations and commits alone, with code 2 between them.
fn list(random: &mut Random, headers: usize) -> Vec<Request> {
    let mut list = Vec::new();
    for _ in 0..60 {
        let of_body = random.pick(&HEADERS[..headers]);
        let (control, body) = match random.below(3) {
            0 => (code::CNTLR_CONFIG, random.bytes(176)),
            _ => (code::FIRMWARE_DOWNLOAD, Download::any(random).body(random)),
        };
        list.push(of_body(control, &body));
    }
    list
}

/// "The stage, the same at the start of both runs .., and the running revisions belong to what is compared between two levels": every pair of
/// levels, on every side. The lower run denies code 4 below Limited, and then both leave the stage and the revisions of the file.
#[test]
fn two_runs_of_firmware() {
    for (seed, headers) in (0..24).flat_map(|seed| [(seed, 1), (seed, 2)]) {
        let random = &mut Random::new(seed);
        let adapter = Adapter::sound(random);
        let (file, medium) = (adapter.file(), random.bytes(adapter.medium_length()));
        let requests = list(random, headers);
        let start = Start {
            seed,
            file: &file,
            medium: &medium,
            stage: &random.bytes(STAGE),
            requests: &requests,
        };
        let levels = LEVELS.map(|number| Level::of_number(random, number));
        for (low, high) in (0..4).flat_map(|high| (0..=high).map(move |low| (low, high))) {
            let (low, high) = (&levels[low], &levels[high]);
            let denied = requests.iter().filter(|one| {
                let need = match one.control() {
                    code::FIRMWARE_DOWNLOAD => LIMITED,
                    _ => text::RESTRICTED,
                };
                !one.header.is_linux() && low.number < need
            });
            let denied = denied.count();
            for side in CALLS {
                let same = two_runs::check_each(side, &start, low, high);
                assert_eq!(same, Ok(()), "seed {seed}, {side:?}");
            }
            for side in SIDES {
                let counted = two_runs::check(side, &start, low, high);
                assert_eq!(counted, Ok(denied), "seed {seed}, {side:?}");
            }
        }
    }
}

/// Accepted or refused, over a state with a staged image: so the first commit of a run fails.
#[test]
fn an_opening_leaves_nothing_staged() {
    let mut refused = 0;
    for seed in 0..300 {
        let random = &mut Random::new(seed);
        let adapter = Adapter::sound(random);
        let opening = match seed % 2 {
            0 => generate::sound_opening(random, &adapter),
            _ => generate::damaged_opening(random, &adapter),
        };
        let commits = HEADERS.map(|of_body| {
            let body = Download::commit(random).body(random);
            of_body(code::FIRMWARE_DOWNLOAD, &body)
        });
        let (file, medium) = (&opening.file, &opening.medium);
        let case = Case::of_requests(seed, b"CSMI=Full;", file, medium, &commits);
        for side in SIDES {
            let mut state = adapter.state(FULL);
            differential::state::put_staged(random, &mut state);
            let number = side.open(&opening.text, file, medium, &mut state);
            assert_eq!(state[state::STAGED..], [0; 9], "seed {seed}, {side:?}");
            refused += usize::from(number != call::DONE);
            let outcome = side.run(&case);
            let codes: Vec<u32> = case
                .exchanges(&outcome)
                .iter()
                .map(|one| one.code)
                .collect();
            let expected = match outcome.opening {
                call::DONE => [status::FAILED; 2],
                _ => [u32::MAX; 2],
            };
            assert_eq!(codes, expected, "seed {seed}, {side:?}");
            assert!(outcome.stage == case.stage, "seed {seed}, {side:?}");
        }
    }
    assert!(refused > 300, "only {refused} openings were refused");
}
