//! "Two runs and the last writer" of document 01, on both implementations, the library's by its runs and by its calls. The lists are of the
//! first header alone, and of both.

use differential::adapter::Adapter;
use differential::case::Case;
use differential::names::{call, state};
use differential::random::Random;
use differential::read_only::Kept;
use differential::request::{any_code, first, Request};
use differential::session::Framing;
use differential::side::{CALLS, SIDES};
use differential::start::{Level, Start};
use differential::two_runs::{check, check_denied, check_each, only_return_code};
use differential::{generate, last_writer, read_only, stage, text};

/// Every pair of levels, the lower at most the higher.
fn pairs() -> Vec<(u8, u8)> {
    let all = text::LEVELS
        .iter()
        .flat_map(|&low| text::LEVELS.map(|high| (low, high)));
    all.filter(|(low, high)| low <= high).collect()
}

/// The file of an adapter, damaged or not, and a medium.
fn file_and_medium(random: &mut Random, adapter: &Adapter) -> (Vec<u8>, Vec<u8>) {
    let opening = if random.one_in(12) {
        generate::damaged_opening(random, adapter)
    } else {
        generate::sound_opening(random, adapter)
    };
    (opening.file, opening.medium)
}

/// The claim for a pair of levels, on every side; gives the number of denied requests.
fn two_runs(seed: u64, framing: Framing, low: u8, high: u8, count: usize) -> usize {
    let random = &mut Random::new(seed);
    let adapter = Adapter::sound(random);
    let (file, medium) = file_and_medium(random, &adapter);
    let start = Start {
        seed,
        file: &file,
        medium: &medium,
        stage: &stage::any(random),
        requests: &generate::requests_of(random, &adapter, count, framing),
    };
    let low = Level::of_number(random, low);
    let high = Level::of_number(random, high);
    check_denied(&start, &low).unwrap_or_else(|what| panic!("seed {seed}: {what}"));
    for side in CALLS {
        check_each(side, &start, &low, &high)
            .unwrap_or_else(|what| panic!("seed {seed}, {side:?}: {what}"));
    }
    let denied = SIDES.map(|side| {
        check(side, &start, &low, &high)
            .unwrap_or_else(|what| panic!("seed {seed}, {side:?}: {what}"))
    });
    assert!(denied.iter().all(|count| *count == denied[0]));
    denied[0]
}

fn two_runs_of_each_pair_of_levels(framing: Framing) {
    assert_eq!(pairs().len(), 10);
    for (low, high) in pairs() {
        let seeds = (0..12).map(|round| 1000 * u64::from(4 * low + high) + round);
        let counts = [0, 1, 40, 120].into_iter().cycle();
        let denied: usize = seeds
            .zip(counts)
            .map(|(seed, count)| two_runs(seed, framing, low, high, count))
            .sum();
        assert_eq!(
            denied > 50,
            low < text::FULL,
            "{denied} denied at level {low}"
        );
    }
}

#[test]
fn two_runs_of_the_first_header() {
    two_runs_of_each_pair_of_levels(Framing::First);
}

#[test]
fn two_runs_of_both_headers() {
    two_runs_of_each_pair_of_levels(Framing::Both);
}

/// Level None denies every sound request with the first header: nothing but return codes changes, on every side.
#[test]
fn denied_requests_change_only_their_return_code() {
    for seed in 0..40 {
        let random = &mut Random::new(seed);
        let adapter = Adapter::sound(random);
        let medium = random.bytes(adapter.medium_length());
        let requests: Vec<Request> = (0..40)
            .map(|_| {
                let control = any_code(random);
                first::sound(random, &adapter, control)
            })
            .collect();
        let case = Case::of_requests(seed, b"CSMI=None;", &adapter.file(), &medium, &requests);
        for side in SIDES {
            let outcome = side.run(&case);
            assert!(outcome.medium == case.medium, "seed {seed}, {side:?}");
            assert!(outcome.stage == case.stage, "seed {seed}, {side:?}");
            let state = outcome.state.as_ref();
            assert!(
                state.is_none_or(|state| *state == adapter.state(text::NONE)),
                "seed {seed}, {side:?}"
            );
            for exchange in case.exchanges(&outcome) {
                let right = only_return_code(&exchange);
                assert_eq!(right, Ok(()), "seed {seed}, {side:?}");
            }
        }
    }
}

/// Below Limited the first header writes nothing: a run leaves what its Linux requests alone leave, on every side; below Full nothing but by
/// code 4. From these levels on it is not so.
#[test]
fn below_its_level_the_first_header_leaves_no_trace() {
    for (kept, least) in [(Kept::Linux, 300), (Kept::LinuxAndFirmware, 200)] {
        let traces = traces(kept);
        assert!(traces > least, "{kept:?}: only {traces} runs left a trace");
    }
}

/// How many runs left a trace.
fn traces(kept: Kept) -> usize {
    let mut traces = 0;
    for seed in 0..120 {
        let random = &mut Random::new(seed);
        let adapter = Adapter::sound(random);
        let (file, medium) = file_and_medium(random, &adapter);
        let framing = random.pick(&[Framing::First, Framing::Both]);
        let start = Start {
            seed,
            file: &file,
            medium: &medium,
            stage: &stage::any(random),
            requests: &generate::requests_of(random, &adapter, 60, framing),
        };
        for level in text::LEVELS.map(|number| Level::of_number(random, number)) {
            for side in SIDES {
                let left = read_only::check(side, &start, &level, kept);
                if level.number < kept.level() {
                    assert_eq!(
                        left,
                        Ok(()),
                        "seed {seed}, level {}, {side:?}",
                        level.number
                    );
                }
                traces += usize::from(left.is_err());
            }
        }
    }
    traces
}

fn the_last_writer_of_each_sector_and_rate(framing: Framing) {
    let mut phys = 0;
    let mut written = 0;
    for seed in 0..240 {
        let random = &mut Random::new(seed);
        let adapter = Adapter::sound(random);
        let (file, medium) = file_and_medium(random, &adapter);
        let number = text::LEVELS[if seed % 8 < 4 { seed as usize % 4 } else { 3 }];
        let text = text::of_level(random, number);
        let requests = generate::requests_of(random, &adapter, 100, framing);
        let case = Case::of_requests(seed, &text, &file, &medium, &requests);
        for side in SIDES {
            let outcome = side.run(&case);
            phys += last_writer::check(&case, &outcome)
                .unwrap_or_else(|what| panic!("seed {seed}, {side:?}: {what}"));
            written += usize::from(outcome.medium != case.medium);
        }
    }
    assert!(phys > 2000, "the rates of only {phys} phys were compared");
    assert!(written > 300, "only {written} runs wrote a sector");
}

#[test]
fn the_last_writer_by_the_first_header() {
    the_last_writer_of_each_sector_and_rate(Framing::First);
}

#[test]
fn the_last_writer_by_both_headers() {
    the_last_writer_of_each_sector_and_rate(Framing::Both);
}

#[test]
fn after_a_refused_opening_medium_and_stage_stay_and_the_state_is_zero() {
    let mut refused = 0;
    for seed in 0..80 {
        let random = &mut Random::new(seed);
        let adapter = Adapter::sound(random);
        let opening = generate::damaged_opening(random, &adapter);
        let requests = generate::requests(random, &adapter, 20);
        let case = Case::of_requests(
            seed,
            &opening.text,
            &opening.file,
            &opening.medium,
            &requests,
        );
        for side in SIDES {
            let outcome = side.run(&case);
            if outcome.opening != call::DONE {
                refused += 1;
                let state = outcome.state.as_ref();
                assert!(
                    outcome.medium == case.medium
                        && outcome.stage == case.stage
                        && outcome.session == case.session
                        && state.is_none_or(|state| *state == [0; state::SIZE]),
                    "seed {seed}, {side:?}"
                );
            }
        }
    }
    assert!(refused > 150, "only {refused} openings were refused");
}
