//! Sameness of the two headers, as W-201 states it, on both implementations: by the calls, and in whole runs.

use differential::adapter::Adapter;
use differential::case::{Case, Exchange, Outcome};
use differential::coverage::known::Kind;
use differential::lent::Lent;
use differential::names::{code, state, status};
use differential::random::Random;
use differential::request::passthrough::Passthrough;
use differential::request::{fis, Request};
use differential::sameness::{check, walk, Twins};
use differential::side::{CALLS, SIDES};
use differential::text::{self, FULL, LEVELS};
use std::collections::BTreeSet;

/// 20,000 bodies behind both headers; each return code of each control code, Length's apart, is met at each level.
#[test]
fn bodies_behind_both_headers() {
    for side in CALLS {
        let mut met = BTreeSet::new();
        for seed in 0..500 {
            walk(side, seed, 40, |answer| {
                met.insert((answer.level, answer.control, answer.code));
            })
            .unwrap_or_else(|what| panic!("seed {seed}, {side:?}: {what}"));
        }
        assert_eq!(
            expected().difference(&met).collect::<Vec<_>>(),
            [] as [&_; 0]
        );
        assert_eq!(
            met.difference(&expected()).collect::<Vec<_>>(),
            [] as [&_; 0]
        );
    }
}

/// What may be met past the header's checks: of the codes but 4, 21, 22 and 25, 3 is a Length's alone.
fn expected() -> BTreeSet<(u8, u32, u32)> {
    let own = [
        code::FIRMWARE_DOWNLOAD,
        code::SET_PHY_INFO,
        code::LINK_ERRORS,
        code::STP_PASSTHRU,
    ];
    let mut expected = BTreeSet::new();
    for level in LEVELS {
        for (control, code) in Kind::Linux(level).replies() {
            let Some(control) = control else { continue };
            if code != status::INVALID_PARAMETER || own.contains(&control) {
                expected.insert((level, control, code));
            }
        }
    }
    expected
}

/// Every command at every level.
#[test]
fn each_command_behind_both_headers() {
    let random = &mut Random::new(1);
    let adapter = Adapter::of_counts(random, 4, 0);
    for side in CALLS {
        let mut lent = Lent::of(random, &adapter, FULL);
        for level in LEVELS {
            for command in 0..=255 {
                let (lba, count) = fis::edge(random);
                let fis = fis::command(random, command, lba, count);
                let body = Passthrough::of_fis(random, &adapter, fis).body(random);
                let twins = Twins::of(random, code::STP_PASSTHRU, &body).unwrap();
                let same = check(side, level, &mut lent, &twins);
                assert!(
                    same.is_ok(),
                    "{command:02X}h at {level}, {side:?}: {same:?}"
                );
            }
        }
    }
}

/// What a run leaves but the headers and the level.
#[derive(PartialEq, Eq)]
struct Left {
    codes: Vec<u32>,
    bodies: Vec<Vec<u8>>,
    medium: Vec<u8>,
    stage: Vec<u8>,
    /// Of a side that shows it.
    state: Option<Vec<u8>>,
}

fn left(case: &Case, outcome: Outcome) -> Left {
    let exchanges = case.exchanges(&outcome);
    let body = |one: &Exchange| one.header.body(one.reply).to_vec();
    Left {
        codes: exchanges.iter().map(|one| one.code).collect(),
        bodies: exchanges.iter().map(body).collect(),
        medium: outcome.medium.clone(),
        stage: outcome.stage.clone(),
        state: outcome
            .state
            .map(|state| state[state::LEVEL + 1..].to_vec()),
    }
}

/// A whole list with the first header at Full, and with the Linux header at any level.
#[test]
fn runs_by_each_header() {
    for seed in 0..120 {
        let random = &mut Random::new(seed);
        let adapter = Adapter::sound(random);
        let (first, linux): (Vec<Request>, Vec<Request>) = (0..50)
            .map(|_| Twins::any(random, &adapter))
            .map(|twins| (twins.first, twins.linux))
            .unzip();
        let medium = random.bytes(adapter.medium_length());
        let case = |text: &[u8], list: &[Request]| {
            Case::of_requests(seed, text, &adapter.file(), &medium, list)
        };
        let full = case(&text::of_level(random, FULL), &first);
        let any = case(&text::of_level(random, LEVELS[seed as usize % 4]), &linux);
        for side in SIDES {
            let (one, other) = (side.run(&full), side.run(&any));
            assert_eq!((one.handled, other.handled), (50, 50));
            let same = left(&full, one) == left(&any, other);
            assert!(same, "seed {seed}, {side:?}");
        }
    }
}
