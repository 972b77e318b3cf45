//! W-204's one statement over codes 1, 2, 3, 20, 22, 26, 27, 28 and 30, on both implementations: by the calls, and in whole runs. The stage of
//! W-207 stays too.

use differential::adapter::Adapter;
use differential::case::Case;
use differential::lent::Lent;
use differential::names::{ata, call, code, set_phy_info, status};
use differential::need;
use differential::random::Random;
use differential::reporting::{any, check, clear, resets, walk, REPORTING};
use differential::request::firmware::Download;
use differential::request::passthrough::Passthrough;
use differential::request::{fis, Request, HEADERS};
use differential::side::{CALLS, SIDES};
use differential::text::{self, FULL, LEVELS, NONE};
use std::collections::BTreeSet;

/// 60,000 requests on each side. Each code is granted with each header at each level that grants it, and each number and each refusal of
/// these codes is met.
#[test]
fn requests_of_these_codes_one_by_one() {
    for side in CALLS {
        let (mut granted, mut numbers, mut codes) =
            (BTreeSet::new(), BTreeSet::new(), BTreeSet::new());
        let mut reset = [0; 2];
        for seed in 0..1000 {
            walk(side, seed, 60, |answer| {
                numbers.insert(answer.number);
                if answer.number == call::DONE {
                    codes.insert(answer.code);
                }
                if answer.number == call::DONE && answer.code == status::SUCCESS {
                    granted.insert((answer.control.unwrap(), answer.linux, answer.level));
                }
                reset[usize::from(answer.linux)] += u32::from(answer.reset);
            })
            .unwrap_or_else(|what| panic!("seed {seed}, {side:?}: {what}"));
        }
        assert_eq!(granted, expected(), "{side:?}");
        assert_eq!(Vec::from_iter(numbers), [0, 100, 106, 107], "{side:?}");
        let refusals = [0, 2, 3, 4, 2002, 2009, 2010, 2013, 2014];
        assert_eq!(Vec::from_iter(codes), refusals, "{side:?}");
        assert!(reset.iter().all(|&count| count > 200), "{reset:?}");
    }
}

/// Which codes are granted with which header at which level.
fn expected() -> BTreeSet<(u32, bool, u8)> {
    let mut expected = BTreeSet::new();
    for (control, level) in REPORTING
        .into_iter()
        .flat_map(|control| LEVELS.map(|level| (control, level)))
    {
        expected.insert((control, true, level));
        if level > NONE {
            expected.insert((control, false, level));
        }
    }
    expected
}

/// Whole runs of these codes: medium and stage stay, and so does the state but for the counters that the granted resets clear.
#[test]
fn runs_of_these_codes() {
    let mut cleared = 0;
    for seed in 0..200 {
        let random = &mut Random::new(seed);
        let adapter = Adapter::sound(random);
        let level = LEVELS[seed as usize % 4];
        let requests: Vec<Request> = (0..60).map(|_| any(random, &adapter)).collect();
        let medium = random.bytes(adapter.medium_length());
        let text = text::of_level(random, level);
        let case = Case::of_requests(seed, &text, &adapter.file(), &medium, &requests);
        for side in SIDES {
            let outcome = side.run(&case);
            assert_eq!(outcome.handled, requests.len());
            assert!(outcome.medium == medium, "seed {seed}, {side:?}");
            assert!(outcome.stage == case.stage, "seed {seed}, {side:?}");
            let mut state = adapter.state(level);
            for one in case
                .exchanges(&outcome)
                .iter()
                .filter(|one| need::granted(one))
            {
                if let Some(n) = resets(one.header, one.request) {
                    clear(&mut state, n);
                    cleared += 1;
                }
            }
            assert!(
                outcome.state.is_none_or(|left| left == state),
                "seed {seed}, {side:?}"
            );
        }
    }
    assert!(cleared > 500, "only {cleared} resets");
}

/// Of codes 4, 21 and 25 it is not true: what they write is seen.
#[test]
fn the_other_codes_do_write() {
    let mut written = [0; 3];
    for seed in 0..200 {
        let random = &mut Random::new(seed);
        let adapter = Adapter::of_counts(random, 4, 0);
        let lent = Lent::of(random, &adapter, FULL);
        let fis = fis::command(random, ata::WRITE_SECTORS, 3, 1);
        let passthrough = Passthrough::of_fis(random, &adapter, fis).body(random);
        let mut body = [0; set_phy_info::SIZE];
        (body[set_phy_info::PHY], body[set_phy_info::NEGOTIATED]) = (random.below(4) as u8, 1);
        let validation = Download::validation(random).body(random);
        for (of_code, control, body) in [
            (0, code::SET_PHY_INFO, &body[..]),
            (1, code::STP_PASSTHRU, &passthrough),
            (2, code::FIRMWARE_DOWNLOAD, &validation),
        ] {
            for request in HEADERS.map(|of_body| of_body(control, body)) {
                let seen = CALLS.map(|side| check(side, &mut lent.clone(), &request).is_err());
                assert_eq!(seen[0], seen[1], "seed {seed}");
                written[of_code] += usize::from(seen[0]);
            }
        }
    }
    assert!(written.iter().all(|&count| count > 100), "{written:?}");
}
