//! Code 22 as W-202 has it, on both implementations: every reset byte and every phy at every level with both headers, the checks before the
//! need, and two runs of which the lower denies the resets.

use differential::adapter::Adapter;
use differential::case::{Case, Outcome};
use differential::coverage::by_level::Asked as _;
use differential::coverage::link_errors::{Asked, Reset};
use differential::names::link_error::{DONT_RESET_COUNTS, RESET_COUNTS};
use differential::names::{call, code, header, link_errors as at, phy, state, status};
use differential::need;
use differential::pair::Pair;
use differential::random::Random;
use differential::request::{first, OfBody, Request, HEADERS};
use differential::side::{return_code, CALLS, SIDES};
use differential::stage;
use differential::start::{Level, Start};
use differential::text::{FULL, LEVELS, LIMITED, NONE, RESTRICTED};
use differential::two_runs::{check, check_each};
use differential::wire::put_word;

/// All four counters.
const COUNTERS: usize = at::SIZE - at::COUNTERS;

/// An adapter none of whose counters is 0.
fn counting(random: &mut Random, p: usize) -> Adapter {
    let mut adapter = Adapter::of_counts(random, p, 2);
    for phy in &mut adapter.phys {
        for counter in (0..COUNTERS).step_by(4) {
            put_word(&mut phy.bytes, phy::COUNTERS + counter, random.word() | 1);
        }
    }
    adapter
}

/// A request; what is filled in, and what is reserved, holds other bytes.
fn request(of_body: OfBody, phy: u8, reset: u8) -> Request {
    let mut body = [0x5A; at::SIZE];
    (body[at::PHY], body[at::RESET]) = (phy, reset);
    of_body(code::LINK_ERRORS, &body)
}

/// The counters of a phy in a state.
fn counters(state: &mut [u8], phy: u8) -> &mut [u8] {
    let start = state::phy_at(usize::from(phy)) + phy::COUNTERS;
    &mut state[start..start + COUNTERS]
}

/// One request: the return code, and every byte of reply, state and medium. With 0 the counters are reported, and cleared by reset byte 1.
fn answers(pair: &mut Pair, sound: &[u8], medium: &[u8], of_body: OfBody, phy: u8, reset: u8) {
    let request = request(of_body, phy, reset);
    let asked = Asked {
        linux: request.header.is_linux(),
        reset: Reset::of_byte(reset),
        phy_exists: phy < sound[state::PHY_COUNT],
        level: sound[state::LEVEL],
    };
    let (mut state, mut expected) = (sound.to_vec(), request.clone());
    put_word(
        &mut expected.buffer,
        request.header.return_code(),
        asked.code(),
    );
    if asked.code() == status::SUCCESS {
        let counters = counters(&mut state, phy);
        expected.body_mut()[at::COUNTERS..].copy_from_slice(counters);
        if reset == RESET_COUNTS {
            counters.fill(0);
        }
    }
    pair.lend(sound);
    let reply = pair
        .request(&request)
        .unwrap_or_else(|difference| panic!("{asked:?}: {difference}"));
    let code = return_code(reply.number, request.header, &reply.buffer);
    assert_eq!(
        (reply.number, code),
        (call::DONE, asked.code()),
        "{asked:?}"
    );
    assert!(reply.buffer == expected.buffer, "{asked:?}: the reply");
    assert!(pair.state() == state, "{asked:?}: the state");
    assert!(pair.medium() == medium, "{asked:?}: the medium");
}

/// Every reset byte of some phys, and every phy with some reset bytes.
#[test]
fn every_reset_byte_and_every_phy_at_every_level() {
    let random = &mut Random::new(1);
    for p in [1, 5, 32] {
        let adapter = counting(random, usize::from(p));
        let medium = random.bytes(adapter.medium_length());
        for (level, of_body) in LEVELS
            .into_iter()
            .flat_map(|level| HEADERS.map(|of_body| (level, of_body)))
        {
            let sound = adapter.state(level);
            let mut pair = Pair::of(&sound, &medium);
            for byte in 0..=255 {
                let phys = [0, p - 1, p, 255].map(|phy| (phy, byte));
                let resets = [0, 1, 2, 255].map(|reset| (byte, reset));
                for (phy, reset) in phys.into_iter().chain(resets) {
                    answers(&mut pair, &sound, &medium, of_body, phy, reset);
                }
            }
        }
    }
}

/// What its header's checks stop is not denied, whatever it asks for: a body cut at each place, with and without a Length that says so, and
/// one wrong field of the header.
#[test]
fn the_checks_before_the_need() {
    let random = &mut Random::new(2);
    let adapter = counting(random, 2);
    let medium = random.bytes(adapter.medium_length());
    for (level, phy) in LEVELS
        .into_iter()
        .flat_map(|level| [0, 2].map(|phy| (level, phy)))
    {
        let state = adapter.state(level);
        let mut pair = Pair::of(&state, &medium);
        let mut stopped = |request: &Request, expected: u32| {
            let reply = pair.request(request).unwrap();
            let code = return_code(reply.number, request.header, &reply.buffer);
            assert_eq!(
                (reply.number, code),
                (call::DONE, expected),
                "level {level}"
            );
            assert!(pair.state() == state && pair.medium() == medium);
        };
        for of_body in HEADERS {
            let sound = request(of_body, phy, RESET_COUNTS);
            let header = sound.header;
            for body in 0..at::SIZE {
                let mut cut = sound.clone();
                cut.buffer.truncate(header.size() + body);
                stopped(&cut, status::INVALID_PARAMETER);
                let length = (header.counted() + body) as u32;
                put_word(&mut cut.buffer, header.length(), length);
                stopped(&cut, status::INVALID_PARAMETER);
            }
        }
        for (place, expected) in [
            (header::HEADER_LENGTH, status::INVALID_PARAMETER),
            (header::SIGNATURE, status::BAD_CNTL_CODE),
            (header::CONTROL_CODE, status::BAD_CNTL_CODE),
        ] {
            let mut wrong = request(first::of_body, phy, RESET_COUNTS);
            wrong.buffer[place] ^= 0x40;
            stopped(&wrong, expected);
        }
    }
}

/// Code 22 alone, behind these headers: every reset byte, 0 and 1 the most; a phy that does not exist among the phys.
fn list(random: &mut Random, p: usize, headers: &[OfBody]) -> Vec<Request> {
    (0..120)
        .map(|_| {
            let (phy, other) = (random.within(0, p) as u8, random.byte());
            let reset = random.pick(&[DONT_RESET_COUNTS, RESET_COUNTS, RESET_COUNTS, other]);
            request(random.pick(headers), phy, reset)
        })
        .collect()
}

/// How many a level denies: of the first header all at None, and below Full those with reset byte 1.
fn denied(level: u8, list: &[Request]) -> usize {
    let is_denied = |one: &&Request| match level {
        NONE => true,
        RESTRICTED | LIMITED => one.body()[at::RESET] == RESET_COUNTS,
        _ => false,
    };
    let first = list.iter().filter(|one| !one.header.is_linux());
    first.filter(is_denied).count()
}

/// How often a run cleared the counters of a phy. Each reply to a granted request shows them; they stand as they were in the state that was
/// opened until one with reset byte 1 clears them, and so they are in the state at the end.
fn cleared(case: &Case, outcome: &Outcome, mut state: Vec<u8>) -> usize {
    let mut times = 0;
    for one in case
        .exchanges(outcome)
        .iter()
        .filter(|one| need::granted(one))
    {
        let [sent, reply] = [one.request, one.reply].map(|buffer| one.header.body(buffer));
        let counters = counters(&mut state, sent[at::PHY]);
        assert_eq!(reply[at::COUNTERS..], *counters);
        if sent[at::RESET] == RESET_COUNTS {
            counters.fill(0);
            times += 1;
        }
    }
    assert!(outcome.state.as_ref().is_none_or(|left| *left == state));
    times
}

/// "Denials go by this need, in the two-run comparison too", on every side: the higher run is given the list without what the lower denies,
/// and both leave the same counters. Gives how often runs of the whole list cleared a phy below Full, and at Full.
fn two_runs(seed: u64, headers: &[OfBody]) -> [usize; 2] {
    let random = &mut Random::new(seed);
    let p = random.pick(&[1, 2, 8, 32]);
    let adapter = counting(random, p);
    let (file, medium) = (adapter.file(), random.bytes(adapter.medium_length()));
    let requests = list(random, p, headers);
    let start = Start {
        seed,
        file: &file,
        medium: &medium,
        stage: &stage::of_seed(seed),
        requests: &requests,
    };
    let levels = LEVELS.map(|number| Level::of_number(random, number));
    for (low, high) in (0..4).flat_map(|high| (0..=high).map(move |low| (low, high))) {
        let (low, high) = (&levels[low], &levels[high]);
        for side in CALLS {
            assert_eq!(
                check_each(side, &start, low, high),
                Ok(()),
                "seed {seed}, {side:?}"
            );
        }
        for side in SIDES {
            let counted = check(side, &start, low, high);
            let expected = denied(low.number, &requests);
            assert_eq!(counted, Ok(expected), "seed {seed}, {side:?}");
        }
    }
    let mut times = [0; 2];
    for (side, level) in SIDES
        .into_iter()
        .flat_map(|side| levels.iter().map(move |level| (side, level)))
    {
        let case = Case::of_requests(seed, &level.text, &file, &medium, &requests);
        let at_full = usize::from(level.number == FULL);
        times[at_full] += cleared(&case, &side.run(&case), adapter.state(level.number));
    }
    times
}

/// Below Full no request clears a counter.
#[test]
fn two_runs_of_resets_with_the_first_header() {
    for seed in 0..20 {
        let [below, at_full] = two_runs(seed, &HEADERS[..1]);
        assert!(below == 0 && at_full > 50, "{below}, {at_full}");
    }
}

/// Those with the Linux header clear in both runs.
#[test]
fn two_runs_of_resets_with_both_headers() {
    for seed in 0..20 {
        let [below, at_full] = two_runs(seed, &HEADERS);
        assert!(below > 50 && at_full > 50, "{below}, {at_full}");
    }
}
