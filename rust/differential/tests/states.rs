//! Requests to states that a caller made, which no run meets: every number, and every byte of state, medium, stage and buffer.

use differential::adapter::damage::{self, Damage};
use differential::adapter::form::Form;
use differential::adapter::Adapter;
use differential::lent::Lent;
use differential::names::{call, code, header, row, state, status, DISK, DRIVER_INFO, STAGE};
use differential::pair::{Pair, Reply};
use differential::random::Random;
use differential::request::{self, linux, Request};
use differential::side::{Side, CALLS};
use differential::state::reading::{driver_info, phy_info};
use differential::state::{alter, made, put_staged};
use differential::wire::word;
use differential::{generate, medium, stage, text};

/// What both sides give.
fn agreed(what: &str, pair: &mut Pair, request: &Request) -> Reply {
    pair.request(request)
        .unwrap_or_else(|difference| panic!("{what}: {difference}"))
}

/// On each side alone: the number, and no byte of state, medium, stage or buffer is touched.
fn assert_refused(what: &str, number: u32, state: &[u8], medium: &[u8], request: &Request) {
    refused_with_stage(what, number, state, medium, &stage::of_seed(0), request);
}

fn refused_with_stage(
    what: &str,
    number: u32,
    state: &[u8],
    medium: &[u8],
    stage: &[u8],
    request: &Request,
) {
    let before = Lent {
        state: state.to_vec(),
        medium: medium.to_vec(),
        stage: stage.to_vec(),
    };
    for side in CALLS {
        let mut lent = before.clone();
        let (given, reply) = lent.request(side, request);
        assert_eq!(given, number, "{what}, {side:?}");
        let untouched = lent == before && reply == request.buffer;
        assert!(untouched, "{what}, {side:?}: something is touched");
    }
}

/// An adapter that has a place for the damage, and its damaged state.
fn broken(random: &mut Random, damage: &Damage, level: u8) -> (Adapter, Vec<u8>) {
    for _ in 0..1000 {
        let adapter = Adapter::sound(random);
        if let Some(state) = damage.state(random, &adapter, level) {
            return (adapter, state);
        }
    }
    panic!("no adapter has a place for: {}", damage.name);
}

/// Sound requests, faulty ones and short ones, with both headers.
fn some_requests(random: &mut Random, adapter: &Adapter) -> Vec<Request> {
    let mut requests = generate::requests(random, adapter, 2);
    requests.extend([driver_info(), linux_driver_info(), linux_of(19)]);
    requests.extend([vec![0; 27], Vec::new()].map(Request::first));
    requests
}

/// A code 1 with the Linux header.
fn linux_driver_info() -> Request {
    linux::of_body(code::DRIVER_INFO, &[0; DRIVER_INFO])
}

/// So many bytes with a Linux header, or a part of one.
fn linux_of(length: usize) -> Request {
    Request::linux(code::DRIVER_INFO, vec![0; length])
}

#[test]
fn sound_states_of_every_size_and_level_answer() {
    let random = &mut Random::new(1);
    for p in 1..=32 {
        for a in [0, 1, 20, 63, 64] {
            let adapter = Adapter::of_counts(random, p, a);
            let medium = random.bytes(adapter.medium_length());
            for level in text::LEVELS {
                let what = format!("p {p}, a {a}, level {level}");
                let mut pair = Pair::of(&adapter.state(level), &medium);
                let reply = agreed(&what, &mut pair, &phy_info());
                let expected = match level {
                    text::NONE => status::WRITE_ATTEMPTED,
                    _ => status::SUCCESS,
                };
                let code = word(&reply.buffer, header::RETURN_CODE);
                assert_eq!((reply.number, code), (call::DONE, expected), "{what}");
                for request in generate::requests(random, &adapter, 6) {
                    let number = agreed(&what, &mut pair, &request).number;
                    assert_ne!(number, call::STATE, "{what}");
                }
            }
        }
    }
}

#[test]
fn each_rule_of_a_state_broken_alone_is_107() {
    let random = &mut Random::new(2);
    for damage in damage::all(Form::State) {
        for round in 0..24 {
            let level = text::LEVELS[round % 4];
            let (adapter, state) = broken(random, damage, level);
            let medium = random.bytes(adapter.medium_length());
            for request in some_requests(random, &adapter) {
                assert_refused(damage.name, call::STATE, &state, &medium, &request);
            }
        }
    }
}

#[test]
fn every_level_over_3_is_107() {
    let adapter = Adapter::of_counts(&mut Random::new(3), 2, 2);
    let medium = vec![0x11; adapter.medium_length()];
    for level in 4..=255 {
        let state = adapter.state(level);
        for request in [driver_info(), linux_driver_info()] {
            assert_refused("level", call::STATE, &state, &medium, &request);
        }
    }
}

#[test]
fn the_zero_state_is_107() {
    let zero = [0; state::SIZE];
    for medium in [vec![], vec![0; DISK]] {
        let short = [Request::first(Vec::new()), linux_of(0)];
        for request in [driver_info(), linux_driver_info()]
            .into_iter()
            .chain(short)
        {
            assert_refused("zero state", call::STATE, &zero, &medium, &request);
        }
    }
}

/// "a state of another length is 107": whatever it holds, and whatever else is wrong.
#[test]
fn a_state_of_another_length_is_107() {
    let random = &mut Random::new(4);
    let adapter = Adapter::of_counts(random, 3, 5);
    let sound = adapter.state(text::FULL);
    let medium = random.bytes(adapter.medium_length());
    let ends = [
        state::DRIVER_INFO,
        state::PHYS,
        state::ROWS,
        state::CONTROLLER_CONFIG,
        state::CONTROLLER_STATUS,
        state::CONNECTORS,
        state::STAGED,
        state::STAGED_REVISIONS,
    ];
    let near = [state::SIZE - 1, state::SIZE + 1, state::SIZE + 2];
    // the whole state before W-204, before W-205 and before W-207
    let others = [0, 1, 4785, 6149, 6181, 8192, 2 * state::SIZE];
    for length in [&ends[..], &near, &others].concat() {
        let mut state = sound.clone();
        state.resize(length, 0);
        for request in some_requests(random, &adapter) {
            assert_refused("length", call::STATE, &state, &medium, &request);
            assert_refused("length", call::STATE, &state, &[], &request);
        }
    }
}

/// Zeros behind a sound state, or before it, do not make one of another length sound.
#[test]
fn only_6190_bytes_are_a_state() {
    let adapter = Adapter::of_counts(&mut Random::new(5), 1, 0);
    let medium = vec![0; adapter.medium_length()];
    for length in (0..200).chain(4700..4900).chain(6050..6250) {
        let mut state = adapter.state(text::FULL);
        state.resize(length, 0);
        if length != state::SIZE {
            for request in [driver_info(), linux_driver_info()] {
                assert_refused("length", call::STATE, &state, &medium, &request);
            }
        }
    }
}

/// 106 of a request, which no run meets of the medium.
#[test]
fn a_medium_of_another_length_is_106() {
    let random = &mut Random::new(6);
    for p in 1..=32 {
        let adapter = Adapter::of_counts(random, p, p);
        let state = adapter.state(random.pick(&text::LEVELS));
        let right = adapter.medium_length();
        let mut lengths = vec![
            0,
            1,
            DISK - 1,
            right - 1,
            right + 1,
            right - DISK,
            right + DISK,
        ];
        lengths.retain(|&length| length != right);
        for length in lengths {
            let medium = random.bytes(length);
            for request in some_requests(random, &adapter) {
                assert_refused("medium", call::MEDIUM_LENGTH, &state, &medium, &request);
            }
        }
    }
}

/// With an image staged and without.
#[test]
fn a_stage_of_another_length_is_106() {
    let random = &mut Random::new(15);
    for length in [0, 1, 511, 512, STAGE / 2, STAGE - 1, STAGE + 1, 2 * STAGE] {
        let adapter = Adapter::sound(random);
        let medium = random.bytes(adapter.medium_length());
        let stage = random.bytes(length);
        for (level, staged) in (0..8).map(|n| (text::LEVELS[n % 4], n < 4)) {
            let mut state = adapter.state(level);
            if staged {
                put_staged(random, &mut state);
            }
            for request in some_requests(random, &adapter) {
                let number = call::STAGE_LENGTH;
                refused_with_stage("stage", number, &state, &medium, &stage, &request);
            }
        }
    }
}

/// "Checks, in order: state; medium length; buffer of 28 bytes", of 20 with the Linux header; the stage's length "straight after the medium
/// length" (W-207).
#[test]
fn the_state_then_the_medium_then_the_stage_then_the_buffer() {
    let random = &mut Random::new(7);
    for damage in damage::all(Form::State) {
        let (adapter, state) = broken(random, damage, text::FULL);
        let wrong = medium::of_wrong_length(random, adapter.phys.len());
        let right = random.bytes(adapter.medium_length());
        let sound = adapter.state(text::FULL);
        let first = [0, 1, 20, 24, 27].map(|length| Request::first(random.bytes(length)));
        let linux = [0, 1, 8, 12, 19].map(|length| Request::linux(1, random.bytes(length)));
        for short in first.into_iter().chain(linux) {
            assert_refused("all but the stage", call::STATE, &state, &wrong, &short);
            assert_refused("state and buffer", call::STATE, &state, &right, &short);
            assert_refused("medium", call::MEDIUM_LENGTH, &sound, &wrong, &short);
            assert_refused("buffer", call::BUFFER_LENGTH, &sound, &right, &short);
            let stage = stage::of_wrong_length(random);
            for (what, number, state, medium) in [
                ("all four", call::STATE, &state, &wrong),
                ("all but the medium", call::STATE, &state, &right),
                ("medium and stage", call::MEDIUM_LENGTH, &sound, &wrong),
                ("stage", call::STAGE_LENGTH, &sound, &right),
            ] {
                refused_with_stage(what, number, state, medium, &stage, &short);
            }
        }
    }
}

/// One more row is there where a is one more: a row of zeros is a row like others.
#[test]
fn a_row_of_zeros_may_be_counted() {
    let random = &mut Random::new(8);
    let adapter = Adapter::of_counts(random, 2, 9);
    let medium = random.bytes(adapter.medium_length());
    let mut state = adapter.state(text::FULL);
    state[state::ROW_COUNT] += 1;
    let mut pair = Pair::of(&state, &medium);
    assert_eq!(agreed("zeros", &mut pair, &driver_info()).number, 0);
}

/// Any two of 64 rows that share SAS address and LUN, or all four OS bytes.
#[test]
fn any_two_rows_that_share_are_107() {
    let random = &mut Random::new(13);
    let adapter = Adapter::of_counts(random, 1, 64);
    let medium = vec![0; adapter.medium_length()];
    let sound = adapter.state(text::FULL);
    for (one, other) in (0..64).flat_map(|one| (0..one).map(move |other| (one, other))) {
        for shared in [0..row::OS, row::OS..row::SIZE] {
            let mut state = sound.clone();
            let from = state::row_at(other);
            let bytes = from + shared.start..from + shared.end;
            state.copy_within(bytes, state::row_at(one) + shared.start);
            let what = format!("rows {other} and {one}, bytes {shared:?}");
            for short in [Request::first(Vec::new()), linux_of(0)] {
                assert_refused(&what, call::STATE, &state, &medium, &short);
            }
        }
    }
}

/// Thousands of states: sound, with a broken rule, and any bytes; each number of a call is met, and none besides.
#[test]
fn states_of_any_kind_are_answered_alike() {
    let made = made::run(9, 6000);
    assert_eq!(made.differences.len(), 0, "{:?}", made.differences.first());
    let met: Vec<u32> = made.calls.keys().copied().collect();
    assert_eq!(
        met,
        [
            call::DONE,
            call::BUFFER_LENGTH,
            call::MEDIUM_LENGTH,
            call::STATE
        ]
    );
    assert!(
        made.calls.values().all(|&count| count > 100),
        "{:?}",
        made.calls
    );
    assert!(
        made.by_hold.iter().all(|&count| count > 50),
        "{:?}",
        made.by_hold
    );
    assert!(
        made.by_stage.iter().all(|&count| count > 50),
        "{:?}",
        made.by_stage
    );
}

/// All 6,190 places, some other values each; those of a staged image twice.
fn altered(seed: u64, p: usize, a: usize) {
    let done = alter::run(seed, p, a, alter::Values::Some);
    assert_eq!(done.differences.len(), 0, "{:?}", done.differences.first());
    assert!(done.alterations > 3 * state::SIZE as u64);
    assert!(done.sound > 500, "only {} were sound", done.sound);
}

#[test]
fn every_byte_of_a_state_of_7_phys_and_20_rows_altered() {
    altered(10, 7, 20);
}

#[test]
fn every_byte_of_a_state_of_32_phys_and_64_rows_altered() {
    altered(11, 32, 64);
}

/// Requests to several adapters in turn, and an opening now and then: each goes by its own state, medium and stage alone.
#[test]
fn nothing_is_kept_between_the_calls() {
    let random = &mut Random::new(14);
    let mut adapters: Vec<(Adapter, Pair)> = (0..6)
        .map(|n| {
            let adapter = Adapter::sound(random);
            let medium = random.bytes(adapter.medium_length());
            let state = adapter.state(text::LEVELS[n % 4]);
            let pair = Pair::lending(&state, &medium, &random.bytes(STAGE));
            (adapter, pair)
        })
        .collect();
    for _ in 0..2000 {
        let (adapter, pair) = &mut adapters[random.below(6)];
        let request = request::any(random, adapter);
        agreed("in turn", pair, &request);
        if random.one_in(20) {
            let opening = generate::damaged_opening(random, adapter);
            let mut other = Pair::of(&random.bytes(state::SIZE), &opening.medium);
            let number = other.open(&opening.text, &opening.file);
            assert!(number.is_ok(), "{number:?}");
        }
    }
}

/// The arguments stand inside longer buffers, at odd places: nothing outside them is touched.
#[test]
fn nothing_outside_the_arguments_is_touched() {
    const GUARD: usize = 61;
    let random = &mut Random::new(12);
    let guarded = |bytes: &[u8]| [&[0xC3; GUARD][..], bytes, &[0xC3; GUARD]].concat();
    let intact = |bytes: &[u8]| {
        let end = bytes.len() - GUARD;
        bytes[..GUARD] == [0xC3; GUARD] && bytes[end..] == [0xC3; GUARD]
    };
    let inside = |bytes: &Vec<u8>| GUARD..bytes.len() - GUARD;
    for _ in 0..60 {
        let adapter = Adapter::sound(random);
        let opening = generate::sound_opening(random, &adapter);
        let length = random.pick(&[state::SIZE, state::SIZE, state::SIZE - 1, 0]);
        let mut state = guarded(&vec![0xC3; length]);
        let mut medium = guarded(&opening.medium);
        let mut stage = guarded(&stage::any(random));
        let range = inside(&state);
        Side::Library.open(
            &opening.text,
            &opening.file,
            &opening.medium,
            &mut state[range],
        );
        for request in generate::requests(random, &adapter, 30) {
            let mut buffer = guarded(&request.buffer);
            let [in_state, in_medium, in_stage, in_buffer] =
                [&state, &medium, &stage, &buffer].map(inside);
            Side::Library.request(
                request.header,
                &mut state[in_state],
                &mut medium[in_medium],
                &mut stage[in_stage],
                &mut buffer[in_buffer],
            );
            assert!(intact(&buffer));
        }
        assert!(intact(&state) && intact(&medium) && intact(&stage));
    }
}
