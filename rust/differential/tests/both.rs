//! Sessions whose requests have either header, by the library's run of both: its prefixes, its ends and its record.

use differential::adapter::Adapter;
use differential::case::{Case, Outcome};
use differential::compare::compare;
use differential::generate;
use differential::names::{code, prefix, record};
use differential::random::Random;
use differential::request::{first, linux, Header, Request};
use differential::session::end::{cut, of_no_header};
use differential::session::Framing;
use differential::side::SIDES;
use differential::text::NONE;

/// What both give for a case.
fn agreed(case: &Case) -> Outcome {
    compare(case).unwrap_or_else(|difference| panic!("{difference}"))
}

/// A case of sound requests at level None, the two headers in turn.
fn in_turn(seed: u64, count: usize) -> Case {
    let random = &mut Random::new(seed);
    let adapter = Adapter::of_counts(random, 3, 4);
    let requests: Vec<Request> = (0..count)
        .map(|n| match n % 2 {
            0 => linux::sound(random, &adapter, code::ALL[n % code::ALL.len()]),
            _ => first::sound(random, &adapter, code::ALL[n % code::ALL.len()]),
        })
        .collect();
    let medium = random.bytes(adapter.medium_length());
    Case::of_requests(seed, b"CSMI=None;", &adapter.file(), &medium, &requests)
}

/// Where each request of a case starts, its prefix included, and where the last ends.
fn starts(case: &Case) -> Vec<usize> {
    let mut starts = vec![0];
    while let Some((_, place)) = case.framing.next(&case.session, *starts.last().unwrap()) {
        starts.push(place.end);
    }
    starts
}

#[test]
fn a_session_cut_at_each_place() {
    let mut case = in_turn(1, 4);
    let whole = case.session.clone();
    let starts = starts(&case);
    for length in 0..=whole.len() {
        case.session = whole[..length].to_vec();
        let ended = starts.iter().filter(|&&start| start <= length).count() - 1;
        assert_eq!(agreed(&case).handled, ended);
    }
}

/// Every value of each byte of a prefix, before a request with the first header and before one with the Linux header.
#[test]
fn every_value_of_each_frame_byte() {
    let case = in_turn(2, 4);
    let starts = starts(&case);
    for (n, is_linux) in [(1, false), (2, true)] {
        for (at, change) in
            (0..prefix::SIZE).flat_map(|at| (1..=255).map(move |change| (at, change)))
        {
            let mut case = case.clone();
            case.session[starts[n] + at] ^= change;
            // no header, or the first with a control code
            let ends = match at {
                prefix::HEADER => change > 1 || is_linux,
                1..prefix::CONTROL => true,
                prefix::CONTROL..prefix::LENGTH => !is_linux,
                _ => false,
            };
            let handled = agreed(&case).handled;
            assert!(
                handled >= n && (!ends || handled == n),
                "byte {at} of prefix {n}"
            );
        }
    }
}

/// Behind a prefix that names no header nothing is handled, and nothing changes.
#[test]
fn frames_that_name_no_header() {
    let random = &mut Random::new(3);
    let base = in_turn(3, 3);
    for _ in 0..300 {
        let mut case = base.clone();
        case.record = vec![0x5A; 10 * record::SIZE];
        case.session.extend(of_no_header(random));
        case.session.extend(&base.session);
        let outcome = agreed(&case);
        assert_eq!(outcome.handled, 3);
        let end = base.session.len();
        assert_eq!(outcome.session[end..], case.session[end..]);
        assert_eq!(outcome.record[3 * record::SIZE..], [0x5A; 7 * record::SIZE]);
    }
}

#[test]
fn lengths_near_the_end_of_the_session_and_of_32_bits() {
    let base = in_turn(4, 2);
    let control = code::SET_PHY_INFO;
    for header in [Header::First, Header::Linux { control }] {
        for length in [
            0,
            1,
            19,
            20,
            27,
            28,
            29,
            0x7FFF_FFFF,
            0xFFFF_FFF4,
            0xFFFF_FFFF,
        ] {
            for bytes in [0, 1, 19, 20, 27, 28] {
                let mut case = base.clone();
                case.record = vec![0x5A; 100];
                case.session
                    .extend(cut(case.framing, header, length, bytes));
                let handled = agreed(&case).handled;
                assert_eq!(
                    handled > 2,
                    length as usize <= bytes,
                    "{length}, {bytes} bytes"
                );
            }
        }
    }
}

#[test]
fn records_of_each_length() {
    let mut case = in_turn(5, 9);
    for length in 0..90 {
        case.record = (0..length as u8).collect();
        let outcome = agreed(&case);
        assert_eq!(outcome.handled, (length / record::SIZE).min(9));
        let end = record::SIZE * outcome.handled;
        assert_eq!(outcome.record[end..], case.record[end..]);
    }
}

/// A list of first headers: the run of both gives what the other run does, on every side.
#[test]
fn first_headers_alone_go_by_either_run() {
    for seed in 0..60 {
        let random = &mut Random::new(seed);
        let adapter = Adapter::sound(random);
        let opening = generate::sound_opening(random, &adapter);
        let requests = generate::requests_of(random, &adapter, 40, Framing::First);
        let (text, file, medium) = (&opening.text, &opening.file, &opening.medium);
        let one = Case::of_requests(seed, text, file, medium, &requests);
        let other = Case {
            framing: Framing::Both,
            session: Framing::Both.join(&requests),
            ..one.clone()
        };
        for side in SIDES {
            let (first, both) = (side.run(&one), side.run(&other));
            assert_eq!((first.handled, both.handled), (40, 40));
            assert!(first.record == both.record && first.medium == both.medium);
            assert!(first.state == both.state, "seed {seed}, {side:?}");
            let replies = [(&one, &first), (&other, &both)]
                .map(|(case, outcome)| case.framing.split(&outcome.session, 40));
            assert!(replies[0] == replies[1], "seed {seed}, {side:?}");
        }
    }
}

/// The bytes of a request of one header behind a prefix of the other, as from a console that takes the wrong call.
#[test]
fn requests_behind_the_frame_of_the_other_header() {
    for seed in 0..40 {
        let random = &mut Random::new(seed);
        let adapter = Adapter::sound(random);
        let mut requests = generate::requests(random, &adapter, 60);
        for request in &mut requests {
            request.header = match request.header {
                Header::First => Header::Linux {
                    control: random.pick(&code::ALL),
                },
                Header::Linux { .. } => Header::First,
            };
        }
        let medium = random.bytes(adapter.medium_length());
        let case = Case::of_requests(seed, b"CSMI=Full;", &adapter.file(), &medium, &requests);
        assert_eq!(agreed(&case).handled, 60);
    }
}

/// A request with the first header at None is denied, and the one behind it, with the same code and the Linux header, is not.
#[test]
fn a_level_is_asked_of_the_first_header_alone() {
    let random = &mut Random::new(6);
    let adapter = Adapter::of_counts(random, 2, 2);
    for control in code::ALL {
        let denied = first::sound(random, &adapter, control);
        let served = linux::turned(random, &denied);
        let medium = random.bytes(adapter.medium_length());
        let requests = [denied, served];
        let case = Case::of_requests(6, b"CSMI=None;", &adapter.file(), &medium, &requests);
        let outcome = agreed(&case);
        let codes: Vec<u32> = case
            .exchanges(&outcome)
            .iter()
            .map(|one| one.code)
            .collect();
        assert_eq!(codes[0], 4);
        assert_ne!(codes[1], 4);
        assert_eq!(outcome.state.unwrap()[0], NONE);
    }
}
