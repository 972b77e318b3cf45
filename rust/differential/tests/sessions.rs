//! Sessions through both implementations, by the runs and by the calls: every number, every return code and every byte.

use differential::adapter::Adapter;
use differential::case::{Case, Outcome};
use differential::compare::compare;
use differential::coverage::Coverage;
use differential::names::{
    ata, call, device, header, link_errors, phy, record, row, status, stp, PROGRAM_LONGEST,
};
use differential::random::Random;
use differential::request::firmware::{self, Download};
use differential::request::passthrough::Passthrough;
use differential::request::{first, fis, linux, sound, Header, Request, HEADERS};
use differential::session::{end::cut, Framing};
use differential::wire::{put_word, word};
use differential::{generate, names, need, tally, text};
use library::Totals;
use std::ops::Range;

/// What both give for a case.
fn agreed(case: &Case) -> Outcome {
    compare(case).unwrap_or_else(|difference| panic!("{difference}"))
}

/// A sound request of a code, with each header.
const SOUND: [fn(&mut Random, &Adapter, u32) -> Request; 2] = [first::sound, linux::sound];

/// A case of sound requests at a level, one code after the other.
fn sound_case(seed: u64, level: u8, count: usize) -> Case {
    let random = &mut Random::new(seed);
    let adapter = Adapter::of_counts(random, 4, 5);
    let requests: Vec<Request> = (0..count)
        .map(|n| {
            first::sound(
                random,
                &adapter,
                names::code::ALL[n % names::code::ALL.len()],
            )
        })
        .collect();
    let text = text::of_level(random, level);
    let medium = random.bytes(adapter.medium_length());
    Case::of_requests(seed, &text, &adapter.file(), &medium, &requests)
}

/// Every command at a level, with both headers, within the disk and near an end.
fn every_command(seed: u64, level: u8) -> Case {
    let random = &mut Random::new(seed);
    let adapter = Adapter::connected(random, 6, 0);
    let mut requests = Vec::new();
    for command in 0..=255 {
        for (lba, count) in [(3, 2), fis::edge(random)] {
            let fis = fis::command(random, command, lba, count);
            let body = Passthrough::of_fis(random, &adapter, fis).body(random);
            requests.extend(HEADERS.map(|of_body| of_body(names::code::STP_PASSTHRU, &body)));
        }
    }
    let text = text::of_level(random, level);
    let medium = random.bytes(adapter.medium_length());
    Case::of_requests(seed, &text, &adapter.file(), &medium, &requests)
}

/// Over 60,000 requests over thousands of adapters, texts and openings; each number and return code of the documents is met, with each
/// code that can give it, with the Linux header at each level, of code 22 with each kind of reset byte at each level, of codes 2, 3 and 30
/// at each level with both headers, of disks held at spin-up with both headers, of firmware at each level with both headers, and none besides.
#[test]
fn random_runs_agree_and_meet_everything() {
    let mut coverage = Coverage::default();
    for (framing, cases) in [(Framing::First, 1400), (Framing::Both, 2800)] {
        for seed in 0..cases {
            let case = generate::case(seed, 30, framing);
            coverage.count(&case, &agreed(&case));
        }
    }
    for level in text::LEVELS {
        for seed in 0..3 {
            let case = every_command(seed, level);
            coverage.count(&case, &agreed(&case));
        }
    }
    println!("{coverage}");
    assert!(
        coverage.requests > 60_000,
        "only {} requests",
        coverage.requests
    );
    assert_eq!(coverage.missing(), Vec::<String>::new());
    assert_eq!(coverage.unknown(), Vec::<String>::new());
}

#[test]
fn each_code_and_length_agrees() {
    let random = &mut Random::new(11);
    let adapter = Adapter::of_counts(random, 3, 4);
    for control in names::code::ALL {
        for sound in SOUND {
            let sound = sound(random, &adapter, control);
            each_length_agrees(random, &adapter, &sound);
        }
    }
}

/// A request cut at each place of its first bytes, and one byte longer.
fn each_length_agrees(random: &mut Random, adapter: &Adapter, sound: &Request) {
    let whole = sound.buffer.len();
    let lengths = (0..whole.min(300)).chain([whole - 1, whole, whole + 1]);
    let requests: Vec<Request> = lengths.map(|length| resized(sound, length)).collect();
    let medium = random.bytes(adapter.medium_length());
    let case = Case::of_requests(0, b"CSMI=Full;", &adapter.file(), &medium, &requests);
    let outcome = agreed(&case);
    let exchanges = case.exchanges(&outcome);
    assert_eq!(exchanges.len(), requests.len());
    for (exchange, request) in exchanges.iter().zip(&requests) {
        let short = request.is_short();
        let number = if short {
            call::BUFFER_LENGTH
        } else {
            call::DONE
        };
        assert_eq!(exchange.number, number);
        let cut = !short && request.buffer.len() < whole;
        assert!(!cut || exchange.code == status::INVALID_PARAMETER);
    }
}

fn resized(request: &Request, length: usize) -> Request {
    let mut resized = request.clone();
    resized.buffer.resize(length, 0x77);
    resized
}

/// Each of these bytes of a request set to each value: both sides agree on all.
fn every_value_agrees(
    random: &mut Random,
    adapter: &Adapter,
    sound: &Request,
    places: Range<usize>,
) {
    let mut requests = Vec::new();
    for at in places {
        for change in 0..=255 {
            let mut request = sound.clone();
            request.buffer[at] ^= change;
            requests.push(request);
        }
    }
    let medium = random.bytes(adapter.medium_length());
    let case = Case::of_requests(0, b"CSMI=Full;", &adapter.file(), &medium, &requests);
    assert_eq!(agreed(&case).handled, requests.len());
}

#[test]
fn every_value_of_each_header_byte_agrees() {
    let random = &mut Random::new(12);
    let adapter = Adapter::of_counts(random, 2, 2);
    for control in names::code::ALL {
        let body = small_body(random, &adapter, control);
        for of_body in HEADERS {
            let sound = of_body(control, &body);
            every_value_agrees(random, &adapter, &sound, 0..sound.header.size());
        }
    }
}

/// A sound body of a code; of code 25, a write of one sector, of code 4, a validation of one block.
fn small_body(random: &mut Random, adapter: &Adapter, control: u32) -> Vec<u8> {
    match control {
        names::code::FIRMWARE_DOWNLOAD => {
            let image = firmware::image(random, 1);
            Download::validation_of(random, image).body(random)
        }
        names::code::STP_PASSTHRU => {
            let fis = fis::command(random, ata::WRITE_SECTORS, 3, 1);
            Passthrough::of_fis(random, adapter, fis).body(random)
        }
        _ => sound::body(random, adapter, control),
    }
}

#[test]
fn every_value_of_each_body_byte_agrees() {
    let random = &mut Random::new(13);
    let adapter = Adapter::connected(random, 5, 6);
    for control in names::code::ALL {
        let body = small_body(random, &adapter, control);
        for of_body in HEADERS {
            let sound = of_body(control, &body);
            let start = sound.header.size();
            let end = sound.buffer.len().min(start + stp::STATUS_FIS);
            assert!(start < end);
            every_value_agrees(random, &adapter, &sound, start..end);
        }
    }
}

/// Document 01's example: Restricted, a sound code 1, a sound code 21 and a buffer of 5 bytes.
#[test]
fn the_example_of_document_01() {
    let random = &mut Random::new(14);
    let adapter = Adapter::of_counts(random, 1, 0);
    let requests = [
        first::sound(random, &adapter, names::code::DRIVER_INFO),
        first::sound(random, &adapter, names::code::SET_PHY_INFO),
        Request::first(vec![0; 5]),
    ];
    let medium = vec![0; adapter.medium_length()];
    let case = Case::of_requests(14, b"CSMI=Restricted;", &adapter.file(), &medium, &requests);
    let outcome = agreed(&case);
    let answers: Vec<(u32, u32)> = case
        .exchanges(&outcome)
        .iter()
        .map(|one| (one.number, one.code))
        .collect();
    assert_eq!(answers, [(0, 0), (0, 4), (100, record::NO_CODE)]);
    let totals = Totals {
        requests: 3,
        granted: 1,
        denied: 1,
        otherwise_refused: 0,
        short: 1,
    };
    assert_eq!(tally::of_run(&case, &outcome), Ok(totals));
}

/// A phy whose device knows 9 alone is set to 8 alone: each link reset fails and counts, until the counter is at its end.
#[test]
fn failed_link_resets_count_up_to_the_end() {
    /// The phy reset problem counter, the fourth of 32 bits.
    const PROBLEM: usize = 12;
    let mut adapter = Adapter::of_counts(&mut Random::new(15), 1, 0);
    let bytes = &mut adapter.phys[0].bytes;
    (bytes[phy::MINIMUM], bytes[phy::MAXIMUM]) = (0x88, 0x99);
    (
        bytes[phy::ATTACHED],
        bytes[phy::LOWEST],
        bytes[phy::HIGHEST],
    ) = (device::END, 9, 9);
    (bytes[phy::NEGOTIATED], bytes[phy::HELD], bytes[phy::FIXED]) = (9, 0, 0);
    bytes[phy::SIGNATURE..phy::HELD].fill(0);
    bytes[phy::SPINUP_HOLD] = 0;
    put_word(bytes, phy::COUNTERS + PROBLEM, u32::MAX - 2);
    let slow = first::of_body(names::code::SET_PHY_INFO, &[0, 0, 0, 8, 0, 0, 0, 0]);
    let errors = first::of_body(names::code::LINK_ERRORS, &[0; link_errors::SIZE]);
    let requests: Vec<Request> = (0..4)
        .flat_map(|_| [slow.clone(), errors.clone()])
        .collect();
    let medium = vec![0; adapter.medium_length()];
    let case = Case::of_requests(15, b"CSMI=Full;", &adapter.file(), &medium, &requests);
    let outcome = agreed(&case);
    let exchanges = case.exchanges(&outcome);
    let counters = exchanges.iter().skip(1).step_by(2);
    let problems: Vec<u32> = counters
        .map(|one| word(one.reply, header::SIZE + link_errors::COUNTERS + PROBLEM))
        .collect();
    assert_eq!(problems, [u32::MAX - 1, u32::MAX, u32::MAX, u32::MAX]);
}

/// A row of zeros below a is a row like others, found both ways.
#[test]
fn a_row_of_zeros_is_found() {
    let mut adapter = Adapter::of_counts(&mut Random::new(16), 1, 3);
    adapter.rows[1] = [0; row::SIZE];
    let requests = [names::code::SCSI_ADDRESS, names::code::DEVICE_ADDRESS]
        .map(|control| first::of_body(control, &[0; row::SIZE]));
    let medium = vec![0; adapter.medium_length()];
    let case = Case::of_requests(16, b"", &adapter.file(), &medium, &requests);
    let outcome = agreed(&case);
    assert_eq!(outcome.handled, 2);
    assert!(case.exchanges(&outcome).iter().all(need::granted));
}

#[test]
fn a_session_cut_at_each_place() {
    let mut case = sound_case(21, text::FULL, 3);
    let whole = case.session.clone();
    let mut counts = Vec::new();
    for length in 0..=whole.len() {
        case.session = whole[..length].to_vec();
        counts.push(agreed(&case).handled);
    }
    assert!(counts.is_sorted());
    assert_eq!(
        (counts[0], counts[whole.len() - 1], counts[whole.len()]),
        (0, 2, 3)
    );
}

/// A request is handled if its bytes are all there, whatever its length; the program's limit is not the library's.
#[test]
fn lengths_near_the_limit_of_the_program() {
    let base = sound_case(22, text::FULL, 4);
    let longest = PROGRAM_LONGEST;
    for length in [
        0,
        1,
        27,
        28,
        longest - 1,
        longest,
        longest + 1,
        longest + 256,
        0x7FFF_FFFF,
        0xFFFF_FFFC,
        0xFFFF_FFFF,
    ] {
        for bytes in [0, 1, 28, longest - 1, longest, longest + 1] {
            let mut case = base.clone();
            case.record = vec![0x5A; 100];
            let end = cut(Framing::First, Header::First, length as u32, bytes);
            case.session.extend(end);
            case.session.extend([5, 0, 0, 0, 9]);
            let handled = agreed(&case).handled;
            let whole = length <= bytes + 5;
            assert_eq!(handled > 4, whole, "length {length}, {bytes} bytes");
        }
    }
}

#[test]
fn requests_of_any_length_are_handled() {
    let random = &mut Random::new(23);
    let adapter = Adapter::of_counts(random, 2, 0);
    let medium = vec![0; adapter.medium_length()];
    let driver_info = first::sound(random, &adapter, names::code::DRIVER_INFO);
    let lengths = [
        PROGRAM_LONGEST,
        PROGRAM_LONGEST + 1,
        65_535,
        65_536,
        65_537,
        1_000_000,
        5_000_000,
    ];
    let requests = lengths.map(|length| resized(&driver_info, length));
    let case = Case::of_requests(23, b"", &adapter.file(), &medium, &requests);
    let outcome = agreed(&case);
    let exchanges = case.exchanges(&outcome);
    assert_eq!(exchanges.len(), lengths.len());
    assert!(exchanges.iter().all(|one| one.code == status::SUCCESS));
}

/// Commands with a bDataBuffer, Length and uDataLength far above the 8,192 bytes that a command moves.
#[test]
fn long_data_buffers_agree() {
    let random = &mut Random::new(25);
    let adapter = Adapter::connected(random, 8, 0);
    let mut requests = Vec::new();
    let fitting = PROGRAM_LONGEST - header::SIZE - stp::DATA;
    for data in [names::DISK, fitting, fitting + 1, 70_000, 300_000] {
        for command in [
            ata::READ_SECTORS,
            ata::WRITE_SECTORS,
            ata::IDENTIFY_DEVICE,
            ata::CHECK_POWER_MODE,
        ] {
            let fis = fis::command(random, command, 0, 16);
            let mut passthrough = Passthrough::of_fis(random, &adapter, fis);
            passthrough.data = random.bytes(data);
            passthrough.data_length = data as u32;
            let body = passthrough.body(random);
            requests.extend(HEADERS.map(|of_body| of_body(names::code::STP_PASSTHRU, &body)));
        }
    }
    let medium = random.bytes(adapter.medium_length());
    let case = Case::of_requests(25, b"CSMI=Full;", &adapter.file(), &medium, &requests);
    let outcome = agreed(&case);
    let exchanges = case.exchanges(&outcome);
    let granted = exchanges.iter().filter(|one| need::granted(one)).count();
    assert_eq!(exchanges.len(), 40);
    assert!(granted > 20, "only {granted} were granted");
}

#[test]
fn records_of_each_length() {
    let mut case = sound_case(24, text::LIMITED, 9);
    for length in 0..90 {
        case.record = (0..length as u8).collect();
        let outcome = agreed(&case);
        assert_eq!(outcome.handled, (length / record::SIZE).min(9));
        let end = record::SIZE * outcome.handled;
        assert_eq!(outcome.record[end..], case.record[end..]);
    }
}

#[test]
fn nothing_at_all() {
    let empty = Case {
        seed: 0,
        text: Vec::new(),
        file: Vec::new(),
        medium: Vec::new(),
        stage: Vec::new(),
        framing: Framing::First,
        session: Vec::new(),
        record: Vec::new(),
    };
    for framing in [Framing::First, Framing::Both] {
        let outcome = agreed(&Case {
            framing,
            ..empty.clone()
        });
        assert_eq!((outcome.opening, outcome.handled), (call::FILE_LENGTH, 0));
    }
}

#[test]
fn after_a_refused_opening_every_request_gets_107() {
    let mut refused = 0;
    for seed in 0..60 {
        let random = &mut Random::new(seed);
        let adapter = Adapter::sound(random);
        let opening = generate::damaged_opening(random, &adapter);
        let mut requests = generate::requests(random, &adapter, 19);
        requests.extend([Request::first(Vec::new()), Request::linux(1, Vec::new())]);
        let mut case = Case::of_requests(
            seed,
            &opening.text,
            &opening.file,
            &opening.medium,
            &requests,
        );
        // one more than the record has room for
        let more = Framing::Both.join(&[Request::first(vec![1, 2, 3])]);
        case.session.extend(more);
        let outcome = agreed(&case);
        if outcome.opening == call::DONE {
            continue;
        }
        refused += 1;
        assert_eq!(outcome.handled, 21);
        assert!(outcome.medium == case.medium && outcome.session == case.session);
        assert!(outcome.stage == case.stage);
        let exchanges = case.exchanges(&outcome);
        assert!(exchanges
            .iter()
            .all(|exchange| exchange.number == call::STATE && exchange.code == record::NO_CODE));
    }
    assert!(refused > 50, "only {refused} openings were refused");
}
