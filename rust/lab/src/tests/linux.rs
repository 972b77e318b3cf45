//! Generated sessions of both headers, what document 01 and W-201 say of their Linux requests, and the library's run of them.

use super::*;
use crate::asked::twin;
use crate::readings::{named, Name};
use crate::run::Run;
use differential::names::{body_size, code, header, stp};
use differential::random::Random;
use differential::request::first::of_body;
use differential::wire::{put_word, word};
use library::{prefix, record};
use model::layout::firmware;
use model::layout::linux_header as linux;

/// The exercise with half of its requests under the Linux header.
pub fn mixed(seed: u64, mut exercise: Exercise) -> Exercise {
    let random = &mut Random::new(seed);
    let session = exercise.form.split(&exercise.session.bytes);
    let mut both = Vec::new();
    for request in &session.requests {
        let (header, buffer) = match random.one_in(2) {
            true => under_linux(random, request.buffer),
            false => (request.header, request.buffer.to_vec()),
        };
        let buffer = &buffer;
        Form::Both
            .add(&mut both, &Request { header, buffer })
            .unwrap();
    }
    both.extend(session.tail);
    exercise.session.bytes = both;
    exercise.form = Form::Both;
    exercise
}

/// A request of the first header under Linux's, one time in four with a fault of that header.
fn under_linux(random: &mut Random, first: &[u8]) -> (Header, Vec<u8>) {
    if first.len() < header::SIZE {
        let control = random.pick(&code::ALL);
        return (Header::Linux { control }, first.to_vec());
    }
    let mut control = word(first, header::CONTROL_CODE);
    let mut length = word(first, header::LENGTH).wrapping_add(linux::SIZE as u32);
    let mut buffer = random.bytes(linux::SIZE);
    let mut direction = random.below(2) as u16;
    buffer.extend(&first[header::SIZE..]);
    match random.below(20) {
        0 => direction = random.pick(&[2, 0x100, 0x101, 0xFFFF]),
        1 => length = length.wrapping_sub(linux::SIZE as u32),
        2 => length = random.below(linux::SIZE) as u32,
        3 => control |= 0xCC77_0000,
        4 => buffer.truncate(random.below(linux::SIZE + 40)),
        _ => {}
    }
    if buffer.len() >= linux::SIZE {
        put_word(&mut buffer, linux::LENGTH, length);
        buffer[linux::DIRECTION..linux::IGNORED].copy_from_slice(&direction.to_le_bytes());
    }
    (Header::Linux { control }, buffer)
}

/// "A buffer under 20 bytes is 100. A Direction other than the two constants of section 10 is code 3"; code known; Length.
pub fn passes(control: u32, buffer: &[u8]) -> bool {
    let Some(size) = body_size(control).filter(|_| buffer.len() >= linux::SIZE) else {
        return false;
    };
    let [low, high] = [0, 1].map(|i| buffer[linux::DIRECTION + i]);
    let length = word(buffer, linux::LENGTH) as usize;
    let inside = linux::SIZE + size <= length && length <= buffer.len();
    let data = |at: usize| word(buffer, linux::SIZE + at) as usize;
    let room = |at: usize| inside && length - linux::SIZE - size >= data(at);
    let whole = match control {
        code::FIRMWARE_DOWNLOAD => room(firmware::BUFFER_LENGTH),
        code::STP_PASSTHRU => room(stp::DATA_LENGTH),
        _ => true,
    };
    high == 0 && low <= 1 && inside && whole
}

/// Whether a Linux request passes its checks and a sound one with the same code and body under the first header is denied.
pub fn is_above(state: &State, medium: &[u8], control: u32, buffer: &[u8]) -> bool {
    passes(control, buffer)
        && model::denied(
            state,
            medium,
            &STAGE,
            &of_body(control, &buffer[linux::SIZE..]).buffer,
        )
}

/// Whatever the level, in a session of both headers the library's run gives the replies and the numbers that its calls give.
#[test]
fn the_run_of_both_headers_is_the_calls() {
    let mut handled = [0; 2];
    for seed in 0..CASES {
        let exercise = mixed(seed, exercise(seed, &[seed as usize % 4]));
        let (text, file) = (&exercise.texts[0].bytes, &exercise.adapter.bytes);
        let (mut medium, mut stage) = (exercise.medium(), STAGE);
        let mut one = Run::open("one", text, file, &medium);
        let session = exercise.form.split(&exercise.session.bytes);
        let mut replies = Vec::new();
        for request in &session.requests {
            one.handle(request);
            let (header, buffer) = (request.header, &one.reply);
            Form::Both
                .add(&mut replies, &Request { header, buffer })
                .unwrap();
            handled[usize::from(header.is_linux())] += 1;
        }
        replies.extend(session.tail);
        let mut whole = exercise.session.bytes.clone();
        let mut record = vec![0; record::SIZE * session.requests.len()];
        let count = library::run_both(text, file, &mut medium, &mut stage, &mut whole, &mut record);
        assert_eq!(count, session.requests.len(), "seed {seed}");
        assert!(whole == replies && record == one.record, "seed {seed}");
        assert!(medium == one.medium, "seed {seed}");
        assert!(stage[..] == one.stage, "seed {seed}");
    }
    assert!(handled.iter().all(|count| *count > 500), "{handled:?}");
}

/// What stands before a request is what the library has there.
#[test]
fn prefixes_are_those_of_the_library() {
    let session = Form::Both
        .parse("raw 0102\nlinux raw control=22 03")
        .unwrap();
    let number = |at: usize| word(&session, at);
    assert_eq!(number(prefix::HEADER), prefix::FIRST);
    assert_eq!((number(prefix::CONTROL), number(prefix::LENGTH)), (0, 2));
    let second = prefix::SIZE + 2;
    assert_eq!(number(second + prefix::HEADER), prefix::LINUX);
    assert_eq!(number(second + prefix::CONTROL), 22);
    assert_eq!(number(second + prefix::LENGTH), 1);
    assert_eq!(session.len(), second + prefix::SIZE + 1);
}

/// A console that writes, all under the Linux header: nothing differs, and the mark says what it needs all the same.
#[test]
fn a_console_that_writes_is_not_taken_for_one_that_reads() {
    let mut seen = 0;
    for seed in 0..CASES {
        let mut exercise = exercise(seed, &[1, 3]);
        let lines = "linux get-phy-info\nlinux set-phy-info phy=0\nlinux stp-passthru command=30h data=00*512\nlinux stp-passthru command=E8h\nlinux get-link-errors reset=1\nlinux get-link-errors reset=2\n";
        exercise.form = Form::Both;
        exercise.session.bytes = Form::Both.parse(lines).unwrap();
        let marking = Marking::of(&exercise, None).unwrap();
        if marking.no_mark.is_some() {
            continue;
        }
        assert_eq!((marking.differing(), marking.denied(0)), (0, 0));
        assert_eq!((marking.above(0), marking.above(1)), (4, 0));
        assert_eq!(marking.status(), 1);
        assert_eq!(marking.warnings.last().unwrap(), "requests 2, 3, 4 and 5 have the Linux header and run as Full in both runs; under the first header they are denied low");
        let mark = "mark: 0 of 6 differ, 0 denied low, 4 Linux requests above the low level; what they left is the same\n";
        assert!(report::text(&marking).ends_with(mark));
        seen += 1;
    }
    assert!(seen > 20, "{seen}");
}

/// The twin by a kit that knows another signature for the code that changes a phy: the header's checks stop it.
fn wrong_twin(request: &Request) -> Option<Vec<u8>> {
    let mut made = twin(request)?;
    if request.control() == Some(code::SET_PHY_INFO) {
        made[header::SIGNATURE] ^= 0xFF;
    }
    Some(made)
}

/// What a request needs that was served is not asked by a wrong twin. Then there is no mark, or it would pass for one that reads.
#[test]
fn a_wrong_twin_gives_no_mark() {
    let mut seen = 0;
    for seed in 0..CASES {
        for (levels, lines) in [
            (
                &[1, 3][..],
                "linux get-phy-info\nlinux set-phy-info phy=0\n",
            ),
            (&[0, 1, 2, 3], "get-phy-info\nlinux set-phy-info phy=0\n"),
            (
                &[1, 3],
                "linux set-phy-info direction=2\nlinux set-phy-info phy=0\n",
            ),
        ] {
            let mut exercise = exercise(seed, levels);
            exercise.form = Form::Both;
            exercise.session.bytes = Form::Both.parse(lines).unwrap();
            if Marking::of(&exercise, None).unwrap().status() == 2 {
                continue;
            }
            let marking = Marking::by_twins(&exercise, None, wrong_twin).unwrap();
            assert_eq!((marking.above(0), marking.status()), (0, 2), "seed {seed}");
            let got = marking.rows[1].answers[0].words();
            let reason = format!("request 2 has the Linux header and got {got}, but by what was asked about it its header's checks stop it: what it needs is not known, as this lab does not fit the library");
            assert_eq!(marking.no_mark, Some(reason), "seed {seed}");
            seen += 1;
        }
    }
    assert!(seen > 60, "{seen}");
}

/// Generated sessions under the name of their form run; those with Linux requests do not under the other.
#[test]
fn sessions_under_the_name_of_the_other_form() {
    let mut refused = 0;
    for seed in 0..CASES {
        let [first, both] = exercises(seed, &[1, 3]).map(|exercise| exercise.session.bytes);
        assert_eq!(named(Form::Program, &first), Name::Right, "seed {seed}");
        assert_eq!(named(Form::Both, &both), Name::Right, "seed {seed}");
        if Form::Both.split(&both).linux() > 0 {
            let name = named(Form::Program, &both);
            assert!(matches!(name, Name::Wrong(_)), "seed {seed}");
            refused += 1;
        }
    }
    assert!(refused > 100, "{refused}");
}
