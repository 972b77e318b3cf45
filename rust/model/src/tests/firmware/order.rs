//! The order of the checks: state, medium, stage, the header's, Length, level; the code's own, 3,
//! and last 1.

use super::{body, commit, image, validation, Adapter, Header, FIRST, LINUX, REVISIONS};
use crate::tests::adapter::{self, medium, sample_at, stage};
use crate::{denied, request_linux};

/// What is lent, and the code beside the buffer of a Linux request.
struct Sent {
    adapter: Adapter,
    control: u32,
    buffer: Vec<u8>,
}

#[derive(Clone, Copy, PartialEq, Eq, Debug)]
enum Answer {
    Call(u32),
    Code(u32),
}

type Fault = (fn(&mut Sent), Answer);

/// The first header's, in their order.
const OF_FIRST: [Fault; 11] = [
    (|sent| sent.adapter.state.staged = 2, Answer::Call(107)),
    (|sent| sent.adapter.medium.push(0), Answer::Call(106)),
    (|sent| sent.adapter.stage.push(0), Answer::Call(106)),
    (|sent| sent.buffer.truncate(27), Answer::Call(100)),
    (|sent| sent.buffer[0] = 27, Answer::Code(3)),
    (|sent| sent.buffer[16] = 5, Answer::Code(2)),
    (|sent| sent.buffer[11] = 1, Answer::Code(2)),
    (
        |sent| sent.buffer[24..28].copy_from_slice(&[43, 0, 0, 0]),
        Answer::Code(3),
    ),
    (|sent| sent.adapter.state.level = 1, Answer::Code(4)),
    (
        |sent| sent.buffer[28..30].copy_from_slice(&[0xFF, 1]),
        Answer::Code(3),
    ),
    (|sent| sent.buffer[100] ^= 1, Answer::Code(1)),
];

/// The Linux header's.
const OF_LINUX: [Fault; 9] = [
    (|sent| sent.adapter.state.staged = 2, Answer::Call(107)),
    (|sent| sent.adapter.medium.push(0), Answer::Call(106)),
    (|sent| sent.adapter.stage.push(0), Answer::Call(106)),
    (|sent| sent.buffer.truncate(19), Answer::Call(100)),
    (|sent| sent.buffer[16] = 2, Answer::Code(3)),
    (|sent| sent.control = 5, Answer::Code(2)),
    (
        |sent| sent.buffer[4..8].copy_from_slice(&[0, 0, 0, 0]),
        Answer::Code(3),
    ),
    (
        |sent| sent.buffer[20..22].copy_from_slice(&[0xFF, 1]),
        Answer::Code(3),
    ),
    (|sent| sent.buffer[100] ^= 1, Answer::Code(1)),
];

/// A validation of one block with these faults, the later ones put first, since a short buffer has
/// no fields. Whatever is refused leaves all but the return code.
fn with(header: &Header, faults: &[Fault]) -> Answer {
    let mut sent = Sent {
        adapter: Adapter::new(),
        control: 4,
        buffer: (header.buffer)(4, &validation(&image(1, REVISIONS))),
    };
    for (put, _) in faults.iter().rev() {
        put(&mut sent);
    }
    let before = (sent.adapter.clone(), sent.buffer.clone());
    let Adapter {
        state,
        medium,
        stage,
    } = &mut sent.adapter;
    let number = (header.request)(state, medium, stage, sent.control, &mut sent.buffer);
    if faults.is_empty() {
        assert_ne!(sent.adapter, before.0);
        return Answer::Code(header.return_code(&sent.buffer));
    }
    assert_eq!(sent.adapter, before.0);
    if number != 0 {
        assert_eq!(sent.buffer, before.1);
        return Answer::Call(number);
    }
    let code = header.return_code(&sent.buffer);
    assert_eq!(sent.buffer, header.with_code(before.1, code));
    Answer::Code(code)
}

/// Each set of faults: the first of them decides.
#[test]
fn any_checks_together() {
    for (header, all) in [(FIRST, &OF_FIRST[..]), (LINUX, &OF_LINUX)] {
        assert_eq!(with(&header, &[]), Answer::Code(0));
        for chosen in 1..1 << all.len() {
            let faults: Vec<Fault> = (0..all.len())
                .filter(|n| chosen >> n & 1 == 1)
                .map(|n| all[n])
                .collect();
            assert_eq!(with(&header, &faults), faults[0].1, "{chosen:b}");
        }
    }
}

/// Not to be told from an image that is wrong: a commit with bytes is 3 also where nothing is
/// staged, a wrong length 3 also where the image is damaged.
#[test]
fn code_3_before_1() {
    for header in [FIRST, LINUX] {
        let mut adapter = Adapter::new();
        assert_eq!(adapter.send(&header, &body(0, &[0; 512])), 3);
        assert_eq!(adapter.send(&header, &body(0, &[0])), 3);
        for length in [0, 1, 511, 513, 16_385, 16_896] {
            assert_eq!(adapter.send(&header, &body(1, &vec![0xEE; length])), 3);
        }
        for count in [1, 2, 32] {
            assert_eq!(adapter.send(&header, &body(1, &vec![0xEE; 512 * count])), 1);
        }
    }
}

/// "Serve code 4 at Limited": 4 at None and at Restricted, before the code's own checks; with the
/// Linux header never.
#[test]
fn levels() {
    let staged = image(2, REVISIONS);
    let bodies = [
        (commit(), 0),
        (validation(&image(1, REVISIONS)), 0),
        (validation(&[0xEE; 512]), 1),
        (validation(&[]), 3),
        (body(0, &[1]), 3),
        (body(1, &[0; 16_896]), 3),
    ];
    for level in 0..=3 {
        for (body, code) in &bodies {
            let before = Adapter::at(level).staging(&staged);
            let sent = adapter::buffer(4, body);
            let Adapter {
                state,
                medium,
                stage,
            } = &before;
            assert_eq!(denied(state, medium, stage, &sent), level < 2);
            let mut first = before.clone();
            let expected = if level < 2 { 4 } else { *code };
            assert_eq!(first.send(&FIRST, body), expected, "{level}");
            assert_eq!(before.clone().send(&LINUX, body), *code, "{level}");
        }
        // nothing staged
        let expected = if level < 2 { 4 } else { 1 };
        assert_eq!(Adapter::at(level).send(&FIRST, &commit()), expected);
        assert_eq!(Adapter::at(level).send(&LINUX, &commit()), 1);
    }
}

/// The code of a buffer with this Length; and that a refusal leaves all else.
fn with_length(header: &Header, level: u8, body: &[u8], length: u32) -> u32 {
    let mut before = Adapter::at(level).staging(&image(1, REVISIONS));
    let mut buffer = (header.buffer)(4, body);
    let at = if header.size == 28 { 24 } else { 4 };
    buffer[at..at + 4].copy_from_slice(&length.to_le_bytes());
    let Adapter {
        state,
        medium,
        stage,
    } = &mut before;
    assert_eq!((header.request)(state, medium, stage, 4, &mut buffer), 0);
    header.return_code(&buffer)
}

/// "Length counts them", with the flag and without, and before the level: one short is 3 at every
/// level, where a whole one is denied.
#[test]
fn length_counts_the_image() {
    for flags in [0, 1, 2, 3, !0, !1] {
        for data in [0, 1, 512, 1024, 16_384, 16_896] {
            let sent = body(flags, &image(33, REVISIONS)[..data]);
            let exact = 44 + data as u32;
            for level in 0..=3 {
                let own = match (flags & 1, data) {
                    (0, 0) | (1, 512 | 1024 | 16_384) => 0,
                    _ => 3,
                };
                let first = if level < 2 { 4 } else { own };
                for length in [0, 43, 44.min(exact - 1), exact - 1, exact + 1, u32::MAX] {
                    assert_eq!(with_length(&FIRST, level, &sent, length), 3);
                    let length = length.saturating_add(20);
                    assert_eq!(with_length(&LINUX, level, &sent, length), 3);
                }
                assert_eq!(with_length(&FIRST, level, &sent, exact), first);
                assert_eq!(with_length(&LINUX, level, &sent, 20 + exact), own);
            }
        }
    }
}

/// A short Length is not denied.
#[test]
fn a_short_length_is_not_denied() {
    for (flags, data) in [(0, 512), (1, 512), (0, 1)] {
        let mut sent = adapter::buffer(4, &body(flags, &image(1, REVISIONS)[..data]));
        assert!(denied(&sample_at(1), &medium(5), &stage(), &sent));
        sent[24..28].copy_from_slice(&(43 + data as u32).to_le_bytes());
        assert!(!denied(&sample_at(1), &medium(5), &stage(), &sent));
    }
}

/// No sum leaves 32 bits.
#[test]
fn lengths_over_the_buffer() {
    for flags in [0, 1] {
        for length in [u32::MAX, u32::MAX - 43, u32::MAX - 63, 0x8000_0000, 1025] {
            let mut sent = body(flags, &image(2, REVISIONS));
            sent[..4].copy_from_slice(&length.to_le_bytes());
            for header in [FIRST, LINUX] {
                for counted in [44, 64, 1068, 1088, u32::MAX] {
                    for level in 0..=3 {
                        let code = with_length(&header, level, &sent, counted);
                        let denied = header.size == 28 && level < 2 && code == 4;
                        assert!(code == 3 && !denied, "{length} {counted}");
                    }
                }
            }
        }
    }
}

/// "signature CSMIALL", and before the level.
#[test]
fn signatures() {
    for signature in [
        b"CSMIALL\0",
        b"CSMISAS\0",
        b"CSMIPHY\0",
        b"CSMIARY\0",
        b"CSMIALL ",
    ] {
        for level in 0..=3 {
            let mut adapter = Adapter::at(level);
            let mut sent = adapter::buffer(4, &validation(&image(1, REVISIONS)));
            sent[4..12].copy_from_slice(signature);
            let Adapter {
                state,
                medium,
                stage,
            } = &mut adapter;
            let code = adapter::code_of(state, medium, stage, &mut sent);
            let expected = match (signature == b"CSMIALL\0", level) {
                (false, _) => 2,
                (true, 0 | 1) => 4,
                (true, _) => 0,
            };
            assert_eq!(code, expected);
        }
    }
    // Linux's own number is an unknown code
    let mut buffer = (LINUX.buffer)(4, &commit());
    let mut adapter = Adapter::new();
    let Adapter {
        state,
        medium,
        stage,
    } = &mut adapter;
    assert_eq!(
        request_linux(state, medium, stage, 0xCC77_0004, &mut buffer),
        0
    );
    assert_eq!(LINUX.return_code(&buffer), 2);
}
