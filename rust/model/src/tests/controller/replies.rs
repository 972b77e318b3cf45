//! The replies whole, at every level, with either header; the signatures; and that each byte that
//! the state holds has its place in one reply.

use super::{Header, FIRST, LINUX};
use crate::tests::adapter::{
    self, answer_of, cut, file, largest, medium, sample, sample_at, stage,
};
use crate::{denied, open, State};

const CODES: [u32; 3] = [2, 3, 30];

/// The structure that a reply of the code fills.
fn structure(state: &State, code: u32) -> Vec<u8> {
    match code {
        2 => state.controller_config.to_vec(),
        3 => state.controller_status.to_vec(),
        _ => {
            // "References from p on are zero."
            let mut references = vec![0; 1152];
            for n in 0..usize::from(state.p) {
                references[36 * n..36 * n + 36].copy_from_slice(&state.connectors[n].0);
            }
            references
        }
    }
}

fn size(code: u32) -> usize {
    match code {
        2 => 176,
        3 => 36,
        _ => 1152,
    }
}

/// The body of a reply to a sound request of the code; all else is as it was.
fn reply(header: &Header, state: &State, medium: &[u8], code: u32) -> Vec<u8> {
    let sent = (header.buffer)(code, &vec![0xCC; size(code)]);
    let (mut after, mut disk, mut buffer) = (state.clone(), medium.to_vec(), sent.clone());
    let mut lent = stage();
    let number = (header.request)(&mut after, &mut disk, &mut lent, code, &mut buffer);
    assert_eq!(lent, stage());
    assert_eq!((number, header.return_code(&buffer)), (0, 0));
    assert_eq!((&after, &disk[..]), (state, medium));
    buffer.split_off(header.size)
}

/// Whatever the body held before, and whatever stands behind it.
#[test]
fn each_reply_whole() {
    for mut state in [sample(), largest(), cut(1, 0), cut(31, 26)] {
        let disk = medium(state.p);
        for header in [FIRST, LINUX] {
            for level in header.lowest..=3 {
                state.level = level;
                for code in CODES {
                    for (before, more) in [(0x00, 0), (0xFF, 1), (0xCC, 700)] {
                        let sent = (header.buffer)(code, &vec![before; size(code) + more]);
                        let filled = structure(&state, code);
                        let behind = vec![before; more];
                        let expected = [&sent[..header.size], &filled, &behind].concat();
                        let expected = header.with_code(expected, 0);

                        let (mut after, mut disk_after) = (state.clone(), disk.clone());
                        let (mut lent, mut buffer) = (stage(), sent);
                        let number = (header.request)(
                            &mut after,
                            &mut disk_after,
                            &mut lent,
                            code,
                            &mut buffer,
                        );
                        assert_eq!((number, buffer), (0, expected), "code {code}");
                        assert_eq!((&after, &disk_after), (&state, &disk));
                        assert_eq!(lent, stage());
                    }
                }
            }
        }
    }
}

/// "at Restricted"; with the Linux header, also at None.
#[test]
fn none_is_denied() {
    for code in CODES {
        let sent = adapter::buffer(code, &vec![0xCC; size(code)]);
        for level in 0..=3 {
            let mut state = sample_at(level);
            assert_eq!(denied(&state, &medium(5), &stage(), &sent), level == 0);
            let expected = if level == 0 { 4 } else { 0 };
            assert_eq!(answer_of(&mut state, &mut sent.clone()), expected);
        }
        // one byte short is not denied, but refused
        let short = adapter::buffer(code, &vec![0xCC; size(code) - 1]);
        assert!(!denied(&sample_at(0), &medium(5), &stage(), &short));
        assert_eq!(answer_of(&mut sample_at(0), &mut short.clone()), 3);
    }
}

/// "signature CSMIALL for 2 and 3, CSMISAS for 30".
#[test]
fn signatures() {
    for code in CODES {
        for signature in [
            b"CSMIALL\0",
            b"CSMISAS\0",
            b"CSMIPHY\0",
            b"CSMIALL ",
            b"CSMISAS ",
        ] {
            let mut sent = adapter::buffer(code, &vec![0xCC; size(code)]);
            sent[4..12].copy_from_slice(signature);
            let right = match code {
                30 => b"CSMISAS\0",
                _ => b"CSMIALL\0",
            };
            let expected = if signature == right { 0 } else { 2 };
            assert_eq!(answer_of(&mut sample(), &mut sent), expected);
            // also where it would be denied
            let expected = if signature == right { 4 } else { 2 };
            assert_eq!(answer_of(&mut sample_at(0), &mut sent), expected);
        }
    }
}

/// From the file to the reply.
#[test]
fn what_the_file_holds() {
    let state = cut(7, 51);
    for text in ["CSMI=Restricted;", "", "CSMI=Full;"] {
        let (number, opened) = open(text.as_bytes(), &file(&state), &medium(7));
        assert_eq!(number, 0);
        for code in CODES {
            for header in [FIRST, LINUX] {
                let body = reply(&header, &opened, &medium(7), code);
                assert_eq!(body, structure(&state, code));
            }
        }
    }
}

/// Every byte of the new structures, changed: one byte of one reply changes, at its place.
#[test]
fn each_byte_is_shown_in_one_reply() {
    let (state, disk) = (sample(), medium(5));
    let before = CODES.map(|code| reply(&FIRST, &state, &disk, code));
    let shown = |changed: &State, code: u32, at: usize, flipped: u8| {
        for (n, other) in CODES.into_iter().enumerate() {
            let mut expected = before[n].clone();
            if other == code {
                expected[at] ^= flipped;
            }
            for header in [FIRST, LINUX] {
                let after = reply(&header, changed, &disk, other);
                assert_eq!(after, expected, "code {other}, byte {at} of {code}");
            }
        }
    };
    for at in 0..176 {
        let mut changed = state.clone();
        changed.controller_config[at] ^= 0xFF;
        shown(&changed, 2, at, 0xFF);
    }
    for at in 0..36 {
        let mut changed = state.clone();
        changed.controller_status[at] ^= 0xFF;
        shown(&changed, 3, at, 0xFF);
    }
    for n in 0..5 {
        for at in 0..36 {
            // the bits of a pinout that may be set
            let flipped = [0x03, 0x0F, 0x0F].get(at).copied().unwrap_or(0xFF);
            if at == 3 {
                continue;
            }
            let mut changed = state.clone();
            changed.connectors[n].0[at] ^= flipped;
            shown(&changed, 30, 36 * n + at, flipped);
        }
    }
}
