//! What is staged, in a state: its bytes, its rules (107), and that an opening leaves nothing
//! staged.

use super::{commit, image, validation, Adapter, FIRST, LINUX, REVISIONS};
use crate::tests::adapter::{cut, file, largest, medium, sample, stage, FULL};
use crate::{open, tested, State};

/// The sample's bytes with this flag and these bytes of revisions.
fn with(flag: u8, revisions: [u8; 8]) -> [u8; 6190] {
    let mut bytes = sample().to_bytes();
    bytes[6181] = flag;
    bytes[6182..].copy_from_slice(&revisions);
    bytes
}

/// The number of a code 3 on these bytes with either header; nothing changes.
fn number_of(bytes: &[u8; 6190]) -> u32 {
    let [first, linux] = [FIRST, LINUX].map(|header| {
        let mut state = State::from_bytes(bytes);
        let (mut disk, mut lent) = (medium(5), stage());
        let mut buffer = (header.buffer)(3, &[0; 36]);
        let number = (header.request)(&mut state, &mut disk, &mut lent, 3, &mut buffer);
        assert!(state.to_bytes() == *bytes && disk == medium(5) && lent == stage());
        number
    });
    assert_eq!(first, linux);
    first
}

#[test]
fn their_places() {
    let staged = Adapter::new().staging(&image(1, REVISIONS)).state;
    assert_eq!(staged.to_bytes(), with(1, [1, 2, 3, 4, 5, 6, 7, 0x80]));
    assert_eq!(sample().to_bytes(), with(0, [0; 8]));
}

/// A flag over 1 is 107; so is 0 with revisions.
#[test]
fn every_flag() {
    for flag in 0..=255 {
        for revisions in [[0; 8], [1, 2, 3, 4, 5, 6, 7, 8], [0xFF; 8]] {
            let expected = match flag {
                0 if revisions == [0; 8] => 0,
                1 => 0,
                _ => 107,
            };
            assert_eq!(number_of(&with(flag, revisions)), expected, "{flag}");
        }
    }
}

#[test]
fn every_bit_of_the_revisions() {
    for at in 0..8 {
        for bit in 0..8 {
            let mut revisions = [0; 8];
            revisions[at] = 1 << bit;
            assert_eq!(number_of(&with(0, revisions)), 107);
            assert_eq!(number_of(&with(1, revisions)), 0);
            assert_eq!(number_of(&with(2, revisions)), 107);
        }
    }
}

/// The running revisions are free.
#[test]
fn running_revisions() {
    for revisions in [[0; 4], [u16::MAX; 4], REVISIONS] {
        let adapter = Adapter::new().running(revisions);
        assert_eq!(number_of(&adapter.state.to_bytes()), 0);
    }
}

/// The zero state has nothing staged, and one that has is no less refused.
#[test]
fn the_zero_state() {
    assert_eq!(
        (State::ZERO.staged, State::ZERO.staged_revisions),
        (0, [0; 4])
    );
    let mut state = State::ZERO;
    state.staged = 1;
    assert_eq!(tested(&state, &[], &stage()), Err(107));
}

/// "A commit leaves nothing staged, as an opening does"; the file's revisions run.
#[test]
fn an_opening() {
    for state in [sample(), largest(), cut(1, 0), cut(7, 26)] {
        let (number, opened) = open(FULL, &file(&state), &medium(state.p));
        assert_eq!(
            (number, opened.staged, opened.staged_revisions),
            (0, 0, [0; 4])
        );
        assert_eq!(opened, state);
        let mut adapter = Adapter {
            medium: medium(state.p),
            state: opened,
            stage: stage(),
        };
        assert_eq!(adapter.shown(), state.controller_config);
        assert_eq!(adapter.send(&FIRST, &commit()), 1);
    }
}

/// After an opening, what was staged before it is gone, and what ran too.
#[test]
fn an_opening_after_a_commit() {
    let mut adapter = Adapter::new();
    for body in [
        validation(&image(1, REVISIONS)),
        commit(),
        validation(&image(1, REVISIONS)),
    ] {
        assert_eq!(adapter.send(&FIRST, &body), 0);
    }
    let (_, state) = open(FULL, &file(&sample()), &adapter.medium);
    let mut again = Adapter { state, ..adapter };
    assert_eq!(again.state, sample());
    assert_eq!(again.send(&FIRST, &commit()), 1);
}

/// A refused opening: the zero state, on which every code 4 is 107 and leaves the stage.
#[test]
fn a_refused_opening() {
    for (text, bytes) in [(&b"CSMI=full;"[..], file(&sample())), (FULL, Vec::new())] {
        let (number, state) = open(text, &bytes, &medium(5));
        assert_ne!(number, 0);
        assert_eq!((state.staged, state.staged_revisions), (0, [0; 4]));
        for header in [FIRST, LINUX] {
            for body in [validation(&image(1, REVISIONS)), commit()] {
                let sent = (header.buffer)(4, &body);
                for mut disk in [medium(5), Vec::new()] {
                    let (mut after, mut lent, mut buffer) = (state.clone(), stage(), sent.clone());
                    let number = (header.request)(&mut after, &mut disk, &mut lent, 4, &mut buffer);
                    assert_eq!((number, &after, &buffer), (107, &state, &sent));
                    assert_eq!(lent, stage());
                }
            }
        }
    }
}
