//! The checks of every request: the numbers, the header and the level, in their order.

use super::adapter::{answer_of, buffer, fis, medium, passthrough, row, sample, sample_at, stage};
use super::firmware;
use crate::layout::entity;
use crate::{denied, request, State};

/// The smallest bodies that are served, by code.
pub fn bodies() -> [(u32, Vec<u8>); 12] {
    let row = row(1);
    [
        (1, vec![0; 174]),
        (2, vec![0xCC; 176]),
        (3, vec![0xCC; 36]),
        (4, firmware::validation(&firmware::image(1, [7, 8, 9, 10]))),
        (20, vec![0xCC; 2052]),
        (21, vec![0; 8]),
        (22, vec![0; 20]),
        (25, passthrough(fis(0xE5, 0, 0), &[])),
        (26, vec![0; 24]),
        (27, [&row.sas_address[..], &row.sas_lun, &[9; 4]].concat()),
        (28, [&row.os[..], &[9; 16]].concat()),
        (30, vec![0xCC; 1152]),
    ]
}

/// The number of a call that must leave everything as it was.
fn number_of(state: &State, medium: &[u8], stage: &[u8], buffer: &[u8]) -> u32 {
    let (mut s, mut m, mut b) = (state.clone(), medium.to_vec(), buffer.to_vec());
    let mut lent = stage.to_vec();
    let number = request(&mut s, &mut m, &mut lent, &mut b);
    assert_ne!(number, 0);
    assert_eq!((&s, &m[..], &b[..]), (state, medium, buffer));
    assert_eq!(lent, stage);
    assert!(!denied(state, medium, stage, buffer));
    number
}

#[test]
fn number_107_then_106_then_100() {
    let sound = buffer(1, &[0; 174]);
    let (disk, lent) = (medium(5), stage());
    assert_eq!(number_of(&State::ZERO, &[], &[], &[]), 107);
    assert_eq!(number_of(&State::ZERO, &disk, &[], &sound), 107);
    assert_eq!(number_of(&State::ZERO, &disk, &lent, &sound), 107);
    assert_eq!(number_of(&sample(), &medium(4), &lent, &[]), 106);
    assert_eq!(number_of(&sample(), &disk, &lent[1..], &[]), 106);
    for length in 0..28 {
        let short = &sound[..length];
        assert_eq!(number_of(&sample(), &disk, &lent, short), 100);
    }
}

#[test]
fn number_107_each_rule() {
    let changes: [fn(&mut State); 17] = [
        |state| state.level = 4,
        |state| state.p = 0,
        |state| state.p = 33,
        |state| state.p = 255,
        |state| state.p = 4,
        |state| state.p = 6,
        |state| state.a = 1,
        |state| state.a = 65,
        |state| state.a = 255,
        |state| state.a = 4,
        |state| state.phys[31].counters[3] = 1,
        |state| state.rows[63].os[3] = 1,
        |state| state.connectors[5].0[0] = 1,
        |state| state.connectors[31].0[35] = 1,
        |state| state.connectors[4].0[3] = 1,
        |state| state.phys[0].entity[entity::NEGOTIATED] = 8,
        |state| state.rows[0].os = state.rows[1].os,
    ];
    for change in changes {
        let mut state = sample();
        change(&mut state);
        assert_eq!(number_of(&state, &medium(5), &stage(), &[]), 107);
    }
    // one row of zeros is a row like others
    let mut state = sample();
    state.a = 3;
    assert_eq!(answer_of(&mut state, &mut buffer(1, &[0; 174])), 0);
}

#[test]
fn header_checks() {
    for (code, body) in bodies() {
        let sound = buffer(code, &body);
        assert_eq!(answer_of(&mut sample(), &mut sound.clone()), 0);
        let change = |at: usize, value: u8| {
            let mut changed = sound.clone();
            changed[at] = value;
            answer_of(&mut sample(), &mut changed)
        };
        assert_eq!(change(0, 27), 3);
        assert_eq!(change(3, 1), 3);
        for at in 4..12 {
            assert_eq!(change(at, b'x'), 2);
        }
        assert_eq!(change(16, 24), 2);
        assert_eq!(change(17, 1), 2);
        // Length one short, one past the buffer, and far past it
        let length = body.len() as u32;
        for wrong in [0, length - 1, length + 1, u32::MAX] {
            let mut changed = sound.clone();
            changed[24..28].copy_from_slice(&wrong.to_le_bytes());
            assert_eq!(answer_of(&mut sample(), &mut changed), 3);
        }
        // "A larger buffer may be supplied."
        let mut larger = [&sound[..], &[0; 9]].concat();
        assert_eq!(answer_of(&mut sample(), &mut larger), 0);
        // every shorter buffer, without a panic
        for end in 28..sound.len() {
            assert_eq!(answer_of(&mut sample(), &mut sound[..end].to_vec()), 3);
        }
    }
}

#[test]
fn unknown_codes() {
    for code in (0..70).chain([u32::MAX, 257]) {
        let known = matches!(code, 1..=4 | 20..=22 | 25..=28 | 30);
        let mut sent = buffer(code, &[0; 2052]);
        if !known {
            assert_eq!(answer_of(&mut sample(), &mut sent), 2);
        }
        // HeaderLength before the code
        sent[0] = 0;
        assert_eq!(answer_of(&mut sample(), &mut sent), 3);
    }
}

#[test]
fn levels() {
    for (code, body) in bodies() {
        for level in 0..=3 {
            let need = match code {
                21 => 3,
                4 => 2,
                _ => 1,
            };
            let mut state = sample_at(level);
            let mut sent = buffer(code, &body);
            let was_denied = denied(&state, &medium(5), &stage(), &sent);
            assert_eq!(was_denied, level < need);
            let expected = if level < need { 4 } else { 0 };
            assert_eq!(answer_of(&mut state, &mut sent), expected);
        }
    }
    for (command, need) in [(0x92, 2), (0xE8, 2), (0x30, 3), (0xA0, 3), (0x20, 1)] {
        for level in 0..=3 {
            let mut state = sample_at(level);
            let mut body = passthrough(fis(command, 0, 1), &[0; 512]);
            // "Level tested after the phy" is wrong
            body[0] = 99;
            let mut sent = buffer(25, &body);
            let expected = if level < need { 4 } else { 2002 };
            assert_eq!(answer_of(&mut state, &mut sent), expected);
        }
    }
    // denied only past the Length check
    let state = sample_at(0);
    let (disk, lent) = (medium(5), stage());
    assert!(!denied(&state, &disk, &lent, &buffer(21, &[0; 7])));
    assert!(!denied(&state, &medium(4), &lent, &buffer(21, &[0; 8])));
    assert!(!denied(&state, &disk, &lent[1..], &buffer(21, &[0; 8])));
    assert!(denied(&state, &disk, &lent, &buffer(21, &[0; 8])));
}
