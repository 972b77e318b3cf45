//! The control codes but 25, with each of their return codes.

use super::adapter::{answer, answer_of, buffer, row, sample};
use crate::layout::entity;
use crate::{Phy, Row};

#[test]
fn code_1() {
    let mut sent = buffer(1, &[0xCC; 180]);
    assert_eq!(answer_of(&mut sample(), &mut sent), 0);
    assert_eq!(sent[28..202], sample().driver_info);
    assert_eq!(sent[202..], [0xCC; 6]);
}

#[test]
fn code_20() {
    let state = sample();
    let mut sent = buffer(20, &[0xCC; 2053]);
    assert_eq!(answer_of(&mut state.clone(), &mut sent), 0);
    assert_eq!(sent[28..32], [5, 0, 0, 0]);
    for n in 0..32 {
        assert_eq!(sent[32 + 64 * n..96 + 64 * n], state.phys[n].entity);
    }
    assert_eq!(sent[2080..], [0xCC]);
}

/// The code of a code 21 to the sample, and phy n afterwards.
fn set(body: [u8; 8]) -> (u32, Phy) {
    let mut state = sample();
    let mut sent = buffer(21, &body);
    let code = answer_of(&mut state, &mut sent);
    assert_eq!(sent[28..], body);
    (code, state.phys[usize::from(body[0]) % 32].clone())
}

#[test]
fn code_21_checks() {
    assert_eq!(set([5, 9, 9, 9, 9, 0, 0, 0]).0, 2002);
    assert_eq!(set([0xFF, 0, 0, 0, 0, 0, 0, 0]).0, 2002);
    assert_eq!(set([3, 9, 7, 7, 9, 0, 0, 0]).0, 2000);
    assert_eq!(set([0, 2, 7, 0, 0, 0, 0, 0]).0, 3);
    assert_eq!(set([0, 0, 7, 0, 4, 0, 0, 0]).0, 3);
    assert_eq!(set([0, 0, 7, 0, 0, 0, 0, 0]).0, 2001);
    assert_eq!(set([0, 0, 0, 10, 0, 0, 0, 0]).0, 2001);
    assert_eq!(set([0, 0, 9, 8, 0, 0, 0, 0]).0, 2001);
}

#[test]
fn code_21_hardware_range() {
    let mut state = sample();
    state.phys[2].entity[entity::NEGOTIATED..=entity::MAXIMUM].copy_from_slice(&[8, 0x88, 0x88]);
    for (minimum, maximum, code) in [(0, 9, 2001), (9, 9, 2001), (9, 0, 2001), (8, 8, 0)] {
        let mut sent = buffer(21, &[2, 0, minimum, maximum, 0, 0, 0, 0]);
        assert_eq!(answer_of(&mut state, &mut sent), code);
    }
}

#[test]
fn code_21_changes() {
    let before = &sample().phys[0];
    // unchanged rates, a new class
    let (code, phy) = set([0, 0, 0, 0, 3, 7, 7, 7]);
    let mut expected = before.clone();
    expected.entity[entity::SIGNAL_CLASS] = 3;
    assert_eq!((code, &phy), (0, &expected));
    // a maximum of 8
    let (code, phy) = set([0, 0, 0, 8, 3, 0, 0, 0]);
    expected.entity[entity::NEGOTIATED] = 8;
    expected.entity[entity::MAXIMUM] = 0x89;
    assert_eq!((code, &phy), (0, &expected));
    // disabled, the rates stored too
    let (code, phy) = set([0, 1, 9, 9, 0, 0, 0, 0]);
    assert_eq!((code, phy.negotiated()), (0, 1));
    assert_eq!(phy.entity[30..32], [0x98, 0x99]);
    assert_eq!(phy.counters, before.counters);
    // no device
    assert_eq!(set([1, 0, 9, 9, 0, 0, 0, 0]).1.negotiated(), 0);
}

#[test]
fn code_21_failed_links_are_counted() {
    let mut state = sample();
    state.phys[4].counters[3] = u32::MAX - 1;
    for expected in [u32::MAX, u32::MAX] {
        let mut sent = buffer(21, &[4, 0, 0, 8, 0, 0, 0, 0]);
        assert_eq!(answer_of(&mut state, &mut sent), 0);
        assert_eq!(state.phys[4].negotiated(), 2);
        assert_eq!(state.phys[4].counters[..3], [11, 22, 33]);
        assert_eq!(state.phys[4].counters[3], expected);
    }
    // disabling resets no link
    let mut sent = buffer(21, &[4, 1, 0, 0, 0, 0, 0, 0]);
    state.phys[4].counters[3] = 7;
    assert_eq!(answer_of(&mut state, &mut sent), 0);
    assert_eq!(state.phys[4].counters[3], 7);
}

#[test]
fn code_22() {
    let mut body = [0xCC; 20];
    body[..2].copy_from_slice(&[5, 2]);
    assert_eq!(answer(22, &body), 3);
    body[1] = 1;
    assert_eq!(answer(22, &body), 2002);
    let mut state = sample();
    for (reset, counters) in [
        (0, [11, 22, 33, 46]),
        (1, [11, 22, 33, 46]),
        (0, [0, 0, 0, 0]),
    ] {
        body[..2].copy_from_slice(&[2, reset]);
        let mut sent = buffer(22, &body);
        assert_eq!(answer_of(&mut state, &mut sent), 0);
        assert_eq!(sent[28..32], [2, reset, 0xCC, 0xCC]);
        assert_eq!(sent[32..], counters.map(u32::to_le_bytes).concat());
    }
    let mut expected = sample();
    expected.phys[2].counters = [0; 4];
    assert_eq!(state, expected);
}

#[test]
fn code_26() {
    let body = |n| [&[n][..], &[0xCC; 23]].concat();
    assert_eq!(answer(26, &body(5)), 2002);
    assert_eq!(answer(26, &body(1)), 2009);
    assert_eq!(answer(26, &body(2)), 2009);
    assert_eq!(answer(26, &body(3)), 2010);
    let mut sent = buffer(26, &body(0));
    assert_eq!(answer_of(&mut sample(), &mut sent), 0);
    assert_eq!(sent[28..32], [0, 0xCC, 0xCC, 0xCC]);
    assert_eq!(sent[32..], sample().phys[0].signature);
}

#[test]
fn codes_27_and_28() {
    let mut state = sample();
    for n in 1..=2 {
        let row = row(n);
        let sas = [row.sas_address, row.sas_lun].concat();
        let mut sent = buffer(27, &[&sas[..], &[0xCC; 4]].concat());
        assert_eq!(answer_of(&mut state, &mut sent), 0);
        assert_eq!(sent[28..], [&sas[..], &row.os].concat());
        let mut sent = buffer(28, &[&row.os[..], &[0xCC; 16]].concat());
        assert_eq!(answer_of(&mut state, &mut sent), 0);
        assert_eq!(sent[28..], [&row.os[..], &sas].concat());
        // any other byte, and there is no row
        for at in 0..16 {
            let mut body = [&sas[..], &row.os].concat();
            body[at] ^= 0x80;
            assert_eq!(answer(27, &body), 2013);
        }
        for at in 0..4 {
            let mut body = [&row.os[..], &sas].concat();
            body[at] ^= 0x80;
            assert_eq!(answer(28, &body), 2014);
        }
    }
    // rows past a are none
    assert_eq!(state.rows[2], Row::ZERO);
    assert_eq!(answer(27, &[0; 20]), 2013);
    assert_eq!(answer(28, &[0; 20]), 2014);
}
