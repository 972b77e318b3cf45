//! The state as bytes: each byte has its place, and nothing is lost on the way.

use super::adapter::{buffer, medium, sample, stage};
use super::arbitrary::Numbers;
use crate::layout::state::SIZE;
use crate::{request, Connector, Phy, Row, State};

/// Bytes of which neighbours differ, also those a phy's or a row's bytes apart.
fn counted() -> [u8; SIZE] {
    std::array::from_fn(|at| (at * 7 + at / 105 * 3 + at / 256) as u8)
}

#[test]
fn the_zero_state_is_zero_bytes() {
    assert_eq!(State::ZERO.to_bytes(), [0; SIZE]);
    assert_eq!(State::from_bytes(&[0; SIZE]), State::ZERO);
}

#[test]
fn every_field_has_its_place() {
    let bytes = counted();
    let state = State::from_bytes(&bytes);
    assert_eq!([state.level, state.p, state.a], bytes[..3]);
    assert_eq!(state.driver_info, bytes[3..177]);
    for (n, phy) in state.phys.iter().enumerate() {
        let bytes = &bytes[177 + 105 * n..][..105];
        assert_eq!(phy.entity, bytes[..64]);
        for (i, counter) in phy.counters.iter().enumerate() {
            assert_eq!(counter.to_le_bytes(), bytes[64 + 4 * i..68 + 4 * i]);
        }
        assert_eq!(phy.signature, bytes[80..100]);
        let rest = [phy.held, phy.fixed, phy.lowest, phy.highest];
        assert_eq!(rest, bytes[100..104]);
        assert_eq!(phy.spinup_hold, bytes[104]);
    }
    for (i, row) in state.rows.iter().enumerate() {
        let bytes = &bytes[3537 + 20 * i..][..20];
        assert_eq!(row.sas_address, bytes[..8]);
        assert_eq!(row.sas_lun, bytes[8..16]);
        assert_eq!(row.os, bytes[16..]);
    }
    assert_eq!(state.controller_config, bytes[4817..4993]);
    assert_eq!(state.controller_status, bytes[4993..5029]);
    for (n, connector) in state.connectors.iter().enumerate() {
        assert_eq!(connector.0, bytes[5029 + 36 * n..][..36]);
    }
    assert_eq!(state.staged, bytes[6181]);
    for (i, revision) in state.staged_revisions.iter().enumerate() {
        assert_eq!(revision.to_le_bytes(), bytes[6182 + 2 * i..][..2]);
    }
    assert_eq!(SIZE, 6190);
}

#[test]
fn every_byte_string_comes_back() {
    let mut numbers = Numbers::new(0x0BAD_CAFE_0000_0001);
    for _ in 0..2_000 {
        let bytes: [u8; SIZE] = numbers.bytes(SIZE).try_into().unwrap();
        assert_eq!(State::from_bytes(&bytes).to_bytes(), bytes);
    }
    assert_eq!(State::from_bytes(&counted()).to_bytes(), counted());
    assert_eq!(State::from_bytes(&[0xFF; SIZE]).to_bytes(), [0xFF; SIZE]);
}

/// One byte changed is one byte of the state changed.
#[test]
fn every_place_is_held() {
    let sound = sample();
    let bytes = sound.to_bytes();
    for at in 0..SIZE {
        let mut changed = bytes;
        changed[at] ^= 0x40;
        let state = State::from_bytes(&changed);
        assert_ne!(state, sound, "byte {at}");
        assert_eq!(state.to_bytes(), changed, "byte {at}");
    }
}

#[test]
fn every_state_comes_back() {
    let mut numbers = Numbers::new(0x0BAD_CAFE_0000_0002);
    for _ in 0..500 {
        let mut state = State::ZERO;
        (state.level, state.p, state.a) = (numbers.byte(), numbers.byte(), numbers.byte());
        state.driver_info = numbers.array();
        state.phys = std::array::from_fn(|_| any_phy(&mut numbers));
        state.rows = std::array::from_fn(|_| Row {
            sas_address: numbers.array(),
            sas_lun: numbers.array(),
            os: numbers.array(),
        });
        state.controller_config = numbers.array();
        state.controller_status = numbers.array();
        state.connectors = std::array::from_fn(|_| Connector(numbers.array()));
        state.staged = numbers.byte();
        state.staged_revisions = std::array::from_fn(|_| numbers.next() as u16);
        assert_eq!(State::from_bytes(&state.to_bytes()), state);
    }
}

fn any_phy(numbers: &mut Numbers) -> Phy {
    Phy {
        entity: numbers.array(),
        counters: std::array::from_fn(|_| numbers.next()),
        signature: numbers.array(),
        held: numbers.byte(),
        fixed: numbers.byte(),
        lowest: numbers.byte(),
        highest: numbers.byte(),
        spinup_hold: numbers.byte(),
    }
}

/// Requests over any bytes: 107 where a rule is broken, and then no byte changes.
#[test]
fn requests_on_any_bytes() {
    let mut numbers = Numbers::new(0x0BAD_CAFE_0000_0003);
    let sound = sample().to_bytes();
    let mut broken = 0;
    for _ in 0..4_000 {
        let mut bytes = sound;
        for _ in 0..numbers.below(3) {
            bytes[numbers.below(SIZE)] = numbers.byte();
        }
        let mut state = State::from_bytes(&bytes);
        let mut sent = buffer(1, &[0; 174]);
        let number = request(&mut state, &mut medium(5), &mut stage(), &mut sent);
        assert_eq!(state.to_bytes(), bytes);
        match number {
            0 => assert!(sent[20] == 4 || sent[28..] == bytes[3..177]),
            107 => broken += 1,
            _ => panic!("{number}"),
        }
    }
    assert!(broken > 1_000, "{broken}");
}
