//! The rules of a state's connectors, 107; its configuration and status are free.

use super::{FIRST, LINUX, PINOUT};
use crate::tests::adapter::{connector, cut, largest, medium, sample, stage};
use crate::State;

/// The number of a code 2 on the state with either header; with one that is not 0 nothing is touched.
fn number_of(state: &State, medium: &[u8]) -> u32 {
    let [first, linux] = [FIRST, LINUX].map(|header| {
        let sent = (header.buffer)(2, &[0; 176]);
        let (mut after, mut disk, mut buffer) = (state.clone(), medium.to_vec(), sent.clone());
        let number = (header.request)(&mut after, &mut disk, &mut stage(), 2, &mut buffer);
        assert_eq!((&after, &disk[..]), (state, medium));
        assert_eq!(number != 0, buffer == sent);
        number
    });
    assert_eq!(first, linux);
    first
}

#[test]
fn every_pinout_bit() {
    for sound in [sample(), largest(), cut(1, 0)] {
        let disk = medium(sound.p);
        for n in 0..sound.p {
            for bit in (0..32).map(|bit| 1u32 << bit) {
                for others in [0, PINOUT] {
                    let mut state = sound.clone();
                    state.connectors[usize::from(n)] = connector(n, bit | others);
                    let expected = if bit & PINOUT == 0 { 107 } else { 0 };
                    assert_eq!(number_of(&state, &disk), expected, "phy {n}, {bit:x}");
                }
            }
        }
    }
}

/// "isn't zero past p and a": a pinout bit that a connector may have, too.
#[test]
fn every_bit_of_connectors_from_p_on() {
    let (sound, disk) = (sample(), medium(5));
    for n in 5..32 {
        for at in 0..36 {
            for bit in 0..8 {
                let mut state = sound.clone();
                state.connectors[n].0[at] = 1 << bit;
                assert_eq!(number_of(&state, &disk), 107, "connector {n}, byte {at}");
            }
        }
    }
}

/// A phy more or fewer is refused by the connectors alone.
#[test]
fn connectors_go_by_p() {
    let mut state = cut(4, 2);
    state.connectors[4] = connector(4, 1);
    assert_eq!(number_of(&state, &medium(4)), 107);
    let mut state = cut(5, 2);
    state.connectors[4] = State::ZERO.connectors[4];
    assert_eq!(number_of(&state, &medium(5)), 0);
}

#[test]
fn the_rest_is_free() {
    let (sound, disk) = (sample(), medium(5));
    for value in [0, 1, 0x80, 0xFF] {
        for at in 0..176 {
            let mut state = sound.clone();
            state.controller_config[at] = value;
            assert_eq!(number_of(&state, &disk), 0);
        }
        for at in 0..36 {
            let mut state = sound.clone();
            state.controller_status[at] = value;
            assert_eq!(number_of(&state, &disk), 0);
        }
        for n in 0..5 {
            for at in 4..36 {
                let mut state = sound.clone();
                state.connectors[n].0[at] = value;
                assert_eq!(number_of(&state, &disk), 0);
            }
        }
    }
}

/// 107 before 106, and before 100.
#[test]
fn order() {
    let mut state = sample();
    state.connectors[2] = connector(2, 4);
    for disk in [medium(4), Vec::new()] {
        assert_eq!(number_of(&state, &disk), 107);
        for header in [FIRST, LINUX] {
            let (mut after, mut disk) = (state.clone(), disk.clone());
            let number = (header.request)(&mut after, &mut disk, &mut [], 2, &mut []);
            assert_eq!(number, 107);
        }
    }
}
