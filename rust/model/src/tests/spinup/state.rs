//! Byte 104 of a phy in a state, 107: its rules, its place, and that it is 0 from p on.

use super::{sample_rates, FIRST, LINUX};
use crate::denied;
use crate::layout::state::SIZE;
use crate::tests::adapter::{buffer, medium, sample, sample_held, stage};
use crate::State;

/// The number of a code 3 on these bytes with either header; the state stays.
fn number_of(bytes: &[u8; SIZE], medium: &[u8]) -> u32 {
    let [first, linux] = [FIRST, LINUX].map(|header| {
        let sent = (header.buffer)(3, &[0; 36]);
        let (mut state, mut disk) = (State::from_bytes(bytes), medium.to_vec());
        let mut buffer = sent.clone();
        let number = (header.request)(&mut state, &mut disk, &mut stage(), 3, &mut buffer);
        assert!(state.to_bytes() == *bytes && disk == medium);
        assert_eq!(number != 0, buffer == sent);
        number
    });
    assert_eq!(first, linux);
    first
}

/// Byte 104 of phy n in the sample's state, and its negotiated rate.
fn with(n: usize, hold: u8, negotiated: u8) -> [u8; SIZE] {
    let mut bytes = sample().to_bytes();
    bytes[177 + 105 * n + 104] = hold;
    bytes[177 + 105 * n + 29] = negotiated;
    bytes
}

#[test]
fn its_place() {
    for n in [0, 3, 4] {
        assert_eq!(with(n, 1, 3), sample_held(&[n]).to_bytes());
    }
}

#[test]
fn every_value_on_every_phy() {
    let disk = medium(5);
    for (n, hold, negotiated, sound) in sample_rates() {
        let expected = if sound { 0 } else { 107 };
        let number = number_of(&with(n, hold, negotiated), &disk);
        assert_eq!(number, expected, "phy {n}, {hold}, negotiated {negotiated}");
    }
}

/// A failed link of a held phy is 2, and a fixed phy may be held.
#[test]
fn failed_and_fixed_phys() {
    for fixed in [0, 1] {
        for negotiated in 0..=255 {
            let mut state = sample_held(&[4]);
            state.phys[4].entity[29..32].copy_from_slice(&[negotiated, 0x88, 0x89]);
            state.phys[4].fixed = fixed;
            let expected = if matches!(negotiated, 1 | 2) { 0 } else { 107 };
            assert_eq!(number_of(&state.to_bytes(), &medium(5)), expected);
        }
    }
}

/// "isn't zero past p and a".
#[test]
fn from_p_on() {
    for n in 5..32 {
        for hold in 1..=255 {
            assert_eq!(number_of(&with(n, hold, 0), &medium(5)), 107);
        }
    }
}

/// 107 before 106 and 100, and never denied.
#[test]
fn order() {
    for bytes in [with(0, 1, 9), with(0, 0, 3), with(2, 1, 3), with(31, 1, 0)] {
        assert_eq!(number_of(&bytes, &medium(4)), 107);
        for level in 0..=3 {
            let mut state = State::from_bytes(&bytes);
            state.level = level;
            for header in [FIRST, LINUX] {
                let number = (header.request)(&mut state, &mut [], &mut [], 21, &mut []);
                assert_eq!(number, 107);
            }
            let sent = buffer(21, &[0; 8]);
            assert!(!denied(&state, &medium(5), &stage(), &sent));
        }
    }
}
