//! Byte 104 in the file: which phys may have it, what is carried, the bytes behind it, and the
//! order of the checks.

use super::sample_rates;
use crate::layout::file::BLOCK;
use crate::tests::adapter::{
    attach, bare, blocks, connector, file, largest, medium, opening, sample, sample_held, sealed,
    FULL,
};
use crate::{open, State};

/// The blocks of the sample with byte 104 of a phy's block, and its negotiated rate.
fn with(n: usize, hold: u8, negotiated: u8) -> Vec<[u8; BLOCK]> {
    let mut blocks = blocks(&sample());
    blocks[1 + n][104] = hold;
    blocks[1 + n][29] = negotiated;
    blocks
}

/// Phy 3 is fixed.
#[test]
fn held_phys_are_carried() {
    for held in [&[0][..], &[3], &[4], &[0, 3], &[3, 4], &[0, 3, 4]] {
        let mut blocks = blocks(&sample());
        for n in held {
            blocks[1 + n][104] = 1;
            blocks[1 + n][29] = 3;
        }
        let opened = open(FULL, &sealed(blocks), &medium(5));
        assert_eq!(opened, (0, sample_held(held)));
        for (n, phy) in opened.1.phys.iter().enumerate() {
            assert_eq!(phy.spinup_hold == 1, held.contains(&n));
        }
    }
}

#[test]
fn disabled_failed_and_fixed_phys_may_be_held() {
    for fixed in [0, 1] {
        // disabled; held; 8–8 with device 9–9, failed
        for rates in [[1, 0x88, 0x99], [3, 0x88, 0x99], [2, 0x88, 0x89]] {
            let mut blocks = with(4, 1, 0);
            blocks[5][29..32].copy_from_slice(&rates);
            blocks[5][101] = fixed;
            let mut expected = sample();
            expected.phys[4].entity[29..32].copy_from_slice(&rates);
            expected.phys[4].fixed = fixed;
            expected.phys[4].spinup_hold = 1;
            assert_eq!(open(FULL, &sealed(blocks), &medium(5)), (0, expected));
        }
        // a failed link is not 3, nor what it would be with another range
        for negotiated in [0, 3, 8, 9] {
            let mut blocks = with(4, 1, negotiated);
            blocks[5][30..32].copy_from_slice(&[0x88, 0x89]);
            blocks[5][101] = fixed;
            assert_eq!(opening(&sealed(blocks), 5), 104);
        }
    }
}

#[test]
fn every_value_on_every_phy() {
    for (n, hold, negotiated, sound) in sample_rates() {
        let expected = if sound { 0 } else { 104 };
        let number = opening(&sealed(with(n, hold, negotiated)), 5);
        assert_eq!(number, expected, "phy {n}, {hold}, negotiated {negotiated}");
    }
}

/// A SAS end device, an edge and a fanout expander, with bit 0 of the protocols where it says nothing.
#[test]
fn other_devices() {
    for (device_type, protocols) in [(0x10, 0x08), (0x10, 0xFE), (0x20, 0x01), (0x30, 0x01)] {
        for (hold, negotiated, expected) in [(0, 9, 0), (1, 9, 104), (1, 3, 104), (1, 1, 104)] {
            let mut blocks = with(2, hold, negotiated);
            blocks[3][36] = device_type;
            blocks[3][39] = protocols;
            assert_eq!(opening(&sealed(blocks), 5), expected);
        }
    }
}

/// "Bytes not named .. are 0": of a phy's block now those from 105 on.
#[test]
fn bytes_behind_it() {
    for n in [0, 1, 4] {
        let sound = blocks(&sample_held(&[0, 4]));
        assert_eq!(opening(&sealed(sound.clone()), 5), 0);
        for at in 105..508 {
            for value in [1, 0x80, 0xFF] {
                let mut blocks = sound.clone();
                blocks[1 + n][at] = value;
                assert_eq!(opening(&sealed(blocks), 5), 104, "phy {n}, byte {at}");
            }
        }
    }
}

/// A field: after the checks of the blocks, before the rows and the medium.
#[test]
fn order() {
    for blocks in [with(1, 1, 0), with(2, 1, 3), with(0, 2, 3), with(0, 1, 9)] {
        let refused = open(FULL, &sealed(blocks.clone()), &medium(4));
        assert_eq!(refused, (104, State::ZERO));
        // two rows with the same OS bytes
        let mut shared = blocks.clone();
        shared[6].copy_within(16..20, 36);
        assert_eq!(opening(&sealed(shared), 4), 104);
        let mut damaged = sealed(blocks);
        damaged[512 * 12 + 508] ^= 1;
        assert_eq!(opening(&damaged, 4), 103);
        assert_eq!(opening(&damaged[..512 * 12], 4), 102);
    }
    // a byte that the check doesn't know of
    for n in 0..5 {
        let mut file = file(&sample());
        file[512 * (1 + n) + 104] = 1;
        assert_eq!(opening(&file, 5), 103);
    }
}

#[test]
fn thirty_two_held_phys() {
    let mut state = largest();
    for n in 0..32 {
        let mut phy = attach(bare(n, n), 0x10, 0x01, 8, 9);
        phy.entity[29] = 3;
        phy.spinup_hold = 1;
        state.phys[usize::from(n)] = phy;
        state.connectors[usize::from(n)] = connector(n, 2);
    }
    let sound = blocks(&state);
    assert!((1..33).all(|k| sound[k][104] == 1));
    let opened = open(FULL, &sealed(sound.clone()), &medium(32));
    assert_eq!(opened, (0, state));
    for n in 0..32 {
        for (hold, negotiated) in [(0, 3), (1, 9), (1, 2), (2, 3)] {
            let mut blocks = sound.clone();
            blocks[1 + n][104] = hold;
            blocks[1 + n][29] = negotiated;
            assert_eq!(opening(&sealed(blocks), 32), 104, "phy {n}");
        }
    }
}
