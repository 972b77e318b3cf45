//! The blocks after the rows: where they stand, the file's length, bytes that are not named, pinout
//! bits, and the order of the checks.

use super::PINOUT;
use crate::layout::file::BLOCK;
use crate::tests::adapter::{blocks, connector, cut, file, medium, opening, sample, sealed, FULL};
use crate::{open, State};

/// Counts at the edges, with none to three row blocks.
const COUNTS: [(u8, u8); 10] = [
    (1, 0),
    (1, 1),
    (1, 25),
    (2, 26),
    (4, 25),
    (4, 26),
    (5, 50),
    (7, 51),
    (32, 0),
    (32, 64),
];

/// The number of the controller's block: after block 0, the phys and the rows.
fn controller_block(p: u8, a: u8) -> usize {
    let rows = match a {
        0 => 0,
        1..=25 => 1,
        26..=50 => 2,
        _ => 3,
    };
    1 + usize::from(p) + rows
}

/// "one block for the controller and status and one block for each phy's connector, after the
/// rows. Each structure stands from byte 0, status right after configuration".
#[test]
fn places() {
    for (p, a) in COUNTS {
        // the old blocks, and behind them the new ones by hand
        let state = cut(p, a);
        let mut old = blocks(&state);
        let controller = controller_block(p, a);
        old.truncate(controller);
        let mut bytes = vec![0; 512 * (1 + usize::from(p))];
        bytes[..176].copy_from_slice(&state.controller_config);
        bytes[176..212].copy_from_slice(&state.controller_status);
        for n in 0..usize::from(p) {
            bytes[512 * (1 + n)..][..36].copy_from_slice(&state.connectors[n].0);
        }
        old.extend_from_slice(bytes.as_chunks().0);
        let file = sealed(old);
        assert_eq!(file.len(), 512 * (controller + 1 + usize::from(p)));
        assert_eq!(open(FULL, &file, &medium(p)), (0, state), "{p} {a}");
    }
}

/// Any other number of blocks is 102, that before W-204 too.
#[test]
fn lengths() {
    for (p, a) in COUNTS {
        let sound = blocks(&cut(p, a));
        let before = controller_block(p, a);
        for length in 1..=75 {
            let mut blocks = sound.clone();
            blocks.resize(length, [0; BLOCK]);
            let expected = if length == before + 1 + usize::from(p) {
                0
            } else {
                102
            };
            assert_eq!(opening(&sealed(blocks), p), expected, "{p} {a} {length}");
        }
        let old = sealed(sound[..before].to_vec());
        assert_eq!(opening(&old, p), 102);
        // 102 before the checks of the blocks
        let mut old = old;
        old[513] ^= 1;
        assert_eq!(opening(&old, p), 102);
    }
}

#[test]
fn bytes_that_are_not_named() {
    for (p, a) in [(1, 0), (2, 26), (5, 2)] {
        let sound = blocks(&cut(p, a));
        let controller = controller_block(p, a);
        for k in controller..sound.len() {
            let end = if k == controller { 212 } else { 36 };
            for at in end..508 {
                for value in [1, 0x80] {
                    let mut blocks = sound.clone();
                    blocks[k][at] = value;
                    assert_eq!(opening(&sealed(blocks), p), 104, "block {k} byte {at}");
                }
            }
        }
    }
}

/// The opening of a file that holds the state.
fn accepted(state: &State) {
    let opened = open(FULL, &file(state), &medium(state.p));
    assert_eq!(opened, (0, state.clone()));
}

/// "free", the reserved bytes too.
#[test]
fn free_bytes_are_carried() {
    for value in [0, 1, 0x80, 0xFF] {
        for at in 0..176 {
            let mut state = sample();
            state.controller_config[at] = value;
            accepted(&state);
        }
        for at in 0..36 {
            let mut state = sample();
            state.controller_status[at] = value;
            accepted(&state);
        }
        for n in 0..5 {
            for at in 4..36 {
                let mut state = sample();
                state.connectors[n].0[at] = value;
                accepted(&state);
            }
        }
    }
    let mut state = sample();
    state.controller_config = [0; 176];
    state.controller_status = [0; 36];
    state.connectors = State::ZERO.connectors;
    accepted(&state);
}

/// "pinout bits outside section 10's pinout constants (104)".
#[test]
fn every_pinout_bit() {
    for (p, a) in [(5, 2), (32, 64)] {
        for n in [0, 1, p - 1] {
            for bit in (0..32).map(|bit| 1u32 << bit) {
                for others in [0, PINOUT] {
                    let mut state = cut(p, a);
                    state.connectors[usize::from(n)] = connector(n, bit | others);
                    match bit & PINOUT {
                        0 => {
                            let refused = open(FULL, &file(&state), &medium(p));
                            assert_eq!(refused, (104, State::ZERO), "phy {n}, {bit:x}");
                        }
                        _ => accepted(&state),
                    }
                }
            }
            let mut state = cut(p, a);
            state.connectors[usize::from(n)] = connector(n, 0);
            accepted(&state);
        }
    }
}

type Fault = (fn(&mut Vec<[u8; BLOCK]>), u32);

/// What is wrong in the blocks of the sample, before they have their checks.
const FAULTS: [Fault; 4] = [
    // a pinout bit: a field rule
    (|blocks| blocks[12][2] |= 0x10, 104),
    // unnamed bytes of the controller's block and of a connector's
    (|blocks| blocks[7][212] = 1, 104),
    (|blocks| blocks[8][36] = 1, 104),
    // two rows with the same OS bytes
    (|blocks| blocks[6].copy_within(16..20, 36), 105),
];

/// Fields before rows, rows before the medium; and before them all the checks of the blocks.
#[test]
fn order() {
    for (n, (put, number)) in FAULTS.into_iter().enumerate() {
        let mut blocks = blocks(&sample());
        put(&mut blocks);
        for p in [4, 5] {
            assert_eq!(opening(&sealed(blocks.clone()), p), number);
            for (put_too, _) in &FAULTS[n + 1..] {
                let mut blocks = blocks.clone();
                put_too(&mut blocks);
                assert_eq!(opening(&sealed(blocks), p), number);
            }
        }
        // a damaged check, of the last block too, before each of them
        for k in 1..13 {
            let mut file = sealed(blocks.clone());
            file[512 * k + 508] ^= 1;
            assert_eq!(opening(&file, 4), 103);
        }
        blocks.pop();
        assert_eq!(opening(&sealed(blocks), 5), 102);
    }
}
