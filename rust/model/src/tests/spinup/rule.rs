//! The rule of the byte and of the negotiated rate: each kind of device on each link, every
//! negotiated rate, held and not, in a file and in a state.

use super::{cases, FIRST, LINUX};
use crate::link::rule_of;
use crate::tests::adapter::{blocks, cut, medium, sealed, stage, FULL};
use crate::{open, State};

const HOLDS: [u8; 8] = [0, 1, 2, 3, 8, 9, 0x80, 0xFF];

/// "a link rule result of 8 or 9 becomes 3"; 2 and 0 stay, and the present rate is not read.
#[test]
fn the_link_rule() {
    for case in cases() {
        for negotiated in 0..=255 {
            let mut phy = case.phy.clone();
            phy.entity[29] = negotiated;
            assert_eq!(rule_of(&phy), case.rule);
            phy.spinup_hold = 1;
            if case.sata || case.rule == 0 {
                assert_eq!(rule_of(&phy), case.held_rule());
            }
        }
    }
}

#[test]
fn in_a_file() {
    let disk = medium(1);
    let mut accepted = [0; 2];
    for case in cases() {
        let mut state = cut(1, 0);
        state.phys[0] = case.phy.clone();
        let blocks = blocks(&state);
        for hold in HOLDS {
            for negotiated in 0..=255 {
                let mut blocks = blocks.clone();
                blocks[1][104] = hold;
                blocks[1][29] = negotiated;
                let (number, opened) = open(FULL, &sealed(blocks.clone()), &disk);
                if case.allows(hold, negotiated) {
                    accepted[usize::from(hold)] += 1;
                    assert_eq!(number, 0);
                    assert_eq!(opened.to_bytes()[177..282], blocks[1][..105]);
                } else {
                    assert_eq!((number, opened), (104, State::ZERO), "{hold} {negotiated}");
                }
            }
        }
    }
    // each with its rule's rate and disabled, held the 27 of a SATA phy
    assert_eq!(accepted, [182, 54]);
}

#[test]
fn in_a_state() {
    let disk = medium(1);
    for case in cases() {
        let mut state = cut(1, 0);
        state.phys[0] = case.phy.clone();
        let mut bytes = state.to_bytes();
        for hold in HOLDS {
            for negotiated in 0..=255 {
                bytes[177 + 104] = hold;
                bytes[177 + 29] = negotiated;
                let expected = if case.allows(hold, negotiated) {
                    0
                } else {
                    107
                };
                for header in [FIRST, LINUX] {
                    let mut buffer = (header.buffer)(3, &[0; 36]);
                    let (mut after, mut medium) = (State::from_bytes(&bytes), disk.clone());
                    let (request, mut stage) = (header.request, stage());
                    let number = request(&mut after, &mut medium, &mut stage, 3, &mut buffer);
                    assert_eq!(number, expected, "{hold} {negotiated}");
                    assert!(after.to_bytes() == bytes);
                }
            }
        }
    }
}
