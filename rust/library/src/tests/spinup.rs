//! A disk held at spin-up: in a file, in a state, and released under both headers; and the places of a phy's bytes.

use super::*;
use model::layout::{phy as at_phy, ENTITY};

const SATA_SPINUP_HOLD: u8 = 3;

/// A SATA disk of both rates in a phy's bytes, with this hold and this negotiated rate.
fn attach(phy: &mut [u8], hold: u8, negotiated: u8) {
    (
        phy[entity::ATTACHED],
        phy[entity::ATTACHED_TARGET_PROTOCOLS],
    ) = (0x10, 1);
    (phy[at_phy::LOWEST], phy[at_phy::HIGHEST]) = (8, 9);
    (phy[at_phy::SPINUP_HOLD], phy[entity::NEGOTIATED]) = (hold, negotiated);
}

/// The file's state at a level with such a disk.
fn with_disk(level: u8, hold: u8, negotiated: u8) -> [u8; STATE_SIZE] {
    let mut state = state(level);
    attach(phy(&mut state), hold, negotiated);
    state
}

/// The number of an opening of the file with such a phy, and the state that it leaves.
fn opened_with(change: impl Fn(&mut [u8])) -> (u32, [u8; STATE_SIZE]) {
    let mut file = file();
    let block = &mut file[BLOCK..2 * BLOCK];
    change(block);
    // the words, the block's number, and 1
    let words = block[..CHECK].as_chunks::<4>().0.iter();
    let sum = words.fold(0, |sum: u32, word| {
        sum.wrapping_add(u32::from_le_bytes(*word))
    });
    put(block, CHECK, sum.wrapping_add(1 + 1));
    let mut state = [OTHER; STATE_SIZE];
    let number = open(b"CSMI=Full;", &file, &[0; DISK], &mut state);
    (number, state)
}

#[test]
fn a_hold_in_a_file_is_carried_on_a_sata_phy_and_else_104() {
    let hold = |hold, negotiated| opened_with(move |phy| attach(phy, hold, negotiated));
    assert_eq!(
        hold(1, SATA_SPINUP_HOLD),
        (0, with_disk(3, 1, SATA_SPINUP_HOLD))
    );
    assert_eq!(hold(1, 1), (0, with_disk(3, 1, 1)));
    assert_eq!(hold(0, 9), (0, with_disk(3, 0, 9)));
    let refused = (104, [0; STATE_SIZE]);
    for (byte, negotiated) in [(1, 9), (0, SATA_SPINUP_HOLD), (2, SATA_SPINUP_HOLD), (2, 1)] {
        assert_eq!(hold(byte, negotiated), refused, "{byte}, {negotiated}");
    }
    assert_eq!(opened_with(|phy| phy[at_phy::SPINUP_HOLD] = 1), refused);
    assert_eq!(opened_with(|phy| phy[at_phy::SIZE] = 1), refused);
}

#[test]
fn a_wrong_hold_in_a_state_is_107() {
    let mut wrong = [state(3), with_disk(3, 1, 9), with_disk(3, 2, 1)];
    phy(&mut wrong[0])[at_phy::SPINUP_HOLD] = 1;
    for mut lent in wrong {
        let before = lent;
        let (mut medium, mut stage) = ([0; DISK], stage());
        assert_eq!(request(&mut lent, &mut medium, &mut stage, &mut []), 107);
        let number = request_linux(&mut lent, &mut medium, &mut stage, 20, &mut []);
        assert_eq!(number, 107);
        assert_eq!(lent, before);
    }
}

/// To 9 or, disabled, to 1; a denied one leaves the hold.
#[test]
fn a_granted_code_21_clears_the_hold() {
    for (level, negotiated, left) in [(0, 0, 9), (0, 1, 1), (3, 0, 9), (3, 1, 1)] {
        let before = with_disk(level, 1, SATA_SPINUP_HOLD);
        let after = with_disk(level, 0, left);
        // the phy enabled or disabled, and nothing else changed
        let body = [0, negotiated, 0, 0, 0, 0, 0, 0];
        let (mut lent, mut medium, mut stage) = (before, [0; DISK], stage());
        let mut buffer = first(control::SET_PHY_INFO, b"CSMISAS\0", &body);
        let mut reply = buffer.clone();
        let (code, expected) = if level == 0 { (4, before) } else { (0, after) };
        put(&mut reply, header::RETURN_CODE, code);
        assert_eq!(request(&mut lent, &mut medium, &mut stage, &mut buffer), 0);
        assert_eq!((buffer, lent), (reply, expected), "{level}, {negotiated}");

        let (mut lent, mut buffer) = (before, under_linux(&body));
        let mut reply = buffer.clone();
        put(&mut reply, linux_header::RETURN_CODE, 0);
        let number = request_linux(&mut lent, &mut medium, &mut stage, 21, &mut buffer);
        assert_eq!(number, 0);
        assert_eq!((buffer, lent), (reply, after), "{level}, {negotiated}");
    }
}

/// The header names the places in a phy that the model has.
#[test]
fn the_places_of_a_phy_are_those_of_the_c_header() {
    let lines = [
        format!("PHY(n) ({} + {} * (size_t)(n))", at::PHYS, at_phy::SIZE),
        format!("PHY_SIZE {}", at_phy::SIZE),
        format!("PHY_ENTITY_SIZE {ENTITY}"),
        format!("PHY_COUNTERS {} ", at_phy::COUNTERS),
        format!("PHY_SIGNATURE {} ", at_phy::SIGNATURE),
        format!("PHY_HELD {} ", at_phy::HELD),
        format!("PHY_FIXED {} ", at_phy::FIXED),
        format!("PHY_LOWEST {} ", at_phy::LOWEST),
        format!("PHY_HIGHEST {} ", at_phy::HIGHEST),
        format!("PHY_SPINUP_HOLD {} ", at_phy::SPINUP_HOLD),
        format!("ROW(i) ({} + 20 * (size_t)(i))", at::ROWS),
    ];
    for line in lines {
        let line = format!("#define ASCHEKNOPF_{line}");
        let found = HEADER.lines().any(|found| found.starts_with(&line));
        assert!(found, "{line}");
    }
    assert_eq!((at_phy::SPINUP_HOLD, at_phy::SIZE), (104, 105));
}
