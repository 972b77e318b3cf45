//! Each opening number, and the order of the checks.

use super::adapter::{blocks, file, largest, medium, opening, sample, sealed, FULL};
use crate::{open, Phy, State};

#[test]
fn accepted() {
    let state = sample();
    assert_eq!(open(FULL, &file(&state), &medium(5)), (0, state.clone()));
    let (number, limited) = open(b"", &file(&state), &medium(5));
    assert_eq!((number, limited.level), (0, 2));
}

#[test]
fn most_phys_and_rows() {
    let mut state = largest();
    assert_eq!(open(FULL, &file(&state), &medium(32)), (0, state.clone()));
    state.rows[63].os = state.rows[0].os;
    assert_eq!(opening(&file(&state), 32), 105);
}

#[test]
fn refused_gives_the_zero_state() {
    assert_eq!(open(FULL, b"", b""), (102, State::ZERO));
    assert_eq!(open(b"CSMI=", &file(&sample()), &medium(5)).1, State::ZERO);
}

#[test]
fn number_101() {
    assert_eq!(open(b"CSMI=full;", &file(&sample()), &medium(5)).0, 101);
    assert_eq!(open(&[0; 1025], b"", b"").0, 101);
    assert_eq!(open(&[0; 1024], &file(&sample()), &medium(5)).0, 0);
}

#[test]
fn number_102() {
    let file = file(&sample());
    assert_eq!(opening(&file[..511], 5), 102);
    assert_eq!(opening(&file[..file.len() - 1], 5), 102);
    assert_eq!(opening(&[&file[..], &[0]].concat(), 5), 102);
    assert_eq!(opening(&[&file[..], &[0; 512]].concat(), 5), 102);
}

#[test]
fn number_103() {
    for at in 0..file(&sample()).len() {
        let mut file = file(&sample());
        file[at] ^= 0x20;
        assert_eq!(opening(&file, 5), 103, "byte {at}");
    }
}

/// Block 0's check stands before p and a, these before the length, that before other checks.
#[test]
fn order_of_block_0() {
    let mut blocks = blocks(&sample());
    blocks[0][0] = 33;
    let mut file = sealed(blocks);
    assert_eq!(opening(&file[..700], 5), 104);
    file[0] = 5;
    assert_eq!(opening(&file[..700], 5), 103);
    let mut file = super::adapter::file(&sample());
    file[600] ^= 1;
    assert_eq!(opening(&file[..700], 5), 102);
    assert_eq!(opening(&file, 5), 103);
}

#[test]
fn number_104_counts() {
    for (p, a) in [(0, 0), (33, 0), (255, 0), (5, 65), (5, 255)] {
        let mut blocks = blocks(&sample());
        blocks[0][..2].copy_from_slice(&[p, a]);
        assert_eq!(opening(&sealed(blocks), 5), 104);
    }
}

/// "Bytes not named, and bytes past the last row, are 0."
#[test]
fn number_104_unnamed_bytes() {
    let named = |k: usize, at: usize| match k {
        0 => at < 2 || (4..178).contains(&at),
        1..=5 => at < 105,
        6 => at < 40,
        7 => at < 212,
        _ => at < 36,
    };
    for k in 0..13 {
        for at in (0..508).filter(|&at| !named(k, at)) {
            let mut blocks = blocks(&sample());
            blocks[k][at] = 1;
            assert_eq!(opening(&sealed(blocks), 5), 104, "block {k} byte {at}");
        }
    }
}

/// A change to one phy of the sample, and the number that its opening gives.
fn with(n: usize, change: impl Fn(&mut Phy)) -> u32 {
    let mut state = sample();
    change(&mut state.phys[n]);
    opening(&file(&state), 5)
}

#[test]
fn number_104_fields() {
    assert_eq!(with(0, |phy| phy.entity[20] = 1), 104);
    assert_eq!(with(0, |phy| phy.entity[21] = 4), 104);
    assert_eq!(with(0, |phy| phy.entity[28] = 5), 104);
    assert_eq!(with(0, |phy| phy.held = 2), 104);
    assert_eq!(with(0, |phy| phy.fixed = 2), 104);
    for (minimum, maximum) in [
        (0x98, 0x89), // inverted
        (0x89, 0x99), // programmed below hardware
        (0x88, 0x98), // programmed above hardware
        (0x08, 0x99),
        (0x88, 0xA9),
        (0x87, 0x99),
        (0x88, 0x9A),
    ] {
        let change = |phy: &mut Phy| phy.entity[30..32].copy_from_slice(&[minimum, maximum]);
        assert_eq!(with(0, change), 104, "{minimum:x} {maximum:x}");
    }
    assert_eq!(with(2, |phy| phy.entity[36] = 0x40), 104);
    for rates in [(9, 8), (8, 10), (0, 9), (0, 0)] {
        let change = |phy: &mut Phy| (phy.lowest, phy.highest) = rates;
        assert_eq!(with(2, change), 104);
    }
}

#[test]
fn number_104_no_device() {
    for at in 36..64 {
        assert_eq!(with(1, |phy| phy.entity[at] = 1), 104);
    }
    assert_eq!(with(1, |phy| phy.signature[19] = 1), 104);
    assert_eq!(with(1, |phy| phy.held = 1), 104);
    assert_eq!(with(1, |phy| phy.lowest = 8), 104);
    assert_eq!(with(1, |phy| phy.highest = 8), 104);
    assert_eq!(with(1, |phy| phy.entity[29] = 1), 0);
    assert_eq!(with(1, |phy| phy.entity[29] = 8), 104);
}

#[test]
fn number_104_signature_and_link() {
    // only a SATA phy may hold one
    assert_eq!(with(2, |phy| phy.held = 1), 104);
    assert_eq!(with(0, |phy| phy.entity[39] = 0xFE), 104);
    assert_eq!(with(0, |phy| phy.held = 0), 104);
    assert_eq!(with(2, |phy| phy.signature[0] = 1), 104);
    assert_eq!(with(3, |phy| phy.held = 1), 0);
    for negotiated in 0..=255 {
        let expected = if matches!(negotiated, 1 | 9) { 0 } else { 104 };
        assert_eq!(with(0, |phy| phy.entity[29] = negotiated), expected);
    }
    // 8–8 with device 9–9 fails
    let failed = |phy: &mut Phy| phy.entity[29..32].copy_from_slice(&[2, 0x88, 0x89]);
    assert_eq!(with(4, failed), 0);
}

#[test]
fn free_bytes_are_carried() {
    let ruled = |at| matches!(at, 20 | 21 | 28..=31 | 36);
    for at in (0..64).filter(|&at| !ruled(at)) {
        let value = if at == 39 { 0xF1 } else { 0xA5 };
        let mut state = sample();
        state.phys[0].entity[at] = value;
        state.phys[0].counters = [u32::MAX; 4];
        state.phys[0].signature = [0; 20];
        assert_eq!(open(FULL, &file(&state), &medium(5)), (0, state.clone()));
    }
}

#[test]
fn number_105() {
    let mut state = sample();
    state.rows[1].os = state.rows[0].os;
    assert_eq!(opening(&file(&state), 5), 105);
    let mut state = sample();
    state.rows[1].sas_address = state.rows[0].sas_address;
    assert_eq!(opening(&file(&state), 5), 0);
    state.rows[1].sas_lun = state.rows[0].sas_lun;
    assert_eq!(opening(&file(&state), 5), 105);
    // fields before rows, rows before the medium
    assert_eq!(opening(&file(&state), 4), 105);
    state.phys[0].fixed = 2;
    assert_eq!(opening(&file(&state), 5), 104);
}

#[test]
fn number_106() {
    for length in [0, 5 * 8192 - 1, 5 * 8192 + 1, 6 * 8192] {
        assert_eq!(open(FULL, &file(&sample()), &vec![0; length]).0, 106);
    }
}
