//! Code 25: which phy it selects, and whether that is connected.

use super::adapter::{address, answer, answer_of, buffer, fis, passthrough, sample};
use crate::layout::entity;

/// The code of a passthrough with these phy, port, rate and destination.
fn reach(phy: u8, port: u8, rate: u8, destination: u8) -> u32 {
    let mut body = passthrough(fis(0xE5, 0, 0), &[]);
    body[..3].copy_from_slice(&[phy, port, rate]);
    body[4..12].copy_from_slice(&address(destination));
    answer(25, &body)
}

#[test]
fn code_25_selects() {
    assert_eq!(reach(0xFF, 0xFF, 7, 0), 3);
    assert_eq!(reach(0xFF, 0xFF, 0, 0), 2005);
    assert_eq!(reach(5, 0xFF, 0, 0), 2002);
    assert_eq!(reach(5, 4, 0, 0), 2002);
    assert_eq!(reach(0, 4, 0, 0), 2006);
    assert_eq!(reach(0xFF, 4, 0, 0), 2006);
    assert_eq!(reach(0xFF, 0xFE, 0, 0), 2006);
    assert_eq!(reach(0, 3, 0, 0), 2003);
    assert_eq!(reach(0, 0xFF, 0, 0), 0);
    assert_eq!(reach(0, 2, 0, 0), 0);
    // port 2 is phy 0's, and port 0 phy 2's, an expander
    assert_eq!(reach(0xFF, 2, 0, 0), 0);
    assert_eq!(reach(0xFF, 0, 0, 2), 2008);
    // port 3 alone is phy 3, its lowest
    assert_eq!(reach(0xFF, 3, 0, 3), 0);
    assert_eq!(reach(0xFF, 3, 0, 4), 2008);
    assert_eq!(reach(4, 3, 0, 4), 0);
}

#[test]
fn code_25_connects() {
    assert_eq!(reach(0, 0xFF, 8, 0), 0);
    assert_eq!(reach(0, 0xFF, 9, 0), 0);
    assert_eq!(reach(0, 0xFF, 10, 0), 3);
    assert_eq!(reach(3, 0xFF, 8, 3), 0);
    assert_eq!(reach(3, 0xFF, 9, 3), 2008);
    assert_eq!(reach(0, 0xFF, 0, 1), 2008);
    assert_eq!(reach(1, 0xFF, 0, 1), 2008);
    assert_eq!(reach(2, 0xFF, 0, 2), 2008);
    // FIS type
    let mut wrong = fis(0xE5, 0, 0);
    wrong[0] = 0x34;
    assert_eq!(answer(25, &passthrough(wrong, &[])), 3);
    // disabled
    let mut state = sample();
    state.phys[0].entity[entity::NEGOTIATED] = 1;
    let mut sent = buffer(25, &passthrough(fis(0xE5, 0, 0), &[]));
    assert_eq!(answer_of(&mut state, &mut sent), 2008);
}
