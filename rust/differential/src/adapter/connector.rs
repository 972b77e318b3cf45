//! Connectors of an adapter's phys.

use crate::names::connector::{PINOUT, SIZE};
use crate::names::pinout;
use crate::random::Random;
use crate::wire::put_word;

/// Pinout 4, name 16, location, and 15 that are reserved.
pub type Connector = [u8; SIZE];

/// All free but the pinout, which has none, one, some or all of section 10's bits.
pub fn sound(random: &mut Random) -> Connector {
    let mut connector = random.array();
    let bits = match random.below(4) {
        0 => 0,
        1 => pinout::ALL,
        2 => random.pick(&bits_of(pinout::ALL)),
        _ => random.word() & pinout::ALL,
    };
    put_word(&mut connector, PINOUT, bits);
    connector
}

/// A pinout with one bit that is not section 10's, or with some.
pub fn wrong_pinout(random: &mut Random) -> u32 {
    let wrong = random.pick(&bits_of(!pinout::ALL));
    let others = random.word();
    match random.below(3) {
        0 => wrong,
        1 => wrong | others & pinout::ALL,
        _ => wrong | others,
    }
}

/// Each bit of a word alone.
pub fn bits_of(word: u32) -> Vec<u32> {
    let bits = (0..32).map(|n| 1 << n);
    bits.filter(|bit| word & bit != 0).collect()
}
