//! Stages, which a firmware image is copied to (W-207).

use crate::names::STAGE;
use crate::random::Random;

/// The stage that goes with a seed, full of other bytes.
pub fn of_seed(seed: u64) -> Vec<u8> {
    Random::new(!seed).bytes(STAGE)
}

/// A stage; now and then one of another length.
pub fn any(random: &mut Random) -> Vec<u8> {
    if random.one_in(20) {
        return of_wrong_length(random);
    }
    random.bytes(STAGE)
}

/// A stage of any other length.
pub fn of_wrong_length(random: &mut Random) -> Vec<u8> {
    let other = random.below(STAGE);
    let length = random.pick(&[0, 1, STAGE - 1, STAGE + 1, 2 * STAGE, other]);
    random.bytes(length)
}
