//! Every single byte of a sound state altered, and requests to the altered state.

use super::{put_staged, reading};
use crate::adapter::Adapter;
use crate::compare::Difference;
use crate::names::{call, state, STAGE};
use crate::pair::Pair;
use crate::random::Random;
use crate::request::{any_code, first, linux};

/// The values that a byte is altered to.
#[derive(Clone, Copy, PartialEq, Eq)]
pub enum Values {
    /// Every other one.
    Every,
    /// The lowest and the highest bit turned, one more, and one at random.
    Some,
}

#[derive(Default)]
pub struct Alterations {
    pub alterations: u64,
    pub requests: u64,
    /// The alterations that left the state sound.
    pub sound: u64,
    pub differences: Vec<Difference>,
}

/// Alters each byte of a state of p phys and a rows, at level Full, and sends the requests that read it and a sound one. What is staged is
/// altered in a state without and in one with a staged image.
pub fn run(seed: u64, p: usize, a: usize, values: Values) -> Alterations {
    let random = &mut Random::new(seed);
    let adapter = Adapter::of_counts(random, p, a);
    let sound = adapter.state(3);
    let mut staged = sound.clone();
    put_staged(random, &mut staged);
    let (medium, stage) = (random.bytes(adapter.medium_length()), random.bytes(STAGE));
    let mut pair = Pair::lending(&sound, &medium, &stage);
    let mut done = Alterations::default();
    let places = (0..state::SIZE).map(|at| (&sound, at));
    let of_staged = (state::STAGED..state::SIZE).map(|at| (&staged, at));
    for (sound, at) in places.chain(of_staged) {
        for byte in values.of(random, sound[at]) {
            let mut altered = sound.clone();
            altered[at] = byte;
            done.one(random, &adapter, &mut pair, &altered, at)
                .unwrap_or_else(|what| {
                    let what = format!("byte {at} of the state as {byte}: {what}");
                    done.differences.push(Difference { seed, what });
                });
        }
    }
    done
}

impl Values {
    fn of(self, random: &mut Random, byte: u8) -> Vec<u8> {
        match self {
            Values::Every => (1..=255).map(|change| byte.wrapping_add(change)).collect(),
            Values::Some => {
                let mut some = vec![
                    byte ^ 1,
                    byte ^ 0x80,
                    byte.wrapping_add(1),
                    random.other_than(byte),
                ];
                some.sort();
                some.dedup();
                some
            }
        }
    }
}

impl Alterations {
    /// Each request gets the altered state, and some go by the Linux header too; medium and stage go on.
    fn one(
        &mut self,
        random: &mut Random,
        adapter: &Adapter,
        pair: &mut Pair,
        altered: &[u8],
        at: usize,
    ) -> Result<(), String> {
        self.alterations += 1;
        let mut requests = reading::requests(random, altered, at);
        let control = any_code(random);
        requests.push(first::sound(random, adapter, control));
        for n in 0..requests.len() {
            if random.one_in(4) {
                requests.push(linux::turned(random, &requests[n]));
            }
        }
        let mut refused = false;
        for request in requests {
            pair.lend(altered);
            self.requests += 1;
            refused |= pair.request(&request)?.number == call::STATE;
        }
        self.sound += u64::from(!refused);
        Ok(())
    }
}
