//! Requests to states that a caller made, sound or not, with media and stages of the right length and of others.

use super::{medium_length, put_staged};
use crate::adapter::damage::{self, Damage};
use crate::adapter::form::Form;
use crate::adapter::Adapter;
use crate::compare::Difference;
use crate::names::{call, DISK, MAX_PHYS, STAGE};
use crate::pair::Pair;
use crate::random::Random;
use crate::request;
use crate::spinup::is_unsound_by_hold;
use crate::text::LEVELS;
use crate::{medium, stage};
use std::collections::BTreeMap;

#[derive(Default)]
pub struct Made {
    pub states: u64,
    pub requests: u64,
    /// By the call's number.
    pub calls: BTreeMap<u32, u64>,
    /// 107 for a spin-up hold alone, with the first header and with the Linux header.
    pub by_hold: [u64; 2],
    /// 106 for the stage alone, by the header.
    pub by_stage: [u64; 2],
    pub differences: Vec<Difference>,
}

/// So many states, each with some requests, which go on with what the one before left.
pub fn run(seed: u64, count: u64) -> Made {
    let mut made = Made::default();
    let broken = damage::all(Form::State);
    for round in 0..count {
        let seed = seed.wrapping_mul(1 << 32).wrapping_add(round);
        if let Err(what) = made.one(&mut Random::new(seed), &broken) {
            made.differences.push(Difference { seed, what });
        }
    }
    made
}

impl Made {
    fn one(&mut self, random: &mut Random, broken: &[&Damage]) -> Result<(), String> {
        let adapter = Adapter::sound(random);
        let state = state(random, &adapter, broken);
        let medium = lent_medium(random, &state);
        let mut pair = Pair::lending(&state, &medium, &stage::any(random));
        self.states += 1;
        let by_hold = state.as_array().is_some_and(is_unsound_by_hold);
        let by_stage = medium.len() == medium_length(&state) && pair.stage().len() != STAGE;
        for _ in 0..4 {
            let request = request::any(random, &adapter);
            self.requests += 1;
            let number = pair.request(&request)?.number;
            *self.calls.entry(number).or_default() += 1;
            let header = usize::from(request.header.is_linux());
            self.by_hold[header] += u64::from(by_hold);
            let refused = by_stage && number == call::STAGE_LENGTH;
            self.by_stage[header] += u64::from(refused);
        }
        Ok(())
    }
}

/// A sound state, at times with a staged image, one that breaks a rule if the adapter has a place for it, or any bytes.
fn state(random: &mut Random, adapter: &Adapter, broken: &[&Damage]) -> Vec<u8> {
    let level = random.pick(&LEVELS);
    match random.below(4) {
        0 => super::any(random, adapter),
        1 => {
            let state = random.pick(broken).state(random, adapter, level);
            state.unwrap_or_else(|| adapter.state(level))
        }
        _ => {
            let mut state = adapter.state(level);
            if random.one_in(3) {
                put_staged(random, &mut state);
            }
            state
        }
    }
}

/// Mostly of the length that belongs to the state. Media of more than 32 disks, for states that are refused, are not random: they are long.
fn lent_medium(random: &mut Random, state: &[u8]) -> Vec<u8> {
    let right = medium_length(state);
    if right > MAX_PHYS * DISK {
        vec![0x33; right]
    } else if right > 0 && random.one_in(6) {
        medium::of_wrong_length(random, right / DISK)
    } else {
        random.bytes(right)
    }
}
