//! Every single-byte damage of a valid file: each place, each other value, with the checks left and with them made good.

use crate::adapter::{seal, Adapter};
use crate::compare::Difference;
use crate::coverage::Coverage;
use crate::names::{call, state};
use crate::pair::Pair;
use crate::random::Random;

pub struct Sweep {
    pub openings: u64,
    pub accepted: u64,
    pub coverage: Coverage,
    pub differences: Vec<Difference>,
}

/// Damages a file of p phys and a rows, at each `step`-th place. Number and state of each opening are compared; the state is full of other
/// bytes before.
pub fn run(seed: u64, p: usize, a: usize, step: usize) -> Sweep {
    let random = &mut Random::new(seed);
    let adapter = Adapter::of_counts(random, p, a);
    let before = random.bytes(state::SIZE);
    let mut pair = Pair::of(&before, &vec![0x33; adapter.medium_length()]);
    let mut sweep = Sweep {
        openings: 0,
        accepted: 0,
        coverage: Coverage::default(),
        differences: Vec::new(),
    };
    let file = adapter.file();
    for at in (0..file.len()).step_by(step) {
        for change in 1..=255 {
            let mut damaged = file.clone();
            damaged[at] = file[at].wrapping_add(change);
            for _ in 0..2 {
                pair.lend(&before);
                if let Err(what) = sweep.open(&mut pair, &damaged) {
                    let what = format!("byte {at} of the file as {}: {what}", damaged[at]);
                    sweep.differences.push(Difference { seed, what });
                }
                seal(&mut damaged);
            }
        }
    }
    sweep
}

impl Sweep {
    fn open(&mut self, pair: &mut Pair, file: &[u8]) -> Result<(), String> {
        self.openings += 1;
        let number = pair.open(b"CSMI=Restricted;", file)?;
        self.coverage.opening(number);
        self.accepted += u64::from(number == call::DONE);
        Ok(())
    }
}
