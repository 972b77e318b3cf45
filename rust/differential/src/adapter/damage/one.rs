//! One damage: how it is done, and the number that it gets.

use crate::adapter::form::Held;
use crate::adapter::{seal, Adapter};
use crate::names::call;
use crate::random::Random;

/// Breaks a rule; `None` where the adapter has no place for it.
type Break = fn(&mut Random, &mut Held) -> Option<()>;

pub struct Damage {
    pub name: &'static str,
    /// What the opening of such a file gives; a request to such a state gets 107.
    pub number: u32,
    break_rule: Break,
    /// Whether the checks of a file are made good afterwards, so that the rule itself is reached.
    sealed: bool,
}

impl Damage {
    /// The adapter's file with this damage.
    pub fn file(&self, random: &mut Random, adapter: &Adapter) -> Option<Vec<u8>> {
        let mut file = self.unsealed(random, adapter)?;
        if self.sealed {
            seal(&mut file);
        }
        Some(file)
    }

    /// The same with the checks as they were.
    pub fn unsealed(&self, random: &mut Random, adapter: &Adapter) -> Option<Vec<u8>> {
        self.done(random, Held::file(adapter))
    }

    /// The adapter's state at a level with this damage.
    pub fn state(&self, random: &mut Random, adapter: &Adapter, level: u8) -> Option<Vec<u8>> {
        self.done(random, Held::state(adapter, level))
    }

    fn done(&self, random: &mut Random, mut held: Held) -> Option<Vec<u8>> {
        (self.break_rule)(random, &mut held)?;
        Some(held.bytes)
    }
}

const fn sealed(name: &'static str, number: u32, break_rule: Break) -> Damage {
    Damage {
        name,
        number,
        break_rule,
        sealed: true,
    }
}

pub const fn field(name: &'static str, break_rule: Break) -> Damage {
    sealed(name, call::COUNT_OR_FIELD, break_rule)
}

pub const fn shared(name: &'static str, break_rule: Break) -> Damage {
    sealed(name, call::SHARED_ROW, break_rule)
}

pub const fn length(name: &'static str, break_rule: Break) -> Damage {
    sealed(name, call::FILE_LENGTH, break_rule)
}

pub const fn of_state(name: &'static str, break_rule: Break) -> Damage {
    sealed(name, call::STATE, break_rule)
}

pub const fn check(name: &'static str, break_rule: Break) -> Damage {
    Damage {
        name,
        number: call::BLOCK_CHECK,
        break_rule,
        sealed: false,
    }
}
