//! Requests past their header's checks, by what their answer goes by: how often each was met, with the return code that it has to get and with others.

use crate::case::Exchange;
use crate::names::call;
use crate::need::passes_header;
use std::collections::BTreeMap;
use std::fmt::{self, Debug};

/// What an answer goes by, the level and the header among it.
pub trait Asked: Copy + Debug + Ord {
    /// What the requests are, in words.
    const REQUESTS: &'static str;

    /// Of a request past its header's checks; None if it is of another code.
    fn of_request(exchange: &Exchange, state: &[u8]) -> Option<Self>;

    /// The return code.
    fn code(self) -> u32;

    /// Those that go by one line of a report, at each level.
    fn lines() -> Vec<[Self; 4]>;

    /// The line's name.
    fn name(self) -> String;
}

pub struct ByLevel<A> {
    /// With the return code.
    met: BTreeMap<(A, u32), u64>,
}

impl<A> Default for ByLevel<A> {
    fn default() -> Self {
        ByLevel {
            met: BTreeMap::new(),
        }
    }
}

impl<A: Asked> ByLevel<A> {
    /// Counts an exchange of a run; the state is that at its end.
    pub fn count(&mut self, exchange: &Exchange, state: &[u8]) {
        if exchange.number != call::DONE || !passes_header(exchange.header, exchange.request) {
            return;
        }
        if let Some(asked) = A::of_request(exchange, state) {
            *self.met.entry((asked, exchange.code)).or_default() += 1;
        }
    }

    fn times(&self, asked: A) -> u64 {
        *self.met.get(&(asked, asked.code())).unwrap_or(&0)
    }

    /// What was not met with its code.
    pub fn missing(&self) -> Vec<String> {
        A::lines()
            .into_iter()
            .flatten()
            .filter(|&asked| self.times(asked) == 0)
            .map(|asked| format!("{asked:?}: {}", asked.code()))
            .collect()
    }

    /// What was met with another code.
    pub fn unknown(&self) -> Vec<String> {
        self.met
            .keys()
            .filter(|(asked, code)| *code != asked.code())
            .map(|(asked, code)| format!("{asked:?}: {code}"))
            .collect()
    }
}

/// A line for each, with the times at each level.
impl<A: Asked> fmt::Display for ByLevel<A> {
    fn fmt(&self, f: &mut fmt::Formatter<'_>) -> fmt::Result {
        let requests = A::REQUESTS;
        write!(f, "{requests}, at None, Restricted, Limited, Full")?;
        for line in A::lines() {
            let times = line.map(|asked| self.times(asked).to_string()).join(", ");
            write!(f, "\n{:<28} {times}", line[0].name())?;
        }
        Ok(())
    }
}

/// The name of a header.
pub fn header_name(linux: bool) -> &'static str {
    if linux {
        "Linux"
    } else {
        "First"
    }
}
