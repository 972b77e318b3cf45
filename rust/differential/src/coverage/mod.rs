//! How often each number, return code and command was met, with the first header, and with the Linux header at each level; code 22 by its
//! reset byte too, and codes 2, 3 and 30 by the level with both; what was met of disks held at spin-up and of firmware; and which of those
//! that the documents know were not.

pub mod by_level;
mod firmware;
mod front_page;
pub mod known;
pub mod link_errors;
mod met;
mod spinup;

use crate::case::{Case, Outcome};
use crate::names::{call, state};
use crate::request::Header;
use by_level::ByLevel;
use firmware::Firmware;
use known::Kind;
use met::Met;
use spinup::Spinup;
use std::collections::BTreeMap;
use std::fmt;

#[derive(Default)]
pub struct Coverage {
    pub requests: u64,
    openings: BTreeMap<u32, u64>,
    kinds: BTreeMap<Kind, Met>,
    link_errors: ByLevel<link_errors::Asked>,
    front_page: ByLevel<front_page::Asked>,
    spinup: Spinup,
    firmware: Firmware,
}

impl Coverage {
    pub fn opening(&mut self, number: u32) {
        *self.openings.entry(number).or_default() += 1;
    }

    /// Counts what a case met; the outcome is of a side that shows its state.
    pub fn count(&mut self, case: &Case, outcome: &Outcome) {
        self.opening(outcome.opening);
        self.spinup.count(case, outcome);
        self.firmware.count(case, outcome);
        let state = outcome.state.as_ref().expect("the state is shown");
        for exchange in case.exchanges(outcome) {
            self.requests += 1;
            let kind = match exchange.header {
                Header::First => Kind::First,
                Header::Linux { .. } => Kind::Linux(state[state::LEVEL]),
            };
            self.kinds.entry(kind).or_default().count(&exchange);
            self.link_errors.count(&exchange, state);
            self.front_page.count(&exchange, state);
        }
    }

    pub fn openings_met(&self) -> String {
        format!("openings  {}", counts(&self.openings))
    }

    /// What the documents know and was not met.
    pub fn missing(&self) -> Vec<String> {
        let openings = call::OPENINGS
            .iter()
            .filter(|&number| !self.openings.contains_key(number))
            .map(|number| format!("opening {number}"));
        let none = Met::default();
        let of_kinds = known::kinds().into_iter().flat_map(|kind| {
            let met = self.kinds.get(&kind).unwrap_or(&none);
            of_kind(kind, met.missing(kind))
        });
        openings
            .chain(of_kinds)
            .chain(self.link_errors.missing())
            .chain(self.front_page.missing())
            .chain(self.spinup.missing())
            .chain(self.firmware.missing())
            .collect()
    }

    /// What was met and is unknown to the documents.
    pub fn unknown(&self) -> Vec<String> {
        let openings = self
            .openings
            .keys()
            .filter(|number| !call::OPENINGS.contains(number))
            .map(|number| format!("opening {number}"));
        let of_kinds = self
            .kinds
            .iter()
            .flat_map(|(&kind, met)| of_kind(kind, met.unknown(kind)));
        openings
            .chain(of_kinds)
            .chain(self.link_errors.unknown())
            .chain(self.front_page.unknown())
            .chain(self.spinup.unknown())
            .chain(self.firmware.unknown())
            .collect()
    }
}

fn of_kind(kind: Kind, what: Vec<String>) -> impl Iterator<Item = String> {
    what.into_iter()
        .map(move |what| format!("{kind:?}: {what}"))
}

impl fmt::Display for Coverage {
    fn fmt(&self, f: &mut fmt::Formatter<'_>) -> fmt::Result {
        write!(f, "{}", self.openings_met())?;
        for (kind, met) in &self.kinds {
            write!(f, "\n{kind:?}\n{met}")?;
        }
        write!(
            f,
            "\n{}\n{}\n{}\n{}",
            self.link_errors, self.front_page, self.spinup, self.firmware
        )
    }
}

/// Each number with how often it was met.
pub fn counts(met: &BTreeMap<u32, u64>) -> String {
    let shown: Vec<String> = met
        .iter()
        .map(|(number, count)| format!("{number}: {count}"))
        .collect();
    shown.join(", ")
}
