//! What requests met of firmware (W-207), by the header and the level; and stages of another length.

use super::by_level::header_name;
use crate::case::{Case, Exchange, Outcome};
use crate::firmware::{Asked, Firmware as Followed};
use crate::names::{call, state, status};
use crate::need::denied;
use crate::text::{LEVELS, LIMITED, NONE};
use std::collections::BTreeMap;
use std::fmt;

#[derive(Clone, Copy, Debug, PartialEq, Eq, PartialOrd, Ord)]
enum Event {
    /// A code 4 with its return code.
    Answered(Asked, u32),
    /// A code 2 after a commit, which shows the committed revisions.
    Shown,
    /// Any request with a stage of another length: 106.
    WrongStage,
}

/// Whether it has the Linux header, the level, and the event.
type Met = (bool, u8, Event);

const ASKED: [Asked; 5] = [
    Asked::Validation,
    Asked::WrongImage,
    Asked::WrongLength,
    Asked::Bytes,
    Asked::Commit,
];

/// Every event at a level. The need of the first header is Limited; what a commit with the Linux header left, Restricted may be shown.
fn events(linux: bool, level: u8) -> Vec<Event> {
    let mut events = match linux || level >= LIMITED {
        true => vec![
            Event::Answered(Asked::Validation, status::SUCCESS),
            Event::Answered(Asked::WrongImage, status::FAILED),
            Event::Answered(Asked::WrongLength, status::INVALID_PARAMETER),
            Event::Answered(Asked::Bytes, status::INVALID_PARAMETER),
            Event::Answered(Asked::Commit, status::SUCCESS),
            Event::Answered(Asked::Commit, status::FAILED),
        ],
        false => ASKED
            .map(|asked| Event::Answered(asked, status::WRITE_ATTEMPTED))
            .to_vec(),
    };
    if linux || level > NONE {
        events.push(Event::Shown);
    }
    events.push(Event::WrongStage);
    events
}

#[derive(Default)]
pub struct Firmware {
    met: BTreeMap<Met, u64>,
    /// Codes that no one may get.
    wrong: Vec<String>,
}

impl Firmware {
    /// Counts what a case met; the outcome is of a side that shows its state.
    pub fn count(&mut self, case: &Case, outcome: &Outcome) {
        if outcome.opening != call::DONE {
            return;
        }
        let level = outcome.state.as_ref().expect("the state is shown")[state::LEVEL];
        let mut followed = Followed::opened(&case.file, &case.stage);
        let mut committed = false;
        for exchange in case.exchanges(outcome) {
            self.answered(&followed, level, &exchange);
            let done = followed.follow(&exchange);
            committed |= done == Some(Asked::Commit);
            match followed.agree_as_shown(&exchange) {
                Ok(shows) if shows && committed => self.meet(&exchange, level, Event::Shown),
                Ok(_) => {}
                Err(what) => self.wrong.push(what),
            }
            if exchange.number == call::STAGE_LENGTH {
                self.meet(&exchange, level, Event::WrongStage);
            }
        }
    }

    fn answered(&mut self, followed: &Followed, level: u8, exchange: &Exchange) {
        let Some(asked) = Asked::of_exchange(exchange) else {
            return;
        };
        let expected = match denied(level, exchange.header, exchange.request) {
            true => status::WRITE_ATTEMPTED,
            false => followed.code(asked),
        };
        if exchange.code != expected {
            self.wrong
                .push(format!("{asked:?}: {}, not {expected}", exchange.code));
        }
        self.meet(exchange, level, Event::Answered(asked, exchange.code));
    }

    fn meet(&mut self, exchange: &Exchange, level: u8, event: Event) {
        let met = (exchange.header.is_linux(), level, event);
        *self.met.entry(met).or_default() += 1;
    }

    fn times(&self, met: Met) -> u64 {
        *self.met.get(&met).unwrap_or(&0)
    }

    /// What was not met.
    pub fn missing(&self) -> Vec<String> {
        let missing = all().into_iter().filter(|&met| self.times(met) == 0);
        missing.map(name).collect()
    }

    /// What was met and may not be.
    pub fn unknown(&self) -> Vec<String> {
        let known = all();
        let others = self.met.keys().filter(|met| !known.contains(met));
        others
            .map(|&met| name(met))
            .chain(self.wrong.clone())
            .collect()
    }
}

/// Every event of both headers at every level.
fn all() -> Vec<Met> {
    let places = [false, true]
        .into_iter()
        .flat_map(|linux| LEVELS.map(|level| (linux, level)));
    places
        .flat_map(|(linux, level)| {
            events(linux, level)
                .into_iter()
                .map(move |event| (linux, level, event))
        })
        .collect()
}

fn name((linux, level, event): Met) -> String {
    format!("{}, level {level}, firmware, {event:?}", header_name(linux))
}

/// A line for each event and header, with the times at each level.
impl fmt::Display for Firmware {
    fn fmt(&self, f: &mut fmt::Formatter<'_>) -> fmt::Result {
        write!(f, "firmware, at None, Restricted, Limited, Full")?;
        let mut events: Vec<(bool, Event)> = all()
            .into_iter()
            .map(|(linux, _, event)| (linux, event))
            .collect();
        events.sort();
        events.dedup();
        for (linux, event) in events {
            let times = LEVELS.map(|level| self.times((linux, level, event)).to_string());
            let name = format!("{}, {event:?}", header_name(linux));
            write!(f, "\n{name:<40} {}", times.join(", "))?;
        }
        Ok(())
    }
}
