//! What requests past their header's checks met of disks held at spin-up (W-205).

use super::by_level::header_name;
use crate::case::{Case, Exchange, Outcome};
use crate::last_writer::selected;
use crate::names::{
    call, code, file, link_errors, phy, rate, sata_signature, set_phy_info, status, stp, ENTITY,
};
use crate::need::{granted, passes_header};
use crate::spinup::{refused_by_hold, shown, Holds};
use std::collections::BTreeMap;
use std::fmt;

/// Of a phy with a hold, or of one that had it in the file.
#[derive(Clone, Copy, Debug, PartialEq, Eq, PartialOrd, Ord)]
enum Event {
    /// Code 20 shows the rate 3.
    Shown,
    /// Code 21 enables it, and clears the hold.
    Released,
    /// Code 21 disables it, and clears the hold.
    Disabled,
    /// Code 21 with this return code, which leaves the hold.
    Refused(u32),
    /// Code 22 shows its counters.
    LinkErrors,
    /// Code 25 to its address, which is not connected.
    NotConnected,
    /// Code 25 after the hold was cleared, which reaches the disk.
    Reached,
    /// Code 26 shows its signature.
    Signature,
    /// Code 25 reaches the disk in spite of its hold, which may not be.
    ReachedAtHold,
}

/// Every event that a header's requests have to meet; one with the Linux header is not denied.
fn events(linux: bool) -> Vec<Event> {
    let mut codes = vec![
        status::INVALID_PARAMETER,
        status::PHY_INFO_NOT_CHANGEABLE,
        status::LINK_RATE_OUT_OF_RANGE,
    ];
    if !linux {
        codes.push(status::WRITE_ATTEMPTED);
    }
    let granted = [
        Event::Shown,
        Event::Released,
        Event::Disabled,
        Event::LinkErrors,
        Event::NotConnected,
        Event::Reached,
        Event::Signature,
    ];
    let refused = codes.into_iter().map(Event::Refused);
    granted.into_iter().chain(refused).collect()
}

/// The event with its header.
type Met = (bool, Event);

#[derive(Default)]
pub struct Spinup {
    met: BTreeMap<Met, u64>,
    /// Openings that were refused for a hold alone.
    refused: u64,
}

impl Spinup {
    pub fn count(&mut self, case: &Case, outcome: &Outcome) {
        match outcome.opening {
            call::DONE => self.run(case, outcome),
            call::COUNT_OR_FIELD => {
                let by_hold = refused_by_hold(&case.text, &case.file, &case.medium);
                self.refused += u64::from(by_hold);
            }
            _ => {}
        }
    }

    fn run(&mut self, case: &Case, outcome: &Outcome) {
        let mut holds = Holds::of_file(&case.file);
        for exchange in case.exchanges(outcome) {
            if let Some(event) = event(&case.file, &holds, &exchange) {
                let met = (exchange.header.is_linux(), event);
                *self.met.entry(met).or_default() += 1;
            }
            holds.follow(&exchange);
        }
    }

    fn times(&self, met: Met) -> u64 {
        *self.met.get(&met).unwrap_or(&0)
    }

    /// What was not met.
    pub fn missing(&self) -> Vec<String> {
        let opening = (self.refused == 0).then(|| "an opening refused for a hold".to_string());
        all()
            .into_iter()
            .filter(|&met| self.times(met) == 0)
            .map(name)
            .chain(opening)
            .collect()
    }

    /// What was met and may not be.
    pub fn unknown(&self) -> Vec<String> {
        let known = all();
        let others = self.met.keys().filter(|met| !known.contains(met));
        others.map(|&met| name(met)).collect()
    }
}

/// Every event of both headers.
fn all() -> Vec<Met> {
    let of_header = |linux| events(linux).into_iter().map(move |event| (linux, event));
    [false, true].into_iter().flat_map(of_header).collect()
}

fn name((linux, event): Met) -> String {
    format!("{}, spin-up hold, {event:?}", header_name(linux))
}

/// What a request met of a hold, if it did.
fn event(file: &[u8], holds: &Holds, exchange: &Exchange) -> Option<Event> {
    let (header, request) = (exchange.header, exchange.request);
    if exchange.number != call::DONE || !passes_header(header, request) {
        return None;
    }
    let body = header.body(request);
    let has_hold = |at: usize| holds.has(usize::from(body[at]));
    match header.control(request) {
        code::PHY_INFO => shows_hold(exchange).then_some(Event::Shown),
        code::SET_PHY_INFO if has_hold(set_phy_info::PHY) => Some(set(exchange)),
        code::LINK_ERRORS if has_hold(link_errors::PHY) => {
            granted(exchange).then_some(Event::LinkErrors)
        }
        code::SATA_SIGNATURE if has_hold(sata_signature::PHY) => {
            granted(exchange).then_some(Event::Signature)
        }
        code::STP_PASSTHRU => passthrough(file, holds, exchange),
        _ => None,
    }
}

fn shows_hold(exchange: &Exchange) -> bool {
    let mut entities = shown(exchange)
        .into_iter()
        .flat_map(|all| all.chunks(ENTITY));
    entities.any(|entity| entity[phy::NEGOTIATED] == rate::SATA_SPINUP_HOLD)
}

/// A code 21 to a phy with a hold.
fn set(exchange: &Exchange) -> Event {
    let disables = exchange.header.body(exchange.request)[set_phy_info::NEGOTIATED] == 1;
    match granted(exchange) {
        true if disables => Event::Disabled,
        true => Event::Released,
        false => Event::Refused(exchange.code),
    }
}

/// A code 25 that selects a phy.
fn passthrough(file: &[u8], holds: &Holds, exchange: &Exchange) -> Option<Event> {
    let body = exchange.header.body(exchange.request);
    if !granted(exchange) && exchange.code != status::CONNECTION_FAILED {
        return None;
    }
    let n = selected(file, body);
    let of_file = &file[file::phy_at(n)..];
    let address = &of_file[phy::ATTACHED_SAS_ADDRESS..phy::ATTACHED_SAS_ADDRESS + 8];
    let to_disk = body[stp::DESTINATION..stp::DESTINATION + 8] == *address;
    match granted(exchange) {
        true if holds.has(n) => Some(Event::ReachedAtHold),
        true if of_file[phy::SPINUP_HOLD] == 1 => Some(Event::Reached),
        false if to_disk && holds.has(n) => Some(Event::NotConnected),
        _ => None,
    }
}

/// A line for each event, with the times by header.
impl fmt::Display for Spinup {
    fn fmt(&self, f: &mut fmt::Formatter<'_>) -> fmt::Result {
        write!(
            f,
            "spin-up holds, with the first header and with the Linux header"
        )?;
        for event in events(false) {
            let times = [false, true].map(|linux| self.times((linux, event)));
            write!(
                f,
                "\n{:<28} {}, {}",
                format!("{event:?}"),
                times[0],
                times[1]
            )?;
        }
        write!(f, "\n{:<28} {}", "openings refused for one", self.refused)
    }
}
