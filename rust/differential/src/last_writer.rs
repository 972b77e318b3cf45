//! "The last writer": by the file, the medium at the start, the requests as sent and their replies alone, what every sector and
//! every programmed rate is after a run. A request and its reply are read by the places of their header.

use crate::case::{Case, Exchange, Outcome};
use crate::names::{
    ata, call, code, file, phy, set_phy_info as at, state, stp, DISK, NOT_GIVEN, SECTOR,
};
use crate::need;
use crate::request::fis;
use crate::wire::first_difference;

/// What the last writers left.
pub struct Written {
    pub medium: Vec<u8>,
    /// Each phy's programmed minimum and maximum.
    pub rates: Vec<(u8, u8)>,
}

impl Written {
    /// After a run whose opening was accepted.
    pub fn after(file: &[u8], medium: &[u8], exchanges: &[Exchange]) -> Self {
        let mut written = Written {
            medium: medium.to_vec(),
            rates: (0..usize::from(file[file::PHY_COUNT]))
                .map(|n| programmed(&file[file::phy_at(n)..]))
                .collect(),
        };
        for exchange in exchanges.iter().filter(|exchange| need::granted(exchange)) {
            match exchange.header.control(exchange.request) {
                code::STP_PASSTHRU => written.passthrough(file, exchange),
                code::SET_PHY_INFO => written.set_phy_info(exchange),
                _ => {}
            }
        }
        written
    }

    fn passthrough(&mut self, file: &[u8], exchange: &Exchange) {
        let body = exchange.header.body(exchange.request);
        let command = &body[stp::COMMAND_FIS..stp::FLAGS];
        let status = exchange.header.body(exchange.reply)[stp::STATUS_FIS + fis::STATUS];
        if command[fis::COMMAND] != ata::WRITE_SECTORS || status != ata::STATUS_GOOD {
            return;
        }
        let length = SECTOR * fis::sectors(command);
        let at = DISK * selected(file, body) + SECTOR * fis::lba(command);
        self.medium[at..at + length].copy_from_slice(&body[stp::DATA..stp::DATA + length]);
    }

    fn set_phy_info(&mut self, exchange: &Exchange) {
        let body = exchange.header.body(exchange.request);
        let rates = &mut self.rates[usize::from(body[at::PHY])];
        if body[at::MINIMUM] != 0 {
            rates.0 = body[at::MINIMUM];
        }
        if body[at::MAXIMUM] != 0 {
            rates.1 = body[at::MAXIMUM];
        }
    }
}

/// The phy that a passthrough selects: its phy, or the lowest of its port.
pub fn selected(file: &[u8], body: &[u8]) -> usize {
    if body[stp::PHY] != NOT_GIVEN {
        return usize::from(body[stp::PHY]);
    }
    let mut phys = 0..usize::from(file[file::PHY_COUNT]);
    phys.find(|&n| file[file::phy_at(n) + phy::PORT_IDENTIFIER] == body[stp::PORT])
        .expect("a granted passthrough selects a phy")
}

/// The programmed minimum and maximum of a PHY_ENTITY.
fn programmed(entity: &[u8]) -> (u8, u8) {
    (entity[phy::MINIMUM] >> 4, entity[phy::MAXIMUM] >> 4)
}

/// The medium after a run, and the programmed rates of its state where the side shows it, are what the last writers left. After a refused
/// opening medium and stage are what they were, and the state is zero. Gives the number of phys whose rates were compared.
pub fn check(case: &Case, outcome: &Outcome) -> Result<usize, String> {
    if outcome.opening != call::DONE {
        return check_refused(case, outcome);
    }
    let written = Written::after(&case.file, &case.medium, &case.exchanges(outcome));
    equal_media(&written.medium, &outcome.medium)?;
    let Some(state) = &outcome.state else {
        return Ok(0);
    };
    for (n, rates) in written.rates.iter().enumerate() {
        if programmed(&state[state::phy_at(n)..]) != *rates {
            return Err(format!("programmed rates of phy {n}"));
        }
    }
    Ok(written.rates.len())
}

fn check_refused(case: &Case, outcome: &Outcome) -> Result<usize, String> {
    equal_media(&case.medium, &outcome.medium)?;
    if case.stage != outcome.stage {
        return Err("a refused opening altered the stage".to_string());
    }
    match &outcome.state {
        Some(state) if *state != [0; state::SIZE] => {
            Err("a refused opening left a state".to_string())
        }
        _ => Ok(0),
    }
}

fn equal_media(expected: &[u8], medium: &[u8]) -> Result<(), String> {
    match first_difference(expected, medium) {
        None => Ok(()),
        Some(at) => Err(format!("medium, byte {at}")),
    }
}
