//! Disks held at spin-up, in whole runs (W-205): a phy's hold is 0 once a granted code 21 has named it, and else the file's; and its
//! negotiated rate is 3 at a hold alone, so never after a granted code 21. The holds are worked out from the file, the requests as sent
//! and their replies.

use crate::adapter::seal;
use crate::case::{Case, Exchange, Outcome};
use crate::names::{call, code, file, phy, phy_info, rate, set_phy_info, state, ENTITY};
use crate::need;
use crate::side::{return_code, Side};
use crate::start::{Level, Start};
use model::State;

/// The holds of a run, as far as it has come.
pub struct Holds {
    /// Each phy's byte.
    bytes: Vec<u8>,
}

impl Holds {
    /// Those of the file, whose opening was accepted.
    pub fn of_file(file: &[u8]) -> Self {
        let phys = 0..usize::from(file[file::PHY_COUNT]);
        Holds {
            bytes: phys
                .map(|n| file[file::phy_at(n) + phy::SPINUP_HOLD])
                .collect(),
        }
    }

    pub fn has(&self, n: usize) -> bool {
        self.bytes.get(n) == Some(&1)
    }

    /// Goes on by a request: whether it cleared a hold.
    pub fn follow(&mut self, exchange: &Exchange) -> bool {
        let Some(n) = named(exchange) else {
            return false;
        };
        std::mem::take(&mut self.bytes[n]) == 1
    }

    /// No phy has the rate 3 without a hold, and none with a hold has 8 or 9; the phys' bytes begin with their entities.
    fn agree_on_rates<'a>(&self, phy_of: impl Fn(usize) -> &'a [u8]) -> Result<(), String> {
        for n in 0..self.bytes.len() {
            let negotiated = phy_of(n)[phy::NEGOTIATED];
            let wrong: &[u8] = match self.has(n) {
                true => &[rate::G_1_5, rate::G_3_0],
                false => &[rate::SATA_SPINUP_HOLD],
            };
            if wrong.contains(&negotiated) {
                return Err(format!("phy {n} has the rate {negotiated}"));
            }
        }
        Ok(())
    }

    /// Every phy of a state has its hold, and a rate that goes with it.
    fn agree(&self, state: &[u8]) -> Result<(), String> {
        let phy_of = |n| &state[state::phy_at(n)..];
        match (0..self.bytes.len()).find(|&n| phy_of(n)[phy::SPINUP_HOLD] != self.bytes[n]) {
            Some(n) => Err(format!("the hold of phy {n}")),
            None => self.agree_on_rates(phy_of),
        }
    }

    /// So do the rates that a granted code 20 shows.
    fn agree_as_shown(&self, exchange: &Exchange) -> Result<(), String> {
        match shown(exchange) {
            Some(entities) => self.agree_on_rates(|n| &entities[ENTITY * n..]),
            None => Ok(()),
        }
    }
}

/// The phy that a granted code 21 names.
fn named(exchange: &Exchange) -> Option<usize> {
    let header = exchange.header;
    let sets = need::granted(exchange) && header.control(exchange.request) == code::SET_PHY_INFO;
    sets.then(|| usize::from(header.body(exchange.request)[set_phy_info::PHY]))
}

/// The entities that a granted code 20 shows.
pub fn shown<'a>(exchange: &Exchange<'a>) -> Option<&'a [u8]> {
    let header = exchange.header;
    let shows = need::granted(exchange) && header.control(exchange.request) == code::PHY_INFO;
    shows.then(|| &header.body(exchange.reply)[phy_info::PHYS..phy_info::SIZE])
}

/// The claim on a run: by the replies of its codes 20, and by its state at the end where the side shows it. Gives how often a hold was
/// cleared.
pub fn check(case: &Case, outcome: &Outcome) -> Result<usize, String> {
    if outcome.opening != call::DONE {
        return Ok(0);
    }
    let mut holds = Holds::of_file(&case.file);
    let mut cleared = 0;
    for (n, exchange) in case.exchanges(outcome).iter().enumerate() {
        cleared += usize::from(holds.follow(exchange));
        holds
            .agree_as_shown(exchange)
            .map_err(|what| format!("request {}: {what}", n + 1))?;
    }
    if let Some(state) = &outcome.state {
        holds.agree(state)?;
    }
    Ok(cleared)
}

/// The claim by the calls, after each request and not at the end alone.
pub fn check_each(side: Side, start: &Start, level: &Level) -> Result<(), String> {
    let (opening, mut lent) = start.opened(side, level);
    if opening != call::DONE {
        return Ok(());
    }
    let mut holds = Holds::of_file(start.file);
    holds.agree(&lent.state)?;
    for (n, request) in start.requests.iter().enumerate() {
        let header = request.header;
        let (number, reply) = lent.request(side, request);
        let exchange = Exchange {
            header,
            request: &request.buffer,
            number,
            code: return_code(number, header, &reply),
            reply: &reply,
        };
        holds.follow(&exchange);
        holds
            .agree(&lent.state)
            .map_err(|what| format!("request {}: {what}", n + 1))?;
    }
    Ok(())
}

/// Whether a file that is refused for a count or a field would be opened with every hold set to 0.
pub fn refused_by_hold(text: &[u8], file: &[u8], medium: &[u8]) -> bool {
    let mut without = file.to_vec();
    let phys = usize::from(file[file::PHY_COUNT]);
    for block in without.chunks_mut(file::BLOCK).skip(1).take(phys) {
        block[phy::SPINUP_HOLD] = 0;
    }
    seal(&mut without);
    model::open(text, file, medium).0 == call::COUNT_OR_FIELD
        && model::open(text, &without, medium).0 == call::DONE
}

/// Whether a state that is refused would be sound with every hold set to 0.
pub fn is_unsound_by_hold(state: &[u8; state::SIZE]) -> bool {
    let refused = |state: &State| model::tested(state, &[], &[]) == Err(call::STATE);
    let mut without = State::from_bytes(state);
    let unsound = refused(&without);
    for phy in &mut without.phys {
        phy.spinup_hold = 0;
    }
    unsound && !refused(&without)
}
