//! What code 4 writes, followed from request to request.

use super::{image, Asked};
use crate::adapter::controller_at;
use crate::case::Exchange;
use crate::lent::Lent;
use crate::names::firmware::FIRMWARE_REVISIONS;
use crate::names::{code, file, state, status, REVISIONS};
use crate::need::granted;
use crate::wire::first_difference;

/// Where a state has the running revisions.
const RUNNING: usize = state::CONTROLLER_CONFIG + FIRMWARE_REVISIONS;

#[derive(Clone, Debug, PartialEq, Eq)]
pub struct Firmware {
    stage: Vec<u8>,
    /// The revisions of the staged image, if there is one.
    staged: Option<[u8; REVISIONS]>,
    running: [u8; REVISIONS],
}

impl Firmware {
    /// After the opening of a file: "leaves nothing staged, as an opening does".
    pub fn opened(file: &[u8], stage: &[u8]) -> Self {
        let counts = [file::PHY_COUNT, file::ROW_COUNT].map(|at| usize::from(file[at]));
        Firmware {
            stage: stage.to_vec(),
            staged: None,
            running: revisions(
                file,
                controller_at(counts[0], counts[1]) + FIRMWARE_REVISIONS,
            ),
        }
    }

    /// What a sound state and a stage hold.
    pub fn of(lent: &Lent) -> Self {
        let staged = lent.state[state::STAGED] == 1;
        Firmware {
            stage: lent.stage.clone(),
            staged: staged.then(|| revisions(&lent.state, state::STAGED_REVISIONS)),
            running: revisions(&lent.state, RUNNING),
        }
    }

    pub fn has_staged(&self) -> bool {
        self.staged.is_some()
    }

    /// The return code of what is asked, past the level.
    pub fn code(&self, asked: Asked) -> u32 {
        match asked {
            Asked::WrongLength | Asked::Bytes => status::INVALID_PARAMETER,
            Asked::WrongImage => status::FAILED,
            Asked::Commit if self.staged.is_none() => status::FAILED,
            Asked::Validation | Asked::Commit => status::SUCCESS,
        }
    }

    /// Goes on by a request: what it did, if it is a granted code 4.
    pub fn follow(&mut self, exchange: &Exchange) -> Option<Asked> {
        let asked = Asked::of_exchange(exchange).filter(|_| granted(exchange))?;
        match asked {
            Asked::Validation => self.validate(exchange.header.body(exchange.request)),
            Asked::Commit => self.commit(),
            _ => {}
        }
        Some(asked)
    }

    /// "copied to the start of a lent stage", whose rest stays.
    fn validate(&mut self, body: &[u8]) {
        let image = image(body);
        self.stage[..image.len()].copy_from_slice(image);
        self.staged = Some(revisions(image, 0));
    }

    /// "the staged image becomes the running one"; "A commit leaves nothing staged".
    fn commit(&mut self) {
        self.running = self.staged.take().unwrap_or(self.running);
    }

    /// Puts it into what is lent.
    pub fn put(&self, lent: &mut Lent) {
        lent.stage.clone_from(&self.stage);
        lent.state[state::STAGED] = u8::from(self.staged.is_some());
        let staged = self.staged.unwrap_or_default();
        lent.state[state::STAGED_REVISIONS..].copy_from_slice(&staged);
        lent.state[RUNNING..RUNNING + REVISIONS].copy_from_slice(&self.running);
    }

    /// The stage is this one.
    pub fn agree_on_stage(&self, stage: &[u8]) -> Result<(), String> {
        match first_difference(&self.stage, stage) {
            None => Ok(()),
            Some(at) => Err(format!("stage, byte {at}")),
        }
    }

    /// A state has it.
    pub fn agree(&self, state: &[u8]) -> Result<(), String> {
        let staged = self.staged.unwrap_or_default();
        let parts = [
            (
                "staged",
                state[state::STAGED] == u8::from(self.has_staged()),
            ),
            (
                "staged revisions",
                state[state::STAGED_REVISIONS..] == staged,
            ),
            (
                "running revisions",
                revisions(state, RUNNING) == self.running,
            ),
        ];
        match parts.iter().find(|(_, same)| !same) {
            None => Ok(()),
            Some((what, _)) => Err(what.to_string()),
        }
    }

    /// A granted code 2 shows the running revisions. Gives whether it is one.
    pub fn agree_as_shown(&self, exchange: &Exchange) -> Result<bool, String> {
        let header = exchange.header;
        let shows = granted(exchange) && header.control(exchange.request) == code::CNTLR_CONFIG;
        let right = || revisions(header.body(exchange.reply), FIRMWARE_REVISIONS) == self.running;
        if shows && !right() {
            return Err("the revisions that code 2 shows".to_string());
        }
        Ok(shows)
    }
}

fn revisions(bytes: &[u8], at: usize) -> [u8; REVISIONS] {
    let mut revisions = [0; REVISIONS];
    revisions.copy_from_slice(&bytes[at..at + REVISIONS]);
    revisions
}
