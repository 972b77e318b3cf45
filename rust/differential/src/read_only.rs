//! `ReadOnly` of `claims`: below Limited a run of the first header changes nothing, below Full nothing but by code 4.

use crate::case::Exchange;
use crate::names::code;
use crate::side::Side;
use crate::start::{Level, Start};
use crate::text;
use crate::two_runs::{same_by_part, Run};

/// Which requests `ReadOnly` of `claims` keeps: below Limited those with the Linux header, below Full those and code 4.
#[derive(Clone, Copy, Debug, PartialEq, Eq)]
pub enum Kept {
    Linux,
    LinuxAndFirmware,
}

impl Kept {
    /// The level below which the others leave no trace.
    pub fn level(self) -> u8 {
        match self {
            Kept::Linux => text::LIMITED,
            Kept::LinuxAndFirmware => text::FULL,
        }
    }

    fn keeps(self, one: &Exchange) -> bool {
        let is_short = one.request.len() < one.header.size();
        let is_firmware = || one.header.control(one.request) == code::FIRMWARE_DOWNLOAD;
        one.header.is_linux() || self == Kept::LinuxAndFirmware && !is_short && is_firmware()
    }
}

/// `ReadOnly` of `claims`: in a run below that level the requests that are kept alone get the same replies and leave the same.
pub fn check(side: Side, start: &Start, level: &Level, kept: Kept) -> Result<(), String> {
    let whole = Run::of(side, start, level, start.requests)?;
    let answers = whole.exchanges();
    let part: Vec<&Exchange> = answers.iter().filter(|one| kept.keeps(one)).collect();
    same_by_part(side, start, level, &whole, &part)
}
