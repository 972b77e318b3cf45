//! Code 22 past its header's checks: what W-202 has it answered with.

use super::by_level::{self, header_name};
use crate::case::Exchange;
use crate::names::link_error::{DONT_RESET_COUNTS, RESET_COUNTS};
use crate::names::{code, link_errors as at, state};
use crate::text::{FULL, LEVELS};

#[derive(Clone, Copy, Debug, PartialEq, Eq, PartialOrd, Ord)]
pub enum Reset {
    No,
    Yes,
    /// A reset byte that is neither 0 nor 1.
    Other,
}

impl Reset {
    pub fn of_byte(byte: u8) -> Self {
        match byte {
            DONT_RESET_COUNTS => Reset::No,
            RESET_COUNTS => Reset::Yes,
            _ => Reset::Other,
        }
    }
}

/// What the answer goes by.
#[derive(Clone, Copy, Debug, PartialEq, Eq, PartialOrd, Ord)]
pub struct Asked {
    pub linux: bool,
    pub reset: Reset,
    pub phy_exists: bool,
    pub level: u8,
}

/// With the first header at None, Restricted, Limited and Full: for each reset, of a phy that exists and of one that does not.
const CODES: [[[u32; 4]; 2]; 3] = [
    [[4, 0, 0, 0], [4, 2002, 2002, 2002]],
    [[4, 4, 4, 0], [4, 4, 4, 2002]],
    [[4, 3, 3, 3], [4, 3, 3, 3]],
];

impl Asked {
    /// Those that go by one line of a report, at each level.
    fn line(linux: bool, reset: Reset, phy_exists: bool) -> [Self; 4] {
        LEVELS.map(|level| Asked {
            linux,
            reset,
            phy_exists,
            level,
        })
    }
}

impl by_level::Asked for Asked {
    const REQUESTS: &'static str = "code 22 past its header";

    fn of_request(exchange: &Exchange, state: &[u8]) -> Option<Self> {
        let (header, request) = (exchange.header, exchange.request);
        if header.control(request) != code::LINK_ERRORS {
            return None;
        }
        let body = header.body(request);
        Some(Asked {
            linux: header.is_linux(),
            reset: Reset::of_byte(body[at::RESET]),
            phy_exists: body[at::PHY] < state[state::PHY_COUNT],
            level: state[state::LEVEL],
        })
    }

    /// Requests with the Linux header run as Full.
    fn code(self) -> u32 {
        let level = if self.linux { FULL } else { self.level };
        CODES[self.reset as usize][usize::from(!self.phy_exists)][usize::from(level)]
    }

    fn lines() -> Vec<[Self; 4]> {
        let resets = [Reset::No, Reset::Yes, Reset::Other];
        let both = [false, true].into_iter();
        both.flat_map(|linux| resets.map(|reset| (linux, reset)))
            .flat_map(|(linux, reset)| [true, false].map(|phy| Asked::line(linux, reset, phy)))
            .collect()
    }

    fn name(self) -> String {
        let phy = if self.phy_exists { "a phy" } else { "no phy" };
        format!("{}, reset {:?}, {phy}", header_name(self.linux), self.reset)
    }
}
