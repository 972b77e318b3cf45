//! Codes 2, 3 and 30 past their header's checks: what W-204 has them answered with.

use super::by_level::{self, header_name};
use crate::case::Exchange;
use crate::names::{code, state, status};
use crate::text::{LEVELS, NONE};

/// What the answer goes by.
#[derive(Clone, Copy, Debug, PartialEq, Eq, PartialOrd, Ord)]
pub struct Asked {
    control: u32,
    linux: bool,
    level: u8,
}

impl by_level::Asked for Asked {
    const REQUESTS: &'static str = "codes 2, 3 and 30 past their header";

    fn of_request(exchange: &Exchange, state: &[u8]) -> Option<Self> {
        let (header, request) = (exchange.header, exchange.request);
        let control = header.control(request);
        code::FRONT_PAGE.contains(&control).then(|| Asked {
            control,
            linux: header.is_linux(),
            level: state[state::LEVEL],
        })
    }

    /// With the first header the need is Restricted.
    fn code(self) -> u32 {
        if !self.linux && self.level == NONE {
            status::WRITE_ATTEMPTED
        } else {
            status::SUCCESS
        }
    }

    fn lines() -> Vec<[Self; 4]> {
        let line = |linux, control| {
            LEVELS.map(|level| Asked {
                control,
                linux,
                level,
            })
        };
        let both = [false, true].into_iter();
        both.flat_map(|linux| code::FRONT_PAGE.map(|control| line(linux, control)))
            .collect()
    }

    fn name(self) -> String {
        format!("{}, code {}", header_name(self.linux), self.control)
    }
}
