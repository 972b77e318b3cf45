//! What the documents know: which numbers, return codes and answers of the disk there are.

use crate::names::ata::*;
use crate::names::{call, code, status};
use crate::text::{LEVELS, NONE};

/// The control code of a request, if it is a known one.
pub type Control = Option<u32>;

/// A request's kind: with the first header, or with the Linux header in a run of a level.
#[derive(Clone, Copy, Debug, PartialEq, Eq, PartialOrd, Ord)]
pub enum Kind {
    First,
    Linux(u8),
}

/// Every kind.
pub fn kinds() -> Vec<Kind> {
    let linux = LEVELS.map(Kind::Linux);
    [&[Kind::First], &linux[..]].concat()
}

/// Every answer of the disk: success, command aborted, past the last sector.
pub const DISK: [(u8, u8); 3] = [
    (STATUS_GOOD, 0),
    (STATUS_ERROR, ERROR_ABORT),
    (STATUS_ERROR, ERROR_PAST_END),
];

impl Kind {
    /// Every number of a call in a run. After a refused opening the level is None's.
    pub fn calls(self) -> &'static [u32] {
        match self {
            Kind::First | Kind::Linux(NONE) => &call::REQUESTS,
            Kind::Linux(_) => &[call::DONE, call::BUFFER_LENGTH, call::STAGE_LENGTH],
        }
    }

    /// The return codes that every known code has: with the first header also a bad signature and the denial.
    fn common(self) -> &'static [u32] {
        match self {
            Kind::First => &[
                status::SUCCESS,
                status::BAD_CNTL_CODE,
                status::INVALID_PARAMETER,
                status::WRITE_ATTEMPTED,
            ],
            Kind::Linux(_) => &[status::SUCCESS, status::INVALID_PARAMETER],
        }
    }

    /// Every pair of control code and return code.
    pub fn replies(self) -> Vec<(Control, u32)> {
        let mut known = vec![
            (None, status::BAD_CNTL_CODE),
            (None, status::INVALID_PARAMETER),
        ];
        for control in code::ALL {
            let codes = self.common().iter().chain(own_codes(control));
            known.extend(codes.map(|&code| (Some(control), code)));
        }
        known
    }

    /// Whether its requests may be denied.
    pub fn is_denied(self) -> bool {
        self == Kind::First
    }
}

/// The return codes that a known code has of its own.
fn own_codes(control: u32) -> &'static [u32] {
    use status::*;
    match control {
        code::FIRMWARE_DOWNLOAD => &[FAILED],
        code::SET_PHY_INFO => &[
            PHY_INFO_NOT_CHANGEABLE,
            LINK_RATE_OUT_OF_RANGE,
            PHY_DOES_NOT_EXIST,
        ],
        code::LINK_ERRORS => &[PHY_DOES_NOT_EXIST],
        code::STP_PASSTHRU => &[
            PHY_DOES_NOT_EXIST,
            PHY_DOES_NOT_MATCH_PORT,
            SELECT_PHY_OR_PORT,
            PORT_DOES_NOT_EXIST,
            CONNECTION_FAILED,
        ],
        code::SATA_SIGNATURE => &[PHY_DOES_NOT_EXIST, NO_SATA_DEVICE, NO_SATA_SIGNATURE],
        code::SCSI_ADDRESS => &[NO_SCSI_ADDRESS],
        code::DEVICE_ADDRESS => &[NO_DEVICE_ADDRESS],
        _ => &[],
    }
}
