//! The closing tally (W-206): the kind of each request of a run, and how many there are of each.

use crate::bytes::u32_at;
use crate::codes::{call, status};
use crate::layout::record::{CODE, NUMBER, SIZE};
use std::fmt;

/// What one request of a run came to: a line of its record.
#[derive(Clone, Copy, PartialEq, Eq, Debug)]
pub struct Line {
    /// The call's number.
    pub number: u32,
    /// The return code, or `NO_CODE`.
    pub code: u32,
}

/// What a line counts as.
#[derive(Clone, Copy, PartialEq, Eq, Debug)]
pub enum LineKind {
    /// "a return code of 0 or 2000": by section 10 both are 0, and its 2000 is a refusal.
    Granted,
    /// "denied 4".
    Denied,
    /// "All others but 100".
    OtherwiseRefused,
    /// 100: a buffer too short for its header.
    Short,
}

/// "requests, granted, denied, otherwise refused and 100s".
#[derive(Clone, Copy, PartialEq, Eq, Debug)]
pub struct Totals {
    pub requests: usize,
    pub granted: usize,
    pub denied: usize,
    pub otherwise_refused: usize,
    pub short: usize,
}

impl Line {
    fn from_bytes(bytes: &[u8; SIZE]) -> Line {
        Line {
            number: u32_at(bytes, NUMBER),
            code: u32_at(bytes, CODE),
        }
    }

    /// The return code decides where one was written, the call's number elsewhere.
    pub fn kind(&self) -> LineKind {
        match (self.number, self.code) {
            (call::DONE, status::SUCCESS) => LineKind::Granted,
            (call::DONE, status::WRITE_ATTEMPTED) => LineKind::Denied,
            (call::BUFFER_LENGTH, _) => LineKind::Short,
            _ => LineKind::OtherwiseRefused,
        }
    }
}

impl Totals {
    /// "Each total equals the number of printed lines of that kind."
    pub fn of_lines(lines: &[Line]) -> Totals {
        let of = |kind| lines.iter().filter(|line| line.kind() == kind).count();
        Totals {
            requests: lines.len(),
            granted: of(LineKind::Granted),
            denied: of(LineKind::Denied),
            otherwise_refused: of(LineKind::OtherwiseRefused),
            short: of(LineKind::Short),
        }
    }

    /// The totals of a run's record. A rest of it under 8 bytes counts nowhere.
    pub fn of_record(record: &[u8]) -> Totals {
        let lines = record.as_chunks().0.iter().map(Line::from_bytes);
        Totals::of_lines(&lines.collect::<Vec<_>>())
    }

    /// The five numbers in the order of the program's last line.
    pub fn in_order(&self) -> [usize; 5] {
        [
            self.requests,
            self.granted,
            self.denied,
            self.otherwise_refused,
            self.short,
        ]
    }
}

/// The program's last line.
impl fmt::Display for Totals {
    fn fmt(&self, f: &mut fmt::Formatter) -> fmt::Result {
        let numbers = self.in_order().map(|number| number.to_string());
        write!(f, "total {}", numbers.join(" "))
    }
}
