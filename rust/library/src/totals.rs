//! The totals of a record, as `tally` writes them: five numbers of 64 bits.

/// The lines of the record.
pub const REQUESTS: usize = 0;
/// Those with number 0 and return code 0.
pub const GRANTED: usize = 8;
/// Those with number 0 and return code 4.
pub const DENIED: usize = 16;
/// Those of no other kind.
pub const OTHERWISE_REFUSED: usize = 24;
/// Those with number 100.
pub const SHORT: usize = 32;
pub const SIZE: usize = 40;

/// The same as numbers.
#[derive(Clone, Copy, Default, PartialEq, Eq, Debug)]
pub struct Totals {
    pub requests: u64,
    pub granted: u64,
    pub denied: u64,
    pub otherwise_refused: u64,
    pub short: u64,
}

impl Totals {
    /// The tally of a record. That of a run is its first lines, as many as the run gave.
    pub fn of_record(record: &[u8]) -> Totals {
        let mut bytes = [0; SIZE];
        let number = crate::tally(record, &mut bytes);
        assert_eq!(number, 0, "there is room for the totals");
        Totals::from_bytes(&bytes)
    }

    pub fn from_bytes(bytes: &[u8; SIZE]) -> Totals {
        let at = |place| u64_at(bytes, place);
        Totals {
            requests: at(REQUESTS),
            granted: at(GRANTED),
            denied: at(DENIED),
            otherwise_refused: at(OTHERWISE_REFUSED),
            short: at(SHORT),
        }
    }

    /// The five numbers in their order.
    pub fn in_order(&self) -> [u64; 5] {
        [
            self.requests,
            self.granted,
            self.denied,
            self.otherwise_refused,
            self.short,
        ]
    }
}

fn u64_at(bytes: &[u8; SIZE], at: usize) -> u64 {
    let number = bytes[at..].first_chunk().expect("a number has 8 bytes");
    u64::from_le_bytes(*number)
}
