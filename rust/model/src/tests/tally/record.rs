//! The totals of a record: lines of 8 bytes, and a rest that counts nowhere.

use super::{bytes, line, lines, NONE};
use crate::layout::record::NO_CODE;
use crate::tests::arbitrary::Numbers;
use crate::Totals;

fn totals(record: &[u8]) -> [usize; 5] {
    Totals::of_record(record).in_order()
}

/// The call's number is in bytes 0 to 3, the return code in bytes 4 to 7, little-endian.
#[test]
fn places() {
    assert_eq!(NO_CODE, NONE);
    assert_eq!(totals(&[0, 0, 0, 0, 0, 0, 0, 0]), [1, 1, 0, 0, 0]);
    assert_eq!(totals(&[0, 0, 0, 0, 4, 0, 0, 0]), [1, 0, 1, 0, 0]);
    assert_eq!(totals(&[100, 0, 0, 0, 0, 0, 0, 0]), [1, 0, 0, 0, 1]);
    for at in 0..8 {
        for value in [1, 4, 100, 255] {
            let mut record = [0; 8];
            record[at] = value;
            let expected = match (at, value) {
                (0, 100) => [1, 0, 0, 0, 1],
                (4, 4) => [1, 0, 1, 0, 0],
                _ => [1, 0, 0, 1, 0],
            };
            assert_eq!(totals(&record), expected, "byte {at} is {value}");
        }
    }
}

#[test]
fn every_length() {
    let record = bytes(&[line(0, 4), line(100, NONE), line(0, 0)]);
    let expected = [[0; 5], [1, 0, 1, 0, 0], [2, 0, 1, 0, 1], [3, 1, 1, 0, 1]];
    for length in 0..=24 {
        assert_eq!(totals(&record[..length]), expected[length / 8], "{length}");
        // whatever the bytes are
        assert_eq!(totals(&vec![0; length])[0], length / 8);
        assert_eq!(totals(&vec![0xFF; length])[0], length / 8);
    }
}

/// A record counts as its lines do, with any rest behind them.
#[test]
fn as_lines() {
    let mut numbers = Numbers::new(0x2060_0000_0000_0002);
    for _ in 0..2_000 {
        let lines = lines(&mut numbers);
        let rest = numbers.below(8);
        let record = [bytes(&lines), numbers.bytes(rest)].concat();
        assert_eq!(Totals::of_record(&record), Totals::of_lines(&lines));
    }
}
