//! The closing tally (W-206): the kind of a line, and the totals of lines and of a record.

mod kinds;
mod record;
mod totals;

use super::arbitrary::Numbers;
use crate::Line;

/// FFFFFFFFh, in the place of a return code that was not written.
const NONE: u32 = 0xFFFF_FFFF;

fn line(number: u32, code: u32) -> Line {
    Line { number, code }
}

/// Up to 20 lines, most of them such as a run leaves.
fn lines(numbers: &mut Numbers) -> Vec<Line> {
    const CALLS: [u32; 8] = [0, 0, 0, 100, 100, 106, 107, 108];
    const CODES: [u32; 8] = [0, 0, 4, 4, 3, 2000, 2002, NONE];
    let any = |numbers: &mut Numbers, common: [u32; 8]| match numbers.below(9) {
        8 => numbers.next(),
        i => common[i],
    };
    (0..numbers.below(21))
        .map(|_| line(any(numbers, CALLS), any(numbers, CODES)))
        .collect()
}

/// The bytes of a record.
fn bytes(lines: &[Line]) -> Vec<u8> {
    lines
        .iter()
        .flat_map(|line| [line.number.to_le_bytes(), line.code.to_le_bytes()].concat())
        .collect()
}
