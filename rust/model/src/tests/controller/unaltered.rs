//! "One statement over codes 1, 2, 3, 20, 22, 26, 27, 28 and 30: none alters the state or the
//! medium, but for the reset of W-202", and none the stage, "which only a granted validation
//! changes" (W-207): with either header, at every level, granted or refused.

use super::{Header, FIRST, LINUX};
use crate::tests::adapter::{largest, medium, sample, stage};
use crate::tests::arbitrary::Numbers;
use crate::tests::header::bodies;
use crate::State;

/// The codes of the statement; and 24, which is unknown.
const CODES: [u32; 10] = [1, 2, 3, 20, 22, 24, 26, 27, 28, 30];

struct Sent {
    code: u32,
    buffer: Vec<u8>,
}

/// Handles a request: its number, and its return code. State, medium and stage are what the
/// statement says.
fn handled(header: &Header, state: &mut State, disk: &mut [u8], mut sent: Sent) -> (u32, u32) {
    let (mut expected, disk_before) = (state.clone(), disk.to_vec());
    let body = sent.buffer.get(header.size..).unwrap_or_default().to_vec();
    let mut lent = stage();
    let number = (header.request)(state, disk, &mut lent, sent.code, &mut sent.buffer);
    let code = match number {
        0 => header.return_code(&sent.buffer),
        _ => u32::MAX,
    };
    if sent.code == 22 && code == 0 && body[1] == 1 {
        expected.phys[usize::from(body[0])].counters = [0; 4];
    }
    assert_eq!(*state, expected, "code {}", sent.code);
    assert!(*disk == disk_before, "code {}", sent.code);
    assert!(lent == stage(), "code {}", sent.code);
    (number, code)
}

/// A body that is served, or one near to it, or any.
fn body(numbers: &mut Numbers, code: u32) -> Vec<u8> {
    let served = bodies().into_iter().find(|(other, _)| *other == code);
    let mut body = match (served, numbers.below(3)) {
        (Some((_, body)), 0 | 1) => body,
        _ => numbers.body(code),
    };
    if code == 22 {
        let reset = [0, 1, 1, 2][numbers.below(4)];
        body[..2].copy_from_slice(&[numbers.next() as u8 % 7, reset]);
    }
    body
}

/// Any damage but to the control code of the first header.
fn damage(numbers: &mut Numbers, header: &Header, buffer: &mut Vec<u8>) {
    let at = numbers.below(buffer.len());
    if header.size == 20 || !(16..20).contains(&at) {
        buffer[at] = numbers.byte();
    }
    if numbers.below(4) == 0 {
        buffer.truncate(numbers.below(buffer.len() + 1));
    }
}

#[test]
fn arbitrary_requests() {
    let mut numbers = Numbers::new(0x0204_0204_1234_5677);
    for (header, codes_met) in [(FIRST, [0, 2, 3, 4]), (LINUX, [0, 2, 3, 2002])] {
        let (mut state, mut disk) = (sample(), medium(5));
        let (mut granted, mut numbers_met, mut met) = ([0; CODES.len()], Vec::new(), Vec::new());
        for _ in 0..30_000 {
            let n = numbers.below(CODES.len());
            let mut buffer = (header.buffer)(CODES[n], &body(&mut numbers, CODES[n]));
            if numbers.below(4) == 0 {
                damage(&mut numbers, &header, &mut buffer);
            }
            state.level = numbers.next() as u8 % 4;
            state.phys[numbers.below(5)].counters[numbers.below(4)] = numbers.next();
            let code = CODES[n];
            let (number, code) = handled(&header, &mut state, &mut disk, Sent { code, buffer });
            granted[n] += usize::from(code == 0);
            numbers_met.push(number);
            met.push(code);
        }
        for (code, count) in CODES.into_iter().zip(granted) {
            assert_eq!(count > 500, code != 24, "code {code}: {count}");
        }
        assert!([0, 100].iter().all(|number| numbers_met.contains(number)));
        assert!(codes_met.iter().all(|code| met.contains(code)));
    }
}

/// Each code that is served, at each level, on the sample and on the largest adapter.
#[test]
fn each_code_at_each_level() {
    for header in [FIRST, LINUX] {
        for mut state in [sample(), largest()] {
            let mut disk = medium(state.p);
            for (code, body) in bodies() {
                if !CODES.contains(&code) {
                    continue;
                }
                for level in 0..=3 {
                    state.level = level;
                    let buffer = (header.buffer)(code, &body);
                    let answer = handled(&header, &mut state, &mut disk, Sent { code, buffer });
                    let expected = if level < header.lowest { 4 } else { 0 };
                    assert_eq!(answer, (0, expected), "code {code} at {level}");
                }
            }
        }
    }
}

/// Code 22 with reset byte 1: the four counters of the phy that it names, where it is granted.
#[test]
fn the_reset() {
    for header in [FIRST, LINUX] {
        for phy in 0..=255 {
            for level in 0..=3 {
                let (mut state, mut disk) = (largest(), medium(32));
                state.level = level;
                let mut body = [0xCC; 20];
                body[..2].copy_from_slice(&[phy, 1]);
                let buffer = (header.buffer)(22, &body);
                let sent = Sent { code: 22, buffer };
                let (number, code) = handled(&header, &mut state, &mut disk, sent);
                let expected = match (header.size == 28 && level < 3, phy < 32) {
                    (true, _) => 4,
                    (false, true) => 0,
                    (false, false) => 2002,
                };
                assert_eq!((number, code), (0, expected));
            }
        }
    }
}

/// A refused state and a medium of another length: nothing is touched.
#[test]
fn numbers_107_and_106() {
    for header in [FIRST, LINUX] {
        for (code, body) in bodies() {
            for (mut state, mut disk, expected) in [
                (State::ZERO, medium(5), 107),
                (sample(), medium(4), 106),
                (sample(), Vec::new(), 106),
            ] {
                let buffer = (header.buffer)(code, &body);
                let answer = handled(&header, &mut state, &mut disk, Sent { code, buffer });
                assert_eq!(answer.0, expected);
            }
        }
    }
}
