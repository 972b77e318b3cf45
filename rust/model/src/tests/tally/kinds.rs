//! The kind of a line, by the call's number and the return code.

use super::{line, NONE};
use crate::LineKind;
use crate::LineKind::{Denied, Granted, OtherwiseRefused, Short};

fn kind(number: u32, code: u32) -> LineKind {
    line(number, code).kind()
}

/// Document 01's "0 or 2000" are one number of section 10, whose 2000 is that of a fixed phy.
#[test]
fn return_codes() {
    let expected = |code| match code {
        0 => Granted,
        4 => Denied,
        _ => OtherwiseRefused,
    };
    for code in 0..=3000 {
        assert_eq!(kind(0, code), expected(code), "code {code}");
    }
    for code in [100, 107, 0x100, 0x104, 0x0400_0000, 0x8000_0000] {
        assert_eq!(kind(0, code), OtherwiseRefused, "code {code}");
    }
    assert_eq!(kind(0, NONE - 1), OtherwiseRefused);
    assert_eq!(kind(0, NONE), OtherwiseRefused);
}

/// What stands in the place of the return code is not looked at beside another number than 0.
#[test]
fn calls() {
    for code in [0, 1, 4, 100, 2000, NONE] {
        for number in [
            1, 4, 99, 101, 104, 106, 107, 108, 109, 2000, 0x64_0000, NONE,
        ] {
            assert_eq!(kind(number, code), OtherwiseRefused, "{number} {code}");
        }
        assert_eq!(kind(100, code), Short, "code {code}");
    }
    for number in 1..=300 {
        let expected = if number == 100 {
            Short
        } else {
            OtherwiseRefused
        };
        assert_eq!(kind(number, 0), expected, "{number}");
        assert_eq!(kind(number, 4), expected, "{number}");
    }
}
