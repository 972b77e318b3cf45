//! "a short or oversized last one prints `cut` and ends it"; "A cut request counts nowhere."

use super::{prefix, printed, session, FULL};
use crate::tests::adapter::buffer;

/// What is left of a request that is cut, in each of the forms.
fn remains() -> Vec<Vec<u8>> {
    let one = session(&[buffer(1, &[0; 174])]);
    // the length itself, and the bytes
    let short = (1..one.len()).map(|length| one[..length].to_vec());
    let behind = |length: u32, bytes: usize| [&prefix(length)[..], &vec![0; bytes]].concat();
    let oversized = [
        behind(32_769, 32_769),
        behind(32_769, 40_000),
        behind(32_769, 0),
        behind(32_769, 174),
        behind(65_541, 5),
        behind(0x8000_0005, 5),
        behind(0xFFFF_FFFF, 5),
        // behind an oversized one nothing is read
        [behind(32_769, 0), one.clone()].concat(),
        // one byte is missing
        behind(32_768, 32_767),
    ];
    short.chain(oversized).collect()
}

#[test]
fn first() {
    for input in remains() {
        assert_eq!(
            printed(FULL, &input),
            ["request call code", "cut", "total 0 0 0 0 0"]
        );
    }
}

#[test]
fn after_others() {
    let others = session(&[vec![0; 5], buffer(1, &[0; 174]), buffer(24, &[])]);
    for input in remains() {
        assert_eq!(
            printed(FULL, &[&others[..], &input].concat())[1..],
            ["1 100 -", "2 0 0", "3 0 2", "cut", "total 3 1 0 1 1"]
        );
    }
}

/// A denied request that is cut is not denied.
#[test]
fn counts_nowhere() {
    let one = session(&[buffer(1, &[0; 174])]);
    for length in one.len() + 1..2 * one.len() {
        let input = &[&one[..], &one].concat()[..length];
        assert_eq!(
            printed(b"CSMI=None;", input)[1..],
            ["1 0 4", "cut", "total 1 0 1 0 0"]
        );
    }
}

/// A request of 32,768 bytes is whole, and so is one of none.
#[test]
fn not_cut() {
    let input = session(&[vec![0; 32_768], vec![], buffer(1, &[0; 32_740])]);
    assert_eq!(
        printed(FULL, &input)[1..],
        ["1 0 3", "2 100 -", "3 0 0", "total 3 1 0 1 1"]
    );
}
