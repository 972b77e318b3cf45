//! Firmware in a session (W-207): no output shows the program's stage, but the lines show what is
//! staged.

use super::{printed, session, FULL, RESTRICTED};
use crate::tests::adapter::buffer;
use crate::tests::firmware::{commit, image, validation};

/// Nothing is staged at first; a validation, a failed one, two commits; and what is over 32 blocks.
fn requests() -> Vec<u8> {
    let mut damaged = image(2, [5, 6, 7, 8]);
    damaged[600] ^= 1;
    let bodies = [
        commit(),
        validation(&image(1, [1, 2, 3, 4])),
        validation(&damaged),
        commit(),
        commit(),
        validation(&image(32, [1, 2, 3, 4])),
        validation(&image(33, [1, 2, 3, 4])),
        commit(),
    ];
    session(&bodies.map(|body| buffer(4, &body)))
}

#[test]
fn validated_and_committed() {
    for text in [FULL, b"", b"CSMI=Limited;"] {
        assert_eq!(
            printed(text, &requests())[1..],
            [
                "1 0 1",
                "2 0 0",
                "3 0 1",
                "4 0 0",
                "5 0 1",
                "6 0 0",
                "7 0 3",
                "8 0 0",
                "total 8 4 0 4 0"
            ]
        );
    }
}

#[test]
fn denied() {
    for text in [RESTRICTED, b"CSMI=None;"] {
        let lines = printed(text, &requests());
        assert!(lines[1..9].iter().all(|line| line.ends_with(" 0 4")));
        assert_eq!(lines[9], "total 8 0 8 0 0");
    }
}
