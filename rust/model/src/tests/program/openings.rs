//! Openings that are refused, and the most that is accepted.

use super::session;
use crate::program;
use crate::tests::adapter::{blocks, buffer, cut, file, largest, sample, sealed, FULL};

/// A session of one request, which no refused opening looks at.
fn one() -> Vec<u8> {
    session(&[buffer(1, &[0; 174])])
}

/// Nothing but the number is printed, whatever stands on standard input.
fn refused(text: &[u8], file: &[u8], number: u32) {
    for input in [&one()[..], b"", b"\x05"] {
        let printed = program(text, file, input);
        assert_eq!(printed, format!("open {number}\n"));
    }
}

#[test]
fn missing_files() {
    refused(b"", b"", 102);
    refused(b"CSMI=", b"", 101);
    // without a text the level is Limited
    let printed = program(b"", &file(&sample()), &one());
    assert_eq!(printed, "request call code\n1 0 0\ntotal 1 1 0 0 0\n");
}

#[test]
fn texts() {
    let file = file(&sample());
    refused(b"CSMI=full;", &file, 101);
    refused(&[b'x'; 1025], &file, 101);
    let printed = program(&[b'x'; 1024], &file, b"");
    assert_eq!(printed, "request call code\ntotal 0 0 0 0 0\n");
}

#[test]
fn files() {
    let whole = file(&sample());
    refused(FULL, &whole[..511], 102);
    refused(FULL, &[&whole[..], &[0]].concat(), 102);
    let mut damaged = whole.clone();
    damaged[600] ^= 1;
    refused(FULL, &damaged, 103);
    let mut state = sample();
    state.phys[0].fixed = 2;
    refused(FULL, &file(&state), 104);
    let mut state = sample();
    state.rows[1].os = state.rows[0].os;
    refused(FULL, &file(&state), 105);
    let mut blocks = blocks(&sample());
    blocks[0][0] = 0;
    refused(FULL, &sealed(blocks), 104);
}

#[test]
fn up_to_7_phys() {
    for p in 1..=7 {
        let printed = program(FULL, &file(&cut(p, 2)), &one());
        assert_eq!(printed, "request call code\n1 0 0\ntotal 1 1 0 0 0\n");
    }
    refused(FULL, &file(&cut(8, 2)), 104);
    refused(FULL, &file(&largest()), 104);
}

/// Byte 0 is looked at before anything else: the text, the length, block 0's check.
#[test]
fn over_7_first() {
    for text in [FULL, b"CSMI=full;", &[b'x'; 1025]] {
        for p in 8..=255 {
            refused(text, &[p], 104);
        }
        refused(text, &file(&cut(8, 0)), 104);
        refused(text, &[8; 512], 104);
    }
    refused(b"CSMI=full;", &[7], 101);
    refused(FULL, &[7], 102);
    refused(FULL, &[7; 512], 103);
}
