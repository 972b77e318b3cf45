//! All that the program prints: openings, a line for each request, `cut`, and the total of W-206.

mod cut;
mod firmware;
mod openings;
mod sessions;

use super::adapter::{file, sample, FULL};
use crate::program;

const RESTRICTED: &[u8] = b"CSMI=Restricted;";

/// A session of these requests.
fn session(requests: &[Vec<u8>]) -> Vec<u8> {
    requests
        .iter()
        .flat_map(|request| [&prefix(request.len() as u32)[..], request].concat())
        .collect()
}

/// The length that stands before a request.
fn prefix(length: u32) -> [u8; 4] {
    length.to_le_bytes()
}

/// The lines that are printed of the sample; the last ends too.
fn printed(text: &[u8], input: &[u8]) -> Vec<String> {
    let printed = program(text, &file(&sample()), input);
    assert!(printed.ends_with('\n'));
    printed.lines().map(str::to_string).collect()
}
