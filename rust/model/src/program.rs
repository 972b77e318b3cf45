//! The program ("Starred cases", at the end): all that it prints.

use crate::bytes::u32_at;
use crate::codes::call;
use crate::disk;
use crate::file::open;
use crate::layout::file::PHY_COUNT;
use crate::layout::header::RETURN_CODE;
use crate::layout::record::NO_CODE;
use crate::layout::STAGE;
use crate::request::request;
use crate::state::State;
use crate::tally::{Line, Totals};

/// "adapter.bin (p up to 7)".
const MAX_PHYS: u8 = 7;

/// "a 4-byte length (up to 32,768)".
const MAX_REQUEST: u32 = 32_768;

/// What the program prints, given level.txt, adapter.bin and standard input. "A missing file counts
/// as empty."
pub fn program(text: &[u8], file: &[u8], input: &[u8]) -> String {
    match opened(text, file) {
        Ok((state, medium)) => run(state, medium, &Session::of(input)),
        // "A refused opening prints only `open` and its number."
        Err(number) => format!("open {number}\n"),
    }
}

/// The state and the medium, or the number of a refused opening.
fn opened(text: &[u8], file: &[u8]) -> Result<(State, Vec<u8>), u32> {
    let p = file.get(PHY_COUNT).copied().unwrap_or(0);
    // "byte 0 of the file over 7 prints `open 104` and opens nothing"
    if p > MAX_PHYS {
        return Err(call::COUNT_OR_FIELD);
    }
    // "The medium starts at zero."
    let medium = vec![0; disk::medium_length(p)];
    match open(text, file, &medium) {
        (call::DONE, state) => Ok((state, medium)),
        (number, _) => Err(number),
    }
}

/// The requests of a session in their order, and how it ends.
struct Session<'a> {
    requests: Vec<&'a [u8]>,
    end: End,
}

enum End {
    Whole,
    /// "a short or oversized last one".
    Cut,
}

impl Session<'_> {
    fn of(mut input: &[u8]) -> Session<'_> {
        let mut requests = Vec::new();
        while let Some((request, rest)) = first_request(input) {
            requests.push(request);
            input = rest;
        }
        let end = match input {
            [] => End::Whole,
            _ => End::Cut,
        };
        Session { requests, end }
    }
}

/// The first request, "a 4-byte length .., then its bytes", and what follows it; `None` where there
/// is none, or a cut one.
fn first_request(input: &[u8]) -> Option<(&[u8], &[u8])> {
    let (length, rest) = input.split_first_chunk()?;
    let length = u32::from_le_bytes(*length);
    if length > MAX_REQUEST {
        return None;
    }
    rest.split_at_checked(length as usize)
}

/// What is printed after an accepted opening.
fn run(mut state: State, mut medium: Vec<u8>, session: &Session) -> String {
    // W-207: it starts at zero as the medium does
    let mut stage = [0; STAGE];
    let handled = |sent: &&[u8]| handled(&mut state, &mut medium, &mut stage, sent);
    let lines: Vec<Line> = session.requests.iter().map(handled).collect();
    let mut printed = "request call code\n".to_string();
    for (n, line) in (1..).zip(&lines) {
        printed += &format!("{n} {} {}\n", line.number, code(line));
    }
    printed += match session.end {
        End::Whole => "",
        End::Cut => "cut\n",
    };
    // "the program's last line, after any `cut`" (W-206)
    printed += &format!("{}\n", Totals::of_lines(&lines));
    printed
}

/// Handles a request "in a buffer of its own".
fn handled(state: &mut State, medium: &mut [u8], stage: &mut [u8], sent: &[u8]) -> Line {
    let mut buffer = sent.to_vec();
    let number = request(state, medium, stage, &mut buffer);
    let code = match number {
        call::DONE => u32_at(&buffer, RETURN_CODE),
        _ => NO_CODE,
    };
    Line { number, code }
}

/// "the return code or `-`".
fn code(line: &Line) -> String {
    match line.number {
        call::DONE => line.code.to_string(),
        _ => "-".to_string(),
    }
}
