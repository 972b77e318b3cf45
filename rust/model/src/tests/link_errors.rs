//! Code 22 and its need (W-202): every reset byte at every level, with a phy and without, behind
//! either header; the checks before the need; and two runs.

use super::adapter::{self, medium, sample_at, stage};
use super::linux;
use crate::{denied, request, State};

/// The body of a request; what is filled in has another value before.
fn body(phy: u8, reset: u8) -> [u8; 20] {
    let mut body = [0xCC; 20];
    body[..2].copy_from_slice(&[phy, reset]);
    body
}

struct Header {
    size: usize,
    buffer: fn(&[u8]) -> Vec<u8>,
    code_of: fn(&mut State, &mut [u8], &mut [u8], &mut [u8]) -> u32,
    denied: fn(&State, &[u8], &[u8], &[u8]) -> bool,
}

const FIRST: Header = Header {
    size: 28,
    buffer: |body| adapter::buffer(22, body),
    code_of: adapter::code_of,
    denied,
};

const LINUX: Header = Header {
    size: 20,
    buffer: linux::buffer,
    code_of: |state, medium, stage, buffer| linux::code_of(state, medium, stage, 22, buffer),
    denied: |_, _, _, _| false,
};

impl Header {
    /// The return code of a request, and its buffer afterwards. With 0 the counters are reported,
    /// and all four cleared if the reset byte is 1; with another nothing changes but the code. The
    /// stage never does.
    fn send(&self, state: &mut State, medium: &mut [u8], phy: u8, reset: u8) -> (u32, Vec<u8>) {
        let (mut information, mut expected) = (body(phy, reset), state.clone());
        let mut buffer = (self.buffer)(&information);
        let mut staged = stage();
        let was_denied = (self.denied)(state, medium, &staged, &buffer);
        let code = (self.code_of)(state, medium, &mut staged, &mut buffer);
        assert_eq!(staged, stage());
        if code == 0 {
            let counters = &mut expected.phys[usize::from(phy)].counters;
            information[4..].copy_from_slice(&counters.map(u32::to_le_bytes).concat());
            if reset == 1 {
                *counters = [0; 4];
            }
        }
        assert_eq!(was_denied, code == 4);
        assert_eq!(buffer[self.size..], information);
        assert_eq!(*state, expected);
        (code, buffer)
    }
}

/// The codes at None, Restricted, Limited and Full, and the one with the Linux header at each.
fn codes(phy: u8, reset: u8) -> ([u32; 4], u32) {
    let exists = phy < 5;
    match (reset, exists) {
        (0, true) => ([4, 0, 0, 0], 0),
        (0, false) => ([4, 2002, 2002, 2002], 2002),
        (1, true) => ([4, 4, 4, 0], 0),
        (1, false) => ([4, 4, 4, 2002], 2002),
        (2.., _) => ([4, 3, 3, 3], 3),
    }
}

#[test]
fn every_reset_byte_at_every_level() {
    let mut medium = medium(5);
    for reset in 0..=255 {
        for phy in [0, 4, 5, 255] {
            let (of_first, of_linux) = codes(phy, reset);
            for (header, expected) in [(FIRST, of_first), (LINUX, [of_linux; 4])] {
                let answers = [0, 1, 2, 3].map(|level| {
                    let (code, _) = header.send(&mut sample_at(level), &mut medium, phy, reset);
                    code
                });
                assert_eq!(answers, expected, "phy {phy}, reset byte {reset}");
            }
        }
    }
}

type Fault = (fn(&mut State, &mut Lent, &mut Vec<u8>), u32, u32);

/// The medium and the stage.
struct Lent {
    medium: Vec<u8>,
    stage: Vec<u8>,
}

/// What stands in the place of the return code before the call.
const UNWRITTEN: u32 = 0x5555_5555;

/// One for each check before the level, with the call's number and the return code.
const FAULTS: [Fault; 9] = [
    (|state, _, _| state.a = 65, 107, UNWRITTEN),
    (|_, lent, _| lent.medium.push(0), 106, UNWRITTEN),
    (|_, lent, _| lent.stage.push(0), 106, UNWRITTEN),
    (|_, _, buffer| buffer.truncate(27), 100, UNWRITTEN),
    (|_, _, buffer| buffer[0] = 27, 0, 3),
    (|_, _, buffer| buffer[16] = 24, 0, 2),
    (|_, _, buffer| buffer[11] = 1, 0, 2),
    (|_, _, buffer| buffer[24] = 19, 0, 3),
    (|_, _, buffer| buffer[24] = 21, 0, 3),
];

/// None of these is denied, and no level, reset byte or phy alters its answer.
#[test]
fn checks_before_the_need() {
    for (put, number, code) in FAULTS {
        for level in 0..=3 {
            for (phy, reset) in [(0, 0), (0, 1), (5, 1), (0, 2)] {
                let mut state = sample_at(level);
                let (medium, stage) = (medium(5), stage());
                let mut lent = Lent { medium, stage };
                let mut sent = adapter::buffer(22, &body(phy, reset));
                put(&mut state, &mut lent, &mut sent);
                let Lent { medium, stage } = &mut lent;
                assert!(!denied(&state, medium, stage, &sent));

                let (before, mut reply) = (state.clone(), sent.clone());
                assert_eq!(request(&mut state, medium, stage, &mut reply), number);
                sent[20..24].copy_from_slice(&code.to_le_bytes());
                assert_eq!((state, reply), (before, sent));
            }
        }
    }
}

/// Phy and reset byte of the requests of two runs; each is sent with either header.
const SESSION: [(u8, u8); 7] = [(4, 0), (4, 1), (4, 0), (0, 1), (0, 2), (5, 1), (0, 0)];

/// "Denials go by this need, in the two-run comparison too": the higher run is not given what the
/// lower denies. Before each request a failed link of phy 4 adds to its counters.
fn compare(lower: u8, higher: u8) {
    let mut medium = medium(5);
    let [mut low, mut high] = [lower, higher].map(sample_at);
    for (phy, reset) in SESSION {
        for header in [LINUX, FIRST] {
            for state in [&mut low, &mut high] {
                let mut failing = linux::buffer(&[4, 0, 0, 8, 0, 0, 0, 0]);
                let code = linux::code_of(state, &mut medium, &mut stage(), 21, &mut failing);
                assert_eq!(code, 0);
            }
            let (code, reply) = header.send(&mut low, &mut medium, phy, reset);
            if code != 4 {
                let other = header.send(&mut high, &mut medium, phy, reset);
                assert_eq!(other, (code, reply));
            }
        }
    }
    high.level = lower;
    assert_eq!(low, high);
}

#[test]
fn two_runs() {
    for higher in 0..=3 {
        for lower in 0..=higher {
            compare(lower, higher);
        }
    }
}
