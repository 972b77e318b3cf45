//! A refused code 21 leaves a held phy as it is.

use super::{set, FIRST, LINUX};
use crate::request;
use crate::tests::adapter::{medium, sample_held, stage};

/// Each reason of a refusal. Phys 0, 3 and 4 are held, 3 is fixed.
#[test]
fn a_refused_request_leaves_the_hold() {
    let mut before = sample_held(&[0, 3, 4]);
    before.phys[4].entity[30..32].copy_from_slice(&[0x99, 0x99]);
    for header in [FIRST, LINUX] {
        for (body, code) in [
            ([5, 0, 0, 0, 0], 2002),
            ([0xFF, 0, 0, 0, 0], 2002),
            ([3, 0, 0, 0, 0], 2000),
            ([3, 1, 0, 0, 0], 2000),
            ([0, 2, 0, 0, 0], 3),
            ([0, 3, 0, 0, 0], 3),
            ([0, 0xFF, 0, 0, 0], 3),
            ([0, 0, 0, 0, 4], 3),
            ([0, 1, 0, 0, 0xFF], 3),
            ([0, 0, 7, 0, 0], 2001),
            ([0, 0, 0, 10, 0], 2001),
            ([0, 1, 0, 3, 0], 2001),
            // inverted
            ([0, 0, 9, 8, 0], 2001),
            ([0, 1, 9, 8, 0], 2001),
            // below the hardware's range
            ([4, 0, 8, 0, 0], 2001),
            ([4, 1, 8, 9, 0], 2001),
        ] {
            let [phy, negotiated, minimum, maximum, class] = body;
            let body = [phy, negotiated, minimum, maximum, class, 0, 0, 0];
            let mut state = before.clone();
            assert_eq!(set(&header, &mut state, body), code, "{body:?}");
            assert_eq!(state, before);
        }
    }
}

type Fault = (fn(&mut Vec<u8>, &mut Vec<u8>), u32, u32);

/// What is wrong with a buffer or a medium, the call's number and the return code.
const FAULTS: [Fault; 6] = [
    (|_, disk| disk.push(0), 106, 0x5555_5555),
    (|buffer, _| buffer.truncate(27), 100, 0x5555_5555),
    (|buffer, _| buffer[0] = 27, 0, 3),
    (|buffer, _| buffer[16] = 24, 0, 2),
    (|buffer, _| buffer[4] = b'c', 0, 2),
    (|buffer, _| buffer[24] = 7, 0, 3),
];

/// Refused by its header, or before it.
#[test]
fn a_refused_header_leaves_the_hold() {
    for (put, number, code) in FAULTS {
        let (mut state, mut disk) = (sample_held(&[0]), medium(5));
        let mut buffer = (FIRST.buffer)(21, &[0; 8]);
        put(&mut buffer, &mut disk);
        let answered = request(&mut state, &mut disk, &mut stage(), &mut buffer);
        assert_eq!(answered, number);
        assert_eq!(FIRST.return_code(&buffer), code);
        assert_eq!(state, sample_held(&[0]));
    }
}
