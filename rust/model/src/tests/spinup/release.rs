//! An accepted code 21 on a held phy: it sets the byte to 0 before its link reset, and also when it
//! disables the phy.

use super::{set, Header, FIRST, LINUX};
use crate::tests::adapter::{
    address, blocks, fis, medium, passthrough, sample, sample_held, sealed, stage, FULL,
};
use crate::{open, State};

/// The reply to a read of sector 2 of phy n: code and body.
fn read(header: &Header, state: &State, n: u8) -> (u32, Vec<u8>) {
    let body = read_of(n);
    let (mut after, mut disk) = (state.clone(), medium(state.p));
    let answer = header.answer(&mut after, &mut disk, &mut stage(), 25, &body);
    assert_eq!((&after, disk), (state, medium(state.p)));
    answer
}

fn read_of(n: u8) -> Vec<u8> {
    let mut body = passthrough(fis(0x20, 2, 1), &[0xCC; 512]);
    body[0] = n;
    body[4..12].copy_from_slice(&address(n));
    body
}

/// What a read that reaches the disk of phy n answers, whole.
fn sector_of(n: u8) -> Vec<u8> {
    let sent = read_of(n);
    let sector = 8192 * usize::from(n) + 2 * 512;
    [
        &sent[..44],
        &[0; 4],
        &[0x34, 0, 0x50, 0],
        &sent[20..30],
        &[0; 6 + 64],
        &512u32.to_le_bytes(),
        &medium(5)[sector..sector + 512],
    ]
    .concat()
}

/// From the file: not connected; released; connected.
#[test]
fn a_disk_is_released() {
    for header in [FIRST, LINUX] {
        for (n, maximum, rate) in [(0, 0, 9), (0, 8, 8), (0, 9, 9), (4, 0, 9)] {
            let k = usize::from(n);
            let mut held = blocks(&sample());
            held[1 + k][104] = 1;
            held[1 + k][29] = 3;
            let (number, mut state) = open(FULL, &sealed(held), &medium(5));
            assert_eq!(number, 0);
            assert_eq!(read(&header, &state, n), (2008, read_of(n)));

            assert_eq!(set(&header, &mut state, [n, 0, 0, maximum, 3, 7, 7, 7]), 0);
            let mut expected = sample();
            expected.phys[k].entity[21] = 3;
            expected.phys[k].entity[29] = rate;
            if maximum == 8 {
                expected.phys[k].entity[31] = 0x89;
            }
            assert_eq!(state, expected);
            assert_eq!(read(&header, &state, n), (0, sector_of(n)));
            // nothing is left to release
            assert_eq!(set(&header, &mut state, [n, 0, 0, maximum, 3, 7, 7, 7]), 0);
            assert_eq!(state, expected);
        }
    }
}

/// The first header needs Full; the Linux header is never denied.
#[test]
fn at_each_level() {
    for level in 0..=3 {
        for negotiated in [0, 1] {
            let mut before = sample_held(&[0]);
            before.level = level;
            let mut released = before.clone();
            released.phys[0].spinup_hold = 0;
            released.phys[0].entity[29] = if negotiated == 1 { 1 } else { 9 };

            let body = [0, negotiated, 0, 0, 1, 0, 0, 0];
            let mut state = before.clone();
            let code = set(&FIRST, &mut state, body);
            match level {
                3 => assert_eq!((code, &state), (0, &released)),
                _ => assert_eq!((code, &state), (4, &before)),
            }
            let mut state = before;
            assert_eq!(set(&LINUX, &mut state, body), 0);
            assert_eq!(state, released);
        }
    }
}

/// The whole buffer after it: nothing changes but the return code.
#[test]
fn the_reply_whole() {
    for header in [FIRST, LINUX] {
        for (body, code) in [
            ([0, 0, 0, 0, 2, 5, 6, 7], 0),
            ([0, 1, 8, 9, 2, 5, 6, 7], 0),
            ([0, 0, 9, 8, 2, 5, 6, 7], 2001),
        ] {
            let sent = [&(header.buffer)(21, &body)[..], &[0xEE; 9]].concat();
            let (mut state, mut disk) = (sample_held(&[0]), medium(5));
            let mut buffer = sent.clone();
            let number = (header.request)(&mut state, &mut disk, &mut stage(), 21, &mut buffer);
            assert_eq!((number, buffer), (0, header.with_code(sent, code)));
        }
    }
}

/// "and also when it disables the phy": enabled again, it isn't held any more.
#[test]
fn disabled_then_enabled() {
    for header in [FIRST, LINUX] {
        for disabled_before in [false, true] {
            let mut state = sample_held(&[0]);
            if disabled_before {
                state.phys[0].entity[29] = 1;
            }
            let mut expected = sample();
            expected.phys[0].entity[29] = 1;
            assert_eq!(set(&header, &mut state, [0, 1, 0, 0, 1, 0, 0, 0]), 0);
            assert_eq!(state, expected);
            assert_eq!(read(&header, &state, 0).0, 2008);
            assert_eq!(set(&header, &mut state, [0, 0, 0, 0, 1, 0, 0, 0]), 0);
            assert_eq!(state, sample());
            assert_eq!(read(&header, &state, 0), (0, sector_of(0)));
        }
        // held and disabled, then enabled
        let mut state = sample_held(&[0]);
        state.phys[0].entity[29] = 1;
        assert_eq!(set(&header, &mut state, [0, 0, 0, 0, 1, 0, 0, 0]), 0);
        assert_eq!(state, sample());
    }
}

/// A link reset that gives 2 clears the byte and counts; the next that gives a rate gives 9.
#[test]
fn a_failed_link() {
    for header in [FIRST, LINUX] {
        for (counter, counted) in [(48, 49), (u32::MAX - 1, u32::MAX), (u32::MAX, u32::MAX)] {
            // held before, as 3 or as a failed link
            for failed_before in [false, true] {
                let mut state = sample_held(&[4]);
                state.phys[4].counters[3] = counter;
                if failed_before {
                    state.phys[4].entity[29..32].copy_from_slice(&[2, 0x88, 0x89]);
                }
                let mut expected = sample();
                expected.phys[4].counters[3] = counted;
                expected.phys[4].entity[29..32].copy_from_slice(&[2, 0x88, 0x89]);
                assert_eq!(set(&header, &mut state, [4, 0, 0, 8, 1, 0, 0, 0]), 0);
                assert_eq!(state, expected);
                assert_eq!(read(&header, &state, 4).0, 2008);

                expected.phys[4].entity[29..32].copy_from_slice(&[9, 0x88, 0x99]);
                assert_eq!(set(&header, &mut state, [4, 0, 0, 9, 1, 0, 0, 0]), 0);
                assert_eq!(state, expected);
                assert_eq!(read(&header, &state, 4), (0, sector_of(4)));
            }
        }
        // held on a failed link, and at once a range that has a rate
        let mut state = sample_held(&[4]);
        state.phys[4].entity[29..32].copy_from_slice(&[2, 0x88, 0x89]);
        assert_eq!(set(&header, &mut state, [4, 0, 0, 9, 1, 0, 0, 0]), 0);
        assert_eq!(state, sample());
    }
}

/// "on that phy": the others stay held.
#[test]
fn each_phy_has_its_own() {
    for header in [FIRST, LINUX] {
        for (n, left) in [
            (0, &[3, 4][..]),
            (1, &[0, 3, 4]),
            (2, &[0, 3, 4]),
            (4, &[0, 3]),
        ] {
            for negotiated in [0, 1] {
                let mut state = sample_held(&[0, 3, 4]);
                let body = [n, negotiated, 0, 0, 1, 0, 0, 0];
                assert_eq!(set(&header, &mut state, body), 0);
                let mut expected = sample_held(left);
                if negotiated == 1 {
                    expected.phys[usize::from(n)].entity[29] = 1;
                }
                assert_eq!(state, expected);
            }
        }
    }
}
