//! What is answered of a held phy by every code but 21, with either header, at every level; none of
//! them releases it.

use super::{Header, FIRST, LINUX};
use crate::tests::adapter::{address, fis, medium, passthrough, sample_at, sample_held, stage};
use crate::tests::header::bodies;
use crate::State;

/// The sample with these phys held, at a level.
fn held_at(phys: &[usize], level: u8) -> State {
    let mut state = sample_held(phys);
    state.level = level;
    state
}

/// A request that leaves state, medium and stage as they are: its return code, and the body
/// afterwards.
fn asked(header: &Header, state: &State, code: u32, body: &[u8]) -> (u32, Vec<u8>) {
    let (mut after, mut disk, mut lent) = (state.clone(), medium(5), stage());
    let answer = header.answer(&mut after, &mut disk, &mut lent, code, body);
    assert_eq!((&after, disk), (state, medium(5)), "code {code}");
    assert_eq!(lent, stage(), "code {code}");
    answer
}

/// The reply whole: the count, 3 in the place of the rate of phys 0 and 3, and what stands behind.
#[test]
fn code_20_shows_the_wait() {
    for header in [FIRST, LINUX] {
        for level in header.lowest..=3 {
            for (before, more) in [(0x00, 0), (0xFF, 1), (0xCC, 700)] {
                let mut expected = vec![before; 2052 + more];
                expected[..4].copy_from_slice(&[5, 0, 0, 0]);
                for (n, phy) in sample_at(level).phys.iter().enumerate() {
                    expected[4 + 64 * n..][..64].copy_from_slice(&phy.entity);
                }
                expected[4 + 29] = 3;
                expected[4 + 64 * 3 + 29] = 3;
                let body = vec![before; 2052 + more];
                let answer = asked(&header, &held_at(&[0, 3], level), 20, &body);
                assert_eq!(answer, (0, expected));
            }
        }
    }
}

/// Of a held phy that is disabled or failed, code 20 shows that.
#[test]
fn code_20_of_disabled_and_failed() {
    for negotiated in [1, 2] {
        let mut state = sample_held(&[4]);
        state.phys[4].entity[29..32].copy_from_slice(&[negotiated, 0x88, 0x89]);
        for header in [FIRST, LINUX] {
            let (code, body) = asked(&header, &state, 20, &[0xCC; 2052]);
            assert_eq!((code, body[4 + 64 * 4 + 29]), (0, negotiated));
        }
    }
}

#[test]
fn code_22_counts_and_keeps_the_hold() {
    for header in [FIRST, LINUX] {
        for (reset, lowest) in [(0, 1), (1, 3)] {
            for level in 0..=3 {
                let (mut state, mut disk) = (held_at(&[0], level), medium(5));
                let mut body = [0xCC; 20];
                body[..2].copy_from_slice(&[0, reset]);
                let (code, reply) = header.answer(&mut state, &mut disk, &mut stage(), 22, &body);
                let mut expected = held_at(&[0], level);
                if header.size == 28 && level < lowest {
                    assert_eq!(code, 4);
                } else {
                    let counters = [11u32, 22, 33, 44].map(u32::to_le_bytes).concat();
                    assert_eq!((code, &reply[4..]), (0, &counters[..]));
                    if reset == 1 {
                        expected.phys[0].counters = [0; 4];
                    }
                }
                assert_eq!((state, disk), (expected, medium(5)));
            }
        }
    }
}

/// The code of a passthrough with these phy, port, rate and destination.
fn reach(header: &Header, state: &State, [phy, port, rate, destination]: [u8; 4]) -> u32 {
    let mut body = passthrough(fis(0x20, 0, 1), &[0xCC; 512]);
    body[..3].copy_from_slice(&[phy, port, rate]);
    body[4..12].copy_from_slice(&address(destination));
    asked(header, state, 25, &body).0
}

/// "Connected if .. negotiated 8 or 9": by phy, by port and by both, at each connection rate.
#[test]
fn code_25_is_not_connected() {
    let state = sample_held(&[0]);
    for header in [FIRST, LINUX] {
        for [phy, port] in [[0, 0xFF], [0xFF, 2], [0, 2]] {
            for rate in 0..=255 {
                let expected = if matches!(rate, 0 | 8 | 9) { 2008 } else { 3 };
                assert_eq!(reach(&header, &state, [phy, port, rate, 0]), expected);
                assert_eq!(reach(&header, &state, [phy, port, rate, 1]), expected);
            }
        }
        // the checks before it
        assert_eq!(reach(&header, &state, [0xFF, 0xFF, 0, 0]), 2005);
        assert_eq!(reach(&header, &state, [0, 3, 0, 0]), 2003);
        // held and disabled
        let mut disabled = state.clone();
        disabled.phys[0].entity[29] = 1;
        assert_eq!(reach(&header, &disabled, [0, 0xFF, 0, 0]), 2008);
    }
}

/// "A port alone selects its lowest phy", held or not; the other phys answer.
#[test]
fn code_25_of_other_phys() {
    for header in [FIRST, LINUX] {
        let state = sample_held(&[3]);
        assert_eq!(reach(&header, &state, [0xFF, 3, 0, 3]), 2008);
        assert_eq!(reach(&header, &state, [0xFF, 3, 0, 4]), 2008);
        assert_eq!(reach(&header, &state, [3, 3, 8, 3]), 2008);
        assert_eq!(reach(&header, &state, [4, 3, 9, 4]), 0);
        assert_eq!(reach(&header, &state, [0, 0xFF, 9, 0]), 0);
        let state = sample_held(&[0, 4]);
        assert_eq!(reach(&header, &state, [0xFF, 3, 8, 3]), 0);
        assert_eq!(reach(&header, &state, [4, 3, 9, 4]), 2008);
        assert_eq!(reach(&header, &state, [0, 0xFF, 9, 0]), 2008);
    }
}

/// Every command, with room for its data and without: the disk is not asked. Denied before that.
#[test]
fn code_25_with_every_command() {
    for command in 0..=255 {
        for room in [0, 512] {
            let body = passthrough(fis(command, 0, 1), &vec![0xCC; room]);
            for level in 0..=3 {
                let state = held_at(&[0], level);
                assert_eq!(asked(&LINUX, &state, 25, &body).0, 2008);
                let (code, _) = asked(&FIRST, &state, 25, &body);
                let (mut state, mut disk) = (sample_at(level), medium(5));
                let (free, _) = FIRST.answer(&mut state, &mut disk, &mut stage(), 25, &body);
                assert_eq!(code, if free == 4 { 4 } else { 2008 });
            }
            assert_eq!(asked(&FIRST, &held_at(&[0], 3), 25, &body).0, 2008);
        }
    }
    for (command, need) in [(0x20, 1), (0xEC, 1), (0xE5, 1), (0xE8, 2), (0x30, 3)] {
        let body = passthrough(fis(command, 0, 1), &[0xCC; 512]);
        for level in 0..=3 {
            let expected = if level < need { 4 } else { 2008 };
            assert_eq!(asked(&FIRST, &held_at(&[0], level), 25, &body).0, expected);
        }
    }
}

/// The signature is the phy's, held at spin-up or not, disabled or not.
#[test]
fn code_26_still_answers() {
    for header in [FIRST, LINUX] {
        for level in header.lowest..=3 {
            for negotiated in [1, 3] {
                let mut state = held_at(&[0, 4], level);
                state.phys[0].entity[29] = negotiated;
                let signature: Vec<u8> = (0x34..0x48).collect();
                let body = [&[0, 0xAA, 0xBB, 0xCC][..], &[0xDD; 20]].concat();
                let expected = [&body[..4], &signature].concat();
                assert_eq!(asked(&header, &state, 26, &body), (0, expected));
                // no signature
                assert_eq!(asked(&header, &state, 26, &[4; 24]).0, 2010);
            }
        }
    }
}

/// Every code but 4, 21 and 25 answers as without the hold, but for the byte that code 20 shows.
#[test]
fn the_other_codes() {
    for header in [FIRST, LINUX] {
        for (code, body) in bodies() {
            if matches!(code, 4 | 21 | 25) {
                continue;
            }
            for level in 0..=3 {
                let mut expected = asked(&header, &sample_at(level), code, &body);
                if code == 20 && expected.0 == 0 {
                    expected.1[4 + 29] = 3;
                }
                let answer = asked(&header, &held_at(&[0], level), code, &body);
                assert_eq!(answer, expected, "code {code} at {level}");
            }
        }
    }
}
