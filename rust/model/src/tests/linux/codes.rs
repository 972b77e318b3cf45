//! Which codes are known, and that each is served at every level.

use super::{answer, buffer, code_of};
use crate::tests::adapter::{fis, medium, passthrough, sample, sample_at, stage};
use crate::tests::header::bodies;

/// The numbers that Linux's own ioctl calls have for the codes served (section 10).
const IOCTL: [u32; 12] = [
    0xCC77_0001,
    0xCC77_0002,
    0xCC77_0003,
    0xCC77_0004,
    0xCC77_0014,
    0xCC77_0015,
    0xCC77_0016,
    0xCC77_0019,
    0xCC77_0020,
    0xCC77_0021,
    0xCC77_0022,
    0xCC77_0024,
];

#[test]
fn unknown_codes() {
    let others = [257, 0x0100_0001, 0x1500_0000, 0x8000_0015, u32::MAX];
    let known = |code: &u32| matches!(code, 1..=4 | 20..=22 | 25..=28 | 30);
    let unknown = (0..300).filter(|code| !known(code));
    for code in unknown.chain(others).chain(IOCTL) {
        assert_eq!(answer(code, &mut buffer(&[0; 2052])), 2, "{code:x}");
        // also where no structure would fit, and whatever Length is
        for length in [0, 12, 19, 20, 21, u32::MAX] {
            let mut sent = buffer(&[]);
            sent[4..8].copy_from_slice(&length.to_le_bytes());
            assert_eq!(answer(code, &mut sent), 2, "{code:x}");
        }
    }
}

/// The code beside the buffer decides, whatever the buffer holds.
#[test]
fn the_code_is_not_in_the_buffer() {
    let mut sent = buffer(&[0xCC; 2052]);
    assert_eq!(answer(1, &mut sent), 0);
    assert_eq!(sent[20..194], sample().driver_info);
    assert_eq!(answer(20, &mut sent), 0);
    assert_eq!(sent[20..24], [5, 0, 0, 0]);
}

#[test]
fn each_code_at_each_level() {
    for level in 0..=3 {
        for (control, body) in bodies() {
            let code = code_of(
                &mut sample_at(level),
                &mut medium(5),
                &mut stage(),
                control,
                &mut buffer(&body),
            );
            assert_eq!(code, 0, "code {control} at {level}");
        }
    }
}

/// A change of a phy, which needs Full with the first header.
#[test]
fn code_21_at_each_level() {
    for level in 0..=3 {
        let mut state = sample_at(level);
        let mut sent = buffer(&[0, 1, 9, 9, 3, 0, 0, 0]);
        let (mut disk, mut stage) = (medium(5), stage());
        let code = code_of(&mut state, &mut disk, &mut stage, 21, &mut sent);
        assert_eq!(code, 0);
        let mut expected = sample_at(level);
        expected.phys[0].entity[21] = 3;
        expected.phys[0].entity[29..32].copy_from_slice(&[1, 0x98, 0x99]);
        assert_eq!(state, expected);
    }
}

/// A write, which needs Full with the first header, and then a read of what it wrote.
#[test]
fn code_25_writes_at_each_level() {
    for level in 0..=3 {
        let (mut state, mut disk, mut stage) = (sample_at(level), medium(5), stage());
        let mut write = buffer(&passthrough(fis(0x30, 14, 2), &[0x99; 1024]));
        let code = code_of(&mut state, &mut disk, &mut stage, 25, &mut write);
        assert_eq!(code, 0);
        let mut expected = medium(5);
        expected[14 * 512..16 * 512].fill(0x99);
        assert_eq!((&state, &disk), (&sample_at(level), &expected));
        // status FIS and uDataBytes
        assert_eq!(write[68..72], [0x34, 0, 0x50, 0]);
        assert_eq!(write[152..156], [0, 4, 0, 0]);
        let mut read = buffer(&passthrough(fis(0x20, 15, 1), &[0; 512]));
        let code = code_of(&mut state, &mut disk, &mut stage, 25, &mut read);
        assert_eq!(code, 0);
        assert_eq!(read[156..], [0x99; 512]);
    }
}

/// Every command of code 25 at level None: none of them is 4.
#[test]
fn each_command_at_none() {
    for command in 0..=255 {
        let mut sent = buffer(&passthrough(fis(command, 0, 1), &[0; 512]));
        let (mut state, mut disk, mut stage) = (sample_at(0), medium(5), stage());
        let code = code_of(&mut state, &mut disk, &mut stage, 25, &mut sent);
        assert_eq!(code, 0, "{command:x}");
        let status = match command {
            0x20 | 0x30 | 0xEC | 0xE5 => 0x50,
            _ => 0x51,
        };
        assert_eq!(sent[70], status, "{command:x}");
    }
}

/// The codes' own checks, each in a return code, at level None.
#[test]
fn own_checks_at_none() {
    let of = |control, body: &[u8]| {
        let mut sent = buffer(body);
        let (mut state, mut disk, mut stage) = (sample_at(0), medium(5), stage());
        code_of(&mut state, &mut disk, &mut stage, control, &mut sent)
    };
    assert_eq!(of(21, &[5, 9, 9, 9, 9, 0, 0, 0]), 2002);
    assert_eq!(of(21, &[3, 9, 7, 7, 9, 0, 0, 0]), 2000);
    assert_eq!(of(21, &[0, 2, 7, 0, 0, 0, 0, 0]), 3);
    assert_eq!(of(21, &[0, 0, 9, 8, 0, 0, 0, 0]), 2001);
    assert_eq!(of(22, &[5; 20]), 3);
    assert_eq!(of(22, &[&[5, 1][..], &[0; 18]].concat()), 2002);
    assert_eq!(of(26, &[5; 24]), 2002);
    assert_eq!(of(26, &[1; 24]), 2009);
    assert_eq!(of(26, &[3; 24]), 2010);
    assert_eq!(of(27, &[0; 20]), 2013);
    assert_eq!(of(28, &[0; 20]), 2014);
    let reach = |phy, port, destination| {
        let mut body = passthrough(fis(0x30, 0, 1), &[0; 512]);
        body[..2].copy_from_slice(&[phy, port]);
        body[4..12].copy_from_slice(&crate::tests::adapter::address(destination));
        of(25, &body)
    };
    assert_eq!(reach(0xFF, 0xFF, 0), 2005);
    assert_eq!(reach(5, 0xFF, 0), 2002);
    assert_eq!(reach(0, 4, 0), 2006);
    assert_eq!(reach(0, 3, 0), 2003);
    assert_eq!(reach(0, 0xFF, 1), 2008);
    assert_eq!(of(25, &passthrough(fis(0x30, 0, 1), &[0; 511])), 3);
}
