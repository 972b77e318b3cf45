//! The starred cases and the worked example.

use super::adapter::{buffer, file, medium, return_code, sample, stage};
use crate::disk::Outcome;
use crate::file::file_length;
use crate::level::Level;
use crate::link::link_rule;
use crate::rates::Rates;
use crate::{block_check, denied, open, request};

#[test]
fn texts() {
    let of = Level::of_text;
    assert_eq!(of(b""), Some(Level::Limited));
    assert_eq!(of(b"Something=here;CSMI=Full;"), Some(Level::Full));
    assert_eq!(of(b"CSMI=full;"), None);
    assert_eq!(of(b"CSMI=Full"), None);
    assert_eq!(of(b"XCSMI=None;"), Some(Level::Limited));
}

#[test]
fn more_texts() {
    let of = Level::of_text;
    assert_eq!(of(b"CSMI=None;"), Some(Level::None));
    assert_eq!(of(b"CSMI=Restricted;tail"), Some(Level::Restricted));
    assert_eq!(of(b";;CSMI=Limited;"), Some(Level::Limited));
    assert_eq!(of(b"CSMI=Full;CSMI=Full;"), None);
    assert_eq!(of(b"CSMI=Full;CSMI="), None);
    assert_eq!(of(b"CSMI=Full;CSMI"), Some(Level::Full));
    assert_eq!(of(b" CSMI=Full;"), Some(Level::Limited));
    assert_eq!(of(b"CSMI=Full ;"), None);
    assert_eq!(of(&[b'x'; 1024]), Some(Level::Limited));
    assert_eq!(of(&[b'x'; 1025]), None);
}

#[test]
fn needs() {
    assert_eq!(Level::of_command(0xE8), Level::Limited);
    assert_eq!(Level::of_command(0xA0), Level::Full);
    assert_eq!(Level::of_command(0x20), Level::Restricted);
    let count = |level| {
        (0..=255)
            .filter(|&command| Level::of_command(command) == level)
            .count()
    };
    assert_eq!(count(Level::None), 0);
    assert_eq!(count(Level::Restricted), 23);
    assert_eq!(count(Level::Limited), 2);
}

#[test]
fn checks() {
    assert_eq!(block_check(&[0; 512], 3), 4);
    // 127 words of FFFFFFFFh are -127; the check's own bytes don't count.
    assert_eq!(block_check(&[0xFF; 512], 0), 1u32.wrapping_sub(127));
    assert_eq!(block_check(&[0; 512], u32::MAX), 0);
}

#[test]
fn file_lengths() {
    assert_eq!(file_length(4, 25), 5632);
    assert_eq!(file_length(4, 26), 6144);
    assert_eq!(file_length(4, 0), 5120);
    assert_eq!(file_length(32, 64), 35_328);
}

#[test]
fn links() {
    let rates = |lowest, highest| Rates { lowest, highest };
    assert_eq!(link_rule(true, rates(8, 8), rates(9, 9)), 2);
    assert_eq!(link_rule(true, rates(8, 9), rates(8, 9)), 9);
    assert_eq!(link_rule(true, rates(9, 9), rates(8, 8)), 2);
    assert_eq!(link_rule(true, rates(8, 9), rates(8, 8)), 8);
    assert_eq!(link_rule(true, rates(8, 8), rates(8, 9)), 8);
    assert_eq!(link_rule(false, rates(8, 9), rates(8, 9)), 0);
}

#[test]
fn disks() {
    let of = |lba, count| {
        let outcome = Outcome::of(&super::adapter::fis(0x20, lba, count));
        (outcome.status, outcome.error)
    };
    assert_eq!(of(15, 1), (0x50, 0));
    assert_eq!(of(15, 2), (0x51, 0x10));
    assert_eq!(of(0, 0), (0x51, 0x10));
    assert_eq!(of(0, 16), (0x50, 0));
    assert_eq!(of(0, 17), (0x51, 0x10));
    assert_eq!(of(0x0FFF_FFFF, 255), (0x51, 0x10));
}

/// "Restricted, with a sound code 1, a sound code 21 and a 5-byte buffer".
#[test]
fn worked_example() {
    let (number, mut state) = open(b"CSMI=Restricted;", &file(&sample()), &medium(5));
    assert_eq!(number, 0);
    let (mut medium, mut stage) = (medium(5), stage());
    let sent = [
        buffer(1, &[0; 174]),
        buffer(21, &[0, 0, 0, 0, 1, 0, 0, 0]),
        vec![0; 5],
    ];
    let seen = sent.map(|mut buffer| {
        let was_denied = denied(&state, &medium, &stage, &buffer);
        let number = request(&mut state, &mut medium, &mut stage, &mut buffer);
        let code = (number == 0).then(|| return_code(&buffer));
        (number, code, was_denied)
    });
    assert_eq!(
        seen,
        [(0, Some(0), false), (0, Some(4), true), (100, None, false)]
    );
}
