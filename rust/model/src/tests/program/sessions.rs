//! Sessions that end with their last request.

use super::{printed, session, FULL, RESTRICTED};
use crate::program;
use crate::tests::adapter::{buffer, file, fis, passthrough, sample};
use crate::tests::arbitrary::Numbers;

/// A code 21 to a phy that leaves it as it is, or with negotiated 1 disables it.
fn set(phy: u8, negotiated: u8) -> Vec<u8> {
    buffer(21, &[phy, negotiated, 0, 0, 1, 0, 0, 0])
}

/// A read of a sector of phy 0.
fn read() -> Vec<u8> {
    buffer(25, &passthrough(fis(0x20, 0, 1), &[0; 512]))
}

/// "Restricted, with a sound code 1, a sound code 21 and a 5-byte buffer".
#[test]
fn worked_example() {
    let input = session(&[buffer(1, &[0; 174]), set(0, 0), vec![0; 5]]);
    assert_eq!(
        program(RESTRICTED, &file(&sample()), &input),
        "request call code\n1 0 0\n2 0 4\n3 100 -\ntotal 3 1 1 0 1\n"
    );
}

#[test]
fn empty() {
    assert_eq!(
        program(FULL, &file(&sample()), b""),
        "request call code\ntotal 0 0 0 0 0\n"
    );
}

/// 2000 is a refused change of a fixed phy; an accepted change is 0.
#[test]
fn a_fixed_phy() {
    let input = session(&[set(3, 0), set(0, 0), set(3, 1)]);
    assert_eq!(
        printed(FULL, &input)[1..],
        ["1 0 2000", "2 0 0", "3 0 2000", "total 3 1 0 2 0"]
    );
}

#[test]
fn levels() {
    // E8h is no command of the disk, which says so in its status alone
    let limited = buffer(25, &passthrough(fis(0xE8, 0, 1), &[]));
    let input = session(&[read(), limited, set(0, 0)]);
    let total = |text| printed(text, &input)[4].clone();
    assert_eq!(total(b"CSMI=None;"), "total 3 0 3 0 0");
    assert_eq!(total(RESTRICTED), "total 3 1 2 0 0");
    assert_eq!(total(b"CSMI=Limited;"), "total 3 2 1 0 0");
    assert_eq!(total(FULL), "total 3 3 0 0 0");
}

/// The smallest buffers, the return code's place 0 in each.
#[test]
fn buffers_of_27_and_28_bytes() {
    let input = session(&[vec![], vec![0; 27], vec![0; 28]]);
    assert_eq!(
        printed(FULL, &input)[1..],
        ["1 100 -", "2 100 -", "3 0 3", "total 3 0 0 1 2"]
    );
}

/// One granted, two denied, three otherwise refused, four 100s.
#[test]
fn all_kinds() {
    let tiny = || vec![0; 4];
    let input = session(&[
        tiny(),
        set(0, 0),
        buffer(24, &[0; 8]),
        tiny(),
        buffer(26, &[5; 24]),
        buffer(1, &[0; 174]),
        tiny(),
        set(5, 9),
        buffer(1, &[0; 173]),
        tiny(),
    ]);
    let lines = [
        "1 100 -", "2 0 4", "3 0 2", "4 100 -", "5 0 2002", "6 0 0", "7 100 -", "8 0 4", "9 0 3",
        "10 100 -",
    ];
    let printed = printed(RESTRICTED, &input);
    assert_eq!(printed[1..11], lines);
    assert_eq!(printed[11..], ["total 10 1 2 3 4"]);
}

/// A request gets the state that the one before it left: a disabled phy is not connected.
#[test]
fn the_state_goes_on() {
    let input = session(&[set(0, 1), read(), set(0, 0), read()]);
    assert_eq!(
        printed(FULL, &input)[1..],
        ["1 0 0", "2 0 2008", "3 0 0", "4 0 0", "total 4 3 0 1 0"]
    );
}

/// Up to 11 requests of any kind.
fn requests(numbers: &mut Numbers) -> Vec<Vec<u8>> {
    (0..numbers.below(12))
        .map(|_| {
            let code = [1, 20, 21, 21, 22, 24, 25, 26][numbers.below(8)];
            let mut sent = buffer(code, &numbers.body(code));
            if numbers.below(5) == 0 {
                sent.truncate(numbers.below(40));
            }
            sent
        })
        .collect()
}

/// The last line of what was printed, counted from the lines between it and the first.
fn counted(lines: &[String]) -> String {
    let ends = |end: &str| lines.iter().filter(|line| line.ends_with(end)).count();
    let (granted, denied, short) = (ends(" 0 0"), ends(" 0 4"), ends(" 100 -"));
    let others = lines.len() - granted - denied - short;
    format!("total {} {granted} {denied} {others} {short}", lines.len())
}

/// "Each total equals the number of printed lines of that kind", numbered from 1.
#[test]
fn any_session() {
    let mut numbers = Numbers::new(0x2060_0000_0000_0003);
    for _ in 0..300 {
        let requests = requests(&mut numbers);
        let text = [FULL, RESTRICTED, b"CSMI=None;"][numbers.below(3)];
        let lines = printed(text, &session(&requests));
        let [first, between @ .., last] = &lines[..] else {
            panic!("{lines:?}");
        };
        assert_eq!(first, "request call code");
        assert_eq!(between.len(), requests.len());
        for (n, line) in (1..).zip(between) {
            assert!(line.starts_with(&format!("{n} ")), "{line}");
        }
        assert_eq!(*last, counted(between));
    }
}
