//! The totals of a list of lines, and the program's last line.

use super::{line, lines, NONE};
use crate::tests::arbitrary::Numbers;
use crate::{Line, LineKind, Totals};

fn totals(lines: &[Line]) -> [usize; 5] {
    Totals::of_lines(lines).in_order()
}

#[test]
fn no_line() {
    assert_eq!(totals(&[]), [0; 5]);
    assert_eq!(Totals::of_lines(&[]).to_string(), "total 0 0 0 0 0");
}

#[test]
fn one_line() {
    for (number, code, expected) in [
        (0, 0, [1, 1, 0, 0, 0]),
        (0, 4, [1, 0, 1, 0, 0]),
        (0, 3, [1, 0, 0, 1, 0]),
        (0, 2000, [1, 0, 0, 1, 0]),
        (107, NONE, [1, 0, 0, 1, 0]),
        (100, NONE, [1, 0, 0, 0, 1]),
    ] {
        assert_eq!(totals(&[line(number, code)]), expected, "{number} {code}");
    }
}

/// One granted, two denied, three otherwise refused, four 100s.
#[test]
fn each_number_has_its_place() {
    let lines = [
        line(100, NONE),
        line(0, 4),
        line(0, 2008),
        line(100, 0),
        line(0, 0),
        line(107, 0),
        line(100, 4),
        line(0, 4),
        line(106, 4),
        line(100, NONE),
    ];
    assert_eq!(totals(&lines), [10, 1, 2, 3, 4]);
    assert_eq!(Totals::of_lines(&lines).to_string(), "total 10 1 2 3 4");
}

#[test]
fn many() {
    let lines = [vec![line(0, 0); 70_000], vec![line(0, 4); 300]].concat();
    let printed = Totals::of_lines(&lines).to_string();
    assert_eq!(printed, "total 70300 70000 300 0 0");
}

/// "the last four sum to the first", and each is the number of lines of that kind, in any order.
#[test]
fn any_lines() {
    let mut numbers = Numbers::new(0x2060_0000_0000_0001);
    for _ in 0..5_000 {
        let mut lines = lines(&mut numbers);
        let all = totals(&lines);
        assert_eq!(all[0], lines.len());
        assert_eq!(all[1..].iter().sum::<usize>(), all[0]);
        for (total, kind) in all[1..].iter().zip([
            LineKind::Granted,
            LineKind::Denied,
            LineKind::OtherwiseRefused,
            LineKind::Short,
        ]) {
            let of_kind = lines.iter().filter(|line| line.kind() == kind);
            assert_eq!(of_kind.count(), *total);
        }
        lines.reverse();
        assert_eq!(totals(&lines), all);
    }
}
