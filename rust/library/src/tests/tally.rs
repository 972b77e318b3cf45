//! The tally of a record: kinds, rests, and the bytes lent for the totals.

use super::*;

/// The totals in their order.
fn tallied(bytes: &[u8]) -> [u64; 5] {
    Totals::of_record(bytes).in_order()
}

/// The kind of a line: its place behind the requests.
fn kind(number: u32, code: u32) -> usize {
    match tallied(&record(&[[number, code]])) {
        [1, 1, 0, 0, 0] => totals::GRANTED,
        [1, 0, 1, 0, 0] => totals::DENIED,
        [1, 0, 0, 1, 0] => totals::OTHERWISE_REFUSED,
        [1, 0, 0, 0, 1] => totals::SHORT,
        other => panic!("{number}, {code}: {other:?}"),
    }
}

#[test]
fn the_kinds_of_a_line() {
    assert_eq!(kind(0, 0), totals::GRANTED);
    assert_eq!(kind(0, 4), totals::DENIED);
    for code in [1, 3, 5, 100, 2000, 0x100, 0x0400_0000, record::NO_CODE] {
        assert_eq!(kind(0, code), totals::OTHERWISE_REFUSED, "0, {code}");
    }
    for code in [0, 4, 2000, record::NO_CODE] {
        assert_eq!(kind(100, code), totals::SHORT, "100, {code}");
        for number in [1, 4, 99, 101, 106, 107, 108, 0x164, 0x6400_0000, u32::MAX] {
            let kind = kind(number, code);
            assert_eq!(kind, totals::OTHERWISE_REFUSED, "{number}, {code}");
        }
    }
}

/// One granted, two denied, three otherwise refused, four 100s; and every length up to theirs.
#[test]
fn a_rest_counts_nowhere() {
    let lines = [
        [100, record::NO_CODE],
        [0, 4],
        [0, 2000],
        [100, 0],
        [0, 0],
        [107, record::NO_CODE],
        [100, 4],
        [0, 4],
        [106, 0],
        [100, 2000],
    ];
    let record = record(&lines);
    assert_eq!(tallied(&record), [10, 1, 2, 3, 4]);
    for length in 0..=record.len() {
        let whole = length - length % record::SIZE;
        assert_eq!(tallied(&record[..length]), tallied(&record[..whole]));
        assert_eq!(tallied(&record[..length])[0], (length / 8) as u64);
    }
}

/// Under 40 bytes stay, and so do those past them.
#[test]
fn the_bytes_lent_for_the_totals() {
    let record = record(&[[0, 0], [0, 4], [0, 4], [100, 0]]);
    for length in 0..=2 * totals::SIZE {
        let mut lent = vec![OTHER; length];
        let number = tally(&record, &mut lent);
        let Some((totals, rest)) = lent.split_first_chunk() else {
            assert_eq!((number, lent), (100, vec![OTHER; length]));
            continue;
        };
        assert_eq!((number, rest), (0, &vec![OTHER; rest.len()][..]));
        assert_eq!(Totals::from_bytes(totals), Totals::of_record(&record));
    }
}

/// Of a run its first lines are tallied, as many as it gave.
#[test]
fn the_tally_of_a_run() {
    let mut session = [5, 0, 0, 0, 1, 2, 3, 4, 5, 0, 0, 0, 0];
    let mut lines = [0; 3 * record::SIZE];
    let (mut medium, mut stage) = ([0; DISK], stage());
    let mut ran = |file: &[u8], lines: &mut [u8]| {
        let text = b"CSMI=Full;";
        run(text, file, &mut medium, &mut stage, &mut session, lines)
    };
    let handled = ran(&file(), &mut lines);
    assert_eq!(tallied(&lines[..handled * record::SIZE]), [2, 0, 0, 0, 2]);
    assert_eq!(tallied(&lines), [3, 1, 0, 0, 2]);
    let handled = ran(&[], &mut lines);
    assert_eq!(tallied(&lines[..handled * record::SIZE]), [2, 0, 0, 2, 0]);
}

/// The constants are those of `include/ascheknopf.h`, without `ASCHEKNOPF_TOTALS_`.
#[test]
fn the_places_of_the_totals_are_those_of_the_c_header() {
    use totals::*;
    let defined = defined(&["TOTALS_"]);
    let named: Vec<(&str, usize)> = defined
        .iter()
        .map(|(name, place)| (&name["TOTALS_".len()..], *place))
        .collect();
    let places = by_name!(SIZE REQUESTS GRANTED DENIED OTHERWISE_REFUSED SHORT);
    assert_eq!(named, places);
}
