//! Two runs at two levels: "The stage, the same at the start of both runs and handed on from call
//! to call like the medium, and the running revisions belong to what is compared between two
//! levels."

use super::{commit, image, validation, Adapter, Header, FIRST, LATER, LINUX, REVISIONS};
use crate::denied;
use crate::tests::adapter::{fis, passthrough};
use crate::tests::arbitrary::Numbers;

struct Sent {
    header: Header,
    code: u32,
    body: Vec<u8>,
}

/// The codes of the lower run, one list for all levels; the higher is not given what is denied
/// there. Replies, states but for the level, media and stages are the same.
fn compare(lower: u8, higher: u8, list: &[Sent]) -> Vec<u32> {
    let (mut low, mut high) = (Adapter::at(lower), Adapter::at(higher));
    let mut codes = Vec::new();
    for Sent { header, code, body } in list {
        let sent = (header.buffer)(*code, body);
        let was_denied = header.size == 28 && denied(&low.state, &low.medium, &low.stage, &sent);
        let answer = low.answer(header, *code, body);
        assert_eq!(was_denied, answer.0 == 4);
        codes.push(answer.0);
        if !was_denied {
            assert_eq!(high.answer(header, *code, body), answer, "code {code}");
        }
        assert_eq!(high.shown(), low.shown());
        assert_eq!(high.stage, low.stage);
    }
    high.state.level = lower;
    assert_eq!(low, high);
    codes
}

/// Validations, commits and looks at the revisions, with either header.
fn session() -> Vec<Sent> {
    let look = || (2, vec![0xCC; 176]);
    let staging = |count, revisions| (4, validation(&image(count, revisions)));
    let commits = || (4, commit());
    let list = [
        (FIRST, commits()),
        (FIRST, staging(2, REVISIONS)),
        (FIRST, look()),
        (LINUX, commits()),
        (FIRST, look()),
        (LINUX, staging(3, LATER)),
        (FIRST, commits()),
        (FIRST, look()),
        (LINUX, commits()),
        (FIRST, staging(1, REVISIONS)),
        (FIRST, (4, validation(&[0xEE; 512]))),
        (LINUX, look()),
        (LINUX, commits()),
        (LINUX, look()),
    ];
    list.into_iter()
        .map(|(header, (code, body))| Sent { header, code, body })
        .collect()
}

#[test]
fn two_runs() {
    for higher in 0..=3 {
        for lower in 0..=higher {
            let codes = compare(lower, higher, &session());
            let expected = match lower {
                0 => [4, 4, 4, 1, 4, 0, 4, 4, 0, 4, 4, 0, 1, 0],
                1 => [4, 4, 0, 1, 0, 0, 4, 0, 0, 4, 4, 0, 1, 0],
                _ => [1, 0, 0, 0, 0, 0, 0, 0, 1, 0, 1, 0, 0, 0],
            };
            assert_eq!(codes, expected, "{lower} {higher}");
        }
    }
}

/// Lists of any requests, of other codes between them.
#[test]
fn two_runs_of_any_requests() {
    let mut numbers = Numbers::new(0x2070_0000_0000_0001);
    let mut met = Vec::new();
    for _ in 0..40 {
        let list: Vec<Sent> = (0..25)
            .map(|_| {
                let code = [2, 4, 4, 4, 21, 22, 25][numbers.below(7)];
                let body = match code {
                    25 => passthrough(fis(0x30, 3, 1), &[numbers.byte(); 512]),
                    2 => vec![0; 176],
                    _ => numbers.body(code),
                };
                let header = [FIRST, LINUX][numbers.below(3) / 2];
                Sent { header, code, body }
            })
            .collect();
        let higher = numbers.below(4) as u8;
        let lower = numbers.below(usize::from(higher) + 1) as u8;
        met.extend(compare(lower, higher, &list));
    }
    for code in [0, 1, 3, 4] {
        let count = met.iter().filter(|&&other| other == code).count();
        assert!(count > 20, "{code}: {count}");
    }
}
