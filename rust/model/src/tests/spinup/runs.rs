//! Two runs on one adapter with a held disk: the higher is not given what the lower denies.

use super::{Header, FIRST, LINUX};
use crate::tests::adapter::{fis, medium, passthrough, sample_held, stage};

type Sent = (Header, u32, Vec<u8>);

/// Reads, writes and looks at a disk that is held; then releases it, disables and enables it.
fn session() -> Vec<Sent> {
    let look = || vec![0xCC; 2052];
    let read = || passthrough(fis(0x20, 7, 1), &[0xCC; 512]);
    let write = |byte| passthrough(fis(0x30, 7, 1), &[byte; 512]);
    let set = |negotiated| vec![0, negotiated, 0, 0, 2, 0, 0, 0];
    vec![
        (FIRST, 20, look()),
        (FIRST, 25, read()),
        (LINUX, 25, write(1)),
        (FIRST, 21, set(0)),
        (FIRST, 25, read()),
        (FIRST, 25, write(2)),
        (LINUX, 20, look()),
        (LINUX, 21, set(0)),
        (FIRST, 20, look()),
        (LINUX, 25, write(3)),
        (FIRST, 25, read()),
        (FIRST, 21, set(1)),
        (FIRST, 25, read()),
        (LINUX, 21, set(1)),
        (FIRST, 25, read()),
        (LINUX, 21, set(0)),
        (FIRST, 20, look()),
        (FIRST, 25, read()),
    ]
}

/// The return codes of the lower run; the higher has the same reply to each request it is given.
fn compare(lower: u8, higher: u8) -> Vec<u32> {
    let [mut low, mut high] = [lower, higher].map(|level| {
        let mut state = sample_held(&[0]);
        state.level = level;
        (state, medium(5), stage())
    });
    let codes = session()
        .into_iter()
        .map(|(header, code, body)| {
            let answer = header.answer(&mut low.0, &mut low.1, &mut low.2, code, &body);
            if answer.0 != 4 {
                let (state, disk, stage) = (&mut high.0, &mut high.1, &mut high.2);
                let other = header.answer(state, disk, stage, code, &body);
                assert_eq!(answer, other, "code {code}");
            }
            answer.0
        })
        .collect();
    high.0.level = lower;
    assert_eq!(low, high);
    codes
}

#[test]
fn two_runs() {
    for higher in 0..=3 {
        for lower in 0..=higher {
            let codes = compare(lower, higher);
            let expected = match lower {
                0 => [4, 4, 2008, 4, 4, 4, 0, 0, 4, 0, 4, 4, 4, 0, 4, 0, 4, 4],
                3 => [
                    0, 2008, 2008, 0, 0, 0, 0, 0, 0, 0, 0, 0, 2008, 0, 2008, 0, 0, 0,
                ],
                _ => [
                    0, 2008, 2008, 4, 2008, 4, 0, 0, 0, 0, 0, 4, 0, 0, 2008, 0, 0, 0,
                ],
            };
            assert_eq!(codes, expected, "{lower} {higher}");
        }
    }
}
