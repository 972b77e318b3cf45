//! "The call number is 106 if the stage has another length; this comes straight after the medium
//! length": of every request of both headers.

use super::{Adapter, FIRST, LINUX};
use crate::tests::adapter::{medium, sample, stage};
use crate::tests::header::bodies;
use crate::{denied, tested, State};

const LENGTHS: [usize; 8] = [0, 1, 512, 8192, 16_383, 16_385, 16_896, 32_768];

/// Whatever the code, and at every level; nothing is touched.
#[test]
fn another_length_is_106() {
    for header in [FIRST, LINUX] {
        for (code, body) in bodies() {
            for length in LENGTHS {
                for level in [0, 3] {
                    let mut before = Adapter::at(level);
                    before.stage = vec![0xA5; length];
                    let (mut adapter, sent) = (before.clone(), (header.buffer)(code, &body));
                    let Adapter {
                        state,
                        medium,
                        stage,
                    } = &mut adapter;
                    assert!(!denied(state, medium, stage, &sent));
                    let mut buffer = sent.clone();
                    let number = (header.request)(state, medium, stage, code, &mut buffer);
                    assert_eq!((number, buffer), (106, sent));
                    assert_eq!(adapter, before);
                }
            }
        }
    }
}

/// Before the buffer's length and the code, after the state; beside a medium of another length too.
#[test]
fn its_place() {
    for header in [FIRST, LINUX] {
        let number = |state: &State, disk: &[u8], stage: &[u8], buffer: &[u8]| {
            let (mut state, mut disk) = (state.clone(), disk.to_vec());
            let (mut stage, mut buffer) = (stage.to_vec(), buffer.to_vec());
            (header.request)(&mut state, &mut disk, &mut stage, 99, &mut buffer)
        };
        let (disk, lent, unknown) = (medium(5), stage(), (header.buffer)(99, &[]));
        for short in [&[][..], &[0; 19], &unknown] {
            assert_eq!(number(&sample(), &disk, &lent[1..], short), 106);
            assert_eq!(number(&sample(), &disk[1..], &lent[1..], short), 106);
            assert_eq!(number(&sample(), &disk[1..], &lent, short), 106);
            assert_eq!(number(&State::ZERO, &disk, &lent[1..], short), 107);
            assert_eq!(number(&State::ZERO, &[], &[], short), 107);
        }
        assert_eq!(number(&sample(), &disk, &lent, &[0; 19]), 100);
        assert_eq!(number(&sample(), &disk, &lent, &unknown), 0);
    }
}

/// The stage is not exchanged with the medium: of two phys, both have 16,384 bytes.
#[test]
fn beside_a_medium_of_its_length() {
    let state = crate::tests::adapter::cut(2, 0);
    assert_eq!(tested(&state, &[0; 16_384], &[0; 16_384]), Ok(()));
    assert_eq!(tested(&state, &[0; 16_384], &[0; 16_383]), Err(106));
    assert_eq!(tested(&state, &[0; 16_383], &[0; 16_384]), Err(106));
    assert_eq!(tested(&sample(), &medium(5), &stage()), Ok(()));
    assert_eq!(tested(&sample(), &stage(), &medium(5)), Err(106));
    assert_eq!(tested(&State::ZERO, &[], &[]), Err(107));
}

/// Any bytes may stand in it: no request but code 4 reads it, and that only writes.
#[test]
fn its_bytes_are_not_read() {
    for header in [FIRST, LINUX] {
        for (code, body) in bodies() {
            let answers = [0x00, 0xFF].map(|byte| {
                let mut adapter = Adapter::new();
                adapter.stage.fill(byte);
                let answer = adapter.answer(&header, code, &body);
                let written = if code == 4 { 512 } else { 0 };
                assert!(adapter.stage[written..].iter().all(|&other| other == byte));
                (answer, adapter.state, adapter.medium)
            });
            assert_eq!(answers[0], answers[1]);
        }
    }
}
