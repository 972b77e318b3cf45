//! "Without it, and with a buffer length of 0, the staged image becomes the running one, and the
//! controller reply of W-204 shows its revisions in its first four revision fields."

use super::{body, commit, image, validation, Adapter, FIRST, LATER, LINUX, REVISIONS};
use crate::tests::adapter::sample;

/// The configuration with these bytes in the place of the firmware's revisions.
fn configuration(revisions: &[u8]) -> Vec<u8> {
    let mut configuration = sample().controller_config.to_vec();
    configuration[133..141].copy_from_slice(revisions);
    configuration
}

/// Shown by code 2 once they are committed, and not before; in the image's order, and nothing else.
#[test]
fn revisions_are_shown_after_the_commit() {
    for header in [FIRST, LINUX] {
        for count in [1, 2, 32] {
            let image = image(count, REVISIONS);
            let before = sample().controller_config.to_vec();
            let mut adapter = Adapter::new();
            assert_eq!(adapter.shown(), before);
            assert_eq!(adapter.send(&header, &validation(&image)), 0);
            assert_eq!(adapter.shown(), before);
            let staged = adapter.clone();
            assert_eq!(adapter.send(&header, &commit()), 0);
            assert_eq!(adapter, staged.running(REVISIONS));
            assert_eq!(adapter.shown(), configuration(&image[..8]));
            assert_eq!(adapter.shown()[133..141], [1, 2, 3, 4, 5, 6, 7, 0x80]);
        }
    }
}

#[test]
fn nothing_staged() {
    for header in [FIRST, LINUX] {
        let mut adapter = Adapter::new();
        assert_eq!(adapter.send(&header, &commit()), 1);
        assert_eq!(adapter, Adapter::new());
    }
}

/// "A commit leaves nothing staged": the second is 1, and the first's revisions stay.
#[test]
fn twice() {
    for header in [FIRST, LINUX] {
        let staged = Adapter::new().staging(&image(4, REVISIONS));
        let mut adapter = staged.clone();
        for code in [0, 1, 1] {
            assert_eq!(adapter.send(&header, &commit()), code);
            assert_eq!(adapter, staged.running(REVISIONS));
        }
    }
}

/// Two images, one commit: the second's revisions.
#[test]
fn validate_validate_commit() {
    for header in [FIRST, LINUX] {
        let (one, other) = (image(3, REVISIONS), image(2, LATER));
        let mut adapter = Adapter::new();
        for (body, code) in [
            (validation(&one), 0),
            (validation(&other), 0),
            (commit(), 0),
            (commit(), 1),
        ] {
            assert_eq!(adapter.send(&header, &body), code);
        }
        assert_eq!(adapter.shown(), configuration(&other[..8]));
        let expected = Adapter::new().staging(&one).staging(&other).running(LATER);
        assert_eq!(adapter, expected);
    }
}

/// Each image committed; a failed validation behind a commit stages nothing, and takes nothing
/// back.
#[test]
fn one_commit_after_another() {
    for header in [FIRST, LINUX] {
        let mut adapter = Adapter::new();
        for revisions in [REVISIONS, LATER, [0; 4], [u16::MAX; 4], REVISIONS] {
            let image = image(1, revisions);
            assert_eq!(adapter.send(&header, &validation(&image)), 0);
            assert_eq!(adapter.send(&header, &commit()), 0);
            assert_eq!(adapter.shown(), configuration(&image[..8]));
            let before = adapter.clone();
            let mut damaged = super::image(2, LATER);
            damaged[1000] ^= 1;
            assert_eq!(adapter.send(&header, &validation(&damaged)), 1);
            assert_eq!(adapter.send(&header, &commit()), 1);
            assert_eq!(adapter, before);
        }
    }
}

/// "An image may have revisions 0, so the flag is needed."
#[test]
fn revisions_of_0() {
    for header in [FIRST, LINUX] {
        let mut adapter = Adapter::new();
        assert_eq!(adapter.send(&header, &validation(&image(1, [0; 4]))), 0);
        assert_eq!(
            (adapter.state.staged, adapter.state.staged_revisions),
            (1, [0; 4])
        );
        assert_eq!(adapter.send(&header, &commit()), 0);
        assert_eq!(adapter.shown(), configuration(&[0; 8]));
        assert_eq!(adapter.send(&header, &commit()), 1);
    }
}

/// A lower revision than the running one is made current too.
#[test]
fn an_earlier_revision() {
    let mut adapter = Adapter::new().running([9; 4]);
    let image = image(1, [1, 0, 0, 0]);
    assert_eq!(adapter.send(&FIRST, &validation(&image)), 0);
    assert_eq!(adapter.send(&FIRST, &commit()), 0);
    assert_eq!(adapter.shown(), configuration(&image[..8]));
}

/// It "doesn't read the stage": the revisions are those of the state, whatever the stage holds.
#[test]
fn the_stage_is_not_read() {
    for header in [FIRST, LINUX] {
        for stage in [
            vec![0; 16_384],
            vec![0xAA; 16_384],
            [image(32, LATER)].concat(),
        ] {
            let mut adapter = Adapter::new().staging(&image(1, REVISIONS));
            adapter.stage = stage;
            let expected = adapter.running(REVISIONS);
            assert_eq!(adapter.send(&header, &commit()), 0);
            assert_eq!(adapter, expected);
        }
    }
}

/// "Bytes without the flag .. are code 3", also where nothing is staged, which is asked last.
#[test]
fn bytes_without_the_flag() {
    let sound = image(33, LATER);
    for length in [1, 8, 44, 511, 512, 513, 1024, 16_384, 16_385, 16_896] {
        for header in [FIRST, LINUX] {
            for before in [Adapter::new(), Adapter::new().staging(&image(2, REVISIONS))] {
                let mut adapter = before.clone();
                assert_eq!(adapter.send(&header, &body(0, &sound[..length])), 3);
                assert_eq!(adapter, before);
            }
        }
    }
}

/// Bytes that uBufferLength doesn't count are none.
#[test]
fn bytes_behind_a_commit() {
    for header in [FIRST, LINUX] {
        let before = Adapter::new().staging(&image(2, REVISIONS));
        let mut adapter = before.clone();
        let body = [&commit()[..], &image(1, LATER)].concat();
        assert_eq!(adapter.send(&header, &body), 0);
        assert_eq!(adapter, before.running(REVISIONS));
    }
}

/// The controller's flags (6.4.1) are not read.
#[test]
fn any_controller_flags() {
    for flags in [0, 0x0001_0000, 0x0003_0000, 0x0007_0000, u32::MAX] {
        let mut adapter = Adapter::new();
        adapter.state.controller_config[149..153].copy_from_slice(&flags.to_le_bytes());
        assert_eq!(adapter.send(&FIRST, &validation(&image(1, REVISIONS))), 0);
        assert_eq!(adapter.send(&FIRST, &commit()), 0);
        assert_eq!(adapter.shown()[149..153], flags.to_le_bytes());
    }
}
