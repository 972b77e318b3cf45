//! The validate flag is bit 0; "other flags are not read". Status and severity.

use super::{body, image, Adapter, FIRST, LATER, LINUX, REVISIONS};

/// Every other bit alone, all of them, and none.
fn others() -> impl Iterator<Item = u32> {
    (1..32).map(|bit| 1 << bit).chain([0, 6, !1])
}

#[test]
fn with_the_validate_flag() {
    let image = image(2, REVISIONS);
    for header in [FIRST, LINUX] {
        for flags in others() {
            let mut adapter = Adapter::new();
            assert_eq!(
                adapter.send(&header, &body(flags | 1, &image)),
                0,
                "{flags:x}"
            );
            assert_eq!(adapter, Adapter::new().staging(&image), "{flags:x}");
            // no commit, with or without an image that is staged
            assert_eq!(adapter.send(&header, &body(flags | 1, &[])), 3);
            assert_eq!(adapter, Adapter::new().staging(&image), "{flags:x}");
        }
    }
}

#[test]
fn without_the_validate_flag() {
    let staged = Adapter::new().staging(&image(2, REVISIONS));
    for header in [FIRST, LINUX] {
        for flags in others() {
            let mut adapter = staged.clone();
            // no validation
            assert_eq!(adapter.send(&header, &body(flags, &image(1, LATER))), 3);
            assert_eq!(adapter, staged);
            assert_eq!(adapter.send(&header, &body(flags, &[])), 0, "{flags:x}");
            assert_eq!(adapter, staged.running(REVISIONS), "{flags:x}");
            assert_eq!(adapter.send(&header, &body(flags, &[])), 1);
        }
    }
}

/// "Code 0 sets status and severity to 0"; other codes leave them. No other byte is written, and
/// none of the reserved ones is read.
#[test]
fn status_and_severity() {
    let sound = image(1, REVISIONS);
    let mut damaged = sound.clone();
    damaged[0] ^= 1;
    for header in [FIRST, LINUX] {
        for fill in [0x00, 0x01, 0x77, 0xFF] {
            let filled = |mut body: Vec<u8>| {
                body[8..44].fill(fill);
                body
            };
            let mut adapter = Adapter::new();
            for (sent, expected) in [
                (body(0, &[]), 1),
                (body(1, &[]), 3),
                (body(1, &damaged), 1),
                (body(0, &sound), 3),
                (body(1, &sound), 0),
                (body(1, &damaged), 1),
                (body(0, &[]), 0),
            ] {
                let sent = filled(sent);
                let (code, reply) = adapter.answer(&header, 4, &sent);
                assert_eq!(code, expected);
                let written = if code == 0 { [0; 4] } else { [fill; 4] };
                assert_eq!(reply[40..44], written);
                assert_eq!((&reply[..40], &reply[44..]), (&sent[..40], &sent[44..]));
            }
        }
    }
}
