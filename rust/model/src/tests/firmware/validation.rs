//! Granted validations: "the image is checked and copied to the start of a lent stage"; and the
//! lengths that an image may have.

use super::{any_stage, image, validation, Adapter, FIRST, LATER, LINUX, REVISIONS};

/// State and stage whole: the image at the start, what stood behind it still there.
#[test]
fn images_of_1_to_32_blocks() {
    for header in [FIRST, LINUX] {
        for count in 1..=32 {
            let image = image(count, REVISIONS);
            let mut adapter = Adapter::new();
            assert_eq!(adapter.send(&header, &validation(&image)), 0, "{count}");
            assert_eq!(adapter, Adapter::new().staging(&image), "{count}");
            let stage = [&image[..], &any_stage()[512 * count..]].concat();
            assert_eq!(adapter.stage, stage);
            assert_eq!(adapter.state.staged, 1);
            assert_eq!(adapter.state.staged_revisions, REVISIONS);
        }
    }
}

/// "a length that isn't 1 to 32 blocks": whole blocks of sound images, and parts of them.
#[test]
fn lengths() {
    let longest = image(34, REVISIONS);
    let whole = (0..=34).map(|count| 512 * count);
    let others = [
        1, 4, 8, 43, 44, 45, 256, 508, 511, 513, 1023, 1025, 16_383, 16_385, 16_895, 16_897,
    ];
    for length in whole.chain(others) {
        let image = &longest[..length];
        let sound = length % 512 == 0 && (1..=32).contains(&(length / 512));
        for header in [FIRST, LINUX] {
            for before in [
                Adapter::new(),
                Adapter::new().staging(&super::image(2, LATER)),
            ] {
                let mut adapter = before.clone();
                let code = adapter.send(&header, &validation(image));
                assert_eq!(code, if sound { 0 } else { 3 }, "{length}");
                let after = if sound { before.staging(image) } else { before };
                assert_eq!(adapter, after, "{length}");
            }
        }
    }
}

/// "or with it a length that isn't 1 to 32 blocks": "With the flag, length 0 is 3 and never a
/// commit".
#[test]
fn nothing_with_the_flag() {
    for header in [FIRST, LINUX] {
        let before = Adapter::new().staging(&image(1, REVISIONS));
        let mut adapter = before.clone();
        assert_eq!(adapter.send(&header, &validation(&[])), 3);
        assert_eq!(adapter, before);
    }
}

/// The image is uBufferLength bytes: what stands behind them is neither checked nor copied.
#[test]
fn bytes_behind_the_image() {
    let image = image(3, REVISIONS);
    for behind in [1, 468, 512, 20_000] {
        for header in [FIRST, LINUX] {
            let body = [&validation(&image)[..], &vec![0xDD; behind]].concat();
            let mut adapter = Adapter::new();
            assert_eq!(adapter.send(&header, &body), 0);
            assert_eq!(adapter, Adapter::new().staging(&image));
        }
    }
    // a longer image of which uBufferLength counts some blocks
    let longer = super::image(40, REVISIONS);
    for count in [1, 2, 31, 32] {
        let mut body = validation(&longer);
        body[..4].copy_from_slice(&(512 * count as u32).to_le_bytes());
        let mut adapter = Adapter::new();
        assert_eq!(adapter.send(&FIRST, &body), 0);
        assert_eq!(adapter, Adapter::new().staging(&longer[..512 * count]));
    }
}

/// The later image is at the start, the longer one before it still behind it; the later revisions.
#[test]
fn one_image_after_another() {
    for header in [FIRST, LINUX] {
        for (one, other) in [(32, 1), (1, 32), (5, 5), (3, 2)] {
            let (first, second) = (image(one, REVISIONS), image(other, LATER));
            let mut adapter = Adapter::new();
            assert_eq!(adapter.send(&header, &validation(&first)), 0);
            assert_eq!(adapter.send(&header, &validation(&second)), 0);
            let expected = Adapter::new().staging(&first).staging(&second);
            assert_eq!(adapter, expected);
            assert_eq!(adapter.state.staged_revisions, LATER);
        }
    }
}

/// The same image again changes nothing.
#[test]
fn the_same_again() {
    let image = image(2, REVISIONS);
    let staged = Adapter::new().staging(&image);
    let mut adapter = staged.clone();
    assert_eq!(adapter.send(&FIRST, &validation(&image)), 0);
    assert_eq!(adapter, staged);
}
