//! Each check of the header by itself: the buffer's length, Direction and Length; and which bytes
//! are read and written.

use super::{answer, buffer};
use crate::request_linux;
use crate::tests::adapter::{buffer as first_buffer, fis, medium, passthrough, sample, stage};
use crate::tests::header::bodies;

/// A code 21 is 28 bytes with its header, the smallest sound buffer.
const SET_PHY_INFO: [u8; 8] = [0, 0, 0, 0, 1, 0, 0, 0];

fn with_length(mut buffer: Vec<u8>, length: u32) -> Vec<u8> {
    buffer[4..8].copy_from_slice(&length.to_le_bytes());
    buffer
}

#[test]
fn a_buffer_under_20_bytes_is_100() {
    let sound = buffer(&SET_PHY_INFO);
    for length in 0..20 {
        let mut short = sound[..length].to_vec();
        let (mut disk, mut stage) = (medium(5), stage());
        let number = request_linux(&mut sample(), &mut disk, &mut stage, 21, &mut short);
        assert_eq!((number, &short[..]), (100, &sound[..length]));
    }
}

#[test]
fn buffers_of_20_to_28_bytes() {
    let sound = buffer(&SET_PHY_INFO);
    for length in [20, 27] {
        // Length as it was is past the buffer; one inside it is short of the structure
        for counted in [28, length] {
            let mut cut = with_length(sound[..length as usize].to_vec(), counted);
            assert_eq!(answer(21, &mut cut), 3);
        }
    }
    assert_eq!(answer(21, &mut sound.clone()), 0);
    for control in [1, 2, 3, 4, 20, 22, 25, 26, 27, 28, 30] {
        assert_eq!(answer(control, &mut sound.clone()), 3);
    }
    // no body at all
    assert_eq!(answer(1, &mut buffer(&[])), 3);
    assert_eq!(answer(24, &mut buffer(&[])), 2);
}

#[test]
fn every_direction() {
    for direction in 0..=u16::MAX {
        let mut sent = buffer(&SET_PHY_INFO);
        sent[16..18].copy_from_slice(&direction.to_le_bytes());
        let expected = if direction <= 1 { 0 } else { 3 };
        assert_eq!(answer(21, &mut sent), expected, "{direction}");
    }
}

/// Each code is served with each Direction: it is not held against the code.
#[test]
fn direction_is_not_held_against_the_code() {
    for (control, body) in bodies() {
        for direction in 0..=1 {
            let mut sent = buffer(&body);
            sent[16] = direction;
            assert_eq!(answer(control, &mut sent), 0);
        }
    }
}

#[test]
fn lengths() {
    for (control, body) in bodies() {
        let exact = 20 + body.len() as u32;
        let sound = buffer(&body);
        let of = |length| answer(control, &mut with_length(sound.clone(), length));
        assert_eq!(of(exact), 0);
        // short of the header, without it, one short, one over, and far over
        let short = [0, 1, 11, 12, 19, 20, exact - 20, exact - 1];
        let over = [exact + 1, exact + 20, u32::MAX - 20, u32::MAX];
        for length in short.into_iter().chain(over) {
            assert_eq!(of(length), 3, "code {control}, Length {length}");
        }
        // a larger buffer: from the exact Length to the buffer's end
        let larger = [&sound[..], &[0xCC; 9]].concat();
        for length in exact - 1..=exact + 10 {
            let expected = if (exact..=exact + 9).contains(&length) {
                0
            } else {
                3
            };
            let mut sent = with_length(larger.clone(), length);
            assert_eq!(answer(control, &mut sent), expected);
            assert_eq!(sent[sound.len()..], [0xCC; 9]);
        }
        // every shorter buffer, without a panic
        for end in 20..sound.len() {
            assert_eq!(answer(control, &mut sound[..end].to_vec()), 3);
        }
    }
}

/// Of code 25 Length counts uDataLength bytes too, and no sum leaves 32 bits.
#[test]
fn length_counts_the_data() {
    let body = passthrough(fis(0xE5, 0, 0), &[0xCC; 40]);
    let sent = |data: u32, length: u32| {
        let mut sent = with_length(buffer(&body), length);
        sent[60..64].copy_from_slice(&data.to_le_bytes());
        answer(25, &mut sent)
    };
    assert_eq!(sent(40, 196), 0);
    assert_eq!(sent(40, 195), 3);
    assert_eq!(sent(39, 195), 0);
    assert_eq!(sent(0, 156), 0);
    assert_eq!(sent(0, 155), 3);
    assert_eq!(sent(41, 196), 3);
    for data in [u32::MAX, u32::MAX - 135, u32::MAX - 155, 0x8000_0000] {
        for length in [156, 195, 196, 197, u32::MAX] {
            assert_eq!(sent(data, length), 3, "{data} {length}");
        }
    }
}

/// The return code is written even where Length ends before it.
#[test]
fn the_return_code_is_written_past_length() {
    for length in 0..12 {
        let mut sent = with_length(buffer(&SET_PHY_INFO), length);
        let mut expected = sent.clone();
        expected[8..12].copy_from_slice(&[3, 0, 0, 0]);
        assert_eq!(answer(21, &mut sent), 3);
        assert_eq!(sent, expected);
    }
}

/// Controller number, return code, Timeout and the two bytes at the end: any value, the same answer.
#[test]
fn bytes_that_are_not_read() {
    let places = (0..4).chain(8..16).chain(18..20);
    for at in places {
        for value in 0..=255 {
            for (control, expected) in [(21, 0), (24, 2)] {
                let mut sent = buffer(&SET_PHY_INFO);
                sent[at] = value;
                assert_eq!(answer(control, &mut sent), expected, "byte {at} {value}");
                let stays = (8..12).contains(&at) || sent[at] == value;
                assert!(stays, "byte {at} {value}");
            }
        }
    }
}

/// A buffer of the first header: its control code stands in the place of Direction, and its
/// signature in that of Length.
#[test]
fn a_buffer_of_the_first_header_is_refused() {
    for (control, body) in bodies() {
        let mut first = first_buffer(control, &body);
        assert_eq!(answer(control, &mut first), 3);
    }
}

/// No byte of the header is a signature: one header, with nothing but zeros in the bytes that are
/// not read, serves every code.
#[test]
fn there_is_no_signature() {
    for (control, body) in bodies() {
        let length = 20 + body.len() as u32;
        let mut sent = with_length([&[0; 20], &body[..]].concat(), length);
        assert_eq!(answer(control, &mut sent), 0);
    }
}
