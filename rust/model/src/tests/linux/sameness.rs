//! "on the same adapter and medium, a request passing its header's checks gets the same return
//! code, body, medium and state (but the level) as one with the same code and body that passes
//! the other header's checks, at Full", with W-207 the same stage too; and arbitrary inputs.

use super::{buffer, code_of, return_code};
use crate::tests::adapter::{self, hold, medium, sample, sample_held, stage};
use crate::tests::arbitrary::{spoil, Numbers};
use crate::tests::header::bodies;
use crate::{fields, request, request_linux, State};

const CODES: [u32; 12] = [1, 2, 3, 4, 20, 21, 22, 25, 26, 27, 28, 30];

/// A Length from the structure's end, and of codes 4 and 25 their data's, to the body's.
fn length(numbers: &mut Numbers, control: u32, body: &[u8]) -> u32 {
    let size = match control {
        1 => 174,
        2 => 176,
        3 => 36,
        4 => 44 + u32::from_le_bytes(body[..4].try_into().unwrap()) as usize,
        20 => 2052,
        21 => 8,
        25 => 136 + u32::from_le_bytes(body[40..44].try_into().unwrap()) as usize,
        26 => 24,
        30 => 1152,
        _ => 20,
    };
    (size + numbers.below(body.len() - size + 1)) as u32
}

/// A body that is served, or one near to it, with bytes behind it or none.
fn body(numbers: &mut Numbers, n: usize) -> Vec<u8> {
    let mut body = match numbers.below(2) {
        0 => numbers.body(CODES[n]),
        _ => bodies()[n].1.clone(),
    };
    if CODES[n] == 21 {
        body[..5].copy_from_slice(&[
            numbers.next() as u8 % 6,
            numbers.next() as u8 % 2,
            [0, 8, 9, 7][numbers.below(4)],
            [0, 8, 9, 9][numbers.below(4)],
            numbers.next() as u8 % 5,
        ]);
    }
    let more = numbers.below(3) * numbers.below(30);
    body.extend(numbers.bytes(more));
    body
}

/// One body behind each header, each with a Length of its own. The first header's state goes on
/// with Full, the other's with any level.
#[test]
fn the_first_header_at_full() {
    let mut numbers = Numbers::new(0x5A5A_0000_1234_5678);
    let (mut one, mut one_disk, mut one_stage) = (sample(), medium(5), stage());
    let (mut other, mut other_disk, mut other_stage) = (sample(), medium(5), stage());
    let mut granted = [0; CODES.len()];
    for _ in 0..20_000 {
        let n = numbers.below(CODES.len());
        let body = body(&mut numbers, n);
        let mut first = adapter::buffer(CODES[n], &body);
        let of_first = length(&mut numbers, CODES[n], &body);
        first[24..28].copy_from_slice(&of_first.to_le_bytes());
        let mut linux = buffer(&body);
        let of_linux = 20 + length(&mut numbers, CODES[n], &body);
        linux[4..8].copy_from_slice(&of_linux.to_le_bytes());
        linux[16] = numbers.next() as u8 % 2;
        other.level = numbers.next() as u8 % 4;
        if numbers.below(8) == 0 {
            let phy = [0, 3, 4][numbers.below(3)];
            hold(&mut one.phys[phy]);
            hold(&mut other.phys[phy]);
        }

        let number = request(&mut one, &mut one_disk, &mut one_stage, &mut first);
        assert_eq!(number, 0);
        let code = code_of(
            &mut other,
            &mut other_disk,
            &mut other_stage,
            CODES[n],
            &mut linux,
        );
        assert_eq!(code, adapter::return_code(&first));
        assert_eq!(linux[20..], first[28..]);
        assert_eq!(other_disk, one_disk);
        assert_eq!(other_stage, one_stage);
        let mut at_full = other.clone();
        at_full.level = 3;
        assert_eq!(at_full, one);
        granted[n] += usize::from(code == 0);
    }
    assert!(granted.iter().all(|&count| count > 20), "{granted:?}");
}

#[test]
fn any_state_and_buffer() {
    let mut numbers = Numbers::new(0xFEED_0000_0000_0002);
    for _ in 0..20_000 {
        let mut state = match numbers.below(4) {
            0 => State::ZERO,
            1 => sample_held(&[0, 3, 4]),
            _ => sample(),
        };
        for _ in 0..numbers.below(3) {
            spoil(&mut state, &mut numbers);
        }
        let length = [0, 8192, 5 * 8192, 5 * 8192, 5 * 8192][numbers.below(5)];
        let mut disk = vec![0; length];
        let mut stage = vec![0; [0, 16_383, 16_384, 16_384][numbers.below(4)]];
        let length = numbers.below(300);
        let mut sent = numbers.bytes(length);
        let control = CODES[numbers.below(CODES.len())];
        let before = (state.clone(), sent.clone());
        let sound = fields::state_is_sound(&state);
        let number = request_linux(&mut state, &mut disk, &mut stage, control, &mut sent);
        assert_eq!(sound, number != 107);
        assert!(fields::state_is_sound(&state) || number == 107);
        if number != 0 {
            assert_eq!((state, sent), before);
        } else {
            assert_ne!(return_code(&sent), 4);
        }
    }
}
