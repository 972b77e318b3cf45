//! "image check wrong": return code 1, and nothing changes. "every block has its check", numbered
//! from 0.

use super::{blocks, image, validation, Adapter, FIRST, LATER, LINUX, REVISIONS};
use crate::block_check;
use crate::tests::adapter::sealed;

/// The code of a validation of this image, where nothing is staged and where another is: a failed
/// one "keeps what was staged before".
fn code_of(image: &[u8]) -> u32 {
    let staged = Adapter::new().staging(&super::image(2, LATER));
    let [one, other] = [Adapter::new(), staged].map(|before| {
        let mut adapter = before.clone();
        let code = adapter.send(&FIRST, &validation(image));
        let mut linux = before.clone();
        assert_eq!(linux.send(&LINUX, &validation(image)), code);
        let after = if code == 0 {
            before.staging(image)
        } else {
            before
        };
        assert_eq!((&adapter, &linux), (&after, &after));
        code
    });
    assert_eq!(one, other);
    one
}

/// Data, also the revisions, and the check itself.
#[test]
fn every_bit_of_one_block() {
    let sound = image(1, REVISIONS);
    assert_eq!(code_of(&sound), 0);
    for at in 0..512 {
        for bit in 0..8 {
            let mut damaged = sound.clone();
            damaged[at] ^= 1 << bit;
            assert_eq!(code_of(&damaged), 1, "byte {at}, bit {bit}");
        }
    }
}

#[test]
fn every_byte_of_two_blocks() {
    let sound = image(2, REVISIONS);
    for at in 0..1024 {
        let mut damaged = sound.clone();
        damaged[at] ^= 0x10;
        assert_eq!(code_of(&damaged), 1, "byte {at}");
    }
}

/// Each block of the largest image: the first and the last of its data, each byte of its check.
#[test]
fn every_block_of_32() {
    let sound = image(32, REVISIONS);
    for k in 0..32 {
        for at in [0, 7, 8, 255, 504, 507, 508, 509, 510, 511] {
            let mut damaged = sound.clone();
            damaged[512 * k + at] ^= 0x01;
            assert_eq!(code_of(&damaged), 1, "block {k}, byte {at}");
        }
    }
}

/// The check of block k with another number.
#[test]
fn every_block_with_another_number() {
    let sound = image(32, REVISIONS);
    for k in 0..32u32 {
        for number in [k.wrapping_sub(1), k + 1, 0, 32] {
            let mut image = sound.clone();
            let block = &mut image.as_chunks_mut::<512>().0[k as usize];
            let check = block_check(block, number);
            block[508..].copy_from_slice(&check.to_le_bytes());
            let expected = if number == k { 0 } else { 1 };
            assert_eq!(code_of(&image), expected, "block {k} as {number}");
        }
    }
}

/// All blocks numbered from another number than 0; and in another order.
#[test]
fn numbered_from_0() {
    for from in 0..4 {
        let mut blocks = vec![[0; 512]; from];
        blocks.extend(super::blocks(3, REVISIONS));
        let image = sealed(blocks).split_off(512 * from);
        assert_eq!(code_of(&image), if from == 0 { 0 } else { 1 }, "{from}");
    }
    let sound = image(3, REVISIONS);
    let exchanged = [&sound[512..1024], &sound[..512], &sound[1024..]].concat();
    assert_eq!(code_of(&exchanged), 1);
    // the start of an image is one, its end is not
    assert_eq!(code_of(&sound[..1024]), 0);
    assert_eq!(code_of(&sound[512..]), 1);
}

/// Zeros with no check; with their checks, which are k + 1; and with no more than FFh.
#[test]
fn plain_blocks() {
    for count in [1, 2, 32] {
        assert_eq!(code_of(&vec![0; 512 * count]), 1);
        assert_eq!(code_of(&vec![0xFF; 512 * count]), 1);
        let zeros = sealed(vec![[0; 512]; count]);
        assert_eq!(zeros[508..512], [1, 0, 0, 0]);
        assert_eq!(code_of(&zeros), 0);
        assert_eq!(code_of(&sealed(vec![[0xFF; 512]; count])), 0);
    }
}

/// The check is a sum: a change that it counts is sound again, and so are exchanged words.
#[test]
fn a_check_that_is_set_again() {
    for k in 0..3 {
        let mut changed = blocks(3, REVISIONS);
        changed[k][100] ^= 0xFF;
        assert_eq!(code_of(&sealed(changed)), 0);
    }
    let mut exchanged = image(1, REVISIONS);
    let (one, other) = exchanged.split_at_mut(256);
    one[64..68].swap_with_slice(&mut other[..4]);
    assert_eq!(code_of(&exchanged), 0);
}

/// No field of an image has a rule: any bytes with their checks are sound.
#[test]
fn no_bytes_have_to_be_zero() {
    for at in 0..508 {
        let mut blocks = vec![[0; 512]; 2];
        blocks[0][at] = 0xFF;
        blocks[1][507 - at] = 0xFF;
        assert_eq!(code_of(&sealed(blocks)), 0, "{at}");
    }
}

/// A failed validation, and then the commit of what was staged before it, or of nothing.
#[test]
fn a_failed_validation_stages_nothing() {
    let mut damaged = image(1, LATER);
    damaged[200] ^= 1;
    for header in [FIRST, LINUX] {
        let mut adapter = Adapter::new();
        assert_eq!(adapter.send(&header, &validation(&damaged)), 1);
        assert_eq!(adapter.send(&header, &super::commit()), 1);
        assert_eq!(adapter, Adapter::new());

        let sound = image(2, REVISIONS);
        assert_eq!(adapter.send(&header, &validation(&sound)), 0);
        for wrong in [&damaged[..], &damaged[..511], &[], &[0; 16_896]] {
            let expected = if wrong.len() == 512 { 1 } else { 3 };
            assert_eq!(adapter.send(&header, &validation(wrong)), expected);
        }
        assert_eq!(adapter.send(&header, &super::commit()), 0);
        let expected = Adapter::new().staging(&sound).running(REVISIONS);
        assert_eq!(adapter, expected);
    }
}
