//! Code 4 as W-207 has it, on both implementations: every flag, every block and every byte of an image damaged, and every length of one; at
//! each level and with both headers. What each gets is worked out from W-207, not by the model alone.

use differential::adapter::check as block_check;
use differential::firmware::{places, Asked, Lender};
use differential::names::file::{BLOCK, CHECK};
use differential::names::firmware::{FWD_VALIDATE, MAX_BLOCKS};
use differential::names::{status, STAGE};
use differential::random::Random;
use differential::request::firmware::{image, Download};
use differential::wire::{put_word, word};

/// Each bit alone, all but it, none and all: bit 0 decides, and the others are not read.
#[test]
fn every_bit_of_the_flags() {
    let random = &mut Random::new(1);
    for (place, staged) in places().flat_map(|place| [false, true].map(|staged| (place, staged))) {
        let lender = Lender::of(random, place, staged);
        let bits = (0..32).flat_map(|bit| [1 << bit, !(1 << bit)]);
        for flags in bits.chain([0, u32::MAX]) {
            let what = format!("flags {flags:08X}");
            let (image, empty) = (image(random, 2), Vec::new());
            let [(of_image, image_code), (of_empty, empty_code)] = match flags & FWD_VALIDATE {
                0 => [
                    (Asked::Bytes, status::INVALID_PARAMETER),
                    (Asked::Commit, if staged { 0 } else { status::FAILED }),
                ],
                _ => [
                    (Asked::Validation, status::SUCCESS),
                    (Asked::WrongLength, status::INVALID_PARAMETER),
                ],
            };
            let sent = Download::of(flags, image);
            lender.sends(random, &what, sent, of_image, image_code);
            let sent = Download::of(flags, empty);
            lender.sends(random, &what, sent, of_empty, empty_code);
        }
    }
}

/// What a block can have that is wrong: a byte, a bit of the check, or the check of another number.
const DAMAGES: [fn(&mut Random, &mut [u8], usize); 5] = [
    |random, block, _| {
        let at = random.below(CHECK);
        block[at] = random.other_than(block[at]);
    },
    |random, block, _| block[0] = random.other_than(block[0]),
    |random, block, _| {
        let bit = 1 << random.below(32);
        put_word(block, CHECK, word(block, CHECK) ^ bit);
    },
    |_, block, number| put_word(block, CHECK, block_check(block, number + 1)),
    |_, block, number| put_word(block, CHECK, block_check(block, number.wrapping_sub(1))),
];

#[test]
fn every_block_of_images_of_1_2_and_32_damaged() {
    let random = &mut Random::new(2);
    for (place, staged) in places().zip([false, true, true, false].into_iter().cycle()) {
        let lender = Lender::of(random, place, staged);
        for blocks in [1, 2, MAX_BLOCKS] {
            every_block_damaged(random, &lender, blocks);
        }
    }
}

fn every_block_damaged(random: &mut Random, lender: &Lender, blocks: usize) {
    let whole = image(random, blocks);
    let sent = Download::validation_of(random, whole.clone());
    lender.sends(random, "whole", sent, Asked::Validation, status::SUCCESS);
    for number in 0..blocks {
        for damage in DAMAGES {
            let mut image = whole.clone();
            let block = &mut image[number * BLOCK..(number + 1) * BLOCK];
            damage(random, block, number);
            let what = format!("block {number} of {blocks}");
            let sent = Download::validation_of(random, image);
            lender.sends(random, &what, sent, Asked::WrongImage, status::FAILED);
        }
    }
}

/// Every byte of an image of three blocks, and every bit of its last check: nothing of a block is left out of its check.
#[test]
fn every_byte_of_an_image_changed() {
    let random = &mut Random::new(3);
    for place in places() {
        let lender = Lender::of(random, place, true);
        let whole = image(random, 3);
        let bits = (CHECK..BLOCK).flat_map(|at| (0..8).map(move |bit| (2 * BLOCK + at, 1 << bit)));
        for (at, change) in (0..whole.len()).map(|at| (at, 0x10)).chain(bits) {
            let mut image = whole.clone();
            image[at] ^= change;
            let sent = Download::validation_of(random, image);
            let what = format!("byte {at}");
            lender.sends(random, &what, sent, Asked::WrongImage, status::FAILED);
        }
    }
}

/// Images of each number of blocks, and lengths beside each; without the flag all are bytes.
#[test]
fn every_length_of_an_image() {
    let random = &mut Random::new(4);
    for place in places() {
        let lender = Lender::of(random, place, true);
        let blocks = (0..=MAX_BLOCKS + 2).map(|blocks| blocks * BLOCK);
        for length in blocks.flat_map(|length| [length.saturating_sub(1), length, length + 1]) {
            let what = format!("{length} bytes");
            let mut data = image(random, MAX_BLOCKS + 3);
            data.truncate(length);
            let (asked, code) = match length % BLOCK == 0 && (BLOCK..=STAGE).contains(&length) {
                true => (Asked::Validation, status::SUCCESS),
                false => (Asked::WrongLength, status::INVALID_PARAMETER),
            };
            let sent = Download::validation_of(random, data.clone());
            lender.sends(random, &what, sent, asked, code);
            let (asked, code) = match length {
                0 => (Asked::Commit, status::SUCCESS),
                _ => (Asked::Bytes, status::INVALID_PARAMETER),
            };
            let sent = Download::without_flag(random, data);
            lender.sends(random, &what, sent, asked, code);
        }
    }
}
