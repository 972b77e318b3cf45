//! Faults in a body, by its code.

use crate::adapter::{check, Adapter};
use crate::names::ata::LBA_MODE;
use crate::names::file::{BLOCK, CHECK};
use crate::names::{
    code, firmware as download, header, link_errors as errors, linux_header, scsi_address,
    set_phy_info as info, stp, NOT_GIVEN,
};
use crate::random::Random;
use crate::request::fis;
use crate::wire::{put_word, word};

/// What stands before a body.
const HEADER: u32 = header::SIZE as u32;
const LINUX_HEADER: u32 = linux_header::SIZE as u32;

pub fn fault(random: &mut Random, adapter: &Adapter, control: u32, body: &mut [u8]) {
    match control {
        code::FIRMWARE_DOWNLOAD if body.len() >= download::DATA => firmware(random, body),
        code::SET_PHY_INFO if body.len() >= info::SIZE => set_phy_info(random, adapter, body),
        code::LINK_ERRORS if body.len() > errors::RESET => link_errors(random, adapter, body),
        code::STP_PASSTHRU if body.len() >= stp::DATA => passthrough(random, adapter, body),
        _ if !body.is_empty() => first_bytes(random, adapter, body),
        _ => {}
    }
}

/// A phy that the adapter does not have, 255 too.
fn no_phy(random: &mut Random, adapter: &Adapter) -> u8 {
    let p = adapter.phys.len();
    let other = random.within(p, 255);
    random.pick(&[p, other, 255]) as u8
}

fn set_phy_info(random: &mut Random, adapter: &Adapter, body: &mut [u8]) {
    match random.below(5) {
        0 => body[info::PHY] = no_phy(random, adapter),
        1 => body[info::NEGOTIATED] = random.within(2, 255) as u8,
        2 => body[info::MINIMUM] = bad_rate(random),
        3 => body[info::MAXIMUM] = bad_rate(random),
        _ => body[info::SIGNAL_CLASS] = random.within(4, 255) as u8,
    }
}

/// A rate byte that is not 0, 8 or 9.
fn bad_rate(random: &mut Random) -> u8 {
    let other = random.within(10, 255) as u8;
    random.pick(&[1, 2, 3, 7, 10, 0x88, 0x90, other])
}

fn link_errors(random: &mut Random, adapter: &Adapter, body: &mut [u8]) {
    if random.one_in(2) {
        body[errors::PHY] = no_phy(random, adapter);
    } else {
        body[errors::RESET] = random.within(2, 255) as u8;
    }
}

/// A phy that does not exist, or an address with one byte changed.
fn first_bytes(random: &mut Random, adapter: &Adapter, body: &mut [u8]) {
    if random.one_in(2) {
        body[0] = no_phy(random, adapter);
    } else {
        let at = random.below(body.len().min(scsi_address::OS));
        body[at] = random.other_than(body[at]);
    }
}

fn passthrough(random: &mut Random, adapter: &Adapter, body: &mut [u8]) {
    match random.below(10) {
        0 => body[stp::COMMAND_FIS] = random.other_than(body[stp::COMMAND_FIS]),
        1 => body[stp::RATE] = bad_rate(random),
        2 => body[stp::RATE] = 9,
        3 => (body[stp::PHY], body[stp::PORT]) = (NOT_GIVEN, NOT_GIVEN),
        4 => body[stp::PHY] = no_phy(random, adapter),
        5 => body[stp::PORT] = random.byte(),
        6 => body[stp::PORT] = random.below(adapter.phys.len()) as u8,
        7 => {
            let at = stp::DESTINATION + random.below(8);
            body[at] = random.other_than(body[at]);
        }
        8 => body[stp::COMMAND_FIS + fis::DEVICE] &= !LBA_MODE,
        _ => data_length(random, body, stp::DATA_LENGTH, stp::DATA),
    }
}

fn firmware(random: &mut Random, body: &mut [u8]) {
    match random.below(6) {
        0 => body[download::FLAGS] ^= download::FWD_VALIDATE as u8,
        1 => put_word(body, download::FLAGS, 1 << random.below(32)),
        2 => data_length(random, body, download::BUFFER_LENGTH, download::DATA),
        _ => image(random, &mut body[download::DATA..]),
    }
}

/// A byte or the check of a block changed, or a block with the check of another number.
fn image(random: &mut Random, image: &mut [u8]) {
    let blocks = image.len() / BLOCK;
    if blocks == 0 {
        return;
    }
    let number = random.below(blocks);
    let block = &mut image[number * BLOCK..(number + 1) * BLOCK];
    match random.below(3) {
        0 => {
            let at = random.below(CHECK);
            block[at] = random.other_than(block[at]);
        }
        1 => {
            let bit = 1 << random.below(32);
            put_word(block, CHECK, word(block, CHECK) ^ bit);
        }
        _ => {
            let other = random.pick(&[number + 1, number + 512, number.wrapping_sub(1)]);
            put_word(block, CHECK, check(block, other));
        }
    }
}

/// A uDataLength or uBufferLength that is too small, too large, or so large that it leaves 32 bits with the rest: its place, and the
/// structure before bDataBuffer.
fn data_length(random: &mut Random, body: &mut [u8], place: usize, structure: usize) {
    let here = (body.len() - structure) as u32;
    let structure = structure as u32;
    let chosen = random.pick(&[
        0,
        here / 2,
        here.saturating_sub(1),
        here + 1,
        here + HEADER,
        here + LINUX_HEADER,
        u32::MAX,
        u32::MAX - structure + 1,
        u32::MAX - structure,
        u32::MAX - HEADER - structure + 1,
        u32::MAX - LINUX_HEADER - structure + 1,
        0x8000_0000,
    ]);
    put_word(body, place, chosen);
}
