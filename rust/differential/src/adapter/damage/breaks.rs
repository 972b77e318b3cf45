//! The ways in which damage changes an adapter's bytes. `None` says that the adapter has no place for it.

use crate::adapter::connector::wrong_pinout;
use crate::adapter::form::Held;
use crate::adapter::phy::Phy;
use crate::adapter::{check, file_length};
use crate::names::file::{BLOCK, CHECK, PHY_COUNT, ROWS_END, ROWS_PER_BLOCK, ROW_COUNT};
use crate::names::phy::*;
use crate::names::{connector, device, rate, row, MAX_PHYS, MAX_ROWS};
use crate::random::Random;
use crate::wire::put_word;

pub fn set(held: &mut Held, at: usize, byte: u8) -> Option<()> {
    held.bytes[at] = byte;
    Some(())
}

pub fn change(random: &mut Random, held: &mut Held, at: usize) -> Option<()> {
    let byte = random.other_than(held.bytes[at]);
    set(held, at, byte)
}

/// One of the bytes from `start` to before `end`, which are 0, becomes another.
pub fn spoil(random: &mut Random, held: &mut Held, start: usize, end: usize) -> Option<()> {
    let at = match random.below(3) {
        0 => start,
        1 => end - 1,
        _ => random.within(start, end - 1),
    };
    set(held, at, random.other_than(0))
}

pub fn keep(held: &mut Held, length: usize) -> Option<()> {
    held.bytes.truncate(length);
    Some(())
}

pub fn add(held: &mut Held, length: usize) -> Option<()> {
    held.bytes.resize(held.bytes.len() + length, 0);
    Some(())
}

pub fn other_phy_count(random: &mut Random, held: &mut Held) -> Option<()> {
    let count = random.within(1, MAX_PHYS);
    (count != held.p()).then(|| held.bytes[PHY_COUNT] = count as u8)
}

pub fn other_row_count(random: &mut Random, held: &mut Held) -> Option<()> {
    let count = random.within(0, MAX_ROWS);
    let length = file_length(held.p(), count);
    (length != held.bytes.len()).then(|| held.bytes[ROW_COUNT] = count as u8)
}

pub fn bump_check(random: &mut Random, held: &mut Held, block: usize) -> Option<()> {
    let at = block * BLOCK + CHECK + random.below(4);
    change(random, held, at)
}

pub fn check_of_other_number(random: &mut Random, held: &mut Held) -> Option<()> {
    let number = random.below(held.bytes.len() / BLOCK);
    let block = &mut held.bytes[number * BLOCK..(number + 1) * BLOCK];
    let check = check(block, number + random.within(1, 3));
    put_word(block, CHECK, check);
    Some(())
}

/// Some phy that is as asked.
pub fn some_phy(random: &mut Random, held: &Held, asked: fn(&Phy) -> bool) -> Option<usize> {
    let found: Vec<usize> = (0..held.p())
        .filter(|&n| asked(&held.adapter.phys[n]))
        .collect();
    (!found.is_empty()).then(|| random.pick(&found))
}

/// Where some phy starts that is as asked.
pub fn place(random: &mut Random, held: &Held, asked: fn(&Phy) -> bool) -> Option<usize> {
    some_phy(random, held, asked).map(|n| held.phy(n))
}

pub fn holds_signature(phy: &Phy) -> bool {
    phy.bytes[HELD] == 1
}

/// A byte of some phy becomes what is chosen for it, by the phy count and the byte as it was.
pub fn in_phy(
    random: &mut Random,
    held: &mut Held,
    offset: usize,
    choose: fn(&mut Random, usize, u8) -> u8,
) -> Option<()> {
    let p = held.p();
    let at = held.phy(random.below(p)) + offset;
    let byte = choose(random, p, held.bytes[at]);
    set(held, at, byte)
}

/// Both rate bytes of some phy, which is disabled, so that the link rule is not what is broken.
pub fn rates(
    random: &mut Random,
    held: &mut Held,
    choose: fn(&mut Random, u8, u8) -> (u8, u8),
) -> Option<()> {
    let at = held.phy(random.below(held.p()));
    let bytes = &mut held.bytes[at..];
    bytes[NEGOTIATED] = rate::DISABLED;
    (bytes[MINIMUM], bytes[MAXIMUM]) = choose(random, bytes[MINIMUM], bytes[MAXIMUM]);
    Some(())
}

/// A rate byte with one half that is no rate code.
pub fn bad_code(random: &mut Random, rates: u8) -> u8 {
    let code = random.pick(&[0, 1, 2, 3, 7, 10, 11, 15]);
    if random.one_in(2) {
        rates & 0xF0 | code
    } else {
        rates & 0x0F | code << 4
    }
}

/// Every type that document 01 knows.
const TYPES: [u8; 4] = [
    device::NONE,
    device::END,
    device::EDGE_EXPANDER,
    device::FANOUT_EXPANDER,
];

pub fn bad_type(random: &mut Random) -> u8 {
    loop {
        let kind = random.byte();
        if !TYPES.contains(&kind) {
            return kind;
        }
    }
}

pub fn device_rates(random: &mut Random, held: &mut Held, choices: &[(u8, u8)]) -> Option<()> {
    let at = place(random, held, Phy::has_device)?;
    let bytes = &mut held.bytes[at..];
    bytes[NEGOTIATED] = rate::DISABLED;
    (bytes[LOWEST], bytes[HIGHEST]) = random.pick(choices);
    Some(())
}

/// A spin-up hold of phy n, with the rate 3 that goes with it, so that the link rule is not what is broken.
pub fn spinup_hold(held: &mut Held, n: usize, byte: u8) -> Option<()> {
    let at = held.phy(n);
    if held.adapter.phys[n].is_up() {
        held.bytes[at + NEGOTIATED] = rate::SATA_SPINUP_HOLD;
    }
    set(held, at + SPINUP_HOLD, byte)
}

/// A negotiated rate that is neither 1 nor what the link rule gives.
pub fn negotiated(random: &mut Random, held: &mut Held) -> Option<()> {
    let n = random.below(held.p());
    let link = held.adapter.phys[n].link();
    let other = random.byte();
    let rate = random.pick(&[0, 2, 3, 8, 9, other]);
    if rate == rate::DISABLED || rate == link {
        return None;
    }
    let at = held.phy(n) + NEGOTIATED;
    set(held, at, rate)
}

pub fn past_last_row(random: &mut Random, held: &mut Held) -> Option<()> {
    let last = held.a().checked_sub(1)?;
    let start = held.row(last) + row::SIZE;
    let end = held.controller() - BLOCK + CHECK;
    spoil(random, held, start, end)
}

/// The eight bytes between the 25th row of a block and its check.
pub fn between_row_blocks(random: &mut Random, held: &mut Held) -> Option<()> {
    let full = held.a() / ROWS_PER_BLOCK;
    let block = (full > 0).then(|| 1 + held.p() + random.below(full))?;
    let at = block * BLOCK;
    spoil(random, held, at + ROWS_END, at + CHECK)
}

/// Two rows share the bytes from `start` to before `end`.
pub fn share(random: &mut Random, held: &mut Held, start: usize, end: usize) -> Option<()> {
    let count = held.a();
    let (one, other) = (random.below(count.max(1)), random.below(count.max(1)));
    let (from, to) = (held.row(one), held.row(other));
    (one != other).then(|| held.bytes.copy_within(from + start..from + end, to + start))
}

/// A pinout of some connector.
pub fn pinout(random: &mut Random, held: &mut Held) -> Option<()> {
    let at = held.connector(random.below(held.p())) + connector::PINOUT;
    put_word(&mut held.bytes, at, wrong_pinout(random));
    Some(())
}

/// A byte past p: at these offsets of some connector from p on.
pub fn past_connectors(
    random: &mut Random,
    held: &mut Held,
    start: usize,
    end: usize,
) -> Option<()> {
    let n = past(random, held.p(), MAX_PHYS)?;
    let at = held.connector(n);
    spoil(random, held, at + start, at + end)
}

/// A file without one of its blocks, from the one behind the rows on.
pub fn without_block(random: &mut Random, held: &mut Held) -> Option<()> {
    let at = held.controller() + BLOCK * random.within(0, held.p());
    held.bytes.drain(at..at + BLOCK);
    Some(())
}

/// A byte past p: at these offsets of some phy from p on.
pub fn past_phys(random: &mut Random, held: &mut Held, start: usize, end: usize) -> Option<()> {
    let n = past(random, held.p(), MAX_PHYS)?;
    let at = held.phy(n);
    spoil(random, held, at + start, at + end)
}

/// A byte past a: at these offsets of some row from a on.
pub fn past_rows(random: &mut Random, held: &mut Held, start: usize, end: usize) -> Option<()> {
    let i = past(random, held.a(), MAX_ROWS)?;
    let at = held.row(i);
    spoil(random, held, at + start, at + end)
}

/// The first or the last past the count, or any.
fn past(random: &mut Random, count: usize, most: usize) -> Option<usize> {
    let other = random.within(count.min(most - 1), most - 1);
    (count < most).then(|| random.pick(&[count, most - 1, other]))
}
