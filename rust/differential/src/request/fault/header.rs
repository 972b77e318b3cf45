//! Faults in a header: its constants, and the control code in it or beside it.

use crate::names::{code, header, CSMI_ALL, CSMI_SAS};
use crate::random::Random;
use crate::request::linux::put_direction;
use crate::wire::put_word;

/// Codes that document 01 calls unknown, some of them known to 001; the last five are Linux's own numbers of codes that are known.
const UNKNOWN: [u32; 22] = [
    0,
    5,
    6,
    19,
    23,
    24,
    29,
    31,
    60,
    257,
    258,
    259,
    286,
    0x0100_0001,
    0x1900_0000,
    0x8000_0019,
    u32::MAX,
    0xCC77_0001,
    0xCC77_0002,
    0xCC77_0015,
    0xCC77_0019,
    0xCC77_0024,
];

/// HeaderLength, the control code or the signature.
pub fn in_first(random: &mut Random, buffer: &mut [u8]) {
    match random.below(3) {
        0 => header_length(random, buffer),
        1 => put_word(buffer, header::CONTROL_CODE, other_code(random)),
        _ => signature(random, buffer),
    }
}

/// The control code or Direction.
pub fn in_linux(random: &mut Random, control: &mut u32, buffer: &mut [u8]) {
    if random.one_in(2) {
        *control = other_code(random);
    } else {
        direction(random, buffer);
    }
}

fn header_length(random: &mut Random, buffer: &mut [u8]) {
    let length = random.pick(&[0, 18, 20, 27, 29, 284, 0x1C00_0000, u32::MAX]);
    put_word(buffer, header::HEADER_LENGTH, length);
}

/// A known code or an unknown one.
fn other_code(random: &mut Random) -> u32 {
    match random.below(4) {
        0 => random.word(),
        1 => random.pick(&code::ALL),
        _ => random.pick(&UNKNOWN),
    }
}

fn signature(random: &mut Random, buffer: &mut [u8]) {
    let place = &mut buffer[header::SIGNATURE..header::TIMEOUT];
    match random.below(4) {
        0 => place.copy_from_slice(&CSMI_ALL),
        1 => place.copy_from_slice(&CSMI_SAS),
        2 => place.copy_from_slice(b"CSMIPHY\0"),
        _ => {
            let at = random.below(place.len());
            place[at] = random.other_than(place[at]);
        }
    }
}

/// A Direction that is no constant of section 10, often one whose low or high byte is.
fn direction(random: &mut Random, buffer: &mut [u8]) {
    let other = random.within(2, 0xFFFF) as u16;
    let chosen = random.pick(&[2, 3, 0xFF, 0x100, 0x101, 0x8000, 0xFFFF, other]);
    put_direction(buffer, chosen);
}
