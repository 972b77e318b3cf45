//! Ends of sessions, which no request follows.

use super::Framing;
use crate::names::{header, linux_header, prefix, PROGRAM_LONGEST};
use crate::random::Random;
use crate::request::{any_code, Header};
use crate::wire::put_word;

/// Nothing, a prefix that is cut, one that names no header, or a request that is cut.
pub fn any(random: &mut Random, framing: Framing) -> Vec<u8> {
    let longest = PROGRAM_LONGEST as u32;
    let header = any_header(random, framing);
    match random.below(9) {
        0 => {
            let length = random.within(1, framing.size() - 1);
            random.bytes(length)
        }
        1 => cut(framing, header, longest + 1, PROGRAM_LONGEST),
        2 => cut(framing, header, u32::MAX, 100),
        3 => cut(framing, header, 0x8000_0000, 0),
        4 => cut(framing, header, longest, PROGRAM_LONGEST - 1),
        5 => cut(framing, header, header.size() as u32, header.size() - 1),
        6 if framing == Framing::Both => of_no_header(random),
        _ => Vec::new(),
    }
}

fn any_header(random: &mut Random, framing: Framing) -> Header {
    if framing == Framing::First || random.one_in(2) {
        return Header::First;
    }
    Header::Linux {
        control: any_code(random),
    }
}

/// A prefix, and so many bytes behind it.
pub fn cut(framing: Framing, header: Header, length: u32, bytes: usize) -> Vec<u8> {
    let mut end = framing.prefix(header, length);
    end.resize(framing.size() + bytes, 0x5A);
    end
}

/// A whole request behind a prefix that names neither header, or the first and a control code.
pub fn of_no_header(random: &mut Random) -> Vec<u8> {
    let (control, other) = (any_code(random), random.word() | 2);
    let bytes = random.pick(&[0, linux_header::SIZE, header::SIZE, 300]);
    let mut end = cut(
        Framing::Both,
        Header::Linux { control },
        bytes as u32,
        bytes,
    );
    let number = random.pick(&[prefix::FIRST, 2, 0x100, 0x0100_0000, u32::MAX, other]);
    put_word(&mut end, prefix::HEADER, number);
    if number != prefix::FIRST && random.one_in(2) {
        put_word(&mut end, prefix::CONTROL, 0);
    }
    end
}

#[cfg(test)]
mod tests {
    use super::*;

    #[test]
    fn no_request_stands_at_an_end() {
        let mut random = Random::new(1);
        for framing in [Framing::First, Framing::Both] {
            for _ in 0..200 {
                let session = any(&mut random, framing);
                assert_eq!(framing.next(&session, 0), None);
            }
        }
        for _ in 0..200 {
            let session = of_no_header(&mut random);
            assert_eq!(Framing::Both.next(&session, 0), None);
        }
    }
}
