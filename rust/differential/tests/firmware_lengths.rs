//! The Length and the uBufferLength of a code 4 near their limits, and the other checks before the level, on both implementations; at each level
//! and with both headers.

use differential::firmware::{places, Asked, Lender};
use differential::names::file::{BLOCK, CHECK};
use differential::names::firmware::{BUFFER_LENGTH, DATA};
use differential::names::{code, header, linux_header, status, STAGE};
use differential::random::Random;
use differential::request::firmware::{image, Download};
use differential::wire::put_word;

/// Length counts structure and data, whatever the flags, and comes before the level: one less is 3, and so is one past the buffer. More bytes
/// than need be are not read.
#[test]
fn every_length_near_the_limits() {
    let random = &mut Random::new(5);
    for (place, blocks) in places().flat_map(|place| [0, 1, 2, 32].map(|blocks| (place, blocks))) {
        let lender = Lender::of(random, place, true);
        let sent = match blocks {
            0 => Download::commit(random),
            _ => {
                let image = image(random, blocks);
                Download::validation_of(random, image)
            }
        };
        let asked = [Asked::Commit, Asked::Validation][blocks.min(1)];
        let mut request = (lender.of_body)(code::FIRMWARE_DOWNLOAD, &sent.body(random));
        let least = request.header.counted() + DATA + blocks * BLOCK;
        for more in [0, 1, 700] {
            let most = least + more;
            let whole = request.header.size() - request.header.counted() + most;
            request.buffer.resize(whole, 0x77);
            let near = [
                0,
                1,
                19,
                20,
                28,
                DATA,
                DATA + 20,
                least - DATA,
                least - BLOCK.min(least),
            ];
            let near = near.into_iter().chain(least - 3..=most.min(least + 3));
            let past = [most + 1, most + 28, 0x8000_0000, 0xFFFF_FFE4, 0xFFFF_FFFF];
            for length in near.chain(past).chain([most - 1, most]) {
                put_word(&mut request.buffer, request.header.length(), length as u32);
                let what = format!("{blocks} blocks, {more} more, Length {length}");
                match (least..=most).contains(&length) {
                    true => lender.gets(&what, &request, asked, status::SUCCESS),
                    false => lender.stops(&what, &request, status::INVALID_PARAMETER),
                }
            }
        }
    }
}

/// uBufferLength beyond what Length takes in, and near the end of 32 bits; with the flag and without.
#[test]
fn every_buffer_length_past_the_data() {
    let random = &mut Random::new(6);
    for place in places() {
        let lender = Lender::of(random, place, true);
        let image = image(random, 1);
        for sent in [
            Download::validation_of(random, image.clone()),
            Download::without_flag(random, image),
            Download::commit(random),
        ] {
            let mut request = (lender.of_body)(code::FIRMWARE_DOWNLOAD, &sent.body(random));
            let here = sent.data.len() as u32;
            let near = [
                here + 1,
                here + 20,
                here + 28,
                here + BLOCK as u32,
                STAGE as u32,
            ];
            let far = [0, 1, 20, 28, 44, 45, 64, 72, 512, 556, 0x8000_0000];
            let far = far.map(|less: u32| u32::MAX - less);
            for length in near.into_iter().chain(far) {
                put_word(request.body_mut(), BUFFER_LENGTH, length);
                let what = format!("uBufferLength {length}");
                lender.stops(&what, &request, status::INVALID_PARAMETER);
            }
        }
    }
}

/// A body cut at each place of its structure, and in its image; the other signature, another HeaderLength or Direction.
#[test]
fn the_checks_before_the_level() {
    let random = &mut Random::new(7);
    for place in places() {
        let lender = Lender::of(random, place, true);
        let image = image(random, 1);
        let body = Download::validation_of(random, image).body(random);
        let sound = (lender.of_body)(code::FIRMWARE_DOWNLOAD, &body);
        let header = sound.header;
        for cut in (0..DATA + 3).chain([body.len() - CHECK, body.len() - 1]) {
            let what = format!("a body of {cut}");
            let mut short = sound.clone();
            short.buffer.truncate(header.size() + cut);
            lender.stops(&what, &short, status::INVALID_PARAMETER);
            let length = (header.counted() + cut) as u32;
            put_word(&mut short.buffer, header.length(), length);
            lender.stops(&what, &short, status::INVALID_PARAMETER);
        }
        let wrong: &[(usize, u8, u32)] = match header.is_linux() {
            true => &[(linux_header::DIRECTION, 2, status::INVALID_PARAMETER)],
            false => &[
                (header::HEADER_LENGTH, 1, status::INVALID_PARAMETER),
                (header::SIGNATURE + 4, b'A' ^ b'S', status::BAD_CNTL_CODE),
                (header::SIGNATURE + 7, 1, status::BAD_CNTL_CODE),
                (header::CONTROL_CODE, 1, status::BAD_CNTL_CODE),
            ],
        };
        for &(at, change, code) in wrong {
            let mut request = sound.clone();
            request.buffer[at] ^= change;
            lender.stops(&format!("byte {at}"), &request, code);
        }
    }
}
