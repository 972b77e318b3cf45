//! The Linux header, by the calls of both implementations: each check and their order, and every code at every level, as W-201 has them.

use differential::adapter::Adapter;
use differential::names::{
    ata, body_size, call, code, direction, firmware as download, linux_header as at, phy,
    set_phy_info, state, status, stp, STAGE,
};
use differential::pair::Pair;
use differential::random::Random;
use differential::request::firmware::Download;
use differential::request::linux::{fill, of_body, put_direction};
use differential::request::passthrough::Passthrough;
use differential::request::{fis, sound, Request};
use differential::side::return_code;
use differential::text::{FULL, LEVELS, NONE};
use differential::wire::put_word;

/// What is lent, and the request.
#[derive(Clone)]
struct Sent {
    state: Vec<u8>,
    medium: Vec<u8>,
    stage: Vec<u8>,
    request: Request,
}

/// The call's number, and the return code if there is one.
#[derive(Clone, Copy, Debug, PartialEq, Eq)]
enum Answer {
    Call(u32),
    Code(u32),
}

impl Sent {
    fn of(adapter: &Adapter, level: u8, request: Request) -> Self {
        Sent {
            state: adapter.state(level),
            medium: vec![0x11; adapter.medium_length()],
            stage: vec![0x22; STAGE],
            request,
        }
    }

    /// What both sides give. Of the header only the return code's bytes change, and the level stays.
    fn answer(&self) -> Answer {
        let mut pair = Pair::lending(&self.state, &self.medium, &self.stage);
        let reply = pair
            .request(&self.request)
            .unwrap_or_else(|difference| panic!("{difference}"));
        if reply.number != call::DONE {
            return Answer::Call(reply.number);
        }
        let sent = &self.request.buffer;
        assert_eq!(reply.buffer[..at::RETURN_CODE], sent[..at::RETURN_CODE]);
        assert_eq!(
            reply.buffer[at::TIMEOUT..at::SIZE],
            sent[at::TIMEOUT..at::SIZE]
        );
        assert_eq!(pair.state()[state::LEVEL], self.state[state::LEVEL]);
        let code = return_code(reply.number, self.request.header, &reply.buffer);
        if code != status::SUCCESS {
            assert_eq!(reply.buffer[at::SIZE..], sent[at::SIZE..]);
            assert!(pair.state() == self.state && pair.medium() == self.medium);
            assert!(pair.stage() == self.stage);
        }
        Answer::Code(code)
    }
}

/// An adapter of one phy, and a code 22 of it.
fn link_errors(level: u8) -> Sent {
    let adapter = Adapter::of_counts(&mut Random::new(1), 1, 0);
    let size = body_size(code::LINK_ERRORS).unwrap();
    Sent::of(&adapter, level, of_body(code::LINK_ERRORS, &vec![0; size]))
}

type Fault = (fn(&mut Sent), Answer);

/// One for each check, in their order; the last is that of the code's own.
const FAULTS: [Fault; 8] = [
    (
        |sent| sent.state[state::LEVEL] = 4,
        Answer::Call(call::STATE),
    ),
    (
        |sent| sent.medium.push(0),
        Answer::Call(call::MEDIUM_LENGTH),
    ),
    (|sent| sent.stage.push(0), Answer::Call(call::STAGE_LENGTH)),
    (
        |sent| sent.request.buffer.truncate(at::SIZE - 1),
        Answer::Call(call::BUFFER_LENGTH),
    ),
    (
        |sent| sent.request.buffer[at::DIRECTION] = 2,
        Answer::Code(status::INVALID_PARAMETER),
    ),
    (
        |sent| sent.request = Request::linux(24, sent.request.buffer.clone()),
        Answer::Code(status::BAD_CNTL_CODE),
    ),
    (
        |sent| sent.request.buffer[at::LENGTH] -= 1,
        Answer::Code(status::INVALID_PARAMETER),
    ),
    (
        |sent| sent.request.buffer[at::SIZE] = 1,
        Answer::Code(status::PHY_DOES_NOT_EXIST),
    ),
];

/// Every choice of faults: the first of them decides.
#[test]
fn the_order_of_the_checks() {
    for level in LEVELS {
        let sound = link_errors(level);
        assert_eq!(sound.answer(), Answer::Code(status::SUCCESS));
        for chosen in 1..1 << FAULTS.len() {
            let mut sent = sound.clone();
            let mut expected = None;
            // the later ones first, since a short buffer has no fields
            for (n, (put, answer)) in FAULTS.iter().enumerate().rev() {
                if chosen >> n & 1 == 1 {
                    put(&mut sent);
                    expected = Some(*answer);
                }
            }
            assert_eq!(Some(sent.answer()), expected, "{chosen:08b}");
        }
    }
}

#[test]
fn every_direction() {
    let mut sent = link_errors(NONE);
    for chosen in 0..=u16::MAX {
        put_direction(&mut sent.request.buffer, chosen);
        let expected = match chosen {
            direction::DATA_READ | direction::DATA_WRITE => status::SUCCESS,
            _ => status::INVALID_PARAMETER,
        };
        assert_eq!(sent.answer(), Answer::Code(expected), "{chosen}");
    }
}

/// Document 01's numbers, and no others: neither with bits above them nor those of Linux's own calls.
#[test]
fn which_codes_are_known() {
    let sent = link_errors(FULL);
    let others = [257, 0x0100_0001, 0x1600_0000, 0x8000_0016, u32::MAX];
    let ioctl = (0..0x40).map(|low| 0xCC77_0000 | low);
    for control in (0..300).chain(others).chain(ioctl) {
        let mut sent = sent.clone();
        sent.request = Request::linux(control, vec![0; at::SIZE]);
        // no Length takes in a structure
        let expected = match body_size(control) {
            Some(_) => status::INVALID_PARAMETER,
            None => status::BAD_CNTL_CODE,
        };
        assert_eq!(sent.answer(), Answer::Code(expected), "{control}");
    }
}

/// An adapter of one phy and one row that grants every code.
fn granting(random: &mut Random) -> Adapter {
    loop {
        let adapter = Adapter::of_counts(random, 1, 1);
        let phy = &adapter.phys[0];
        let bytes = &phy.bytes;
        if phy.is_sata() && phy.is_up() && bytes[phy::HELD] == 1 && bytes[phy::FIXED] == 0 {
            return adapter;
        }
    }
}

/// A request of a code that it grants; of code 25 a write of two sectors, of code 4 a validation.
fn granted(random: &mut Random, adapter: &Adapter, control: u32) -> Request {
    let body = match control {
        code::FIRMWARE_DOWNLOAD => Download::validation(random).body(random),
        code::SET_PHY_INFO => vec![0; set_phy_info::SIZE],
        code::STP_PASSTHRU => {
            let fis = fis::command(random, ata::WRITE_SECTORS, 14, 2);
            Passthrough::of_fis(random, adapter, fis).body(random)
        }
        _ => sound::body(random, adapter, control),
    };
    let mut request = of_body(control, &body);
    fill(random, &mut request);
    request
}

#[test]
fn each_code_is_granted_at_each_level() {
    let random = &mut Random::new(2);
    for round in 0..40 {
        let adapter = granting(random);
        for control in code::ALL {
            let request = granted(random, &adapter, control);
            let answer = Sent::of(&adapter, LEVELS[round % 4], request).answer();
            assert_eq!(answer, Answer::Code(status::SUCCESS), "code {control}");
        }
    }
}

/// Each command at each level: none is denied.
#[test]
fn each_command_is_granted_at_each_level() {
    let random = &mut Random::new(3);
    for level in LEVELS {
        let adapter = granting(random);
        for command in 0..=255 {
            let fis = fis::command(random, command, 3, 1);
            let body = Passthrough::of_fis(random, &adapter, fis).body(random);
            let sent = Sent::of(&adapter, level, of_body(code::STP_PASSTHRU, &body));
            assert_eq!(
                sent.answer(),
                Answer::Code(status::SUCCESS),
                "{command:02X}h"
            );
        }
    }
}

/// From the structure's end, and of codes 4 and 25 their data's, to the buffer's, the header counted.
#[test]
fn which_lengths_pass() {
    let random = &mut Random::new(4);
    let adapter = granting(random);
    for control in code::ALL {
        let mut sent = Sent::of(&adapter, NONE, granted(random, &adapter, control));
        let least = sent.request.buffer.len() as u32;
        for more in [0, 1, 9] {
            let most = least + more;
            sent.request.buffer.resize(most as usize, 0x77);
            let short = [0, 1, 11, 12, 19, 20, least - 20, least - 1];
            let over = [most + 1, most + 20, 0x8000_0000, u32::MAX - 19, u32::MAX];
            for length in [&short[..], &[least, most], &over].concat() {
                put_word(&mut sent.request.buffer, at::LENGTH, length);
                let expected = if (least..=most).contains(&length) {
                    status::SUCCESS
                } else {
                    status::INVALID_PARAMETER
                };
                let what = format!("code {control}, {most} bytes, Length {length}");
                assert_eq!(sent.answer(), Answer::Code(expected), "{what}");
            }
        }
    }
}

/// uDataLength and uBufferLength near the end of 32 bits: no sum leaves them.
#[test]
fn lengths_of_data_that_leave_32_bits() {
    let random = &mut Random::new(5);
    let adapter = granting(random);
    for (control, place, structure) in [
        (code::STP_PASSTHRU, stp::DATA_LENGTH, stp::DATA),
        (
            code::FIRMWARE_DOWNLOAD,
            download::BUFFER_LENGTH,
            download::DATA,
        ),
    ] {
        let sound = Sent::of(&adapter, NONE, granted(random, &adapter, control));
        let whole = sound.request.buffer.len() as u32;
        let (header, structure) = (at::SIZE as u32, structure as u32);
        for data in [
            0,
            1,
            structure,
            structure + 1,
            header + structure,
            0x8000_0000,
        ] {
            for length in [header + structure, whole - 1, whole, whole + 1, u32::MAX] {
                let mut sent = sound.clone();
                put_word(sent.request.body_mut(), place, data.wrapping_neg());
                put_word(&mut sent.request.buffer, at::LENGTH, length);
                // uDataLength 0 has no room for the sectors, and uBufferLength 0 no image
                assert_eq!(sent.answer(), Answer::Code(status::INVALID_PARAMETER));
            }
        }
    }
}

/// Controller number, return code, Timeout and the last two bytes hold anything; the answer is the same.
#[test]
fn bytes_that_are_not_read() {
    let random = &mut Random::new(6);
    let adapter = granting(random);
    for control in code::ALL {
        let request = granted(random, &adapter, control);
        let mut expected = None;
        for _ in 0..60 {
            let mut request = request.clone();
            fill(random, &mut request);
            let mut pair = Pair::of(&adapter.state(NONE), &vec![0; adapter.medium_length()]);
            let reply = pair.request(&request).unwrap();
            let body = reply.buffer[at::SIZE..].to_vec();
            let left = (
                reply.number,
                body,
                pair.state().to_vec(),
                pair.medium().to_vec(),
                pair.stage().to_vec(),
            );
            assert!(
                *expected.get_or_insert(left.clone()) == left,
                "code {control}"
            );
        }
    }
}
