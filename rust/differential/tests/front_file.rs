//! The blocks of the controller and of the connectors in a file, and their tables in a state, as W-204 has them, on both implementations:
//! every byte that is unnamed or free, every bit of a pinout, and the file's length.

use differential::adapter::connector::bits_of;
use differential::adapter::{connector_at, controller_at, file_length, seal, Adapter};
use differential::names::file::{BLOCK, CHECK, CONTROLLER_END};
use differential::names::{call, code, connector, row, state, status, MAX_PHYS};
use differential::pair::Pair;
use differential::random::Random;
use differential::request::{linux, Request};
use differential::side::return_code;
use differential::state::reading::front_page;
use differential::text::{FULL, RESTRICTED};
use differential::wire::put_word;

/// A file, and the state that it gives.
struct Opened {
    file: Vec<u8>,
    state: Vec<u8>,
    medium: Vec<u8>,
    p: usize,
    a: usize,
}

impl Opened {
    fn of(random: &mut Random, p: usize, a: usize) -> Self {
        let adapter = Adapter::of_counts(random, p, a);
        Opened {
            file: adapter.file(),
            state: adapter.state(FULL),
            medium: vec![0; adapter.medium_length()],
            p,
            a,
        }
    }

    /// For each new block: where it starts in the file, where its bytes are in the state, and how many they are.
    fn blocks(&self) -> Vec<(usize, usize, usize)> {
        let controller = (
            controller_at(self.p, self.a),
            state::CONTROLLER_CONFIG,
            CONTROLLER_END,
        );
        let connectors = (0..self.p).map(|n| {
            let block = connector_at(self.p, self.a, n);
            (block, state::connector_at(n), connector::SIZE)
        });
        std::iter::once(controller).chain(connectors).collect()
    }

    /// With a byte of the file set, the check left and then made good.
    fn with_byte(&self, at: usize, byte: u8, number: u32, accepted: &[u8]) {
        let what = format!("p {}, a {}, byte {at}", self.p, self.a);
        let mut file = self.file.clone();
        file[at] = byte;
        Pair::opens(&what, &file, &self.medium, call::BLOCK_CHECK, &[]);
        seal(&mut file);
        Pair::opens(&what, &file, &self.medium, number, accepted);
    }
}

/// Section 10's pinout constants together.
const PINOUTS: u32 = 0x000F_0F03;

const SIZES: [(usize, usize); 4] = [(1, 0), (2, 3), (3, 26), (5, 64)];

#[test]
fn every_unnamed_byte_of_the_new_blocks_is_104() {
    let random = &mut Random::new(1);
    for (p, a) in SIZES {
        let opened = Opened::of(random, p, a);
        for (block, _, named) in opened.blocks() {
            for at in block + named..block + CHECK {
                assert_eq!(opened.file[at], 0);
                for byte in [1, 0x80, random.other_than(0)] {
                    opened.with_byte(at, byte, call::COUNT_OR_FIELD, &[]);
                }
            }
        }
    }
}

/// Reserved bytes are free too.
#[test]
fn every_named_byte_but_the_pinouts_is_free_and_carried() {
    let random = &mut Random::new(2);
    for (p, a) in SIZES {
        let opened = Opened::of(random, p, a);
        for (block, in_state, named) in opened.blocks() {
            let from = if named == connector::SIZE { 4 } else { 0 };
            for offset in from..named {
                let byte = random.other_than(opened.file[block + offset]);
                let mut state = opened.state.clone();
                state[in_state + offset] = byte;
                opened.with_byte(block + offset, byte, call::DONE, &state);
            }
        }
    }
}

/// Alone, and with every one of section 10's.
#[test]
fn every_bit_of_a_pinout_in_a_file() {
    let random = &mut Random::new(3);
    for (p, a) in [(1, 0), (4, 25), (32, 64)] {
        let opened = Opened::of(random, p, a);
        for (n, bit) in (0..p).flat_map(|n| bits_of(u32::MAX).into_iter().map(move |bit| (n, bit)))
        {
            for others in [0, PINOUTS] {
                let (mut file, mut state) = (opened.file.clone(), opened.state.clone());
                put_word(&mut file, connector_at(p, a, n), bit | others);
                put_word(&mut state, state::connector_at(n), bit | others);
                seal(&mut file);
                let number = if PINOUTS & bit != 0 {
                    call::DONE
                } else {
                    call::COUNT_OR_FIELD
                };
                let what = format!("p {p}, connector {n}, bit {bit:08X}h");
                Pair::opens(&what, &file, &opened.medium, number, &state);
            }
        }
    }
}

/// Each of the three codes, and of one that reads something else, with both headers.
fn requests() -> Vec<Request> {
    let asked = [&code::FRONT_PAGE[..], &[code::DRIVER_INFO]].concat();
    let first: Vec<Request> = asked.into_iter().map(front_page).collect();
    let linux = first
        .iter()
        .map(|request| linux::of_body(request.control(), request.body()));
    first.iter().cloned().chain(linux).collect()
}

/// All get 107, or all are granted and leave the state.
fn state_gives(what: &str, state: &[u8], medium: &[u8], number: u32) {
    let mut pair = Pair::of(state, medium);
    for request in requests() {
        let reply = pair
            .request(&request)
            .unwrap_or_else(|difference| panic!("{what}: {difference}"));
        assert_eq!(reply.number, number, "{what}");
        let code = return_code(reply.number, request.header, &reply.buffer);
        assert_eq!(code == status::SUCCESS, number == call::DONE, "{what}");
        assert!(pair.state() == state && pair.medium() == medium, "{what}");
    }
}

/// From p on no bit may be set.
#[test]
fn every_bit_of_a_pinout_in_a_state() {
    let random = &mut Random::new(4);
    for (p, a) in [(1, 0), (7, 20), (32, 64)] {
        let adapter = Adapter::of_counts(random, p, a);
        let medium = vec![0; adapter.medium_length()];
        for (n, bit) in
            (0..MAX_PHYS).flat_map(|n| bits_of(u32::MAX).into_iter().map(move |bit| (n, bit)))
        {
            for others in [0, PINOUTS] {
                let mut state = adapter.state(RESTRICTED);
                put_word(&mut state, state::connector_at(n), bit | others);
                let number = if n < p && PINOUTS & bit != 0 {
                    call::DONE
                } else {
                    call::STATE
                };
                let what = format!("p {p}, connector {n}, bit {bit:08X}h");
                state_gives(&what, &state, &medium, number);
            }
        }
    }
}

#[test]
fn every_byte_of_a_connector_past_p_is_107() {
    let random = &mut Random::new(5);
    let adapter = Adapter::of_counts(random, 6, 9);
    let medium = vec![0; adapter.medium_length()];
    for at in state::connector_at(6)..state::SIZE {
        let mut state = adapter.state(RESTRICTED);
        state[at] = random.other_than(0);
        state_gives(&format!("byte {at}"), &state, &medium, call::STATE);
    }
}

/// (2 + 2p + a/25 rounded up) blocks, and no other number of them: not those of the file before W-204.
#[test]
fn the_length_of_a_file() {
    let random = &mut Random::new(6);
    for (p, a) in (1..=MAX_PHYS).flat_map(|p| [0, 1, 25, 26, 50, 51, 64].map(|a| (p, a))) {
        let opened = Opened::of(random, p, a);
        let row_blocks = a.div_ceil(25);
        let right = (2 + 2 * p + row_blocks) * BLOCK;
        assert_eq!((opened.file.len(), file_length(p, a)), (right, right));
        Pair::opens(
            "sound",
            &opened.file,
            &opened.medium,
            call::DONE,
            &opened.state,
        );
        let before = (1 + p + row_blocks) * BLOCK;
        for length in [
            before,
            before + BLOCK,
            right - BLOCK,
            right - 1,
            right + 1,
            right + BLOCK,
        ] {
            let mut file = opened.file.clone();
            file.resize(length, 0);
            seal(&mut file);
            let what = format!("p {p}, a {a}, {length} bytes");
            Pair::opens(&what, &file, &opened.medium, call::FILE_LENGTH, &[]);
        }
    }
}

/// A pinout is a field: after every block's check, before rows that share and the medium's length.
#[test]
fn a_pinout_comes_after_the_checks_and_before_the_rows() {
    let random = &mut Random::new(7);
    for _ in 0..100 {
        let opened = Opened::of(random, 3, 9);
        let (mut file, short) = (opened.file.clone(), &opened.medium[1..]);
        let rows = controller_at(3, 0);
        file.copy_within(rows..rows + row::OS, rows + row::SIZE);
        seal(&mut file);
        Pair::opens("rows", &file, short, call::SHARED_ROW, &[]);
        let wrong = random.pick(&bits_of(!PINOUTS));
        put_word(&mut file, connector_at(3, 9, random.below(3)), wrong);
        seal(&mut file);
        Pair::opens("pinout", &file, short, call::COUNT_OR_FIELD, &[]);
        let block = random.within(0, file.len() / BLOCK - 1);
        file[block * BLOCK + CHECK] ^= 1;
        Pair::opens("check", &file, short, call::BLOCK_CHECK, &[]);
    }
}
