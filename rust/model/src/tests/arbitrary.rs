//! Arbitrary inputs: no panic, and what holds of every call.

use super::adapter::{
    address, buffer, file, fis, hold, medium, passthrough, sample, sample_held, sealed, stage,
};
use super::firmware;
use crate::layout::file::BLOCK;
use crate::{denied, fields, open, request, Phy, Row, State};

/// A small generator of numbers, the same at each run.
pub struct Numbers(u64);

impl Numbers {
    pub fn new(seed: u64) -> Numbers {
        Numbers(seed)
    }

    pub fn next(&mut self) -> u32 {
        self.0 ^= self.0 << 13;
        self.0 ^= self.0 >> 7;
        self.0 ^= self.0 << 17;
        (self.0 >> 16) as u32
    }

    pub fn below(&mut self, bound: usize) -> usize {
        self.next() as usize % bound
    }

    pub fn byte(&mut self) -> u8 {
        // values at the edges of rules, half the time
        const EDGES: [u8; 16] = [
            0, 1, 2, 3, 4, 5, 8, 9, 0x10, 0x20, 0x30, 0x40, 0x88, 0x98, 0x99, 0xFF,
        ];
        match self.below(2) {
            0 => EDGES[self.below(EDGES.len())],
            _ => self.next() as u8,
        }
    }

    pub fn bytes(&mut self, length: usize) -> Vec<u8> {
        (0..length).map(|_| self.byte()).collect()
    }

    pub fn array<const N: usize>(&mut self) -> [u8; N] {
        std::array::from_fn(|_| self.byte())
    }

    /// A body for the code, near to one that is served.
    pub fn body(&mut self, code: u32) -> Vec<u8> {
        match code {
            25 => {
                let command = match self.below(3) {
                    0 => self.byte(),
                    _ => [0x20, 0x30, 0xEC, 0xE5][self.below(4)],
                };
                let data = self.below(3000);
                let fis = fis(command, self.next() % 20, self.next() as u8 % 20);
                let mut body = passthrough(fis, &vec![self.byte(); data]);
                body[0] = [0, 1, 2, 3, 4, 5, 0xFF][self.below(7)];
                body[1] = [0, 1, 2, 3, 4, 0xFF][self.below(6)];
                body[2] = [0, 8, 9][self.below(3)];
                body[4..12].copy_from_slice(&address(self.next() as u8 % 5));
                body
            }
            21 => {
                let mut body = self.bytes(24);
                body[..5].copy_from_slice(&[
                    self.next() as u8 % 6,
                    self.next() as u8 % 3,
                    [0, 8, 9, 7][self.below(4)],
                    [0, 8, 9, 9][self.below(4)],
                    self.next() as u8 % 5,
                ]);
                body
            }
            4 => self.firmware(),
            20 => vec![self.byte(); 2052],
            1 => vec![self.byte(); 174],
            2 => vec![self.byte(); 176],
            3 => vec![self.byte(); 36],
            30 => vec![self.byte(); 1152],
            _ => {
                let mut body = self.bytes(24);
                body[0] = self.next() as u8 % 6;
                body
            }
        }
    }

    /// A validation, of a damaged image too, or a commit, with any other flags.
    fn firmware(&mut self) -> Vec<u8> {
        let mut body = match self.below(3) {
            0 => firmware::commit(),
            n => {
                let revisions = std::array::from_fn(|_| self.next() as u16);
                let mut image = firmware::image(1 + self.below(3), revisions);
                if n == 1 && self.below(2) == 0 {
                    let at = self.below(image.len());
                    image[at] ^= 1 << self.below(8);
                }
                firmware::validation(&image)
            }
        };
        body[4] = body[4] & 1 | self.byte() & !1;
        body[5..8].copy_from_slice(&self.array::<3>());
        if self.below(8) == 0 {
            body[4] ^= 1;
        }
        body
    }
}

#[test]
fn requests_keep_the_state_sound() {
    let mut numbers = Numbers::new(0x1234_5678_9ABC_DEF1);
    let (mut state, mut disk, mut lent) = (sample(), medium(5), stage());
    let (mut served, mut released, mut staged, mut committed) = (0, 0, 0, 0);
    for _ in 0..60_000 {
        let code = [1, 2, 3, 4, 20, 21, 22, 24, 25, 26, 27, 28, 30][numbers.below(13)];
        let body = numbers.body(code);
        let mut sent = buffer(code, &body);
        if numbers.below(4) == 0 {
            let at = numbers.below(sent.len());
            sent[at] = numbers.byte();
        }
        if numbers.below(8) == 0 {
            sent.truncate(numbers.below(sent.len() + 1));
        }
        state.level = numbers.next() as u8 % 4;
        if numbers.below(8) == 0 {
            hold(&mut state.phys[[0, 3, 4][numbers.below(3)]]);
        }
        let was_denied = denied(&state, &disk, &lent, &sent);
        let before = (state.clone(), disk.clone(), sent.clone());
        let lent_before = lent.clone();
        let number = request(&mut state, &mut disk, &mut lent, &mut sent);
        assert!(fields::state_is_sound(&state));
        if number != 0 {
            assert_eq!(number, 100);
            assert_eq!((&state, &disk, &sent), (&before.0, &before.1, &before.2));
            assert_eq!(lent, lent_before);
            continue;
        }
        let code = super::adapter::return_code(&sent);
        assert_eq!(was_denied, code == 4);
        if code != 0 {
            assert_eq!((&state, &disk), (&before.0, &before.1));
            assert_eq!(lent, lent_before);
            assert_eq!(sent[28..], before.2[28..]);
        } else {
            served += 1;
        }
        let held = |state: &State| state.phys.iter().filter(|phy| phy.spinup_hold == 1).count();
        released += held(&before.0) - held(&state);
        // "the stage, which only a granted validation changes"
        assert!(lent == lent_before || (sent[16], state.staged) == (4, 1));
        staged += usize::from(lent != lent_before);
        committed += usize::from(before.0.staged > state.staged);
    }
    assert!(served > 5_000, "{served}");
    assert!(released > 20, "{released}");
    assert!(staged > 200 && committed > 100, "{staged} {committed}");
}

#[test]
fn any_state_and_buffer() {
    let mut numbers = Numbers::new(0xFEED_0000_0000_0001);
    for _ in 0..20_000 {
        let mut state = match numbers.below(4) {
            0 => sample(),
            1 => sample_held(&[0, 3, 4]),
            _ => State::ZERO,
        };
        for _ in 0..numbers.below(4) {
            spoil(&mut state, &mut numbers);
        }
        let length = [0, 1, 8192, 5 * 8192, 32 * 8192, 255 * 8192][numbers.below(6)];
        let mut disk = vec![0; length];
        let mut lent = vec![0; [0, 1, 16_384, 16_384, 16_385][numbers.below(5)]];
        let length = numbers.below(300);
        let mut sent = numbers.bytes(length);
        let sound = fields::state_is_sound(&state);
        let number = request(&mut state, &mut disk, &mut lent, &mut sent);
        assert_eq!(sound, number != 107);
        assert!(lent.len() == 16_384 || matches!(number, 106 | 107));
    }
}

pub fn spoil(state: &mut State, numbers: &mut Numbers) {
    let phy: &mut Phy = &mut state.phys[numbers.below(32)];
    let row: &mut Row = &mut state.rows[numbers.below(64)];
    let connector = &mut state.connectors[numbers.below(32)].0;
    match numbers.below(16) {
        0 => state.level = numbers.byte(),
        1 => state.p = numbers.byte(),
        2 => state.a = numbers.byte(),
        3 => phy.entity[numbers.below(64)] = numbers.byte(),
        4 => phy.counters[numbers.below(4)] = numbers.next(),
        5 => phy.signature[numbers.below(20)] = numbers.byte(),
        6 => (phy.held, phy.fixed) = (numbers.byte(), numbers.byte()),
        7 => (phy.lowest, phy.highest) = (numbers.byte(), numbers.byte()),
        8 => row.os[numbers.below(4)] = numbers.byte(),
        9 => state.controller_config[numbers.below(176)] = numbers.byte(),
        10 => state.controller_status[numbers.below(36)] = numbers.byte(),
        11 => connector[numbers.below(36)] = numbers.byte(),
        12 => phy.spinup_hold = numbers.byte(),
        13 => state.staged = numbers.byte(),
        14 => state.staged_revisions[numbers.below(4)] = u16::from(numbers.byte()),
        _ => row.sas_address[numbers.below(8)] = numbers.byte(),
    }
}

#[test]
fn any_file() {
    let mut numbers = Numbers::new(0xABCD_EF01_2345_6789);
    let sound = [file(&sample()), file(&sample_held(&[0, 3, 4]))];
    for _ in 0..20_000 {
        let mut blocks = sound[numbers.below(2)].as_chunks::<BLOCK>().0.to_vec();
        for _ in 0..numbers.below(3) {
            let k = numbers.below(blocks.len());
            let below = match k {
                0 => 4,
                7 => 220,
                8.. => 40,
                _ => 110,
            };
            blocks[k][numbers.below(below)] = numbers.byte();
        }
        let mut file = sealed(blocks);
        if numbers.below(8) == 0 {
            file.truncate(numbers.below(file.len()));
        }
        let (number, state) = open(b"", &file, &medium(5));
        match number {
            0 => assert!(fields::state_is_sound(&state)),
            102..=106 => assert_eq!(state, State::ZERO),
            _ => panic!("{number}"),
        }
    }
}
