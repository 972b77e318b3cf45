//! Adapters, their files and their states. A sound adapter is random wherever document 01 leaves a choice.

pub mod connector;
pub mod damage;
pub mod form;
pub mod phy;
pub mod row;

use crate::names::{
    file, phy_info, state, CONTROLLER_CONFIG, CONTROLLER_STATUS, DISK, DRIVER_INFO, ENTITY,
    MAX_PHYS, MAX_ROWS,
};
use crate::random::Random;
use connector::Connector;
pub use labkit::adapter::{check, connector_at, controller_at, file_length, row_at, seal};
use phy::Phy;
use row::Row;

#[derive(Clone)]
pub struct Adapter {
    driver: [u8; DRIVER_INFO],
    pub phys: Vec<Phy>,
    pub rows: Vec<Row>,
    pub controller: [u8; CONTROLLER_CONFIG],
    pub status: [u8; CONTROLLER_STATUS],
    /// As many as phys.
    pub connectors: Vec<Connector>,
}

impl Adapter {
    /// A sound adapter; often a small one.
    pub fn sound(random: &mut Random) -> Self {
        let p = match random.below(4) {
            0 => random.within(1, MAX_PHYS),
            1 => random.pick(&[1, MAX_PHYS]),
            _ => random.within(1, 8),
        };
        let a = match random.below(4) {
            0 => random.within(0, MAX_ROWS),
            1 => random.pick(&[0, 24, 25, 26, 50, 51, MAX_ROWS]),
            _ => random.within(0, 12),
        };
        Self::of_counts(random, p, a)
    }

    pub fn of_counts(random: &mut Random, p: usize, a: usize) -> Self {
        let phys: Vec<Phy> = (0..p).map(|n| Phy::sound(random, n, p)).collect();
        let rows = row::distinct(random, a, &phys);
        Adapter {
            driver: random.array(),
            phys,
            rows,
            controller: random.array(),
            status: random.array(),
            connectors: (0..p).map(|_| connector::sound(random)).collect(),
        }
    }

    /// One of which half the phys or more are SATA phys whose links are up.
    pub fn connected(random: &mut Random, p: usize, a: usize) -> Self {
        loop {
            let adapter = Self::of_counts(random, p, a);
            let phys = adapter.phys.iter();
            let up = phys.filter(|phy| phy.is_sata() && phy.is_up());
            if 2 * up.count() >= p {
                return adapter;
            }
        }
    }

    pub fn medium_length(&self) -> usize {
        DISK * self.phys.len()
    }

    /// The adapter file, with its checks.
    pub fn file(&self) -> Vec<u8> {
        let (p, a) = (self.phys.len(), self.rows.len());
        let mut bytes = vec![0; file_length(p, a)];
        (bytes[file::PHY_COUNT], bytes[file::ROW_COUNT]) = (p as u8, a as u8);
        put(&mut bytes, file::DRIVER_INFO, &self.driver);
        for (n, phy) in self.phys.iter().enumerate() {
            put(&mut bytes, file::phy_at(n), &phy.bytes);
        }
        for (i, row) in self.rows.iter().enumerate() {
            put(&mut bytes, row_at(p, i), row);
        }
        let block = controller_at(p, a);
        put(
            &mut bytes,
            block + file::CONTROLLER_CONFIG,
            &self.controller,
        );
        put(&mut bytes, block + file::CONTROLLER_STATUS, &self.status);
        for (n, connector) in self.connectors.iter().enumerate() {
            put(&mut bytes, connector_at(p, a, n), connector);
        }
        seal(&mut bytes);
        bytes
    }

    /// The state that an opening of the file gives at this level.
    pub fn state(&self, level: u8) -> Vec<u8> {
        let mut bytes = vec![0; state::SIZE];
        bytes[state::LEVEL] = level;
        bytes[state::PHY_COUNT] = self.phys.len() as u8;
        bytes[state::ROW_COUNT] = self.rows.len() as u8;
        put(&mut bytes, state::DRIVER_INFO, &self.driver);
        for (n, phy) in self.phys.iter().enumerate() {
            put(&mut bytes, state::phy_at(n), &phy.bytes);
        }
        for (i, row) in self.rows.iter().enumerate() {
            put(&mut bytes, state::row_at(i), row);
        }
        put(&mut bytes, state::CONTROLLER_CONFIG, &self.controller);
        put(&mut bytes, state::CONTROLLER_STATUS, &self.status);
        for (n, connector) in self.connectors.iter().enumerate() {
            put(&mut bytes, state::connector_at(n), connector);
        }
        bytes
    }

    /// What code 20 shows of it.
    pub fn phy_info(&self) -> Vec<u8> {
        let mut bytes = vec![0; phy_info::SIZE];
        bytes[0] = self.phys.len() as u8;
        for (n, phy) in self.phys.iter().enumerate() {
            let at = phy_info::PHYS + ENTITY * n;
            put(&mut bytes, at, &phy.bytes[..ENTITY]);
        }
        bytes
    }
}

fn put(bytes: &mut [u8], at: usize, part: &[u8]) {
    bytes[at..at + part.len()].copy_from_slice(part);
}

#[cfg(test)]
mod tests {
    use super::*;

    #[test]
    fn the_model_agrees_on_the_check() {
        let mut random = Random::new(1);
        for number in 0..200 {
            let block: [u8; file::BLOCK] = random.array();
            let expected = model::block_check(&block, number as u32);
            assert_eq!(check(&block, number), expected);
        }
    }

    #[test]
    fn sound_files_are_accepted() {
        let mut random = Random::new(2);
        for _ in 0..300 {
            let adapter = Adapter::sound(&mut random);
            let medium = vec![0; adapter.medium_length()];
            let (number, opened) = model::open(b"CSMI=Full;", &adapter.file(), &medium);
            assert_eq!(number, 0);
            assert_eq!(opened.to_bytes()[..], adapter.state(3));
        }
    }
}
