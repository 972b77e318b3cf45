//! Code 25, STP passthrough.

use super::fis::{self, Fis};
use crate::adapter::phy::Phy;
use crate::adapter::Adapter;
use crate::names::{stp, DISK, NOT_GIVEN};
use crate::random::Random;
use crate::wire::put_word;

#[derive(Clone)]
pub struct Passthrough {
    pub phy: u8,
    pub port: u8,
    pub rate: u8,
    pub destination: [u8; 8],
    pub fis: Fis,
    pub data_length: u32,
    /// bDataBuffer, which may be longer or shorter than its length says.
    pub data: Vec<u8>,
}

impl Passthrough {
    /// Mostly a passthrough to a phy that is connected, if the adapter has one.
    pub fn sound(random: &mut Random, adapter: &Adapter) -> Self {
        let fis = fis::any(random);
        Self::of_fis(random, adapter, fis)
    }

    pub fn of_fis(random: &mut Random, adapter: &Adapter, fis: Fis) -> Self {
        let (phy, port, selected) = select(random, adapter);
        let rates: &[u8] = if selected.negotiated() == 9 {
            &[0, 8, 9]
        } else {
            &[0, 8]
        };
        let length = match random.below(4) {
            0 => fis::data(&fis).min(DISK) + random.below(40),
            _ => fis::data(&fis).min(DISK),
        };
        Passthrough {
            phy,
            port,
            rate: random.pick(rates),
            destination: selected.attached_address(),
            fis,
            data_length: length as u32,
            data: random.bytes(length),
        }
    }

    /// The body; the bytes of the status and the reserved ones hold anything.
    pub fn body(&self, random: &mut Random) -> Vec<u8> {
        let mut body = random.bytes(stp::DATA);
        body[stp::PHY] = self.phy;
        body[stp::PORT] = self.port;
        body[stp::RATE] = self.rate;
        body[stp::DESTINATION..stp::DESTINATION + 8].copy_from_slice(&self.destination);
        body[stp::COMMAND_FIS..stp::FLAGS].copy_from_slice(&self.fis);
        put_word(&mut body, stp::DATA_LENGTH, self.data_length);
        body.extend(&self.data);
        body
    }
}

/// A selection by phy, by port or by both, and the phy that it selects.
fn select<'a>(random: &mut Random, adapter: &'a Adapter) -> (u8, u8, &'a Phy) {
    let n = disk(random, adapter);
    let phy = &adapter.phys[n];
    match random.below(4) {
        0 => (NOT_GIVEN, phy.port(), lowest_of_port(adapter, phy.port())),
        1 => (n as u8, phy.port(), phy),
        _ => (n as u8, NOT_GIVEN, phy),
    }
}

/// Mostly a SATA phy whose link is up; at times one with a spin-up hold, which a request before may have released.
fn disk(random: &mut Random, adapter: &Adapter) -> usize {
    let asked: fn(&Phy) -> bool = match random.below(12) {
        0 => |_| true,
        1 | 2 => Phy::has_spinup_hold,
        _ => |phy| phy.is_sata() && phy.is_up(),
    };
    let all = 0..adapter.phys.len();
    let found: Vec<usize> = all.filter(|&n| asked(&adapter.phys[n])).collect();
    if found.is_empty() {
        random.below(adapter.phys.len())
    } else {
        random.pick(&found)
    }
}

/// The lowest phy of a port that some phy has.
fn lowest_of_port(adapter: &Adapter, port: u8) -> &Phy {
    let mut phys = adapter.phys.iter();
    phys.find(|phy| phy.port() == port)
        .expect("a phy has the port")
}
