//! A phy of an adapter: the bytes of its block that document 01 names.

use crate::names::phy::*;
use crate::names::{device, rate, ENTITY};
use crate::random::Random;
use crate::wire::put_word;

#[derive(Clone)]
pub struct Phy {
    pub bytes: [u8; SIZE],
}

/// What is attached to a phy.
#[derive(Clone, Copy, PartialEq, Eq)]
enum Device {
    None,
    Sata,
    Sas,
    Edge,
    Fanout,
}

const DEVICES: [Device; 10] = [
    Device::None,
    Device::None,
    Device::Sata,
    Device::Sata,
    Device::Sata,
    Device::Sata,
    Device::Sata,
    Device::Sas,
    Device::Edge,
    Device::Fanout,
];

impl Phy {
    /// A sound phy n of p.
    pub fn sound(random: &mut Random, n: usize, p: usize) -> Self {
        let mut phy = Phy {
            bytes: random.array(),
        };
        phy.bytes[PHY_IDENTIFIER] = n as u8;
        phy.bytes[SIGNAL_CLASS] = random.below(4) as u8;
        phy.bytes[PORT_IDENTIFIER] = match random.below(3) {
            0 => n,
            1 => n / 2,
            _ => random.below(p),
        } as u8;
        phy.bytes[FIXED] = u8::from(random.one_in(5));
        phy.choose_rates(random);
        phy.choose_counters(random);
        let device = random.pick(&DEVICES);
        phy.attach(random, device);
        phy.bytes[SPINUP_HOLD] = u8::from(device == Device::Sata && random.one_in(4));
        phy.bytes[NEGOTIATED] = if random.one_in(8) {
            rate::DISABLED
        } else {
            phy.link()
        };
        phy
    }

    fn choose_rates(&mut self, random: &mut Random) {
        let hardware = random.pick(&[(8, 9), (8, 9), (8, 9), (8, 9), (8, 8), (9, 9)]);
        let programmed = match hardware {
            (8, 9) => random.pick(&[(8, 9), (8, 9), (8, 8), (9, 9)]),
            other => other,
        };
        self.bytes[MINIMUM] = programmed.0 << 4 | hardware.0;
        self.bytes[MAXIMUM] = programmed.1 << 4 | hardware.1;
    }

    /// Counters that are random, 0, or at their end.
    fn choose_counters(&mut self, random: &mut Random) {
        for counter in 0..4 {
            let number = match random.below(4) {
                0 => 0,
                1 => u32::MAX - random.below(2) as u32,
                _ => random.word(),
            };
            put_word(&mut self.bytes, COUNTERS + 4 * counter, number);
        }
    }

    fn attach(&mut self, random: &mut Random, device: Device) {
        let protocols = self.bytes[ATTACHED_TARGET_PROTOCOLS];
        match device {
            Device::None => {
                self.bytes[ATTACHED..ENTITY].fill(0);
                self.set_device_rates((0, 0));
                self.hold(None);
                return;
            }
            Device::Sata => self.set_device(device::END, protocols | 1),
            Device::Sas => self.set_device(device::END, protocols & !1),
            Device::Edge => self.set_device(device::EDGE_EXPANDER, protocols),
            Device::Fanout => self.set_device(device::FANOUT_EXPANDER, protocols),
        }
        self.set_device_rates(random.pick(&[(8, 9), (8, 9), (8, 9), (8, 8), (9, 9)]));
        let signature = (device == Device::Sata && !random.one_in(4)).then(|| random.array());
        self.hold(signature);
    }

    fn set_device(&mut self, kind: u8, protocols: u8) {
        self.bytes[ATTACHED] = kind;
        self.bytes[ATTACHED_TARGET_PROTOCOLS] = protocols;
    }

    fn set_device_rates(&mut self, rates: (u8, u8)) {
        self.bytes[LOWEST] = rates.0;
        self.bytes[HIGHEST] = rates.1;
    }

    /// The signature it holds, or that it holds none.
    fn hold(&mut self, signature: Option<[u8; HELD - SIGNATURE]>) {
        self.bytes[HELD] = u8::from(signature.is_some());
        self.bytes[SIGNATURE..HELD].copy_from_slice(&signature.unwrap_or_default());
    }

    /// Makes it a SATA phy of both rates that is held at spin-up, has a signature and may be changed.
    pub fn hold_at_spinup(&mut self, random: &mut Random) {
        random.fill(&mut self.bytes[ATTACHED..ENTITY]);
        self.attach(random, Device::Sata);
        self.hold(Some(random.array()));
        (self.bytes[MINIMUM], self.bytes[MAXIMUM]) = (0x88, 0x99);
        self.set_device_rates((8, 9));
        (self.bytes[FIXED], self.bytes[SPINUP_HOLD]) = (0, 1);
        self.bytes[NEGOTIATED] = rate::SATA_SPINUP_HOLD;
    }

    pub fn port(&self) -> u8 {
        self.bytes[PORT_IDENTIFIER]
    }

    pub fn negotiated(&self) -> u8 {
        self.bytes[NEGOTIATED]
    }

    pub fn attached_address(&self) -> [u8; 8] {
        let mut address = [0; 8];
        address.copy_from_slice(&self.bytes[ATTACHED_SAS_ADDRESS..ATTACHED_SAS_ADDRESS + 8]);
        address
    }

    pub fn has_device(&self) -> bool {
        self.bytes[ATTACHED] != device::NONE
    }

    pub fn is_sata(&self) -> bool {
        self.bytes[ATTACHED] == device::END && self.bytes[ATTACHED_TARGET_PROTOCOLS] & 1 == 1
    }

    pub fn is_up(&self) -> bool {
        self.negotiated() >= 8
    }

    pub fn has_spinup_hold(&self) -> bool {
        self.bytes[SPINUP_HOLD] == 1
    }

    /// The link rule of the phy; at a spin-up hold 3 in place of a rate.
    pub fn link(&self) -> u8 {
        match self.rate() {
            Some(_) if self.has_spinup_hold() => rate::SATA_SPINUP_HOLD,
            Some(rate) => rate,
            None if self.has_device() => rate::FAILED,
            None => rate::UNKNOWN,
        }
    }

    /// The highest rate inside both the programmed and the device range.
    pub fn rate(&self) -> Option<u8> {
        let lowest = self.bytes[LOWEST].max(self.bytes[MINIMUM] >> 4);
        let highest = self.bytes[HIGHEST].min(self.bytes[MAXIMUM] >> 4);
        (self.has_device() && lowest <= highest).then_some(highest)
    }
}
