//! What an adapter remembers between calls.

use crate::bytes::{array_at, u32_at};
use crate::codes::device;
use crate::layout::{
    connector, entity, fis, CONTROLLER_CONFIG, CONTROLLER_STATUS, DRIVER_INFO, ENTITY, MAX_PHYS,
    MAX_ROWS,
};
use crate::rates::Rates;

/// Index of the phy reset problem counter in the order of 6.9: invalid dword, running disparity,
/// loss of dword sync, phy reset problem.
pub const PHY_RESET_PROBLEM: usize = 3;

#[derive(Clone, PartialEq, Eq, Debug)]
pub struct State {
    pub level: u8,
    pub p: u8,
    pub a: u8,
    pub driver_info: [u8; DRIVER_INFO],
    pub phys: [Phy; MAX_PHYS],
    pub rows: [Row; MAX_ROWS],
    pub controller_config: [u8; CONTROLLER_CONFIG],
    pub controller_status: [u8; CONTROLLER_STATUS],
    /// One for each phy.
    pub connectors: [Connector; MAX_PHYS],
    /// An image is staged (W-207), 0 or 1.
    pub staged: u8,
    /// Its revisions; "0 when nothing is staged".
    pub staged_revisions: [u16; 4],
}

#[derive(Clone, PartialEq, Eq, Debug)]
pub struct Phy {
    /// The PHY_ENTITY as the file holds it.
    pub entity: [u8; ENTITY],
    pub counters: [u32; 4],
    pub signature: [u8; fis::SIZE],
    /// Signature held, 0 or 1.
    pub held: u8,
    /// Fixed, 0 or 1.
    pub fixed: u8,
    /// The device's lowest and highest rate.
    pub lowest: u8,
    pub highest: u8,
    /// Held at spin-up (W-205), 0 or 1.
    pub spinup_hold: u8,
}

#[derive(Clone, Copy, PartialEq, Eq, Debug)]
pub struct Row {
    pub sas_address: [u8; 8],
    pub sas_lun: [u8; 8],
    /// Host index, path, target, LUN.
    pub os: [u8; 4],
}

/// A phy's connector as the file holds it.
#[derive(Clone, Copy, PartialEq, Eq, Debug)]
pub struct Connector(pub [u8; connector::SIZE]);

impl State {
    /// "A refused opening returns the zero state, p = 0, level 0."
    pub const ZERO: State = State {
        level: 0,
        p: 0,
        a: 0,
        driver_info: [0; DRIVER_INFO],
        phys: [const { Phy::ZERO }; MAX_PHYS],
        rows: [Row::ZERO; MAX_ROWS],
        controller_config: [0; CONTROLLER_CONFIG],
        controller_status: [0; CONTROLLER_STATUS],
        connectors: [Connector::ZERO; MAX_PHYS],
        staged: 0,
        staged_revisions: [0; 4],
    };

    /// The phys below p; of a state with p over 32, all.
    pub fn live_phys(&self) -> &[Phy] {
        &self.phys[..usize::from(self.p).min(MAX_PHYS)]
    }

    pub fn live_phys_mut(&mut self) -> &mut [Phy] {
        &mut self.phys[..usize::from(self.p).min(MAX_PHYS)]
    }

    /// The connectors of the phys below p; of a state with p over 32, all.
    pub fn live_connectors(&self) -> &[Connector] {
        &self.connectors[..usize::from(self.p).min(MAX_PHYS)]
    }

    /// The rows below a; of a state with a over 64, all.
    pub fn live_rows(&self) -> &[Row] {
        &self.rows[..usize::from(self.a).min(MAX_ROWS)]
    }
}

impl Phy {
    pub const ZERO: Phy = Phy {
        entity: [0; ENTITY],
        counters: [0; 4],
        signature: [0; fis::SIZE],
        held: 0,
        fixed: 0,
        lowest: 0,
        highest: 0,
        spinup_hold: 0,
    };

    pub fn port(&self) -> u8 {
        self.entity[entity::PORT_IDENTIFIER]
    }

    pub fn negotiated(&self) -> u8 {
        self.entity[entity::NEGOTIATED]
    }

    pub fn device_type(&self) -> u8 {
        self.entity[entity::ATTACHED]
    }

    /// The Attached bytes.
    pub fn attached(&self) -> &[u8] {
        &self.entity[entity::ATTACHED..]
    }

    pub fn attached_sas_address(&self) -> [u8; 8] {
        array_at(&self.entity, entity::ATTACHED_SAS_ADDRESS)
    }

    /// "A SATA phy has type 10h and bit 0 of its attached target protocols set."
    pub fn is_sata(&self) -> bool {
        self.device_type() == device::END && self.entity[entity::ATTACHED_TARGET_PROTOCOLS] & 1 == 1
    }

    /// "A minimum or maximum rate byte is 16 × programmed + hardware."
    pub fn programmed(&self) -> Rates {
        Rates {
            lowest: self.entity[entity::MINIMUM] >> 4,
            highest: self.entity[entity::MAXIMUM] >> 4,
        }
    }

    pub fn hardware(&self) -> Rates {
        Rates {
            lowest: self.entity[entity::MINIMUM] & 0x0F,
            highest: self.entity[entity::MAXIMUM] & 0x0F,
        }
    }

    pub fn device(&self) -> Rates {
        Rates {
            lowest: self.lowest,
            highest: self.highest,
        }
    }

    /// Stores the programmed rates beside the hardware's.
    pub fn set_programmed(&mut self, programmed: Rates) {
        let hardware = self.hardware();
        self.entity[entity::MINIMUM] = programmed.lowest << 4 | hardware.lowest;
        self.entity[entity::MAXIMUM] = programmed.highest << 4 | hardware.highest;
    }
}

impl Row {
    pub const ZERO: Row = Row {
        sas_address: [0; 8],
        sas_lun: [0; 8],
        os: [0; 4],
    };
}

impl Connector {
    pub const ZERO: Connector = Connector([0; connector::SIZE]);

    pub fn pinout(&self) -> u32 {
        u32_at(&self.0, connector::PINOUT)
    }
}
