//! A state as the bytes that a caller lends to the two calls. Every byte is named, so every byte
//! string of this length stands for a state, and each state for one byte string.

use crate::bytes::{array_at, u16_at, u32_at};
use crate::layout::state::{
    CONNECTORS, CONTROLLER_CONFIG, CONTROLLER_STATUS, DRIVER_INFO, LEVEL, PHYS, PHY_COUNT, ROWS,
    ROW_COUNT, SIZE, STAGED, STAGED_REVISIONS,
};
use crate::layout::{phy, row};
use crate::state::{Connector, Phy, Row, State};

impl State {
    pub fn from_bytes(bytes: &[u8; SIZE]) -> State {
        let mut state = State::ZERO;
        state.level = bytes[LEVEL];
        state.p = bytes[PHY_COUNT];
        state.a = bytes[ROW_COUNT];
        state.driver_info = array_at(bytes, DRIVER_INFO);
        let phys = bytes[PHYS..ROWS].as_chunks().0;
        for (phy, bytes) in state.phys.iter_mut().zip(phys) {
            *phy = Phy::from_bytes(bytes);
        }
        let rows = bytes[ROWS..CONTROLLER_CONFIG].as_chunks().0;
        for (row, bytes) in state.rows.iter_mut().zip(rows) {
            *row = Row::from_bytes(bytes);
        }
        state.controller_config = array_at(bytes, CONTROLLER_CONFIG);
        state.controller_status = array_at(bytes, CONTROLLER_STATUS);
        let connectors = bytes[CONNECTORS..STAGED].as_chunks().0;
        for (connector, bytes) in state.connectors.iter_mut().zip(connectors) {
            *connector = Connector(*bytes);
        }
        state.staged = bytes[STAGED];
        state.staged_revisions = [0, 2, 4, 6].map(|at| u16_at(bytes, STAGED_REVISIONS + at));
        state
    }

    pub fn to_bytes(&self) -> [u8; SIZE] {
        let mut bytes = [0; SIZE];
        bytes[LEVEL] = self.level;
        bytes[PHY_COUNT] = self.p;
        bytes[ROW_COUNT] = self.a;
        bytes[DRIVER_INFO..PHYS].copy_from_slice(&self.driver_info);
        let phys = bytes[PHYS..ROWS].as_chunks_mut().0;
        for (bytes, phy) in phys.iter_mut().zip(&self.phys) {
            *bytes = phy.to_bytes();
        }
        let rows = bytes[ROWS..CONTROLLER_CONFIG].as_chunks_mut().0;
        for (bytes, row) in rows.iter_mut().zip(&self.rows) {
            *bytes = row.to_bytes();
        }
        bytes[CONTROLLER_CONFIG..CONTROLLER_STATUS].copy_from_slice(&self.controller_config);
        bytes[CONTROLLER_STATUS..CONNECTORS].copy_from_slice(&self.controller_status);
        let connectors = bytes[CONNECTORS..STAGED].as_chunks_mut().0;
        for (bytes, connector) in connectors.iter_mut().zip(&self.connectors) {
            *bytes = connector.0;
        }
        bytes[STAGED] = self.staged;
        let revisions = bytes[STAGED_REVISIONS..].as_chunks_mut().0;
        for (bytes, revision) in revisions.iter_mut().zip(self.staged_revisions) {
            *bytes = revision.to_le_bytes();
        }
        bytes
    }
}

impl Phy {
    pub fn from_bytes(bytes: &[u8; phy::SIZE]) -> Phy {
        Phy {
            entity: array_at(bytes, 0),
            counters: [0, 4, 8, 12].map(|at| u32_at(bytes, phy::COUNTERS + at)),
            signature: array_at(bytes, phy::SIGNATURE),
            held: bytes[phy::HELD],
            fixed: bytes[phy::FIXED],
            lowest: bytes[phy::LOWEST],
            highest: bytes[phy::HIGHEST],
            spinup_hold: bytes[phy::SPINUP_HOLD],
        }
    }

    pub fn to_bytes(&self) -> [u8; phy::SIZE] {
        let mut bytes = [0; phy::SIZE];
        bytes[..phy::COUNTERS].copy_from_slice(&self.entity);
        let counters = bytes[phy::COUNTERS..phy::SIGNATURE].as_chunks_mut().0;
        for (bytes, counter) in counters.iter_mut().zip(self.counters) {
            *bytes = counter.to_le_bytes();
        }
        bytes[phy::SIGNATURE..phy::HELD].copy_from_slice(&self.signature);
        bytes[phy::HELD] = self.held;
        bytes[phy::FIXED] = self.fixed;
        bytes[phy::LOWEST] = self.lowest;
        bytes[phy::HIGHEST] = self.highest;
        bytes[phy::SPINUP_HOLD] = self.spinup_hold;
        bytes
    }
}

impl Row {
    pub fn from_bytes(bytes: &[u8; row::SIZE]) -> Row {
        Row {
            sas_address: array_at(bytes, 0),
            sas_lun: array_at(bytes, row::SAS_LUN),
            os: array_at(bytes, row::OS),
        }
    }

    pub fn to_bytes(&self) -> [u8; row::SIZE] {
        let mut bytes = [0; row::SIZE];
        bytes[..row::SAS_LUN].copy_from_slice(&self.sas_address);
        bytes[row::SAS_LUN..row::OS].copy_from_slice(&self.sas_lun);
        bytes[row::OS..].copy_from_slice(&self.os);
        bytes
    }
}
