//! The rules of counts, fields and rows: an opening holds the file to them, a request its state.

use crate::bytes::all_zero;
use crate::codes::{device, pinout, rate};
use crate::layout::{entity, MAX_PHYS, MAX_ROWS};
use crate::level::Level;
use crate::link;
use crate::state::{Connector, Phy, Row, State};

pub const MAX_CLASS: u8 = 3;

/// "the phy count p (1–32)", "the row count a (0–64)".
pub fn counts_are_sound(p: u8, a: u8) -> bool {
    (1..=MAX_PHYS).contains(&usize::from(p)) && usize::from(a) <= MAX_ROWS
}

/// The field rules, for every phy below p and its connector.
pub fn fields_are_sound(state: &State) -> bool {
    state
        .live_phys()
        .iter()
        .zip(0..)
        .all(|(phy, n)| phy_is_sound(phy, n, state.p))
        && state.live_connectors().iter().all(connector_is_sound)
}

/// The field rules of phy n. "Negotiated rate is 1 (disabled) or what the link rule gives", of a phy
/// held at spin-up too.
fn phy_is_sound(phy: &Phy, n: u8, p: u8) -> bool {
    phy.entity[entity::PHY_IDENTIFIER] == n
        && phy.entity[entity::SIGNAL_CLASS] <= MAX_CLASS
        && phy.port() < p
        && phy.held <= 1
        && phy.fixed <= 1
        && rates_are_sound(phy)
        && attached_is_sound(phy)
        && signature_is_sound(phy)
        && spinup_hold_is_sound(phy)
        && (phy.negotiated() == rate::DISABLED || phy.negotiated() == link::rule_of(phy))
}

/// "hardware minimum ≤ programmed minimum ≤ programmed maximum ≤ hardware maximum".
fn rates_are_sound(phy: &Phy) -> bool {
    let (programmed, hardware) = (phy.programmed(), phy.hardware());
    programmed.is_sound() && hardware.is_sound() && programmed.is_within(hardware)
}

/// "With none, the 28 Attached bytes, bytes 80–100 and the device rates are 0; otherwise
/// lowest ≤ highest, each 8 or 9."
fn attached_is_sound(phy: &Phy) -> bool {
    match phy.device_type() {
        device::NONE => {
            all_zero(phy.attached())
                && all_zero(&phy.signature)
                && phy.held == 0
                && phy.lowest == 0
                && phy.highest == 0
        }
        device::END | device::EDGE_EXPANDER | device::FANOUT_EXPANDER => phy.device().is_sound(),
        _ => false,
    }
}

/// "only it may hold a signature, and bytes 80–99 are 0 if it holds none": as only "a held
/// signature" is free, one that isn't held is 0 on every phy.
fn signature_is_sound(phy: &Phy) -> bool {
    match phy.held {
        0 => all_zero(&phy.signature),
        _ => phy.is_sata(),
    }
}

/// "Byte 104 of a phy block, so far 0, may be 1 on a SATA phy" (W-205), also on one that is
/// disabled, failed or fixed.
fn spinup_hold_is_sound(phy: &Phy) -> bool {
    match phy.spinup_hold {
        0 => true,
        1 => phy.is_sata(),
        _ => false,
    }
}

/// "free but for pinout bits outside section 10's pinout constants" (W-204).
fn connector_is_sound(connector: &Connector) -> bool {
    connector.pinout() & !pinout::ALL == 0
}

/// "No two rows share SAS address and LUN; no two share all four OS bytes."
pub fn rows_are_distinct(rows: &[Row]) -> bool {
    rows.iter().enumerate().all(|(i, row)| {
        rows[..i].iter().all(|other| {
            other.os != row.os
                && (other.sas_address != row.sas_address || other.sas_lun != row.sas_lun)
        })
    })
}

/// Not 107: "the state breaks the p, a, field or row rules, has a level over 3, or isn't zero
/// past p and a"; and by W-207 also what is staged.
pub fn state_is_sound(state: &State) -> bool {
    counts_are_sound(state.p, state.a)
        && state.level <= Level::Full as u8
        && fields_are_sound(state)
        && rows_are_distinct(state.live_rows())
        && is_zero_past_counts(state)
        && staged_is_sound(state)
}

/// "the state holds that, with its revisions (0 when nothing is staged, or it is 107)" (W-207). The
/// revisions of a staged image may be 0 too.
fn staged_is_sound(state: &State) -> bool {
    match state.staged {
        0 => state.staged_revisions == [0; 4],
        1 => true,
        _ => false,
    }
}

fn is_zero_past_counts(state: &State) -> bool {
    state.phys[state.live_phys().len()..]
        .iter()
        .all(|phy| *phy == Phy::ZERO)
        && state.rows[state.live_rows().len()..]
            .iter()
            .all(|row| *row == Row::ZERO)
        && state.connectors[state.live_connectors().len()..]
            .iter()
            .all(|connector| *connector == Connector::ZERO)
}
