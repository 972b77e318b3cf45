//! The rules of counts, fields and rows, which a file and a state keep: each broken alone.

use super::breaks::*;
use super::one::{field, shared, Damage};
use crate::adapter::phy::Phy;
use crate::names::phy::*;
use crate::names::{rate, row, ENTITY, MAX_PHYS, MAX_ROWS};

fn no_device(phy: &Phy) -> bool {
    !phy.has_device()
}

fn other_device(phy: &Phy) -> bool {
    phy.has_device() && !phy.is_sata()
}

/// Held at spin-up, and neither disabled nor failed.
fn at_spinup_hold(phy: &Phy) -> bool {
    phy.negotiated() == rate::SATA_SPINUP_HOLD
}

pub const RULES: &[Damage] = &[
    field("no phys", |_, held| set(held, held.phy_count(), 0)),
    field("too many phys", |r, held| {
        set(held, held.phy_count(), r.within(MAX_PHYS + 1, 255) as u8)
    }),
    field("too many rows", |r, held| {
        set(held, held.row_count(), r.within(MAX_ROWS + 1, 255) as u8)
    }),
    field("phy identifier", |r, held| {
        in_phy(r, held, PHY_IDENTIFIER, |r, _, was| r.other_than(was))
    }),
    field("signal class", |r, held| {
        in_phy(r, held, SIGNAL_CLASS, |r, _, _| r.within(4, 255) as u8)
    }),
    field("port identifier", |r, held| {
        in_phy(r, held, PORT_IDENTIFIER, |r, p, _| r.within(p, 255) as u8)
    }),
    field("minimum rate code", |r, held| {
        rates(r, held, |r, min, max| (bad_code(r, min), max))
    }),
    field("maximum rate code", |r, held| {
        rates(r, held, |r, min, max| (min, bad_code(r, max)))
    }),
    field("programmed below hardware", |r, held| {
        rates(r, held, |_, _, _| (0x89, 0x99))
    }),
    field("programmed above hardware", |r, held| {
        rates(r, held, |_, _, _| (0x88, 0x98))
    }),
    field("programmed inverted", |r, held| {
        rates(r, held, |_, _, _| (0x98, 0x89))
    }),
    field("hardware inverted", |r, held| {
        rates(r, held, |_, _, _| (0x99, 0x88))
    }),
    field("attached device type", |r, held| {
        let at = place(r, held, |phy| {
            phy.has_device() && !holds_signature(phy) && !phy.has_spinup_hold()
        })?;
        set(held, at + ATTACHED, bad_type(r))
    }),
    field("attached bytes of no device", |r, held| {
        let at = place(r, held, no_device)?;
        spoil(r, held, at + ATTACHED + 1, at + ENTITY)
    }),
    field("signature bytes of no device", |r, held| {
        let at = place(r, held, no_device)?;
        spoil(r, held, at + SIGNATURE, at + HELD)
    }),
    field("signature held by no device", |r, held| {
        let at = place(r, held, no_device)?;
        set(held, at + HELD, 1)
    }),
    field("lowest rate of no device", |r, held| {
        let at = place(r, held, no_device)?;
        set(held, at + LOWEST, r.pick(&[1, 8, 9, 255]))
    }),
    field("highest rate of no device", |r, held| {
        let at = place(r, held, no_device)?;
        set(held, at + HIGHEST, r.pick(&[1, 8, 9, 255]))
    }),
    field("device rate code", |r, held| {
        device_rates(
            r,
            held,
            &[
                (7, 9),
                (0, 8),
                (8, 10),
                (0, 0),
                (9, 255),
                (10, 11),
                (9, 137),
            ],
        )
    }),
    field("device rates inverted", |r, held| {
        device_rates(r, held, &[(9, 8)])
    }),
    field("signature held", |r, held| {
        let at = place(r, held, holds_signature)?;
        set(held, at + HELD, r.within(2, 255) as u8)
    }),
    field("fixed", |r, held| {
        in_phy(r, held, FIXED, |r, _, _| r.within(2, 255) as u8)
    }),
    field("signature held without SATA", |r, held| {
        let at = place(r, held, other_device)?;
        set(held, at + HELD, 1)
    }),
    field("signature bytes without SATA", |r, held| {
        let at = place(r, held, other_device)?;
        spoil(r, held, at + SIGNATURE, at + HELD)
    }),
    field("signature bytes not held", |r, held| {
        let at = place(r, held, |phy| phy.is_sata() && !holds_signature(phy))?;
        spoil(r, held, at + SIGNATURE, at + HELD)
    }),
    field("spin-up hold of no device", |r, held| {
        let at = place(r, held, no_device)?;
        set(held, at + SPINUP_HOLD, r.pick(&[1, 2, 255]))
    }),
    field("spin-up hold without SATA", |r, held| {
        let n = some_phy(r, held, other_device)?;
        spinup_hold(held, n, 1)
    }),
    field("spin-up hold over 1", |r, held| {
        let n = some_phy(r, held, Phy::is_sata)?;
        let other = r.within(2, 255) as u8;
        spinup_hold(held, n, r.pick(&[2, 3, 255, other]))
    }),
    field("spin-up hold over 1, and a rate", |r, held| {
        let at = place(r, held, |phy| phy.is_sata() && phy.is_up())?;
        set(held, at + SPINUP_HOLD, r.within(2, 255) as u8)
    }),
    field("a rate beside a spin-up hold", |r, held| {
        let n = some_phy(r, held, at_spinup_hold)?;
        set(held, held.phy(n) + NEGOTIATED, held.adapter.phys[n].rate()?)
    }),
    field("rate 3 without a spin-up hold", |r, held| {
        let at = place(r, held, at_spinup_hold)?;
        set(held, at + SPINUP_HOLD, 0)
    }),
    field("rate 3 where the link rule fails", |r, held| {
        let at = place(r, held, |phy| phy.is_sata() && phy.rate().is_none())?;
        held.bytes[at + SPINUP_HOLD] = 1;
        set(held, at + NEGOTIATED, rate::SATA_SPINUP_HOLD)
    }),
    field("negotiated rate", negotiated),
    field("pinout", pinout),
    shared("shared SAS address and LUN", |r, held| {
        share(r, held, 0, row::OS)
    }),
    shared("shared OS bytes", |r, held| {
        share(r, held, row::OS, row::SIZE)
    }),
];
