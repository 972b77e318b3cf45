//! What a state alone can have.

use super::breaks::*;
use super::one::{of_state, Damage};
use crate::names::phy::*;
use crate::names::{connector, row, state, ENTITY, MAX_PHYS, MAX_ROWS};

/// A level over 3, bytes past p and a, counts that are not those of its phys and rows, and a wrong staged image.
pub const STATE: &[Damage] = &[
    of_state("level over 3", |r, held| {
        set(held, state::LEVEL, r.within(4, 255) as u8)
    }),
    of_state("no phys, and nothing past them", |_, held| {
        held.bytes[state::PHYS..state::ROWS].fill(0);
        held.bytes[state::CONNECTORS..state::STAGED].fill(0);
        set(held, state::PHY_COUNT, 0)
    }),
    of_state("33 phys, where 32 are there", |r, held| {
        let p = MAX_PHYS + r.pick(&[1, 2, 32, 223]);
        (held.p() == MAX_PHYS).then(|| held.bytes[state::PHY_COUNT] = p as u8)
    }),
    of_state("65 rows, where 64 are there", |r, held| {
        let a = MAX_ROWS + r.pick(&[1, 2, 64, 191]);
        (held.a() == MAX_ROWS).then(|| held.bytes[state::ROW_COUNT] = a as u8)
    }),
    of_state("p below the phys that are there", |r, held| {
        let p = held.p();
        (p > 1).then(|| held.bytes[state::PHY_COUNT] = r.within(1, p - 1) as u8)
    }),
    of_state("p beyond the phys that are there", |r, held| {
        let p = held.p();
        (p < MAX_PHYS).then(|| held.bytes[state::PHY_COUNT] = r.within(p + 1, MAX_PHYS) as u8)
    }),
    of_state("a below the rows that are there", |r, held| {
        let a = held.a();
        let last = held.row(a.max(1) - 1);
        let zero = held.bytes[last..last + row::SIZE] == [0; row::SIZE];
        (a > 0 && !zero).then(|| held.bytes[state::ROW_COUNT] = r.below(a) as u8)
    }),
    of_state(
        "a beyond the rows that are there, by two of zeros",
        |r, held| {
            let a = held.a() + 2;
            (a <= MAX_ROWS).then(|| held.bytes[state::ROW_COUNT] = r.within(a, MAX_ROWS) as u8)
        },
    ),
    of_state("staged over 1", |r, held| {
        let other = r.within(2, 255) as u8;
        set(held, state::STAGED, r.pick(&[2, 3, 255, other]))
    }),
    of_state("staged over 1, with revisions", |r, held| {
        spoil(r, held, state::STAGED_REVISIONS, state::SIZE)?;
        set(held, state::STAGED, r.within(2, 255) as u8)
    }),
    of_state("revisions of nothing staged", |r, held| {
        spoil(r, held, state::STAGED_REVISIONS, state::SIZE)
    }),
    of_state("entity past p", |r, held| past_phys(r, held, 0, ENTITY)),
    of_state("counter past p", |r, held| {
        past_phys(r, held, COUNTERS, SIGNATURE)
    }),
    of_state("signature past p", |r, held| {
        past_phys(r, held, SIGNATURE, HELD)
    }),
    of_state("signature held past p", |r, held| {
        past_phys(r, held, HELD, FIXED)
    }),
    of_state("fixed past p", |r, held| past_phys(r, held, FIXED, LOWEST)),
    of_state("lowest rate past p", |r, held| {
        past_phys(r, held, LOWEST, HIGHEST)
    }),
    of_state("highest rate past p", |r, held| {
        past_phys(r, held, HIGHEST, SPINUP_HOLD)
    }),
    of_state("spin-up hold past p", |r, held| {
        past_phys(r, held, SPINUP_HOLD, SIZE)
    }),
    of_state("SAS address past a", |r, held| {
        past_rows(r, held, 0, row::SAS_LUN)
    }),
    of_state("SAS LUN past a", |r, held| {
        past_rows(r, held, row::SAS_LUN, row::OS)
    }),
    of_state("OS bytes past a", |r, held| {
        past_rows(r, held, row::OS, row::SIZE)
    }),
    of_state("pinout past p", |r, held| {
        past_connectors(r, held, connector::PINOUT, connector::PINOUT + 4)
    }),
    of_state("the rest of a connector past p", |r, held| {
        past_connectors(r, held, connector::PINOUT + 4, connector::SIZE)
    }),
    of_state("a connector past p", |_, held| {
        let p = held.p();
        let (from, to) = (held.connector(p - 1), held.connector(p));
        let zero = held.bytes[from..to] == [0; connector::SIZE];
        (p < MAX_PHYS && !zero).then(|| held.bytes.copy_within(from..to, to))
    }),
];
