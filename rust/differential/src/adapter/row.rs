//! Rows of an adapter. Many are alike but for one part, so that a search has to look at every byte.

use super::phy::Phy;
use crate::names::row::{OS, SAS_LUN, SIZE};
use crate::random::Random;

/// SAS address 8, SAS LUN 8, host index, path, target, LUN.
pub type Row = [u8; SIZE];

/// Rows of which no two share SAS address and LUN, nor all four OS bytes.
pub fn distinct(random: &mut Random, count: usize, phys: &[Phy]) -> Vec<Row> {
    let mut rows: Vec<Row> = Vec::with_capacity(count);
    while rows.len() < count {
        let row = candidate(random, &rows, phys);
        if !rows.iter().any(|other| shares(other, &row)) {
            rows.push(row);
        }
    }
    rows
}

fn shares(one: &Row, other: &Row) -> bool {
    one[..OS] == other[..OS] || one[OS..] == other[OS..]
}

/// A random row, or one that differs little from a row before it.
fn candidate(random: &mut Random, rows: &[Row], phys: &[Phy]) -> Row {
    let mut row: Row = random.array();
    if !rows.is_empty() && random.one_in(2) {
        row = random.pick(rows);
        let sas = random.below(OS);
        row[sas] = random.byte();
        let os = random.within(OS, SIZE - 1);
        row[os] = random.byte();
    } else if random.one_in(2) {
        let phy = &phys[random.below(phys.len())];
        row[..SAS_LUN].copy_from_slice(&phy.attached_address());
    }
    row
}
