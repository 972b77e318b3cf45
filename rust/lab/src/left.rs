//! What runs left: every field of the states but the level, every sector of the disks, and every block of the stages, where they differ.

use crate::state::*;
use labkit::adapter::{
    phy_value, CONNECTOR, CONTROLLER as CONTROLLER_FIELDS, DRIVER as DRIVER_FIELDS, PHY, ROW,
    STATUS as STATUS_FIELDS,
};
use labkit::field::Field;
use labkit::report::{bytes_differ, values_differ, Difference};

#[derive(Debug, Clone, Copy, PartialEq, Eq)]
pub enum Group {
    Tables,
    Counters,
    Rates,
    Sectors,
    Stage,
}

pub const GROUPS: [Group; 5] = [
    Group::Tables,
    Group::Counters,
    Group::Rates,
    Group::Sectors,
    Group::Stage,
];

impl Group {
    pub fn name(self) -> &'static str {
        match self {
            Group::Tables => "tables",
            Group::Counters => "counters",
            Group::Rates => "programmed rates",
            Group::Sectors => "sectors",
            Group::Stage => "stage",
        }
    }

    /// Its name for scripts.
    pub fn key(self) -> &'static str {
        match self {
            Group::Rates => "rates",
            _ => self.name(),
        }
    }

    /// The group of a field.
    fn of(field: &Field) -> Group {
        match field.name {
            "programmed-minimum" | "programmed-maximum" => Group::Rates,
            name if COUNTERS.contains(&name) => Group::Counters,
            _ => Group::Tables,
        }
    }
}

pub const COUNTERS: [&str; 4] = [
    "invalid-dword",
    "running-disparity",
    "loss-of-sync",
    "reset-problem",
];

/// A value that runs left differently.
pub struct Left {
    pub group: Group,
    pub difference: Difference,
}

/// Everything in which states (but for their levels), media and stages differ.
pub fn left(states: &[&[u8]], media: &[&[u8]], stages: &[&[u8]]) -> Vec<Left> {
    let mut found = Vec::new();
    let table = |difference| Left {
        group: Group::Tables,
        difference,
    };
    for (name, at) in [("number of phys", PHY_COUNT), ("number of rows", ROW_COUNT)] {
        let counts = parts(states, at, 1);
        found.extend(values_differ(name.to_string(), &counts, |s| s[0].to_string()).map(table));
    }
    let mut tables = |prefix: &str, fields_of: &[Field], at, size| {
        let structures = parts(states, at, size);
        let differ = fields(prefix, fields_of, &structures);
        found.extend(differ.map(|(field, difference)| Left {
            group: Group::of(field),
            difference,
        }));
    };
    tables("driver ", &DRIVER_FIELDS, DRIVER, DRIVER_SIZE);
    tables(
        "controller ",
        &CONTROLLER_FIELDS,
        CONTROLLER,
        CONTROLLER_SIZE,
    );
    tables("controller status ", &STATUS_FIELDS, STATUS, STATUS_SIZE);
    tables("firmware ", &STAGED_FIELDS, STAGED, STAGED_SIZE);
    for n in 0..PHYS {
        let phy = format!("phy {n} ");
        tables(&phy, &PHY, phy_at(n), PHY_SIZE);
        tables(&phy, &CONNECTOR, connector_at(n), CONNECTOR_SIZE);
    }
    for i in 0..ROWS {
        tables(&format!("row {i} "), &ROW, row_at(i), ROW_SIZE);
    }
    let sector = |(_, difference)| Left {
        group: Group::Sectors,
        difference,
    };
    found.extend(sectors(media).into_iter().map(sector));
    let block = |difference| Left {
        group: Group::Stage,
        difference,
    };
    found.extend(blocks(stages).into_iter().map(block));
    found
}

/// The blocks in which stages differ.
fn blocks(stages: &[&[u8]]) -> Vec<Difference> {
    let length = stages.iter().map(|stage| stage.len()).max().unwrap_or(0);
    let differ = |n: usize| {
        let blocks = parts(stages, n * BLOCK, BLOCK);
        bytes_differ(&format!("stage block {n}"), &blocks)
    };
    (0..length.div_ceil(BLOCK)).filter_map(differ).collect()
}

/// The fields of a table in which structures differ.
fn fields<'a>(
    prefix: &'a str,
    table: &'a [Field],
    structures: &'a [&[u8]],
) -> impl Iterator<Item = (&'a Field, Difference)> {
    table.iter().filter_map(move |field| {
        let name = format!("{prefix}{}", field.name);
        let difference = values_differ(name, structures, |s| phy_value(field, s))?;
        Some((field, difference))
    })
}

/// The sectors in which media differ, with their places.
pub fn sectors(media: &[&[u8]]) -> Vec<(usize, Difference)> {
    let length = media.iter().map(|medium| medium.len()).max().unwrap_or(0);
    let mut found = Vec::new();
    for at in (0..length).step_by(SECTOR) {
        let name = format!("phy {} LBA {}", at / DISK, at % DISK / SECTOR);
        let differ = bytes_differ(&name, &parts(media, at, SECTOR));
        found.extend(differ.map(|difference| (at, difference)));
    }
    found
}

#[cfg(test)]
mod tests {
    use super::*;
    use library::STATE_SIZE;
    use std::collections::BTreeSet;

    fn groups(found: &[Left]) -> Vec<Group> {
        found.iter().map(|left| left.group).collect()
    }

    /// Whatever byte of a state differs, it is shown; the level is not.
    #[test]
    fn every_byte_of_the_state_but_the_level() {
        let state = vec![0x11; STATE_SIZE];
        for at in 0..STATE_SIZE {
            let mut other = state.clone();
            other[at] = 0x2F;
            let found = left(&[&state, &other], &[], &[]);
            assert_eq!(found.is_empty(), at == LEVEL, "byte {at}");
        }
    }

    #[test]
    fn no_name_twice() {
        let found = left(&[&[0x11; STATE_SIZE], &[0x2E; STATE_SIZE]], &[], &[]);
        let names: BTreeSet<&str> = found.iter().map(|l| l.difference.what.as_str()).collect();
        assert_eq!(names.len(), found.len());
    }

    #[test]
    fn counters_rates_and_tables() {
        let state = vec![0; STATE_SIZE];
        let mut other = state.clone();
        (
            other[phy_at(1) + 64],
            other[phy_at(1) + 31],
            other[phy_at(1) + 29],
        ) = (7, 0x90, 1);
        let found = left(&[&state, &other], &[], &[]);
        assert_eq!(
            groups(&found),
            [Group::Tables, Group::Rates, Group::Counters]
        );
        let shown: Vec<&str> = found
            .iter()
            .map(|left| left.difference.what.as_str())
            .collect();
        assert_eq!(
            shown,
            [
                "phy 1 negotiated",
                "phy 1 programmed-maximum",
                "phy 1 invalid-dword"
            ]
        );
        assert_eq!(found[1].difference.values, ["0 (unknown)", "9 (3.0 Gb/s)"]);
    }

    /// The byte of a spin-up hold, on any phy, and the rate that goes with it.
    #[test]
    fn spinup_holds() {
        for n in [0, 1, 31] {
            let mut held = vec![0; STATE_SIZE];
            (held[phy_at(n) + 29], held[phy_at(n) + 104]) = (3, 1);
            let mut released = held.clone();
            (released[phy_at(n) + 29], released[phy_at(n) + 104]) = (9, 0);
            let found = left(&[&held, &released], &[], &[]);
            assert_eq!(groups(&found), [Group::Tables; 2]);
            let shown = |i: usize| {
                let Difference { what, values } = &found[i].difference;
                format!("{what}: {}", values.join(" | "))
            };
            assert_eq!(
                [shown(0), shown(1)],
                [
                    format!("phy {n} negotiated: 3 (spin-up hold) | 9 (3.0 Gb/s)"),
                    format!("phy {n} spin-up-hold: 1 | 0"),
                ]
            );
        }
    }

    #[test]
    fn controller_and_connectors() {
        let state = vec![0; STATE_SIZE];
        let mut other = state.clone();
        (
            other[CONTROLLER + 18],
            other[STATUS],
            other[connector_at(31) + 2],
        ) = (5, 1, 1);
        let found = left(&[&state, &other], &[], &[]);
        assert_eq!(groups(&found), [Group::Tables; 3]);
        let shown: Vec<String> = found
            .iter()
            .map(|left| {
                format!(
                    "{}: {}",
                    left.difference.what,
                    left.difference.values.join(" ")
                )
            })
            .collect();
        assert_eq!(
            shown,
            [
                "controller class: 0 5 (hba)",
                "controller status status: 0 1 (good)",
                "phy 31 pinout: 0 00010000h (sff-8484-lane-1)"
            ]
        );
    }

    /// What is staged, and the revisions that run.
    #[test]
    fn firmware() {
        let state = vec![0; STATE_SIZE];
        let mut other = state.clone();
        (
            other[STAGED],
            other[STAGED_REVISIONS + 1],
            other[STAGED_REVISIONS + 6],
            other[CONTROLLER + RUNNING],
        ) = (1, 1, 9, 2);
        let found = left(&[&state, &other], &[], &[]);
        assert_eq!(groups(&found), [Group::Tables; 4]);
        let shown = |left: &Left| {
            let Difference { what, values } = &left.difference;
            format!("{what}: {}", values.join(" | "))
        };
        assert_eq!(
            found.iter().map(shown).collect::<Vec<_>>(),
            [
                "controller major: 0 | 2",
                "firmware staged: 0 | 1",
                "firmware staged-major: 0 | 256",
                "firmware staged-release: 0 | 9",
            ]
        );
    }

    /// Whatever byte of a stage differs, its block is shown, under any number of runs.
    #[test]
    fn every_byte_of_the_stage() {
        let stage = vec![0; library::STAGE_SIZE];
        for at in 0..stage.len() {
            let mut other = stage.clone();
            other[at] = 1;
            let found = blocks(&[&stage, &stage, &stage, &other]);
            let place = format!("stage block {}, 1 byte", at / BLOCK);
            assert_eq!((found.len(), &found[0].what), (1, &place));
        }
        let found = left(&[], &[], &[&stage, &[0x5A; library::STAGE_SIZE]]);
        assert_eq!(groups(&found), [Group::Stage; 32]);
        assert_eq!(found[31].difference.values, ["00*512", "5A*512"]);
    }

    #[test]
    fn every_sector() {
        let medium = vec![0; 2 * DISK];
        for at in (0..medium.len()).step_by(300) {
            let mut other = medium.clone();
            other[at] = 1;
            let found = sectors(&[&medium, &medium, &other]);
            assert_eq!(found.len(), 1);
            let place = format!("phy {} LBA {}, 1 byte", at / DISK, at % DISK / SECTOR);
            assert_eq!(found[0].1.what, place);
        }
    }
}
