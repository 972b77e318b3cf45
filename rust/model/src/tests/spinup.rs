//! Disks held at spin-up (W-205): byte 104 of a phy's block, its rules in file and state, what a
//! held phy answers, and how code 21 releases it.

mod beside;
mod file;
mod refused;
mod release;
mod replies;
mod rule;
mod runs;
mod state;

use super::headers::{Header, FIRST, LINUX};
use crate::tests::adapter::{attach, bare, medium, stage};
use crate::{Phy, State};

/// Attached device types and target protocols, and whether that is a SATA phy.
const DEVICES: [(u8, u8, bool); 10] = [
    (0x10, 0x01, true),
    (0x10, 0x05, true),
    (0x10, 0xFF, true),
    (0x10, 0x00, false),
    (0x10, 0x08, false),
    (0x10, 0xFE, false),
    (0x20, 0x02, false),
    (0x20, 0x03, false),
    (0x30, 0x02, false),
    (0x30, 0x01, false),
];

/// A programmed range, a device's, and the highest rate inside both, or 2.
const LINKS: [([u8; 2], [u8; 2], u8); 9] = [
    ([8, 8], [8, 8], 8),
    ([8, 8], [8, 9], 8),
    ([8, 8], [9, 9], 2),
    ([8, 9], [8, 8], 8),
    ([8, 9], [8, 9], 9),
    ([8, 9], [9, 9], 9),
    ([9, 9], [8, 8], 2),
    ([9, 9], [8, 9], 9),
    ([9, 9], [9, 9], 9),
];

/// Phy, byte 104 and negotiated rate of the sample, and whether it may have them: phy 1 has no
/// device, 2 an expander.
fn sample_rates() -> Vec<(usize, u8, u8, bool)> {
    let mut all = Vec::new();
    for (n, rate) in [9, 0, 9, 8, 9].into_iter().enumerate() {
        for hold in 0..=255 {
            for negotiated in [0, 1, 2, 3, 8, 9] {
                let sound = match hold {
                    0 => negotiated == 1 || negotiated == rate,
                    1 => [0, 3, 4].contains(&n) && matches!(negotiated, 1 | 3),
                    _ => false,
                };
                all.push((n, hold, negotiated, sound));
            }
        }
    }
    all
}

/// A phy 0 on port 0, with what the link rule gives for it when it isn't held.
struct Case {
    phy: Phy,
    sata: bool,
    rule: u8,
}

/// Every device on every link, and no device.
fn cases() -> Vec<Case> {
    let mut cases = vec![Case {
        phy: bare(0, 0),
        sata: false,
        rule: 0,
    }];
    for (device_type, protocols, sata) in DEVICES {
        for (programmed, device, rule) in LINKS {
            let mut phy = attach(bare(0, 0), device_type, protocols, device[0], device[1]);
            let rates = [16 * programmed[0] + 8, 16 * programmed[1] + 9];
            phy.entity[29..32].copy_from_slice(&[rule, rates[0], rates[1]]);
            cases.push(Case { phy, sata, rule });
        }
    }
    cases
}

impl Case {
    /// What the link rule gives when byte 104 is 1.
    fn held_rule(&self) -> u8 {
        match self.rule {
            8 | 9 => 3,
            other => other,
        }
    }

    /// Whether the phy may have this byte 104 with this negotiated rate.
    fn allows(&self, hold: u8, negotiated: u8) -> bool {
        match hold {
            0 => negotiated == 1 || negotiated == self.rule,
            1 => self.sata && (negotiated == 1 || negotiated == self.held_rule()),
            _ => false,
        }
    }
}

/// Sends a code 21 with this body and returns its code; an accepted one leaves body, medium and
/// stage.
fn set(header: &Header, state: &mut State, body: [u8; 8]) -> u32 {
    let mut disk = medium(state.p);
    let mut lent = stage();
    let (code, reply) = header.answer(state, &mut disk, &mut lent, 21, &body);
    assert_eq!(lent, stage());
    assert_eq!((&reply[..], disk), (&body[..], medium(state.p)));
    code
}
