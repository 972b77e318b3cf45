//! Code 21 on a held phy beside the same on a phy that isn't held.

use super::{cases, set, FIRST, LINUX};
use crate::tests::adapter::cut;
use crate::{Phy, State};

/// An adapter of this phy.
fn adapter(phy: &Phy) -> State {
    let mut state = cut(1, 0);
    state.phys[0] = phy.clone();
    state
}

/// Every SATA phy, held, disabled or not, fixed or not, beside the same phy that isn't held: the
/// same code, and where it is accepted the same state.
#[test]
fn as_if_it_had_not_been_held() {
    let (mut accepted, mut refused) = (0, 0);
    for case in cases().into_iter().filter(|case| case.sata) {
        for (disabled, fixed) in [(false, 0), (true, 0), (false, 1), (true, 1)] {
            let mut free = case.phy.clone();
            free.fixed = fixed;
            let mut held = free.clone();
            held.spinup_hold = 1;
            held.entity[29] = case.held_rule();
            if disabled {
                (free.entity[29], held.entity[29]) = (1, 1);
            }
            let (free, held) = (adapter(&free), adapter(&held));
            for body in changes() {
                for header in [FIRST, LINUX] {
                    let (mut one, mut other) = (held.clone(), free.clone());
                    let code = set(&header, &mut one, body);
                    assert_eq!(code, set(&header, &mut other, body));
                    if code != 0 {
                        refused += 1;
                        assert_eq!(one, held);
                        continue;
                    }
                    accepted += 1;
                    assert_eq!(one, other);
                    assert_eq!(one.phys[0].spinup_hold, 0);
                    assert_ne!(one.phys[0].negotiated(), 3);
                }
            }
        }
    }
    assert!(accepted > 1_000 && refused > 1_000, "{accepted} {refused}");
}

/// Bodies of code 21 for phy 0, most of each kind.
fn changes() -> Vec<[u8; 8]> {
    let mut bodies = Vec::new();
    for negotiated in [0, 1, 2] {
        for minimum in [0, 3, 8, 9] {
            for maximum in [0, 3, 8, 9] {
                for class in [0, 3, 4] {
                    bodies.push([0, negotiated, minimum, maximum, class, 0, 0, 0]);
                }
            }
        }
    }
    bodies
}
