//! Firmware at the end of a run: the revisions that run, and those of an image that is staged.

use crate::run::Run;
use crate::state::{CONTROLLER, REVISIONS_SIZE, RUNNING, STAGED, STAGED_REVISIONS};
use labkit::adapter::revision_words;

/// Revisions in words, as `1.26.0.0`.
#[derive(Debug, PartialEq, Eq)]
pub struct Firmware {
    pub running: String,
    /// None if nothing is staged.
    pub staged: Option<String>,
}

impl Firmware {
    pub fn of(run: &Run) -> Firmware {
        let words = |at: usize| revision_words(&run.state[at..at + REVISIONS_SIZE]);
        Firmware {
            running: words(CONTROLLER + RUNNING),
            staged: (run.state[STAGED] != 0).then(|| words(STAGED_REVISIONS)),
        }
    }
}

#[cfg(test)]
mod tests {
    use super::*;

    #[test]
    fn revisions_in_words() {
        let adapter = labkit::adapter::parse("controller major=1 minor=26\nphy\n").unwrap();
        let medium = vec![0; crate::state::DISK];
        let mut run = Run::open("low", b"CSMI=Limited;", &adapter, &medium);
        let opened = Firmware::of(&run);
        assert_eq!((opened.running.as_str(), opened.staged), ("1.26.0.0", None));
        // an image may have revisions 0
        run.state[STAGED] = 1;
        assert_eq!(Firmware::of(&run).staged, Some("0.0.0.0".to_string()));
        run.state[STAGED_REVISIONS..STAGED_REVISIONS + 8]
            .copy_from_slice(&[2, 0, 1, 1, 3, 0, 0xFF, 0xFF]);
        assert_eq!(Firmware::of(&run).staged, Some("2.257.3.65535".to_string()));
    }
}
