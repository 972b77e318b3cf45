//! What the folders had, by what was printed: a comparison says nothing of what it did not meet.

use crate::firmware::Firmware;
use crate::folder::Folder;
use labkit::report::{Totals, Transcript, COUNTED};

/// The numbers with which an opening of the program refuses.
const REFUSALS: std::ops::RangeInclusive<u32> = 101..=105;

/// More requests than a byte counts.
const LONG: u64 = 256;

#[derive(Default)]
pub struct Met {
    openings: Vec<u32>,
    whole: usize,
    cut: usize,
    empty: usize,
    cut_first: usize,
    long: usize,
    totals: [u64; COUNTED.len()],
    firmware: Firmware,
}

impl Met {
    /// Notes what was printed in a folder.
    pub fn see(&mut self, folder: &Folder, printed: &str) {
        match Transcript::parse(printed).expect("the kit reads what the model prints") {
            Transcript::Refused(number) => self.openings.push(number),
            Transcript::Run { answers, cut } => {
                self.firmware.see(&folder.requests(answers.len()), &answers);
                self.see_run(Totals::of(&answers), cut);
            }
        }
    }

    fn see_run(&mut self, totals: Totals, cut: bool) {
        let requests = totals.0[0];
        self.whole += usize::from(!cut && requests > 0);
        self.cut += usize::from(cut && requests > 0);
        self.empty += usize::from(!cut && requests == 0);
        self.cut_first += usize::from(cut && requests == 0);
        self.long += usize::from(requests >= LONG);
        for (sum, number) in self.totals.iter_mut().zip(totals.0) {
            *sum += number;
        }
    }

    /// What was not met.
    pub fn missing(&self) -> Vec<String> {
        let sessions = [
            (self.whole, "a whole session"),
            (self.cut, "a session cut behind requests"),
            (self.empty, "an empty session"),
            (self.cut_first, "a session cut in its first request"),
            (self.long, "a session of 256 requests"),
        ];
        let openings = REFUSALS.filter(|number| !self.openings.contains(number));
        let sessions = sessions.into_iter().filter(|(count, _)| *count == 0);
        let kinds = COUNTED.iter().zip(self.totals);
        let kinds = kinds.filter(|(_, sum)| *sum == 0);
        openings
            .map(|number| format!("open {number}"))
            .chain(sessions.map(|(_, what)| what.to_string()))
            .chain(kinds.map(|(name, _)| format!("any {name}")))
            .chain(self.firmware.missing())
            .collect()
    }
}

#[cfg(test)]
mod tests {
    use super::*;
    use crate::{FOLDERS, SEED};

    #[test]
    fn nothing_was_met() {
        let missing = Met::default().missing();
        let expected = [
            "open 101",
            "open 102",
            "open 103",
            "open 104",
            "open 105",
            "a whole session",
            "a session cut behind requests",
            "an empty session",
            "a session cut in its first request",
            "a session of 256 requests",
            "any requests",
            "any granted",
            "any denied",
            "any otherwise refused",
            "any 100s",
            "Validation with code 0",
            "Validation with code 4",
            "WrongImage with code 1",
            "WrongLength with code 3",
            "Bytes with code 3",
            "Commit with code 0",
            "Commit with code 1",
            "Commit with code 4",
        ];
        assert_eq!(missing, expected);
    }

    /// Without the long session, and without a simulator.
    #[test]
    fn the_usual_seeds_meet_all() {
        let mut met = Met::default();
        for seed in SEED..SEED + FOLDERS {
            let folder = Folder::of_seed(seed);
            met.see(&folder, &folder.expected());
        }
        assert_eq!(met.missing(), [""; 0]);
    }
}
