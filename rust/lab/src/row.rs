//! One request in all runs.

use crate::answer::Answer;
use crate::run::Run;
use labkit::report::{differences, Difference};

/// How many parts of replies are shown of a request.
const PARTS: usize = 8;

/// One request: what each run answered, and in what the whole replies differ.
pub struct Row {
    pub answers: Vec<Answer>,
    /// For each run the first run that gave the same reply.
    like: Vec<usize>,
    /// Runs with the same answer gave other replies.
    pub behind: bool,
    /// Parts of the replies that differ: where runs with the same answer gave other replies, between these; else between all.
    pub differences: Vec<Difference>,
    /// Of a Linux request that got past its header's checks: for each run, whether it needs more than the run's level.
    above: Vec<bool>,
}

impl Row {
    /// The last request of the runs, and which of them were below what it needs.
    pub fn of(runs: &[Run], above: Vec<bool>) -> Row {
        let like: Vec<usize> = runs
            .iter()
            .map(|run| first(runs, |other| run.replied_as(other)))
            .collect();
        let answers: Vec<Answer> = runs.iter().map(Run::answer).collect();
        let alike: Vec<usize> = answers
            .iter()
            .map(|answer| first(&answers, |other| answer == other))
            .collect();
        let behind = (0..runs.len()).any(|run| like[run] != like[alike[run]]);
        let mut row = Row {
            answers,
            like,
            behind,
            differences: Vec::new(),
            above,
        };
        if row.differs() {
            let replies: Vec<&[u8]> = runs.iter().map(|run| run.reply.as_slice()).collect();
            let all = vec![0; runs.len()];
            let like = if behind { &alike } else { &all };
            row.differences = differences(runs[0].header, &replies, like, PARTS);
        }
        row
    }

    pub fn differs(&self) -> bool {
        self.like.iter().any(|first| *first != 0)
    }

    /// Whether it is a Linux request that got past its header's checks, as far as was asked.
    pub fn passed(&self) -> bool {
        !self.above.is_empty()
    }

    /// Whether a Linux request needs more than the level of a run.
    pub fn is_above(&self, run: usize) -> bool {
        self.above.get(run).is_some_and(|above| *above)
    }

    /// Whether the replies of two runs differ.
    pub fn differs_between(&self, one: usize, other: usize) -> bool {
        self.like[one] != self.like[other]
    }
}

/// The first of a list for which a test holds.
fn first<T>(list: &[T], test: impl Fn(&T) -> bool) -> usize {
    list.iter().position(test).unwrap_or(0)
}
