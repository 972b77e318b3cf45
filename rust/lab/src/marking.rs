//! An exercise run under its levels, request by request through the library, and what differs between the runs.

use crate::asked::{twin, Asked, Twin};
use crate::beside::Beside;
use crate::exercise::Exercise;
use crate::firmware::Firmware;
use crate::front::Front;
use crate::left::{self, Group, Left};
use crate::level;
use crate::linux;
use crate::progress::Progress;
use crate::replies::Replies;
use crate::row::Row;
use crate::run::Run;
use crate::verdict;
use labkit::adapter::{warnings as adapter_warnings, PROGRAM_PHYS};
use labkit::report::{Difference, Totals};
use labkit::session::{Request, Session, STP_PASSTHRU};
use std::collections::HashSet;
use std::path::Path;

pub struct Marking<'a> {
    pub exercise: &'a Exercise,
    pub requests: Vec<Request<'a>>,
    /// How many of them have the Linux header.
    pub linux: usize,
    /// The runs as they ended.
    pub runs: Vec<Run>,
    /// Whether the session was run. One without requests is, too.
    pub was_run: bool,
    pub rows: Vec<Row>,
    /// The lines of the front page that the session asked for, with each run's words.
    pub front: Vec<Difference>,
    pub left: Vec<Left>,
    /// Where the session is cut.
    pub cut: Option<String>,
    pub warnings: Vec<String>,
    /// Whether the higher run without the requests denied in the lower one was the lower run, where that was tried.
    pub explained: Option<bool>,
    /// Why there is no mark.
    pub no_mark: Option<String>,
}

/// How much runs left differently.
pub struct Counts {
    pub values: usize,
    pub sectors: usize,
    /// Of the stage.
    pub blocks: usize,
}

impl<'a> Marking<'a> {
    /// Runs an exercise; the replies go to a folder if one is named.
    pub fn of(exercise: &'a Exercise, folder: Option<&Path>) -> Result<Marking<'a>, String> {
        Marking::by_twins(exercise, folder, twin)
    }

    /// Runs an exercise whose Linux requests are asked about by these twins.
    pub fn by_twins(
        exercise: &'a Exercise,
        folder: Option<&Path>,
        twin: Twin,
    ) -> Result<Marking<'a>, String> {
        let session = exercise.form.split(&exercise.session.bytes);
        let medium = exercise.medium();
        let open = |run, text: &[u8]| Run::open(run, text, &exercise.adapter.bytes, &medium);
        let runs: Vec<Run> = exercise
            .texts
            .iter()
            .map(|text| open(text.run, &text.bytes))
            .collect();
        let not_run = verdict::not_run(exercise, &runs);
        let was_run = not_run.is_none();
        let no_mark = not_run.or_else(|| verdict::nothing_sent(exercise, &session));
        let mut marking = Marking {
            exercise,
            linux: session.linux(),
            cut: where_cut(&session, exercise),
            warnings: warnings(exercise, &runs, &session),
            requests: session.requests,
            runs,
            was_run,
            rows: Vec::new(),
            front: Vec::new(),
            left: Vec::new(),
            explained: None,
            no_mark,
        };
        if marking.no_mark.is_none() {
            let two = exercise.texts.len() == 2;
            let without = two.then(|| open("high", &exercise.texts[1].bytes));
            let asked = Asked::new(open("None", b"CSMI=None;"), twin);
            let replies = folder.map(|folder| Replies::create(folder, &marking));
            let replies = replies.transpose()?;
            marking.run(Beside::new(asked, without), replies)?;
        }
        Ok(marking)
    }

    /// Sends every request to every run.
    fn run(&mut self, mut beside: Beside, mut replies: Option<Replies>) -> Result<(), String> {
        let mut progress = Progress::new(self.requests.len());
        let mut front = Front::new(self.runs.len());
        for (i, request) in self.requests.iter().enumerate() {
            let above = beside.above(request, &self.runs);
            self.runs.iter_mut().for_each(|run| run.handle(request));
            front.see(request, &self.runs);
            let row = Row::of(&self.runs, above);
            beside.handle(request, &row, &self.runs[0]);
            if let Some(replies) = &mut replies {
                replies.add(request, &self.runs)?;
            }
            self.rows.push(row);
            progress.at(i + 1);
        }
        progress.end();
        self.front = front.lines(self.exercise.phys());
        self.left = self.left_behind();
        self.explained = beside.explained(&self.runs[0]);
        let contradiction = linux::contradiction(self);
        self.no_mark = verdict::after(contradiction, beside.past_header(), self.explained);
        self.warnings.extend(linux::warning(self));
        replies.map_or(Ok(()), |replies| replies.end(&self.runs))
    }

    fn left_behind(&self) -> Vec<Left> {
        let each = |part: fn(&Run) -> &[u8]| self.runs.iter().map(part).collect::<Vec<_>>();
        let (states, media) = (each(|run| &run.state), each(|run| &run.medium));
        left::left(&states, &media, &each(|run| &run.stage))
    }

    /// The tally of each run; nothing where the session was not run.
    pub fn tallies(&self) -> Vec<Totals> {
        let tallied = self.runs.iter().filter(|_| self.was_run);
        tallied.map(Run::tally).collect()
    }

    /// The firmware of each run at its end; nothing where the session was not run.
    pub fn firmware(&self) -> Vec<Firmware> {
        let ended = self.runs.iter().filter(|_| self.was_run);
        ended.map(Firmware::of).collect()
    }

    /// How many blocks of its stage each run wrote; nothing where the session was not run.
    pub fn written(&self) -> Vec<usize> {
        let ended = self.runs.iter().filter(|_| self.was_run);
        ended.map(Run::written).collect()
    }

    pub fn differing(&self) -> usize {
        self.rows.iter().filter(|row| row.differs()).count()
    }

    /// How many requests a run denied.
    pub fn denied(&self, run: usize) -> usize {
        self.rows
            .iter()
            .filter(|row| row.answers[run].is_denied())
            .count()
    }

    /// Whether some request has the Linux header.
    pub fn has_linux(&self) -> bool {
        self.linux > 0
    }

    /// How many Linux requests need more than the level of a run. It grants them, as Full.
    pub fn above(&self, run: usize) -> usize {
        self.rows.iter().filter(|row| row.is_above(run)).count()
    }

    /// How many replies differ between two runs.
    pub fn between(&self, one: usize, other: usize) -> usize {
        let differs = |row: &&Row| row.differs_between(one, other);
        self.rows.iter().filter(differs).count()
    }

    /// How many values, sectors and blocks of the stage differ at the end.
    pub fn left_counts(&self) -> Counts {
        let of = |group| self.left.iter().filter(|left| left.group == group).count();
        let (sectors, blocks) = (of(Group::Sectors), of(Group::Stage));
        Counts {
            values: self.left.len() - sectors - blocks,
            sectors,
            blocks,
        }
    }

    /// 0 no difference, 1 differences or Linux requests that need more than the lowest level, 2 no mark.
    pub fn status(&self) -> u8 {
        let seen = self.differing() + self.left.len() + self.above(0);
        match (&self.no_mark, seen) {
            (Some(_), _) => 2,
            (None, 0) => 0,
            (None, _) => 1,
        }
    }
}

fn where_cut(session: &Session, exercise: &Exercise) -> Option<String> {
    let before = exercise.session.bytes.len() - session.tail.len();
    (!session.is_whole()).then(|| verdict::cut(session, before))
}

fn warnings(exercise: &Exercise, runs: &[Run], session: &Session) -> Vec<String> {
    let mut found: Vec<String> = exercise.warnings().cloned().collect();
    if runs.iter().all(|run| run.opening == 0) {
        found.extend(level::warnings(&exercise.texts, runs));
    }
    let phys = exercise.phys();
    if phys > PROGRAM_PHYS {
        found.push(format!(
            "{phys} phys: the program simulator takes up to {PROGRAM_PHYS} and refuses this adapter with 104; the library, which runs here, takes 32"
        ));
    }
    let asked = addresses(session);
    found.extend(adapter_warnings(&exercise.adapter.bytes, |address| {
        asked.contains(address)
    }));
    found
}

/// The SAS addresses that the session sends ATA commands to.
fn addresses<'a>(session: &Session<'a>) -> HashSet<&'a [u8]> {
    let passed = |request: &&Request| request.control() == Some(STP_PASSTHRU);
    let destination = |request: &Request<'a>| request.body()?.get(4..12);
    session
        .requests
        .iter()
        .filter(passed)
        .filter_map(destination)
        .collect()
}
