//! A marking as a person or a script reads it.

mod csv;
mod escape;
mod html;
mod json;
mod text;

pub use csv::csv;
pub use html::html;
pub use json::json;
pub use text::text;

use crate::firmware::Firmware;
use crate::left::Group;
use crate::level;
use crate::linux;
use crate::marking::{Counts, Marking};
use crate::row::Row;
use labkit::names::level_name;
use labkit::report::{Difference, COUNTED};
use labkit::session::{Header, Request};

/// The mark in one line, or why there is none.
fn verdict(marking: &Marking) -> String {
    if let Some(reason) = &marking.no_mark {
        return format!("no mark: {reason}");
    }
    let (differ, all) = (marking.differing(), marking.rows.len());
    let denied = match &marking.runs[..] {
        [_, _] => format!("{} denied low", marking.denied(0)),
        runs => {
            let each = |i: usize| format!("{} {}", marking.denied(i), runs[i].name);
            format!(
                "denied: {}",
                (0..runs.len()).map(each).collect::<Vec<_>>().join(", ")
            )
        }
    };
    let denied = [Some(denied), linux::in_mark(marking)];
    let denied: Vec<String> = denied.into_iter().flatten().collect();
    let up_to = match marking.cut {
        Some(_) => " up to the cut",
        None => "",
    };
    format!(
        "mark: {differ} of {all}{up_to} differ, {}; {}",
        denied.join(", "),
        left_words(marking)
    )
}

/// What is said where the session was not run.
const NO_TALLY: &str = "no tally: the session was not run";

/// The tally, a line for each number with that of each run; nothing where the session was not run.
fn tally(marking: &Marking) -> Vec<Difference> {
    let tallies = marking.tallies();
    let line = |(i, name): (usize, &&str)| Difference {
        what: name.to_string(),
        values: tallies.iter().map(|tally| tally.0[i].to_string()).collect(),
    };
    let lines = COUNTED.iter().enumerate().map(line);
    lines.filter(|line| !line.values.is_empty()).collect()
}

/// What is said where the session was not run.
const NO_FIRMWARE: &str = "no firmware: the session was not run";
/// What stands for an image where nothing is staged.
const NOT_STAGED: &str = "none";

/// The firmware of each run at its end: what runs, and what is staged; nothing where the session was not run.
fn firmware(marking: &Marking) -> Vec<Difference> {
    let ends = marking.firmware();
    let staged = |end: &Firmware| end.staged.clone().unwrap_or(NOT_STAGED.to_string());
    let lines = [
        (
            "running",
            ends.iter().map(|end| end.running.clone()).collect(),
        ),
        ("staged", ends.iter().map(staged).collect::<Vec<_>>()),
    ];
    let line = |(what, values): (&str, Vec<String>)| Difference {
        what: what.to_string(),
        values,
    };
    let lines = lines.into_iter().map(line);
    lines.filter(|line| !line.values.is_empty()).collect()
}

/// What is said of stages that are the same.
const STAGES_SAME: &str = "the stages are the same";

/// Whether the runs left the same stages, and if so how much was written there.
fn stages(marking: &Marking) -> String {
    match (marking.left_counts().blocks, written(marking)) {
        (0, None) => STAGES_SAME.to_string(),
        (0, Some(written)) => format!("{STAGES_SAME}, {written}"),
        (blocks, _) => format!("the stages differ in {}", counted(blocks, "block")),
    }
}

/// How much the runs wrote to stages that are the same: `2 blocks written`; nothing where they wrote none, or differ.
fn written(marking: &Marking) -> Option<String> {
    let blocks = marking.written().into_iter().next()?;
    let same = marking.left_counts().blocks == 0;
    (same && blocks > 0).then(|| format!("{} written", counted(blocks, "block")))
}

/// How much the runs left differently.
fn left_words(marking: &Marking) -> String {
    let Counts {
        values,
        sectors,
        blocks,
    } = marking.left_counts();
    match (counted(values, "value"), counted(sectors, "sector"), blocks) {
        (_, _, 0) if marking.left.is_empty() => "what they left is the same".to_string(),
        (values, sectors, 0) => format!("{values} and {sectors} left differ"),
        (values, sectors, blocks) => {
            let blocks = counted(blocks, "block");
            format!("{values}, {sectors} and {blocks} of the stage left differ")
        }
    }
}

/// A number of things: `1 phy`, `4 phys`.
pub fn counted(count: usize, what: &str) -> String {
    match count {
        1 => format!("1 {what}"),
        _ => format!("{count} {what}s"),
    }
}

/// What stands behind the answers of a request: whether they differ, and whether a Linux request needs more than a level.
fn remarks(marking: &Marking, row: &Row) -> String {
    let differs = row.differs().then(|| "differs".to_string());
    let both = [differs, linux::note(marking, row)];
    both.into_iter().flatten().collect::<Vec<_>>().join("; ")
}

/// The name of a request's header for scripts.
fn header_key(request: &Request) -> &'static str {
    match request.header {
        Header::Srb => "srb",
        Header::Linux { .. } => "linux",
    }
}

/// How many requests a session has, and how many of them are Linux ones.
pub fn requests_words(requests: usize, linux: usize) -> String {
    let requests = counted(requests, "request");
    match linux {
        0 => requests,
        count => format!("{requests}, {count} of them Linux"),
    }
}

/// The line that says that the denied requests are the whole difference, where that was tried.
fn explained(marking: &Marking) -> Option<String> {
    let denied = marking.denied(0);
    if marking.no_mark.is_some() || marking.explained != Some(true) || denied == 0 {
        return None;
    }
    Some(format!(
        "tried: without the {} denied low, the high run gets the replies of the low run and leaves what it left",
        counted(denied, "request")
    ))
}

/// Between which two levels how many replies differ, where all four run.
fn pairs(marking: &Marking) -> Vec<(usize, usize, usize)> {
    let runs = marking.runs.len();
    if runs < 3 || marking.no_mark.is_some() {
        return Vec::new();
    }
    let pairs = (0..runs).flat_map(|one| (one + 1..runs).map(move |other| (one, other)));
    pairs
        .map(|(one, other)| (one, other, marking.between(one, other)))
        .collect()
}

/// A run's level and its text: `Restricted, by low.txt: CSMI=Restricted;`.
fn level_words(marking: &Marking, run: usize) -> String {
    let (text, run) = (&marking.exercise.texts[run], &marking.runs[run]);
    let shown = level::shown(&text.bytes);
    match run.opening {
        0 => format!("{}, by {}: {shown}", level_name(run.level()), text.from),
        _ => format!("not opened, by {}: {shown}", text.from),
    }
}

/// What the exercise consists of, as pairs of a name and words.
fn head(marking: &Marking) -> Vec<(String, String)> {
    let exercise = marking.exercise;
    let mut lines = vec![
        ("exercise".to_string(), exercise.name.clone()),
        (
            "adapter".to_string(),
            format!(
                "{}, {}",
                exercise.adapter.from,
                counted(exercise.phys(), "phy")
            ),
        ),
        (
            "session".to_string(),
            format!(
                "{}, {}",
                exercise.session.from,
                requests_words(marking.requests.len(), marking.linux)
            ),
        ),
    ];
    if let Some(disks) = &exercise.disks {
        lines.push((
            "disks".to_string(),
            format!("{}, {} bytes", disks.from, disks.bytes.len()),
        ));
    }
    for (i, run) in marking.runs.iter().enumerate() {
        lines.push((run.name.to_string(), level_words(marking, i)));
    }
    lines.extend(
        marking
            .warnings
            .iter()
            .map(|line| ("warning".to_string(), line.clone())),
    );
    lines
}

/// What the runs left of a group: nothing that differs, or lines.
fn group<'m>(marking: &'m Marking, group: Group) -> impl Iterator<Item = &'m Difference> {
    let of_it = move |left: &&crate::left::Left| left.group == group;
    marking
        .left
        .iter()
        .filter(of_it)
        .map(|left| &left.difference)
}

/// The line above a group, where that is the whole of it too.
fn group_words(kind: Group, same: bool) -> String {
    match (kind, same) {
        (Group::Stage, true) => STAGES_SAME.to_string(),
        (_, true) => format!("{}: the same", kind.name()),
        (_, false) => kind.name().to_string(),
    }
}
