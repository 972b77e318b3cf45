//! The report as CSV: a line for each request, each line of the front page, each value left differently, the firmware of the runs, the
//! numbers of denied requests, each number of the tally, each warning, and the mark.

use super::escape::csv as cell;
use super::{firmware, group, header_key, tally, verdict, written};
use crate::left::{Group, GROUPS};
use crate::linux;
use crate::marking::Marking;
use labkit::report::{request_words, Difference};

/// The columns behind those of the runs; of a session with Linux requests two more.
const ENDS: [&str; 2] = ["differs", "where"];
const LINUX_ENDS: [&str; 2] = ["header", "denied under the first header"];

/// The kind of the firmware's lines.
const FIRMWARE: &str = "firmware";

pub fn csv(marking: &Marking) -> String {
    let names = marking.runs.iter().map(|run| run.name.to_string());
    let more = LINUX_ENDS.iter().filter(|_| marking.has_linux());
    let ends: Vec<String> = ENDS.iter().chain(more).map(|end| end.to_string()).collect();
    let count = 3 + marking.runs.len() + ends.len();
    let first = ["kind", "number", "what"].map(String::from);
    let mut out = line(count, first.into_iter().chain(names).chain(ends));
    for i in 0..marking.rows.len() {
        out.push_str(&line(count, of_row(marking, i).into_iter()));
    }
    for found in &marking.front {
        out.push_str(&line(count, valued("front", found).into_iter()));
    }
    for kind in GROUPS {
        for difference in group(marking, kind) {
            out.push_str(&line(count, valued(kind.key(), difference).into_iter()));
        }
    }
    for cells in of_firmware(marking) {
        out.push_str(&line(count, cells.into_iter()));
    }
    for (kind, what, number) in counts(marking) {
        let first = [kind, "", what].map(String::from);
        let numbers = (0..marking.runs.len()).map(|i| number(marking, i).to_string());
        out.push_str(&line(count, first.into_iter().chain(numbers)));
    }
    for found in tally(marking) {
        let first = ["tally".to_string(), String::new(), found.what];
        out.push_str(&line(count, first.into_iter().chain(found.values)));
    }
    for (kind, words) in notes(marking) {
        let cells = [kind.to_string(), String::new(), words];
        out.push_str(&line(count, cells.into_iter()));
    }
    out
}

/// The cells of a request.
fn of_row(marking: &Marking, i: usize) -> Vec<String> {
    let (request, row) = (&marking.requests[i], &marking.rows[i]);
    let number = (i + 1).to_string();
    let mut cells = vec!["request".to_string(), number, request_words(request)];
    cells.extend(row.answers.iter().map(|answer| answer.words()));
    let names: Vec<&str> = row.differences.iter().map(|d| d.what.as_str()).collect();
    cells.extend([yes(row.differs()), names.join("; ")]);
    if marking.has_linux() {
        let deniers = linux::deniers(marking, row).join("; ");
        cells.extend([header_key(request).to_string(), deniers]);
    }
    cells
}

/// The cells of something that each run has a value of.
fn valued(kind: &str, found: &Difference) -> Vec<String> {
    let mut cells = vec![kind.to_string(), String::new(), found.what.clone()];
    cells.extend(found.values.iter().cloned());
    cells.push(yes(found.values_differ()));
    cells
}

/// The lines of the firmware: what runs and what is staged, and whether the stages differ, with the blocks in which they do, or how many
/// were written where they do not.
fn of_firmware(marking: &Marking) -> Vec<Vec<String>> {
    let lines = firmware(marking);
    let mut found: Vec<_> = lines.iter().map(|line| valued(FIRMWARE, line)).collect();
    if !found.is_empty() {
        let blocks: Vec<&str> = group(marking, Group::Stage)
            .map(|block| block.what.as_str())
            .collect();
        let place = written(marking).unwrap_or(blocks.join("; "));
        let mut cells = [FIRMWARE, "", "stages"].map(String::from).to_vec();
        cells.resize(3 + marking.runs.len(), String::new());
        cells.extend([yes(!blocks.is_empty()), place]);
        found.push(cells);
    }
    found
}

fn yes(yes: bool) -> String {
    if yes { "yes" } else { "no" }.to_string()
}

type Count = fn(&Marking, usize) -> usize;

/// The numbers of each run that the mark has.
fn counts(marking: &Marking) -> Vec<(&'static str, &'static str, Count)> {
    let mut found: Vec<(_, _, Count)> = Vec::new();
    if marking.no_mark.is_none() {
        found.push(("denied", "requests denied", |m, run| m.denied(run)));
    }
    if marking.no_mark.is_none() && marking.has_linux() {
        let what = "Linux requests above the level";
        found.push(("above", what, |m, run| m.above(run)));
    }
    found
}

/// The lines behind the table: warnings, a cut, and the mark or why there is none.
fn notes(marking: &Marking) -> Vec<(&'static str, String)> {
    let mut found: Vec<_> = marking
        .warnings
        .iter()
        .map(|words| ("warning", words.clone()))
        .collect();
    found.extend(marking.cut.iter().map(|words| ("cut", words.clone())));
    let verdict = verdict(marking);
    let (kind, words) = match &marking.no_mark {
        Some(reason) => ("no mark", reason.as_str()),
        None => ("mark", verdict.trim_start_matches("mark: ")),
    };
    found.push((kind, words.to_string()));
    found
}

/// A line of so many cells; those behind the given ones are empty.
fn line(count: usize, cells: impl Iterator<Item = String>) -> String {
    let mut cells: Vec<String> = cells.map(|text| cell(&text)).collect();
    cells.resize(count, String::new());
    format!("{}\n", cells.join(","))
}
