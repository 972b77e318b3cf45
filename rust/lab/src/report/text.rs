//! The plain report: the exercise, the requests with their answers, what the runs left, their firmware, the tally, and the mark in the
//! last line.

use super::{
    explained, firmware, group, group_words, head, pairs, remarks, stages, tally, verdict,
    NO_FIRMWARE, NO_TALLY,
};
use crate::left::GROUPS;
use crate::linux;
use crate::marking::Marking;
use labkit::report::{request_words, Difference};

pub fn text(marking: &Marking) -> String {
    let mut out = String::new();
    out.push_str(&columns(
        &head(marking)
            .into_iter()
            .map(|(name, words)| vec![name, words])
            .collect::<Vec<_>>(),
    ));
    out.push('\n');
    if !marking.rows.is_empty() {
        out.push_str(&columns(&requests(marking)));
        out.push_str(&line(marking.cut.as_deref()));
        out.push('\n');
        out.push_str(&table(marking, "front page", &marking.front, None));
        out.push_str(&columns(&left(marking)));
        out.push('\n');
    }
    match &firmware(marking)[..] {
        [] => out.push_str(&line(Some(NO_FIRMWARE))),
        lines => out.push_str(&table(marking, "firmware", lines, Some(&stages(marking)))),
    }
    match &tally(marking)[..] {
        [] => out.push_str(&line(Some(NO_TALLY))),
        numbers => {
            let below = linux::below_tally(marking);
            out.push_str(&table(marking, "tally", numbers, below.as_deref()));
        }
    }
    for (one, other, count) in pairs(marking) {
        let (one, other) = (marking.runs[one].name, marking.runs[other].name);
        out.push_str(&format!(
            "{one} and {other}: {count} of {} differ\n",
            marking.rows.len()
        ));
    }
    out.push_str(&line(explained(marking).as_deref()));
    out.push_str(&line(Some(&verdict(marking))));
    out
}

fn line(text: Option<&str>) -> String {
    text.map_or(String::new(), |text| format!("{text}\n"))
}

/// A line for each request; below it what differs in replies whose answers are the same.
fn requests(marking: &Marking) -> Vec<Vec<String>> {
    let mut lines = vec![heading(marking, &["no", "request"])];
    for (i, (request, row)) in marking.requests.iter().zip(&marking.rows).enumerate() {
        let mut cells = vec![(i + 1).to_string(), request_words(request)];
        cells.extend(row.answers.iter().map(|answer| answer.words()));
        cells.push(remarks(marking, row));
        lines.push(cells);
        if row.behind {
            lines.extend(row.differences.iter().map(|d| valued(&["", ""], d)));
        }
    }
    right_aligned(&mut lines);
    lines
}

/// A difference as cells: empty ones, its name in the last of them, its values.
fn valued(before: &[&str], difference: &Difference) -> Vec<String> {
    let mut cells: Vec<String> = before.iter().map(|cell| cell.to_string()).collect();
    if let Some(last) = cells.last_mut() {
        *last = format!("  {}", difference.what);
    }
    cells.extend(difference.values.iter().cloned());
    cells
}

fn heading(marking: &Marking, first: &[&str]) -> Vec<String> {
    let names = marking.runs.iter().map(|run| run.name.to_string());
    first
        .iter()
        .map(|name| name.to_string())
        .chain(names)
        .collect()
}

/// Lines with a value of each run, below a heading; what is said below them, and a blank line. Nothing where there are none.
fn table(marking: &Marking, name: &str, lines: &[Difference], below: Option<&str>) -> String {
    if lines.is_empty() {
        return String::new();
    }
    let mut cells = vec![heading(marking, &[name])];
    cells.extend(lines.iter().map(|found| valued(&[""], found)));
    format!("{}{}\n", columns(&cells), line(below))
}

/// What differs at the end, by group.
fn left(marking: &Marking) -> Vec<Vec<String>> {
    let mut lines = vec![heading(marking, &["left by the runs"])];
    for kind in GROUPS {
        let found: Vec<_> = group(marking, kind).map(|d| valued(&[""], d)).collect();
        lines.push(vec![group_words(kind, found.is_empty())]);
        lines.extend(found);
    }
    lines
}

/// Puts the numbers of the first column at its right.
fn right_aligned(lines: &mut [Vec<String>]) {
    let width = lines.iter().map(|cells| cells[0].len()).max().unwrap_or(0);
    for cells in lines {
        cells[0] = format!("{:>width$}", cells[0]);
    }
}

/// The cells in columns, each as wide as its widest cell.
fn columns(lines: &[Vec<String>]) -> String {
    let count = lines.iter().map(|cells| cells.len()).max().unwrap_or(0);
    let length = |cell: &String| cell.chars().count();
    let width = |column: usize| {
        lines
            .iter()
            .filter_map(|cells| cells.get(column))
            .map(length)
            .max()
    };
    let widths: Vec<usize> = (0..count)
        .map(|column| width(column).unwrap_or(0))
        .collect();
    let mut out = String::new();
    for cells in lines {
        let mut line = String::new();
        for (cell, width) in cells.iter().zip(&widths) {
            line.push_str(&format!("{cell:<width$}  "));
        }
        out.push_str(line.trim_end());
        out.push('\n');
    }
    out
}
