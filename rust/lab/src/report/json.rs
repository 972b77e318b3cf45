//! The report as JSON. Names stay; a member may be added.

use super::escape::json as string;
use super::{group, header_key, pairs, verdict};
use crate::answer::Answer;
use crate::firmware::Firmware;
use crate::left::GROUPS;
use crate::marking::{Counts, Marking};
use crate::row::Row;
use labkit::names::level_name;
use labkit::report::{request_words, Difference, Totals, COUNTED};
use labkit::session::Request;

/// The names of the numbers of a tally.
const TALLY: [&str; COUNTED.len()] = [
    "requests",
    "granted",
    "denied",
    "otherwise_refused",
    "short",
];

pub fn json(marking: &Marking) -> String {
    let members = [
        ("exercise", string(&marking.exercise.name)),
        ("adapter", string(&marking.exercise.adapter.from)),
        ("session", string(&marking.exercise.session.from)),
        (
            "disks",
            optional(
                marking
                    .exercise
                    .disks
                    .as_ref()
                    .map(|disks| disks.from.as_str()),
            ),
        ),
        (
            "warnings",
            list(marking.warnings.iter().map(|line| string(line))),
        ),
        (
            "runs",
            list((0..marking.runs.len()).map(|i| run(marking, i))),
        ),
        (
            "requests",
            long_list(
                marking
                    .requests
                    .iter()
                    .zip(&marking.rows)
                    .enumerate()
                    .map(|(i, (sent, row))| request(marking, i + 1, sent, row)),
            ),
        ),
        ("front_page", list(marking.front.iter().map(difference))),
        ("left", left(marking)),
        ("stages_same", stages_same(marking)),
        ("stage_blocks_written", written(marking)),
        (
            "pairs",
            list(pairs(marking).into_iter().map(|found| pair(marking, found))),
        ),
        ("cut", optional(marking.cut.as_deref())),
        (
            "explained",
            marking
                .explained
                .map_or("null".to_string(), |yes| yes.to_string()),
        ),
        ("mark", mark(marking)),
        ("no_mark", optional(marking.no_mark.as_deref())),
        ("words", string(&verdict(marking))),
        ("status", marking.status().to_string()),
    ];
    let lines: Vec<String> = members
        .iter()
        .map(|(name, value)| format!("  {}: {value}", string(name)))
        .collect();
    format!("{{\n{}\n}}\n", lines.join(",\n"))
}

fn run(marking: &Marking, i: usize) -> String {
    let (run, text) = (&marking.runs[i], &marking.exercise.texts[i]);
    let level = (run.opening == 0).then(|| level_name(run.level()));
    let (tallies, ends) = (marking.tallies(), marking.firmware());
    let mut members = vec![
        ("name", string(run.name)),
        ("text", string(&String::from_utf8_lossy(&text.bytes))),
        ("opening", run.opening.to_string()),
        ("level", optional(level)),
        ("denied", marking.denied(i).to_string()),
        ("tally", tallies.get(i).map_or("null".to_string(), tally)),
        ("firmware", ends.get(i).map_or("null".to_string(), firmware)),
    ];
    if marking.has_linux() {
        members.push(("above", marking.above(i).to_string()));
    }
    object(&members)
}

fn tally(tally: &Totals) -> String {
    let numbers = tally.0.map(|number| number.to_string());
    object(&TALLY.into_iter().zip(numbers).collect::<Vec<_>>())
}

/// The firmware of a run at its end.
fn firmware(end: &Firmware) -> String {
    object(&[
        ("running", string(&end.running)),
        ("staged", optional(end.staged.as_deref())),
    ])
}

/// Whether the stages of all runs are the same; null where the session was not run.
fn stages_same(marking: &Marking) -> String {
    let same = marking.left_counts().blocks == 0;
    let known = marking.was_run.then(|| same.to_string());
    known.unwrap_or("null".to_string())
}

/// How many blocks of its stage each run wrote; null where the session was not run.
fn written(marking: &Marking) -> String {
    let blocks = marking.written().into_iter();
    let known = marking.was_run.then(|| list(blocks.map(|n| n.to_string())));
    known.unwrap_or("null".to_string())
}

fn request(marking: &Marking, number: usize, sent: &Request, row: &Row) -> String {
    let mut members = vec![
        ("number", number.to_string()),
        ("request", string(&request_words(sent))),
        ("differs", row.differs().to_string()),
        ("answers", list(row.answers.iter().map(answer))),
        ("differences", list(row.differences.iter().map(difference))),
    ];
    if marking.has_linux() {
        let above = (0..marking.runs.len()).map(|run| row.is_above(run).to_string());
        members.push(("header", string(header_key(sent))));
        members.push(("above", list(above)));
    }
    object(&members)
}

fn answer(answer: &Answer) -> String {
    let number = |number: Option<u32>| number.map_or("null".to_string(), |n| n.to_string());
    object(&[
        ("call", answer.call.to_string()),
        ("code", number(answer.code)),
        ("status", number(answer.ata.map(|ata| ata.0.into()))),
        ("error", number(answer.ata.map(|ata| ata.1.into()))),
        ("words", string(&answer.words())),
    ])
}

fn difference(difference: &Difference) -> String {
    object(&[
        ("what", string(&difference.what)),
        (
            "values",
            list(difference.values.iter().map(|value| string(value))),
        ),
    ])
}

fn left(marking: &Marking) -> String {
    let of = |kind| list(group(marking, kind).map(difference));
    let members: Vec<(&str, String)> = GROUPS.iter().map(|kind| (kind.key(), of(*kind))).collect();
    object(&members)
}

fn pair(marking: &Marking, (one, other, differ): (usize, usize, usize)) -> String {
    object(&[
        (
            "runs",
            list(
                [one, other]
                    .map(|i| string(marking.runs[i].name))
                    .into_iter(),
            ),
        ),
        ("differ", differ.to_string()),
    ])
}

fn mark(marking: &Marking) -> String {
    if marking.no_mark.is_some() {
        return "null".to_string();
    }
    let Counts {
        values,
        sectors,
        blocks,
    } = marking.left_counts();
    let each = |count: fn(&Marking, usize) -> usize| {
        list((0..marking.runs.len()).map(|i| count(marking, i).to_string()))
    };
    let mut members = vec![
        ("differ", marking.differing().to_string()),
        ("of", marking.rows.len().to_string()),
        ("denied", each(|marking, i| marking.denied(i))),
        ("values_left", values.to_string()),
        ("sectors_left", sectors.to_string()),
        ("stage_blocks_left", blocks.to_string()),
    ];
    if marking.has_linux() {
        members.push(("above", each(|marking, i| marking.above(i))));
    }
    object(&members)
}

fn optional(text: Option<&str>) -> String {
    text.map_or("null".to_string(), string)
}

fn object(members: &[(&str, String)]) -> String {
    let members: Vec<String> = members
        .iter()
        .map(|(name, value)| format!("{}: {value}", string(name)))
        .collect();
    format!("{{{}}}", members.join(", "))
}

fn list(items: impl Iterator<Item = String>) -> String {
    format!("[{}]", items.collect::<Vec<_>>().join(", "))
}

/// A list with a line for each item.
fn long_list(items: impl Iterator<Item = String>) -> String {
    let items: Vec<String> = items.map(|item| format!("\n    {item}")).collect();
    format!("[{}\n  ]", items.join(","))
}
