//! The report as one page that needs nothing from elsewhere: the mark, the tally and the firmware, both runs side by side, what differs
//! marked by colour and by word, the counters, and the sectors that a run changed. It is fit to be printed.

use super::escape::html as plain;
use super::{
    explained, group, group_words, head, pairs, remarks, stages, verdict, NO_FIRMWARE, NO_TALLY,
};
use crate::left::{sectors, COUNTERS, GROUPS};
use crate::linux::{below_tally, coloured};
use crate::marking::Marking;
use crate::row::Row;
use crate::state::{parts, phy_at, PHY_SIZE, SECTOR};
use labkit::adapter::PHY;
use labkit::report::{request_words, Difference};

const STYLE: &str = include_str!("page.css");
/// Of a page with Linux requests: those that need more than a level.
const LINUX_STYLE: &str = include_str!("linux.css");

pub fn html(marking: &Marking) -> String {
    let title = plain(&format!("Mark of {}", marking.exercise.name));
    let more = if marking.has_linux() { LINUX_STYLE } else { "" };
    let mut out = format!(
        "<!DOCTYPE html>\n<html lang=\"en\">\n<head>\n<meta charset=\"utf-8\">\n<title>{title}</title>\n<style>\n{STYLE}{more}</style>\n</head>\n<body>\n<h1>{title}</h1>\n"
    );
    out.push_str(&paragraph("mark", &verdict(marking)));
    for (name, words) in head(marking) {
        let class = if name == "warning" { "warning" } else { "head" };
        out.push_str(&paragraph(class, &format!("{name}: {words}")));
    }
    out.push_str(&tally(marking));
    out.push_str(&firmware(marking));
    if !marking.rows.is_empty() {
        out.push_str(&requests(marking));
        if !marking.front.is_empty() {
            let front = compared(marking, "front page", &marking.front);
            out.push_str(&section("Front page", &front));
        }
        out.push_str(&section("What the runs left and differs", &left(marking)));
        out.push_str(&section("Counters", &counters(marking)));
        out.push_str(&section("Sectors that a run changed", &changed(marking)));
    }
    out.push_str("</body>\n</html>\n");
    out
}

fn paragraph(class: &str, text: &str) -> String {
    format!("<p class=\"{class}\">{}</p>\n", plain(text))
}

fn section(title: &str, content: &str) -> String {
    format!("<h2>{title}</h2>\n{content}")
}

/// The tally of each run, and below it what it does not show of Linux requests.
fn tally(marking: &Marking) -> String {
    let numbers = super::tally(marking);
    if numbers.is_empty() {
        return paragraph("note", NO_TALLY);
    }
    let row = |number: &Difference| {
        let mut cells = vec![cell("what", &number.what)];
        cells.extend(values(number));
        line("same", &cells)
    };
    let rows: String = numbers.iter().map(row).collect();
    let mut content = table(&heads(marking, &["tally"], &[]), &rows);
    if let Some(words) = below_tally(marking) {
        content.push_str(&paragraph("note", &words));
    }
    section("Tally", &content)
}

/// The firmware of each run at its end, and whether the stages are the same.
fn firmware(marking: &Marking) -> String {
    let lines = super::firmware(marking);
    if lines.is_empty() {
        return paragraph("note", NO_FIRMWARE);
    }
    let content = compared(marking, "firmware", &lines);
    section(
        "Firmware",
        &(content + &paragraph("note", &stages(marking))),
    )
}

fn requests(marking: &Marking) -> String {
    let mut rows = String::new();
    for (i, (request, row)) in marking.requests.iter().zip(&marking.rows).enumerate() {
        rows.push_str(&of_row(marking, i + 1, &request_words(request), row));
    }
    let last = if marking.has_linux() {
        "remarks"
    } else {
        "differs"
    };
    let mut content = table(&heads(marking, &["no", "request"], &[last]), &rows);
    let notes = pairs(marking).into_iter().map(|(one, other, count)| {
        let (one, other) = (marking.runs[one].name, marking.runs[other].name);
        format!(
            "{one} and {other}: {count} of {} differ",
            marking.rows.len()
        )
    });
    for note in marking
        .cut
        .iter()
        .cloned()
        .chain(notes)
        .chain(explained(marking))
    {
        content.push_str(&paragraph("note", &note));
    }
    section("Requests", &content)
}

/// A request's row, and below it a row for each part of the replies that differs.
fn of_row(marking: &Marking, number: usize, request: &str, row: &Row) -> String {
    let mut cells = vec![
        cell("number", &number.to_string()),
        cell("request", request),
    ];
    cells.extend(
        row.answers
            .iter()
            .map(|answer| cell("answer", &answer.words())),
    );
    cells.push(cell("word", &remarks(marking, row)));
    let class = match (row.differs(), row.is_above(coloured(marking))) {
        (true, true) => "differs above",
        (true, false) => "differs",
        (false, true) => "above",
        (false, false) => "same",
    };
    let mut out = line(class, &cells);
    // the return code stands in the row itself
    let parts = row.differences.iter();
    for difference in parts.filter(|difference| difference.what != "return-code") {
        out.push_str(&line(
            "detail",
            &valued(&["", &difference.what], difference, ""),
        ));
    }
    out
}

fn valued(before: &[&str], difference: &Difference, behind: &str) -> Vec<String> {
    let mut cells: Vec<String> = before.iter().map(|text| cell("what", text)).collect();
    cells.extend(values(difference));
    cells.push(cell("word", behind));
    cells
}

/// The values of the runs.
fn values(difference: &Difference) -> impl Iterator<Item = String> + '_ {
    difference.values.iter().map(|value| cell("value", value))
}

/// Lines with a value of each run, those that differ marked.
fn compared(marking: &Marking, name: &str, lines: &[Difference]) -> String {
    let mut rows = String::new();
    for found in lines {
        let (class, word) = match found.values_differ() {
            true => ("differs", "differs"),
            false => ("same", ""),
        };
        let cells = valued(&[&found.what], found, word);
        rows.push_str(&line(class, &cells));
    }
    table(&heads(marking, &[name], &["differs"]), &rows)
}

/// The values left differently, by group.
fn left(marking: &Marking) -> String {
    let mut rows = String::new();
    for kind in GROUPS {
        let found: Vec<_> = group(marking, kind).collect();
        let wide = format!(
            "<td colspan=\"{}\">{}</td>",
            marking.runs.len() + 2,
            group_words(kind, found.is_empty())
        );
        rows.push_str(&line("group", &[wide]));
        for difference in found {
            rows.push_str(&line(
                "differs",
                &valued(&[&difference.what], difference, "differs"),
            ));
        }
    }
    table(&heads(marking, &["left by the runs"], &["differs"]), &rows)
}

/// The four counters of every phy at the end of each run.
fn counters(marking: &Marking) -> String {
    let states: Vec<&[u8]> = marking
        .runs
        .iter()
        .map(|run| run.state.as_slice())
        .collect();
    let mut rows = String::new();
    for n in 0..marking.exercise.phys() {
        let phys = parts(&states, phy_at(n), PHY_SIZE);
        for field in PHY.iter().filter(|field| COUNTERS.contains(&field.name)) {
            let values: Vec<String> = phys.iter().map(|phy| field.get(phy).to_string()).collect();
            let differ = values.windows(2).any(|pair| pair[0] != pair[1]);
            let mut cells = vec![cell("number", &n.to_string()), cell("what", field.name)];
            cells.extend(values.iter().map(|value| cell("value", value)));
            cells.push(cell("word", if differ { "differs" } else { "" }));
            rows.push_str(&line(if differ { "differs" } else { "same" }, &cells));
        }
    }
    table(&heads(marking, &["phy", "counter"], &["differs"]), &rows)
}

/// The sectors that are not as they were at the start in some run.
fn changed(marking: &Marking) -> String {
    let start = marking.exercise.medium();
    let mut media = vec![start.as_slice()];
    media.extend(marking.runs.iter().map(|run| run.medium.as_slice()));
    let found = sectors(&media);
    if found.is_empty() {
        return paragraph("note", "none");
    }
    let mut rows = String::new();
    for (at, difference) in found {
        let ends = parts(&media[1..], at, SECTOR);
        let differ = ends.windows(2).any(|pair| pair[0] != pair[1]);
        let word = if differ { "differs" } else { "" };
        let class = if differ { "differs" } else { "same" };
        rows.push_str(&line(
            class,
            &valued(&[&difference.what], &difference, word),
        ));
    }
    let names = heads(marking, &["sector", "at the start"], &["differs"]);
    table(&names, &rows)
}

fn heads(marking: &Marking, before: &[&str], behind: &[&str]) -> String {
    let runs = marking.runs.iter().map(|run| run.name);
    let names = before
        .iter()
        .copied()
        .chain(runs)
        .chain(behind.iter().copied());
    names
        .map(|name| format!("<th>{}</th>", plain(name)))
        .collect()
}

fn table(heads: &str, rows: &str) -> String {
    format!("<table>\n<thead><tr>{heads}</tr></thead>\n<tbody>\n{rows}</tbody>\n</table>\n")
}

fn line(class: &str, cells: &[String]) -> String {
    format!("<tr class=\"{class}\">{}</tr>\n", cells.concat())
}

fn cell(class: &str, text: &str) -> String {
    format!("<td class=\"{class}\">{}</td>", plain(text))
}
