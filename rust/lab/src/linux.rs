//! What is said of Linux requests. They run as Full at every level, so that no difference between runs shows what they would need: it is
//! said of each that its twin under the first header is denied.

use crate::marking::Marking;
use crate::report::counted;
use crate::row::Row;

/// How many requests a warning names.
const NAMED: usize = 8;

/// The names of the runs that would deny a request's twin.
pub fn deniers(marking: &Marking, row: &Row) -> Vec<&'static str> {
    let above = marking.runs.iter().enumerate();
    above
        .filter(|(run, _)| row.is_above(*run))
        .map(|(_, run)| run.name)
        .collect()
}

/// What stands on the line of a request that needs more than the level of a run: `runs as Full; denied low under the first header`.
pub fn note(marking: &Marking, row: &Row) -> Option<String> {
    let names = deniers(marking, row);
    let at = if marking.runs.len() == 2 { "" } else { "at " };
    let denied = format!("denied {at}{}", listed(&names));
    (!names.is_empty()).then(|| format!("runs as Full; {denied} under the first header"))
}

/// Why the answers to what was asked cannot be right: a Linux request that by them its header's checks stop has a return code that
/// these do not give. What it needs was then not asked, and a write would pass for a read.
pub fn contradiction(marking: &Marking) -> Option<String> {
    let rows = marking.requests.iter().zip(&marking.rows).enumerate();
    let mut stopped = rows.filter(|(_, (request, row))| request.header.is_linux() && !row.passed());
    stopped.find_map(|(i, (_, row))| {
        let answer = row.answers.iter().find(|answer| answer.is_behind_header())?;
        Some(format!(
            "request {} has the Linux header and got {}, but by what was asked about it its header's checks stop it: what it needs is not known, as this lab does not fit the library",
            i + 1,
            answer.words()
        ))
    })
}

/// The run whose level a colour goes by: the low one, and of all four the second, as None denies every request.
pub fn coloured(marking: &Marking) -> usize {
    usize::from(marking.runs.len() > 2)
}

/// The warning that such requests are there.
pub fn warning(marking: &Marking) -> Option<String> {
    if marking.above(0) == 0 {
        return None;
    }
    Some(match marking.runs.len() {
        2 => of_two(marking),
        _ => of_all(marking),
    })
}

fn of_two(marking: &Marking) -> String {
    let rows = marking.rows.iter().enumerate();
    let above = rows.filter(|(_, row)| row.is_above(0));
    let mut numbers: Vec<String> = above.map(|(i, _)| (i + 1).to_string()).collect();
    let count = numbers.len();
    if count > NAMED {
        numbers.truncate(NAMED);
        numbers.push(format!("{} more", count - NAMED));
    }
    let numbers: Vec<&str> = numbers.iter().map(String::as_str).collect();
    let (requests, have, run, they_are) = match count {
        1 => ("request", "has", "runs", "it is"),
        _ => ("requests", "have", "run", "they are"),
    };
    format!(
        "{requests} {} {have} the Linux header and {run} as Full in both runs; under the first header {they_are} denied low",
        listed(&numbers)
    )
}

fn of_all(marking: &Marking) -> String {
    let denies = |i: usize| format!("{} denies {}", marking.runs[i].name, marking.above(i));
    let each: Vec<String> = (0..marking.runs.len()).map(denies).collect();
    format!(
        "Linux requests run as Full at every level; under the first header {}",
        each.join(", ")
    )
}

/// How many there are, in the mark of a session that has Linux requests.
pub fn in_mark(marking: &Marking) -> Option<String> {
    marking.has_linux().then(|| match marking.runs.len() {
        2 => format!(
            "{} above the low level",
            counted(marking.above(0), "Linux request")
        ),
        _ => format!("Linux requests above the level: {}", of_each(marking)),
    })
}

/// What stands below the tally of a session that has Linux requests, as the tally does not show it: the mark's number of them. Without
/// a mark it is not known.
pub fn below_tally(marking: &Marking) -> Option<String> {
    let above = match (&marking.no_mark, marking.runs.len(), marking.above(0)) {
        (Some(_), _, _) => String::new(),
        (None, 2, 1) => "; 1 needs more than the low level".to_string(),
        (None, 2, count) => format!("; {count} need more than the low level"),
        (None, _, _) => format!("; above the level: {}", of_each(marking)),
    };
    let has_linux = marking.has_linux();
    has_linux.then(|| format!("Linux requests are never denied{above}"))
}

/// The number of each run: `11 None, 2 Restricted`.
fn of_each(marking: &Marking) -> String {
    let of = |i: usize| format!("{} {}", marking.above(i), marking.runs[i].name);
    let each: Vec<String> = (0..marking.runs.len()).map(of).collect();
    each.join(", ")
}

/// `a`, `a and b`, `a, b and c`.
fn listed(names: &[&str]) -> String {
    match names {
        [] => String::new(),
        [name] => name.to_string(),
        [names @ .., last] => format!("{} and {last}", names.join(", ")),
    }
}

#[cfg(test)]
mod tests {
    use super::*;

    #[test]
    fn names_in_a_row() {
        assert_eq!(listed(&[]), "");
        assert_eq!(listed(&["low"]), "low");
        assert_eq!(listed(&["low", "high"]), "low and high");
        assert_eq!(listed(&["1", "2", "3 more"]), "1, 2 and 3 more");
    }
}
