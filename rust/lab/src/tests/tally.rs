//! Tallies counted a second time, by the model, on generated exercises; and where they stand in each report.

use super::*;
use labkit::report::{Totals, COUNTED};
use model::layout::record::NO_CODE;
use model::Line;

/// The tally of a run by the model.
fn expected(exercise: &Exercise, text: &[u8]) -> Totals {
    let requests = exercise.form.split(&exercise.session.bytes).requests;
    let replies = modelled(exercise, text).replies;
    let line = |(request, (number, reply)): (&Request, &(u32, Vec<u8>))| Line {
        number: *number,
        code: match number {
            0 => request.header.return_code().get(reply),
            _ => NO_CODE,
        },
    };
    let lines: Vec<Line> = requests.iter().zip(&replies).map(line).collect();
    let counted = model::Totals::of_lines(&lines).in_order();
    Totals(counted.map(|number| number as u64))
}

/// At all levels, with the first header alone and with both.
#[test]
fn tallies_are_those_of_the_model() {
    let mut seen = [0; COUNTED.len()];
    for seed in 0..CASES {
        for exercise in exercises(seed, &[0, 1, 2, 3]) {
            let marking = Marking::of(&exercise, None).unwrap();
            let tallies = marking.tallies();
            if marking.runs.iter().any(|run| run.opening != 0) {
                assert_eq!(tallies, [], "seed {seed}");
                continue;
            }
            let texts = exercise.texts.iter();
            let all: Vec<Totals> = texts.map(|text| expected(&exercise, &text.bytes)).collect();
            assert_eq!(tallies, all, "seed {seed}");
            for (i, Totals(numbers)) in tallies.iter().enumerate() {
                assert_eq!(numbers[2], marking.denied(i) as u64, "seed {seed}");
                let counts = seen.iter_mut().zip(numbers);
                counts.for_each(|(count, number)| *count += number);
            }
        }
    }
    assert!(seen.iter().all(|count| *count > 100), "{seen:?}");
}

/// Whether every form of report says that there is no tally.
fn not_run(exercise: &Exercise) -> bool {
    let marking = Marking::of(exercise, None).unwrap();
    assert_eq!((marking.status(), marking.tallies()), (2, vec![]));
    report::text(&marking).contains("\nno tally: the session was not run\nno mark: ")
        && report::html(&marking)
            .contains("<p class=\"note\">no tally: the session was not run</p>")
        && report::json(&marking).contains("\"tally\": null")
        && !report::csv(&marking).contains("\ntally,")
}

/// A session that is not run has no tally, whatever it holds; one without requests has zeros, as the program prints them.
#[test]
fn sessions_without_a_mark() {
    let (mut refused, mut empty) = (0, 0);
    for seed in 0..CASES {
        let mut exercise = exercise(seed, &[1, 3]);
        let sent = std::mem::take(&mut exercise.session.bytes);
        for session in [sent, vec![], vec![5]] {
            exercise.session.bytes = session;
            exercise.texts.swap(0, 1);
            assert!(not_run(&exercise), "seed {seed}, levels exchanged");
            exercise.texts.swap(0, 1);
            exercise.misnamed = Some("its name is that of the other form".to_string());
            assert!(not_run(&exercise), "seed {seed}, misnamed");
            exercise.misnamed = None;
        }
        for session in [vec![], vec![5]] {
            exercise.session.bytes = session;
            let marking = Marking::of(&exercise, None).unwrap();
            if marking.runs[0].opening != 0 {
                assert!(not_run(&exercise), "seed {seed}, refused");
                refused += 1;
                continue;
            }
            assert_eq!(marking.tallies(), [Totals([0; 5]); 2], "seed {seed}");
            empty += 1;
        }
    }
    assert!(refused > 10 && empty > 100, "{refused} {empty}");
}

/// Below the tally of Linux requests stands what it does not show; with the first header alone nothing does.
#[test]
fn linux_requests_below_the_tally() {
    let said = |levels: &[usize], lines: &str, words: &str| {
        let mut exercise = exercise(0, levels);
        exercise.adapter.bytes = labkit::adapter::parse("phy\nphy\n").unwrap();
        exercise.disks = None;
        exercise.form = Form::Both;
        exercise.session.bytes = Form::Both.parse(lines).unwrap();
        let marking = Marking::of(&exercise, None).unwrap();
        let (text, page) = (report::text(&marking), report::html(&marking));
        let below = match words {
            "" => "\n".to_string(),
            words => format!("{words}\n\n"),
        };
        let (_, tally) = text.split_once("\n  100s ").unwrap();
        assert!(
            tally.split_once('\n').unwrap().1.starts_with(&below),
            "{text}"
        );
        let note = format!("</table>\n<p class=\"note\">{words}</p>\n");
        assert_eq!(page.contains(&note), !words.is_empty(), "{page}");
    };
    let writes =
        "linux set-phy-info phy=0\nlinux set-phy-info phy=1\nlinux get-link-errors reset=1\n";
    said(
        &[1, 3],
        writes,
        "Linux requests are never denied; 3 need more than the low level",
    );
    let one = "linux set-phy-info phy=0\nset-phy-info phy=0\n";
    said(
        &[1, 3],
        one,
        "Linux requests are never denied; 1 needs more than the low level",
    );
    let reads = "linux get-phy-info\n";
    said(
        &[1, 3],
        reads,
        "Linux requests are never denied; 0 need more than the low level",
    );
    let all = format!("{writes}{reads}get-phy-info\n");
    let words =
        "Linux requests are never denied; above the level: 4 None, 3 Restricted, 3 Limited, 0 Full";
    said(&[0, 1, 2, 3], &all, words);
    let stopped = "linux get-phy-info direction=2\n";
    said(&[1, 3], stopped, "Linux requests are never denied");
    said(&[1, 3], "get-phy-info\nset-phy-info\n", "");
}

/// Each run's numbers stand under its name, in every form.
#[test]
fn each_report_has_the_tally_of_each_run() {
    let mut exercise = exercise(0, &[0, 3]);
    exercise.adapter.bytes = labkit::adapter::parse("phy\nphy fixed=1\n").unwrap();
    exercise.disks = None;
    let lines = "get-phy-info\nset-phy-info phy=0\nset-phy-info phy=1\nraw 00\nrequest control=99\nraw\nraw 01\n";
    exercise.session.bytes = Form::Program.parse(lines).unwrap();
    let marking = Marking::of(&exercise, None).unwrap();
    let text = "\
tally                None  Full
  requests           7     7
  granted            0     2
  denied             3     0
  otherwise refused  1     2
  100s               3     3

tried: ";
    assert!(report::text(&marking).contains(text));
    let csv = "denied,,requests denied,3,0,,
tally,,requests,7,7,,
tally,,granted,0,2,,
tally,,denied,3,0,,
tally,,otherwise refused,1,2,,
tally,,100s,3,3,,
";
    assert!(report::csv(&marking).contains(csv));
    let json = report::json(&marking);
    assert!(json.contains("\"level\": \"None\", \"denied\": 3, \"tally\": {\"requests\": 7, \"granted\": 0, \"denied\": 3, \"otherwise_refused\": 1, \"short\": 3}"));
    assert!(json.contains("\"level\": \"Full\", \"denied\": 0, \"tally\": {\"requests\": 7, \"granted\": 2, \"denied\": 0, \"otherwise_refused\": 2, \"short\": 3}"));
    let page = report::html(&marking);
    assert!(page.contains("<th>tally</th><th>None</th><th>Full</th></tr>"));
    assert!(page.contains("<td class=\"what\">otherwise refused</td><td class=\"value\">1</td><td class=\"value\">2</td></tr>"));
}
