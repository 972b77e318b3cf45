//! What runs and what is staged at the end of the runs, in every form of report.

use super::*;
use crate::firmware::Firmware;

/// Stages that differ are a difference by themselves, whatever the replies and the rest.
#[test]
fn stages_alone_make_a_difference() {
    let exercise = on_adapter("get-phy-info\n", &[1, 2]);
    let mut marking = Marking::of(&exercise, None).unwrap();
    assert_eq!(marking.status(), 0);
    let (low, mut high) = (STAGE, STAGE);
    high[513] = 1;
    marking.left = crate::left::left(&[], &[], &[&low, &high]);
    assert_eq!(marking.status(), 1);
    let text = report::text(&marking);
    assert!(text.contains("\nthe stages differ in 1 block\n"), "{text}");
    let mark = "mark: 0 of 1 differ, 0 denied low; 0 values, 0 sectors and 1 block of the stage left differ\n";
    assert!(text.ends_with(mark), "{text}");
}

fn end(running: &str, staged: Option<&str>) -> Firmware {
    Firmware {
        running: running.to_string(),
        staged: staged.map(str::to_string),
    }
}

#[test]
fn firmware_in_every_form_of_report() {
    let session = format!("{VALIDATE}{COMMIT}firmware-download validate major=3\n");
    let exercise = on_adapter(&session, &[1, 2]);
    reports_of(&exercise);
    let marking = Marking::of(&exercise, None).unwrap();
    let ends = [end("1.26.0.0", None), end("2.1.0.7", Some("3.0.0.0"))];
    assert_eq!(marking.firmware(), ends);
    let text = "
firmware   Restricted  Limited
  running  1.26.0.0    2.1.0.7
  staged   none        3.0.0.0
the stages differ in 2 blocks

tally ";
    assert!(report::text(&marking).contains(text));
    let mark = "3 denied low; 5 values, 0 sectors and 2 blocks of the stage left differ\n";
    assert!(report::text(&marking).ends_with(mark));
    let csv = "
firmware,,running,1.26.0.0,2.1.0.7,yes,
firmware,,staged,none,3.0.0.0,yes,
firmware,,stages,,,yes,\"stage block 0, 2 bytes; stage block 1, 512 bytes\"
denied,";
    assert!(report::csv(&marking).contains(csv));
    let json = report::json(&marking);
    for part in [
        "\"firmware\": {\"running\": \"1.26.0.0\", \"staged\": null}}",
        "\"firmware\": {\"running\": \"2.1.0.7\", \"staged\": \"3.0.0.0\"}}",
        "\"stages_same\": false,",
        "\"sectors_left\": 0, \"stage_blocks_left\": 2}",
    ] {
        assert!(json.contains(part), "{json}");
    }
    let page = report::html(&marking);
    for row in [
        "<th>firmware</th><th>Restricted</th><th>Limited</th><th>differs</th></tr>",
        "running</td><td class=\"value\">1.26.0.0</td><td class=\"value\">2.1.0.7</td><td class=\"word\">differs</td>",
        "staged</td><td class=\"value\">none</td><td class=\"value\">3.0.0.0</td><td class=\"word\">differs</td>",
        "<p class=\"note\">the stages differ in 2 blocks</p>",
    ] {
        assert!(page.contains(row), "{page}");
    }
}

/// At all four levels, and where nothing differs.
#[test]
fn firmware_of_all_levels() {
    let marking_of = |levels: &[usize]| {
        let exercise = on_adapter(VALIDATE, levels);
        let marking = Marking::of(&exercise, None).unwrap();
        (
            report::text(&marking),
            report::csv(&marking),
            report::json(&marking),
        )
    };
    let (text, csv, json) = marking_of(&[0, 1, 2, 3]);
    let table = "
firmware   None      Restricted  Limited   Full
  running  1.26.0.0  1.26.0.0    1.26.0.0  1.26.0.0
  staged   none      none        2.1.0.7   2.1.0.7
the stages differ in 2 blocks
";
    assert!(text.contains(table), "{text}");
    assert!(csv.contains("\nfirmware,,running,1.26.0.0,1.26.0.0,1.26.0.0,1.26.0.0,no,\n"));
    assert!(csv.contains("\nfirmware,,stages,,,,,yes,\"stage block 0, "));
    assert!(json.contains("\"stages_same\": false,\n  \"stage_blocks_written\": [0, 0, 2, 2],"));
    let (text, csv, json) = marking_of(&[2, 3]);
    assert!(text
        .contains("\n  staged   2.1.0.7   2.1.0.7\nthe stages are the same, 2 blocks written\n"));
    assert!(text.contains("\nthe stages are the same\n\nfirmware "));
    assert!(csv.contains(
        "\nfirmware,,staged,2.1.0.7,2.1.0.7,no,\nfirmware,,stages,,,no,2 blocks written\n"
    ));
    assert!(json.contains("\"stages_same\": true,\n  \"stage_blocks_written\": [2, 2],"));
}

/// An image of the revisions that run, which both levels make current: nothing differs, and the written blocks show it.
#[test]
fn an_image_that_both_runs_make_current() {
    let current = format!("firmware-download validate major=1 minor=26\n{COMMIT}");
    let larger = format!("firmware-download validate blocks=32\n{current}");
    let linux = format!("linux firmware-download validate major=1 minor=26\nlinux {COMMIT}");
    for (session, levels, written) in [
        (&current, [2, 3], "1 block"),
        (&larger, [2, 3], "32 blocks"),
        (&linux, [0, 1], "1 block"),
    ] {
        let exercise = on_adapter(session, &levels);
        assert_eq!(left_of(&exercise), [""; 0]);
        let marking = Marking::of(&exercise, None).unwrap();
        assert_eq!(
            marking.firmware(),
            [end("1.26.0.0", None), end("1.26.0.0", None)]
        );
        let said = format!("the stages are the same, {written} written");
        let text = report::text(&marking);
        assert!(text.contains(&format!("\n{said}\n")), "{text}");
        assert!(report::html(&marking).contains(&format!("<p class=\"note\">{said}</p>")));
        let csv = report::csv(&marking);
        assert!(csv.contains(&format!("\nfirmware,,stages,,,no,{written} written")));
        let count: usize = written.split(' ').next().unwrap().parse().unwrap();
        assert_eq!(marking.written(), [count; 2]);
        let json = format!("\"stage_blocks_written\": [{count}, {count}],");
        assert!(report::json(&marking).contains(&json));
    }
}

/// A session that is not run shows no firmware, in any form; one without requests shows what the opening left.
#[test]
fn sessions_that_are_not_run() {
    let mut exercise = on_adapter(VALIDATE, &[3, 1]);
    for session in [VALIDATE, "", "tail 05"] {
        exercise.session.bytes = Form::Program.parse(session).unwrap();
        let marking = Marking::of(&exercise, None).unwrap();
        assert_eq!((marking.status(), marking.firmware()), (2, vec![]));
        let said = "no firmware: the session was not run";
        let text = report::text(&marking);
        assert!(text.contains(&format!("\n{said}\nno tally: ")), "{text}");
        assert!(report::html(&marking).contains(&format!("<p class=\"note\">{said}</p>")));
        assert!(!report::csv(&marking).contains("\nfirmware,"));
        let json = report::json(&marking);
        assert!(json.contains("\"firmware\": null}") && json.contains("\"stages_same\": null,"));
        assert!(json.contains("\"stage_blocks_written\": null,"));
    }
    exercise.texts.swap(0, 1);
    let marking = Marking::of(&exercise, None).unwrap();
    assert_eq!(
        marking.firmware(),
        [end("1.26.0.0", None), end("1.26.0.0", None)]
    );
    assert!(report::text(&marking).contains("\nthe stages are the same\n"));
    assert!(report::json(&marking).contains("\"stage_blocks_written\": [0, 0],"));
}
