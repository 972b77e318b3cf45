//! Disks held at spin-up (W-205): a hold that one run alone releases is left different, and the report says so in every form. And the
//! kit's warnings are of what the opening refuses.

use super::*;

const ADAPTER: &str = "\
phy attached=sata attached-address=5000C50000000001 signature=ata spin-up-hold=1
phy attached=sata attached-address=5000C50000000002 spin-up-hold=1
phy attached=sata attached-address=5000C50000000003 spin-up-hold=1 fixed=1
phy attached=sata attached-address=5000C50000000004
";

/// An exercise on that adapter at two levels.
fn held(session: &str, levels: [usize; 2]) -> Exercise {
    let mut exercise = exercise(0, &levels);
    exercise.adapter.bytes = labkit::adapter::parse(ADAPTER).unwrap();
    exercise.session.bytes = Form::Program.parse(session).unwrap();
    exercise.disks = None;
    exercise
}

/// What the runs of an exercise left differently, once its mark is that of the model.
fn left_of(exercise: &Exercise) -> Vec<String> {
    let marking = Marking::of(exercise, None).unwrap();
    let expected = expected(exercise);
    assert!(expected.is_some());
    assert_eq!(found(&marking), expected);
    assert_eq!(marking.explained, Some(true));
    let shown = |left: &crate::left::Left| {
        let difference = &left.difference;
        format!("{}: {}", difference.what, difference.values.join(" | "))
    };
    marking.left.iter().map(shown).collect()
}

const RELEASED: [&str; 2] = [
    "phy 0 negotiated: 3 (spin-up hold) | 9 (3.0 Gb/s)",
    "phy 0 spin-up-hold: 1 | 0",
];

#[test]
fn a_hold_that_one_run_releases() {
    for low in 0..3 {
        assert_eq!(left_of(&held("set-phy-info phy=0", [low, 3])), RELEASED);
    }
    let both = held("set-phy-info phy=0", [3, 3]);
    assert_eq!(left_of(&both), [""; 0]);
    let neither = held("set-phy-info phy=0", [1, 2]);
    assert_eq!(left_of(&neither), [""; 0]);
}

/// Disabled it is not held any more, and enabled it negotiates a rate.
#[test]
fn a_held_disk_that_is_disabled() {
    let disabled = "set-phy-info phy=1 negotiated=1\n";
    assert_eq!(
        left_of(&held(disabled, [1, 3])),
        [
            "phy 1 negotiated: 3 (spin-up hold) | 1 (disabled)",
            "phy 1 spin-up-hold: 1 | 0",
        ]
    );
    let again = format!("{disabled}set-phy-info phy=1 maximum=8\n");
    assert_eq!(
        left_of(&held(&again, [1, 3])),
        [
            "phy 1 negotiated: 3 (spin-up hold) | 8 (1.5 Gb/s)",
            "phy 1 programmed-maximum: 9 (3.0 Gb/s) | 8 (1.5 Gb/s)",
            "phy 1 spin-up-hold: 1 | 0",
        ]
    );
}

/// A fixed phy, a rate out of range, a class that there is not: refused, and the disk stays held.
#[test]
fn refused_changes_release_nothing() {
    for refused in ["phy=2", "phy=0 minimum=9 maximum=8", "phy=0 class=4"] {
        let session = format!("set-phy-info {refused}");
        assert_eq!(left_of(&held(&session, [1, 3])), [""; 0], "{refused}");
    }
}

#[test]
fn a_hold_in_every_form_of_report() {
    let exercise = held("get-phy-info\nset-phy-info phy=0\nget-phy-info", [1, 3]);
    reports_of(&exercise);
    let marking = Marking::of(&exercise, None).unwrap();
    let text = report::text(&marking);
    let one_blank = |line: &str| line.split_whitespace().collect::<Vec<_>>().join(" ");
    let lines: Vec<String> = text.lines().map(one_blank).collect();
    for line in [
        "phy 0 negotiated 3 (spin-up hold) 9 (3.0 Gb/s)",
        "phy 0 spin-up-hold 1 0",
    ] {
        assert!(lines.iter().any(|other| other == line), "{text}");
    }
    let csv = report::csv(&marking);
    for line in [
        "\ntables,,phy 0 negotiated,3 (spin-up hold),9 (3.0 Gb/s),yes,\n",
        "\ntables,,phy 0 spin-up-hold,1,0,yes,\n",
    ] {
        assert!(csv.contains(line), "{csv}");
    }
    let json = report::json(&marking);
    for part in [
        "\"phy 0 negotiated\", \"values\": [\"3 (spin-up hold)\", \"9 (3.0 Gb/s)\"]",
        "\"phy 0 spin-up-hold\", \"values\": [\"1\", \"0\"]",
    ] {
        assert!(json.contains(part), "{json}");
    }
    let page = report::html(&marking);
    for row in [
        "phy 0 negotiated</td><td class=\"value\">3 (spin-up hold)</td><td class=\"value\">9 (3.0 Gb/s)</td>",
        "phy 0 spin-up-hold</td><td class=\"value\">1</td><td class=\"value\">0</td>",
    ] {
        assert!(page.contains(row), "{page}");
    }
}

/// There is a warning where the opening refuses a hold, or a rate that does not go with it, and nowhere else.
#[test]
fn warnings_are_of_what_the_opening_refuses() {
    let mut refused = 0;
    for kind in [
        "none",
        "sata",
        "sata highest=8",
        "sata programmed-maximum=8 lowest=9",
        "sata attached-target=FFh fixed=1",
        "sas",
        "edge attached-target=01h",
        "fanout",
    ] {
        for (hold, rate) in [0, 1, 2, 255]
            .into_iter()
            .flat_map(|hold| (0..=255).map(move |rate| (hold, rate)))
        {
            let text = format!("phy attached={kind} spin-up-hold={hold} negotiated={rate}");
            let file = labkit::adapter::parse(&text).unwrap();
            let (medium, mut state) = ([0; 8192], [0; library::STATE_SIZE]);
            let number = library::open(b"CSMI=Full;", &file, &medium, &mut state);
            assert!(number == 0 || number == 104, "{text}: {number}");
            let warned = labkit::adapter::warnings(&file, |_| false);
            let of_hold = number == 104 && (hold != 0 || rate == 3);
            assert_eq!(warned.len(), usize::from(of_hold), "{text}");
            refused += usize::from(of_hold);
        }
    }
    // two values of the byte on every phy, 1 on the four that are no SATA phys, and all but two rates of the four that are; without a
    // hold the rate 3
    assert_eq!(refused, 8 * 2 * 256 + 4 * 256 + 4 * 254 + 8);
}
