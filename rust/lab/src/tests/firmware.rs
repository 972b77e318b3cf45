//! Firmware (W-207): sessions with images among other requests are marked as the model marks them, and what one run alone stages or makes
//! current is left different.

mod reports;

use super::*;
use crate::run::Run;
use differential::random::Random;

const ADAPTER: &str = "controller major=1 minor=26\nphy\nphy\n";

/// An exercise on that adapter.
fn on_adapter(session: &str, levels: &[usize]) -> Exercise {
    let mut exercise = exercise(0, levels);
    exercise.adapter.bytes = labkit::adapter::parse(ADAPTER).unwrap();
    exercise.form = Form::of(session).unwrap();
    exercise.session.bytes = exercise.form.parse(session).unwrap();
    exercise.disks = None;
    exercise
}

const VALIDATE: &str = "firmware-download validate major=2 minor=1 release=7 blocks=2 fill=5Ah\n";
const COMMIT: &str = "firmware-download commit\n";

/// A code 4 of any kind: sound ones, damaged ones, and lengths and flags of their own.
fn any_download(random: &mut Random) -> String {
    let blocks = random.pick(&[1, 1, 2, 3, 31, 32]);
    let image = format!(
        "validate major={} release={} blocks={blocks} fill={}",
        random.below(4),
        random.below(65_536),
        random.below(256)
    );
    let wrong = random.below(blocks);
    match random.below(12) {
        0..=3 => image,
        4..=6 => "commit".to_string(),
        7 => format!("{image} damage={wrong}"),
        8 => format!("{image} flags={}", random.below(8)),
        9 => format!("{image} buffer-length={}", random.below(512 * blocks + 2)),
        10 => format!("validate blocks={}", random.pick(&[33, 40])),
        _ => random
            .pick(&["flags=validate", "commit data=00*512", "commit length=43"])
            .to_string(),
    }
}

/// The exercise with a code 4 between its requests, and with code 2 now and then.
fn among(seed: u64, mut exercise: Exercise) -> Exercise {
    let random = &mut Random::new(seed);
    let form = exercise.form;
    let session = form.split(&exercise.session.bytes);
    let mut whole = Vec::new();
    for request in &session.requests {
        form.add(&mut whole, request).unwrap();
        let linux = form == Form::Both && random.one_in(2);
        let header = if linux { "linux " } else { "" };
        let line = match random.one_in(4) {
            true => "get-cntlr-config".to_string(),
            false => format!("firmware-download {}", any_download(random)),
        };
        whole.extend(form.parse(&format!("{header}{line}")).unwrap());
    }
    whole.extend(session.tail);
    exercise.session.bytes = whole;
    exercise
}

/// Whether a run ended as the model does, its stage and what is staged too.
fn ended_as_the_model(exercise: &Exercise, marking: &Marking) {
    for (run, text) in marking.runs.iter().zip(&exercise.texts) {
        let (state, medium, stage) = modelled(exercise, &text.bytes).left;
        assert!(run.state[1..] == state, "{}", exercise.name);
        assert!(run.medium == medium, "{}", exercise.name);
        assert!(run.stage == stage, "{}", exercise.name);
    }
}

#[test]
fn marks_with_firmware_are_those_of_the_model() {
    for kind in 0..2 {
        let (mut staged, mut differ, mut failed, mut above) = (0, 0, 0, 0);
        for seed in 0..CASES {
            let (low, high) = (seed as usize % 4, seed as usize / 4 % 4);
            if low > high {
                continue;
            }
            let [first, both] = exercises(seed, &[low, high]);
            let exercise = among(seed, if kind == 0 { first } else { both });
            let marking = Marking::of(&exercise, None).unwrap();
            let expected = expected(&exercise);
            assert_eq!(found(&marking), expected, "seed {seed}");
            assert_eq!(marking.status(), status(&expected), "seed {seed}");
            if expected.is_none() {
                continue;
            }
            assert_eq!(marking.explained, Some(true), "seed {seed}");
            ended_as_the_model(&exercise, &marking);
            let ends = marking.firmware();
            staged += ends.iter().filter(|end| end.staged.is_some()).count();
            differ += usize::from(marking.left_counts().blocks > 0);
            above += marking.above(0);
            let codes = marking.rows.iter().flat_map(|row| &row.answers);
            failed += codes.filter(|answer| answer.code == Some(1)).count();
        }
        let seen = [staged, differ, failed];
        assert!(seen.iter().all(|count| *count > 10), "{seen:?}");
        assert_eq!(above > 10, kind == 1);
    }
}

/// What the library's run stages is what its calls stage.
#[test]
fn the_run_stages_what_the_calls_stage() {
    let mut changed = 0;
    for seed in 0..CASES {
        let exercise = among(seed, exercise(seed, &[seed as usize % 4]));
        let (text, file) = (&exercise.texts[0].bytes, &exercise.adapter.bytes);
        let (mut medium, mut stage) = (exercise.medium(), STAGE);
        let mut one = Run::open("one", text, file, &medium);
        let requests = exercise.form.split(&exercise.session.bytes).requests;
        requests.iter().for_each(|request| one.handle(request));
        let mut whole = exercise.session.bytes.clone();
        let mut record = vec![0; library::record::SIZE * requests.len()];
        library::run(text, file, &mut medium, &mut stage, &mut whole, &mut record);
        assert!(record == one.record, "seed {seed}");
        assert!(stage[..] == one.stage, "seed {seed}");
        changed += usize::from(stage != STAGE);
    }
    assert!(changed > 40, "{changed}");
}

/// What the runs of an exercise left differently, once its mark is that of the model.
fn left_of(exercise: &Exercise) -> Vec<String> {
    let marking = Marking::of(exercise, None).unwrap();
    let expected = expected(exercise);
    assert!(expected.is_some());
    assert_eq!(found(&marking), expected);
    assert_eq!(marking.explained, Some(true));
    ended_as_the_model(exercise, &marking);
    let what = |left: &crate::left::Left| left.difference.what.clone();
    marking.left.iter().map(what).collect()
}

const STAGE_LEFT: [&str; 2] = ["stage block 0, 507 bytes", "stage block 1, 512 bytes"];

/// Staged in one run alone, it is the mark's, even if nobody makes it current and no reply but the denied one differs.
#[test]
fn an_image_that_one_run_stages() {
    for (low, high) in [(0, 2), (1, 2), (1, 3)] {
        let left = left_of(&on_adapter(VALIDATE, &[low, high]));
        let fields = [
            "firmware staged",
            "firmware staged-major",
            "firmware staged-minor",
            "firmware staged-release",
        ];
        assert_eq!(left, [&fields[..], &STAGE_LEFT].concat());
    }
    for levels in [[0, 1], [2, 3], [3, 3]] {
        assert_eq!(left_of(&on_adapter(VALIDATE, &levels)), [""; 0]);
    }
}

/// An image of revisions 0 that is like the stage, but for its check: the stage tells it, and that it is staged.
#[test]
fn an_image_of_zeros() {
    let left = left_of(&on_adapter("firmware-download validate\n", &[1, 2]));
    assert_eq!(left, ["firmware staged", "stage block 0, 1 byte"]);
}

/// Made current in one run alone: what runs, and the stage, which a commit leaves as it is.
#[test]
fn an_image_that_one_run_makes_current() {
    let session = format!("{VALIDATE}{COMMIT}");
    let fields = ["controller major", "controller minor", "controller release"];
    let left = left_of(&on_adapter(&session, &[1, 2]));
    assert_eq!(left, [&fields[..], &STAGE_LEFT].concat());
    let twice = format!("{session}{COMMIT}");
    assert_eq!(left_of(&on_adapter(&twice, &[1, 2])), left);
}

/// A wrong check, lengths that no image has, and a commit of nothing: refused, and nothing is left different.
#[test]
fn refused_images_leave_nothing() {
    for refused in [
        "validate major=2 blocks=32 damage=31",
        "validate blocks=33",
        "validate data=00*511",
        "flags=validate",
        "commit",
        "validate flags=6",
    ] {
        let session = format!("firmware-download {refused}\n");
        let left = left_of(&on_adapter(&session, &[1, 3]));
        assert_eq!(left, [""; 0], "{refused}");
    }
}

/// A Linux console that stages firmware leaves nothing different, and the mark says what it needs.
#[test]
fn a_linux_console_that_stages_firmware() {
    let session = format!("linux get-phy-info\nlinux {VALIDATE}linux {COMMIT}");
    for (levels, above) in [([0, 1], 3), ([1, 3], 2), ([2, 3], 0)] {
        let exercise = on_adapter(&session, &levels);
        assert_eq!(left_of(&exercise), [""; 0]);
        let marking = Marking::of(&exercise, None).unwrap();
        assert_eq!(marking.above(0), above);
        assert_eq!(marking.status(), u8::from(above > 0));
        let running = marking.firmware().into_iter().map(|end| end.running);
        assert_eq!(running.collect::<Vec<_>>(), ["2.1.0.7"; 2]);
    }
}

/// Without the denied requests the high run is the low one, by its stage too: where it is not, there is no mark.
#[test]
fn stages_belong_to_what_is_left() {
    let adapter = labkit::adapter::parse(ADAPTER).unwrap();
    let medium = vec![0; 2 * crate::state::DISK];
    let one = Run::open("one", b"CSMI=Limited;", &adapter, &medium);
    for at in [0, 511, 512, 16_383] {
        let mut other = one.clone();
        assert!(one.left_as(&other));
        other.stage[at] = 1;
        assert!(!one.left_as(&other), "{at}");
        other.become_like(&one);
        assert!(one.left_as(&other), "{at}");
    }
}
