//! Marks computed a second time, by the model of document 01, on generated exercises: damaged adapters, media of other lengths,
//! cut sessions and every pair of levels among them, with the first header alone and with both. And every form of report on each.

mod firmware;
mod linux;
mod spin_up;
mod tally;

use crate::exercise::{Exercise, Text};
use crate::files::Part;
use crate::marking::Marking;
use crate::report;
use crate::row::Row;
use differential::generate;
use differential::session::Framing;
use labkit::names::LEVELS;
use labkit::session::{Form, Header, Request};
use model::State;

const CASES: u64 = 150;
const REQUESTS: usize = 40;
/// A stage as every run begins with it.
const STAGE: [u8; model::layout::STAGE] = [0; model::layout::STAGE];

/// A generated exercise at two levels, or at all four.
fn exercise(seed: u64, levels: &[usize]) -> Exercise {
    let case = generate::case(seed, REQUESTS, Framing::First);
    let part = |from: &str, bytes| Part {
        from: from.to_string(),
        bytes,
        warnings: Vec::new(),
    };
    let text = |level: &usize| Text {
        run: LEVELS[*level],
        from: format!("{level}.txt"),
        bytes: format!("CSMI={};", LEVELS[*level]).into_bytes(),
    };
    Exercise {
        name: format!("seed {seed}"),
        adapter: part("adapter.bin", case.file),
        session: part("session", case.session),
        form: Form::Program,
        misnamed: None,
        texts: levels.iter().map(text).collect(),
        disks: Some(part("disks", case.medium)),
    }
}

/// The generated exercises of a seed: with the first header alone, and with both.
fn exercises(seed: u64, levels: &[usize]) -> [Exercise; 2] {
    [
        exercise(seed, levels),
        linux::mixed(seed, exercise(seed, levels)),
    ]
}

/// A run of the model: each reply with the call's number before it, how many requests were denied, how many Linux requests got past
/// their header's checks, how many of them need more than the level, and what is left but the level.
struct Modelled {
    opening: u32,
    replies: Vec<(u32, Vec<u8>)>,
    denied: usize,
    linux: usize,
    above: usize,
    left: (Vec<u8>, Vec<u8>, Vec<u8>),
}

fn modelled(exercise: &Exercise, text: &[u8]) -> Modelled {
    let mut medium = exercise.medium();
    let (opening, mut state): (u32, State) = model::open(text, &exercise.adapter.bytes, &medium);
    let mut stage = STAGE.to_vec();
    let (mut replies, mut denied, mut linux, mut above) = (Vec::new(), 0, 0, 0);
    for request in exercise.form.split(&exercise.session.bytes).requests {
        let mut buffer = request.buffer.to_vec();
        let call = match request.header {
            Header::Srb => {
                denied += usize::from(model::denied(&state, &medium, &stage, &buffer));
                model::request(&mut state, &mut medium, &mut stage, &mut buffer)
            }
            Header::Linux { control } => {
                linux += usize::from(linux::passes(control, &buffer));
                above += usize::from(linux::is_above(&state, &medium, control, &buffer));
                model::request_linux(&mut state, &mut medium, &mut stage, control, &mut buffer)
            }
        };
        replies.push((call, buffer));
    }
    Modelled {
        opening,
        replies,
        denied,
        linux,
        above,
        left: (state.to_bytes()[1..].to_vec(), medium, stage),
    }
}

/// What a mark says: the differing replies, those denied low, the Linux requests above the low level, and whether the runs left the same.
#[derive(Debug, PartialEq, Eq)]
struct Mark {
    differ: usize,
    denied: usize,
    above: usize,
    same: bool,
}

/// The mark by the model; none if it gives none.
fn expected(exercise: &Exercise) -> Option<Mark> {
    let [low, high] = [0, 1].map(|i| modelled(exercise, &exercise.texts[i].bytes));
    let none = modelled(exercise, b"CSMI=None;");
    if low.opening != 0 || none.denied + none.linux == 0 {
        return None;
    }
    let pairs = low.replies.iter().zip(&high.replies);
    Some(Mark {
        differ: pairs.filter(|(one, other)| one != other).count(),
        denied: low.denied,
        above: low.above,
        same: low.left == high.left,
    })
}

fn found(marking: &Marking) -> Option<Mark> {
    marking.no_mark.is_none().then(|| Mark {
        differ: marking.differing(),
        denied: marking.denied(0),
        above: marking.above(0),
        same: marking.left.is_empty(),
    })
}

fn status(mark: &Option<Mark>) -> u8 {
    match mark {
        None => 2,
        Some(mark) if mark.differ + mark.above == 0 && mark.same => 0,
        Some(_) => 1,
    }
}

#[test]
fn marks_are_those_of_the_model() {
    for kind in 0..2 {
        let mut statuses = [0; 3];
        for seed in 0..CASES {
            let (low, high) = (seed as usize % 4, seed as usize / 4 % 4);
            if low > high {
                continue;
            }
            let exercise = &exercises(seed, &[low, high])[kind];
            let marking = Marking::of(exercise, None).unwrap();
            let expected = expected(exercise);
            assert_eq!(found(&marking), expected, "seed {seed}");
            assert_eq!(marking.status(), status(&expected), "seed {seed}");
            if expected.is_some() {
                assert_eq!(marking.explained, Some(true), "seed {seed}");
            }
            statuses[usize::from(marking.status())] += 1;
        }
        assert!(statuses.iter().all(|count| *count > 0), "{statuses:?}");
    }
}

/// A session of which only the requests are left that do not get past their header's checks has no mark; one more request, and it has.
#[test]
fn sessions_that_ask_nothing() {
    for kind in 0..2 {
        let mut tried = 0;
        for seed in 0..CASES {
            let [first, both] = exercises(seed, &[1, 3]);
            let mut exercise = if kind == 0 { first } else { both };
            let medium = exercise.medium();
            let (opening, state) = model::open(b"CSMI=None;", &exercise.adapter.bytes, &medium);
            let whole = std::mem::take(&mut exercise.session.bytes);
            let is_past = |request: &Request| match request.header {
                Header::Srb => model::denied(&state, &medium, &STAGE, request.buffer),
                Header::Linux { control } => linux::passes(control, request.buffer),
            };
            let requests = exercise.form.split(&whole).requests;
            let (past, stopped): (Vec<Request>, Vec<Request>) =
                requests.into_iter().partition(is_past);
            if opening != 0 || past.is_empty() || stopped.is_empty() {
                continue;
            }
            exercise.session.bytes = joined(exercise.form, &stopped);
            let alone = Marking::of(&exercise, None).unwrap().status();
            assert_eq!(alone, 2, "seed {seed}");
            let one_more = joined(exercise.form, &past[..1]);
            exercise.session.bytes.extend(one_more);
            let with_one = Marking::of(&exercise, None).unwrap().status();
            assert_ne!(with_one, 2, "seed {seed}");
            tried += 1;
        }
        assert!(tried > 20, "{tried}");
    }
}

fn joined(form: Form, requests: &[Request]) -> Vec<u8> {
    let mut session = Vec::new();
    for request in requests {
        form.add(&mut session, request).unwrap();
    }
    session
}

/// Every form of report is made of every exercise, with a difference named wherever there is one.
#[test]
fn reports_of_any_exercise() {
    for seed in 0..CASES / 3 {
        for levels in [&[1, 3][..], &[0, 1, 2, 3]] {
            for exercise in exercises(seed, levels) {
                reports_of(&exercise);
            }
        }
    }
}

fn reports_of(exercise: &Exercise) {
    let marking = Marking::of(exercise, None).unwrap();
    let named = |row: &Row| row.differs() != row.differences.is_empty();
    assert!(marking.rows.iter().all(named), "{}", exercise.name);
    let text = report::text(&marking);
    let last = text.lines().last().unwrap_or("");
    let begins = if marking.status() == 2 {
        "no mark: "
    } else {
        "mark: "
    };
    assert!(last.starts_with(begins), "{last}");
    assert!(report::json(&marking).ends_with("}\n"));
    assert!(report::csv(&marking).lines().count() > marking.rows.len());
    well_formed(&report::html(&marking));
}

/// Every element that a page opens it closes, in order.
fn well_formed(page: &str) {
    let mut open: Vec<&str> = Vec::new();
    for part in page.split('<').skip(1) {
        let (tag, _) = part.split_once('>').expect("a tag ends");
        let name = tag.split_whitespace().next().unwrap_or("");
        match name.strip_prefix('/') {
            Some(closed) => assert_eq!(open.pop(), Some(closed)),
            None if name == "meta" || name == "!DOCTYPE" => {}
            None => open.push(name),
        }
    }
    assert_eq!(open, [""; 0]);
}
