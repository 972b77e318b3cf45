//! The order of the checks: state, medium, stage, buffer, Direction, code, Length, the code's own.

use super::{buffer, return_code};
use crate::tests::adapter::{file, medium, sample, stage};
use crate::{open, request_linux, State};

struct Sent {
    state: State,
    medium: Vec<u8>,
    stage: Vec<u8>,
    control: u32,
    buffer: Vec<u8>,
}

#[derive(Clone, Copy, PartialEq, Eq, Debug)]
enum Answer {
    Call(u32),
    Code(u32),
}

type Fault = (fn(&mut Sent), Answer);

/// One for each check, in their order. Direction and Length have the same code: each is told from
/// the other by the unknown code, which stands between them. Medium and stage have the same number.
const FAULTS: [Fault; 8] = [
    (|sent| sent.state.level = 4, Answer::Call(107)),
    (|sent| sent.medium.push(0), Answer::Call(106)),
    (|sent| sent.stage.push(0), Answer::Call(106)),
    (|sent| sent.buffer.truncate(19), Answer::Call(100)),
    (|sent| sent.buffer[16] = 2, Answer::Code(3)),
    (|sent| sent.control = 24, Answer::Code(2)),
    (|sent| sent.buffer[4] -= 1, Answer::Code(3)),
    (|sent| sent.buffer[20] = 5, Answer::Code(2002)),
];

/// The counters of phy 0, which every check lets through.
fn sound() -> Sent {
    Sent {
        state: sample(),
        medium: medium(5),
        stage: stage(),
        control: 22,
        buffer: buffer(&[0; 20]),
    }
}

/// What the request gets; with a number that is not 0 nothing is touched.
fn answered(mut sent: Sent) -> Answer {
    let before = (sent.state.clone(), sent.medium.clone(), sent.buffer.clone());
    let stage_before = sent.stage.clone();
    let number = request_linux(
        &mut sent.state,
        &mut sent.medium,
        &mut sent.stage,
        sent.control,
        &mut sent.buffer,
    );
    if number == 0 {
        return Answer::Code(return_code(&sent.buffer));
    }
    assert_eq!((sent.state, sent.medium, sent.buffer), before);
    assert_eq!(sent.stage, stage_before);
    Answer::Call(number)
}

/// The sound request with these faults; the later ones first, since a short buffer has no fields.
fn with(faults: &[Fault]) -> Answer {
    let mut sent = sound();
    for (put, _) in faults.iter().rev() {
        put(&mut sent);
    }
    answered(sent)
}

#[test]
fn each_check_alone() {
    assert_eq!(answered(sound()), Answer::Code(0));
    for fault in FAULTS {
        assert_eq!(with(&[fault]), fault.1);
    }
}

#[test]
fn each_pair_of_checks() {
    for (n, first) in FAULTS.into_iter().enumerate() {
        for second in &FAULTS[n + 1..] {
            assert_eq!(with(&[first, *second]), first.1);
        }
    }
}

#[test]
fn any_checks_together() {
    for chosen in 1..1 << FAULTS.len() {
        let is_chosen = |n: &usize| chosen >> n & 1 == 1;
        let faults: Vec<Fault> = (0..FAULTS.len())
            .filter(is_chosen)
            .map(|n| FAULTS[n])
            .collect();
        assert_eq!(with(&faults), faults[0].1, "{chosen:08b}");
    }
}

/// "whatever the text says": but a text that is refused leaves the zero state.
#[test]
fn after_a_refused_opening() {
    let (number, state) = open(b"CSMI=full;", &file(&sample()), &medium(5));
    assert_eq!(number, 101);
    for (medium, buffer) in [(medium(5), buffer(&[0; 20])), (Vec::new(), Vec::new())] {
        let sent = Sent {
            state: state.clone(),
            medium,
            stage: stage(),
            control: 22,
            buffer,
        };
        assert_eq!(answered(sent), Answer::Call(107));
    }
}
