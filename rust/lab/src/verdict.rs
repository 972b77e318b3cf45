//! Whether there is a mark: why an exercise gets none, and where a session is cut. All of it goes by what the library answers.

use crate::exercise::Exercise;
use crate::run::Run;
use crate::state::DISK;
use labkit::adapter::is_old;
use labkit::names::{call_words, level_name};
use labkit::session::Session;

const BAD_TEXT: u32 = 101;
const FILE_LENGTH: u32 = 102;
const MEDIUM_LENGTH: u32 = 106;

const NOTHING_ASKED: &str =
    "no request gets past its header's checks, so no level was asked for anything";
const NOT_AS_PROVED: &str = "the high run without the requests denied low is not the low run, as it is proved to be; make the library anew: rt lib in crates/exports";

/// Why the session is not run, whatever it holds: an opening is refused, the levels are the wrong way round, or its name is that of the
/// other form.
pub fn not_run(exercise: &Exercise, runs: &[Run]) -> Option<String> {
    let refused = exercise
        .texts
        .iter()
        .zip(runs)
        .find(|(_, run)| run.opening != 0);
    if let Some((text, run)) = refused {
        return Some(refusal(exercise, &text.from, run.opening));
    }
    if let [low, high] = runs {
        if low.level() > high.level() {
            return Some(format!(
                "low.txt gives {} and high.txt gives {}; the lower level comes first, so exchange the texts",
                level_name(low.level()),
                level_name(high.level())
            ));
        }
    }
    exercise.misnamed.clone()
}

/// Why a session that is run sends nothing: it is empty, or is cut in its first request.
pub fn nothing_sent(exercise: &Exercise, session: &Session) -> Option<String> {
    match (session.requests.is_empty(), session.is_whole()) {
        (true, true) => Some(format!("the session of {} is empty", exercise.session.from)),
        (true, false) => Some(cut(session, 0)),
        _ => None,
    }
}

/// Why runs that have ended give no mark: what was asked about a request contradicts its reply, or what the runs beside them say.
pub fn after(
    contradiction: Option<String>,
    past_header: bool,
    explained: Option<bool>,
) -> Option<String> {
    contradiction.or_else(|| match (past_header, explained) {
        (false, _) => Some(NOTHING_ASKED.to_string()),
        (true, Some(false)) => Some(NOT_AS_PROVED.to_string()),
        (true, _) => None,
    })
}

/// Why an opening was refused, in words.
fn refusal(exercise: &Exercise, text: &str, number: u32) -> String {
    let words = call_words(number);
    match number {
        BAD_TEXT => format!(
            "{text} gives no level: {words}; an entry is exactly CSMI=None; CSMI=Restricted; CSMI=Limited; or CSMI=Full; and stands once"
        ),
        MEDIUM_LENGTH => format!(
            "the opening refuses the disks: {words}; {} bytes are given, and {} phys have {DISK} bytes each",
            exercise.medium().len(),
            exercise.phys()
        ),
        _ => {
            let from = &exercise.adapter.from;
            let why = layout(number, from, &exercise.adapter.bytes).unwrap_or_default();
            format!("the opening refuses the adapter of {from}: {words}{why}")
        }
    }
}

/// What is to be said of an adapter whose length is that of the old layout.
fn layout(number: u32, from: &str, file: &[u8]) -> Option<String> {
    let remedy = match from.ends_with(".txt") {
        true => "without its length line it is of the present one",
        false => "labkit upgrade OLD NEW makes a file of the present one",
    };
    (number == FILE_LENGTH && is_old(file)).then(|| {
        let length = file.len();
        format!("; {length} bytes are the old layout, which ended behind the rows: {remedy}")
    })
}

/// Where a session is cut: behind so many requests, of which the bytes before the tail consist.
pub fn cut(session: &Session, before: usize) -> String {
    let number = session.requests.len() + 1;
    let why = session.form.why_cut(session.tail);
    format!("the session is cut at request {number}, byte {before}: {why}")
}

#[cfg(test)]
mod tests {
    use super::*;
    use labkit::session::{split, Form};

    #[test]
    fn runs_that_give_no_mark() {
        let begins =
            |verdict: Option<String>, words: &str| verdict.is_some_and(|v| v.starts_with(words));
        let asked = |past_header, explained| after(None, past_header, explained);
        assert!(begins(asked(false, Some(true)), "no request gets past"));
        assert!(begins(asked(false, None), "no request gets past"));
        assert!(begins(asked(true, Some(false)), "the high run without"));
        assert_eq!(asked(true, Some(true)), None);
        assert_eq!(asked(true, None), None);
        for past_header in [false, true] {
            let reason = Some("request 2".to_string());
            assert!(begins(after(reason, past_header, None), "request 2"));
        }
    }

    #[test]
    fn files_of_the_old_layout() {
        let now = labkit::adapter::parse("phy\nphy\nrow").unwrap();
        let said = |number, file: &[u8]| layout(number, "adapter.bin", file);
        let words = "; 2048 bytes are the old layout, which ended behind the rows: labkit upgrade OLD NEW makes a file of the present one";
        assert_eq!(said(102, &now[..2048]), Some(words.to_string()));
        for length in [0, 512, 1536, 2047, 2049, 2560, now.len()] {
            assert_eq!(said(102, &now[..length]), None, "{length}");
        }
        assert_eq!(said(103, &now[..2048]), None);
        let text = layout(102, "adapter.txt", &now[..2048]);
        assert!(text.is_some_and(
            |words| words.ends_with("rows: without its length line it is of the present one")
        ));
    }

    #[test]
    fn where_a_session_is_cut() {
        let said = |bytes: &[u8]| cut(&split(bytes), 0);
        assert_eq!(
            said(&[1, 0]),
            "the session is cut at request 1, byte 0: of its length of 4 bytes there are 2"
        );
        assert_eq!(
            said(&[5, 0, 0, 0, 9]),
            "the session is cut at request 1, byte 0: its length says 5 bytes, and there are 1"
        );
        assert_eq!(
            said(&[1, 128, 0, 0, 9]),
            "the session is cut at request 1, byte 0: its length says 32769, over 32768"
        );
        assert_eq!(
            cut(&Form::Both.split(&[2; 12]), 0),
            "the session is cut at request 1, byte 0: its header is 33686018, which is neither 0, the first, nor 1, Linux's"
        );
    }
}
