//! The two readings of a session's binary. It runs in the form that its name says. If it is a session of the other form, other
//! requests would run than a console sent, so there is no mark then: Linux requests that are read in the program's form, which has
//! none, would ask for nothing.

use crate::report::requests_words;
use labkit::session::{Form, Session};

/// What the other reading says of a binary's name.
#[derive(Debug, PartialEq, Eq)]
pub enum Name {
    Right,
    /// Both forms fit and ask the same of the levels: it runs, with a warning.
    Doubtful(String),
    /// It is a session of the other form: there is no mark.
    Wrong(String),
}

/// Holds the name of a form's binary against what stands in it.
pub fn named(form: Form, bytes: &[u8]) -> Name {
    let (program, both) = (Form::Program.split(bytes), Form::Both.split(bytes));
    match form {
        Form::Program => named_session(&program, &both),
        Form::Both => named_both(&program, &both),
    }
}

/// `session`. Requests with the first header that stand in the form of both headers are whole in the program's form too, each behind
/// two empty ones. Linux requests mostly end it; but buffers of 768 bytes, for one, may pass for requests of the program.
fn named_session(program: &Session, both: &Session) -> Name {
    let wrong = match both.linux() {
        0 => both.is_whole() && !program.is_whole(),
        _ => !both.strays() || !program.is_whole(),
    };
    let requests = words(both);
    if wrong {
        return Name::Wrong(format!(
            "session reads as a session of both headers, of {requests}; its name then is session.both"
        ));
    }
    if both.is_whole() && !both.requests.is_empty() {
        return Name::Doubtful(format!(
            "session also reads as a session of both headers, of {requests}; if it is one, its name is session.both"
        ));
    }
    Name::Right
}

/// `session.both`. A request of the program begins with its length, which is no header's number from 2 on.
fn named_both(program: &Session, both: &Session) -> Name {
    let nothing = both.requests.is_empty() && !program.requests.is_empty();
    match both.strays() && (nothing || program.is_whole()) {
        true => Name::Wrong(format!(
            "session.both reads as a session in the program's form, of {}; its name then is session",
            words(program)
        )),
        false => Name::Right,
    }
}

/// How many requests a reading has.
fn words(session: &Session) -> String {
    let cut = if session.is_whole() {
        ""
    } else {
        ", up to a cut"
    };
    let requests = requests_words(session.requests.len(), session.linux());
    format!("{requests}{cut}")
}

#[cfg(test)]
mod tests {
    use super::*;

    const READS: &str = "get-phy-info\nget-link-errors\n";
    const WRITES: &str = "linux set-phy-info\nlinux stp-passthru command=30h data=5A*512\n";

    fn both(text: &str) -> Vec<u8> {
        Form::Both.parse(text).unwrap()
    }

    fn program(text: &str) -> Vec<u8> {
        Form::Program.parse(text).unwrap()
    }

    fn session(bytes: &[u8]) -> Name {
        named(Form::Program, bytes)
    }

    fn wrong(name: Name) -> Option<String> {
        match name {
            Name::Wrong(reason) => Some(reason),
            _ => None,
        }
    }

    #[test]
    fn linux_requests_under_the_name_session() {
        let bytes = both(&format!("{READS}{WRITES}"));
        let whole = "session reads as a session of both headers, of 4 requests, 2 of them Linux; its name then is session.both";
        assert_eq!(session(&bytes), Name::Wrong(whole.to_string()));
        let cut = "session reads as a session of both headers, of 3 requests, 1 of them Linux, up to a cut; its name then is session.both";
        let end = bytes.len() - 1;
        assert_eq!(session(&bytes[..end]), Name::Wrong(cut.to_string()));
        // the cut may be anything: a request cut short, or what is none
        let reads = both(READS).len();
        let first = both(&format!("{READS}linux set-phy-info\n")).len();
        for end in first..bytes.len() {
            assert!(wrong(session(&bytes[..end])).is_some(), "{end}");
        }
        let strays = [&bytes[..first], &[9; 12]].concat();
        assert!(wrong(session(&strays)).is_some());
        // no Linux request is whole
        for end in reads..first {
            assert_eq!(wrong(session(&bytes[..end])), None, "{end}");
        }
    }

    /// A console whose Linux buffers have 768 bytes: its session is whole in the program's form too.
    #[test]
    fn linux_requests_that_are_whole_in_both_forms() {
        let line = "linux stp-passthru command=30h data=5A*512 buffer=768\n";
        let bytes = both(&format!("{READS}{line}"));
        assert!(Form::Program.split(&bytes).is_whole());
        assert!(wrong(session(&bytes)).is_some());
        let cut = [&bytes[..], &[0; 8]].concat();
        assert!(Form::Program.split(&cut).is_whole());
        assert!(wrong(session(&cut)).is_some());
    }

    #[test]
    fn first_headers_under_the_name_session() {
        let warning = "session also reads as a session of both headers, of 2 requests; if it is one, its name is session.both";
        let doubtful = Name::Doubtful(warning.to_string());
        assert_eq!(session(&both(READS)), doubtful);
        // the program takes no request of this length
        let long = both(&format!("{READS}raw 00*32769\n"));
        let reason = "session reads as a session of both headers, of 3 requests; its name then is session.both";
        assert_eq!(session(&long), Name::Wrong(reason.to_string()));
    }

    #[test]
    fn sessions_of_the_program() {
        for text in [
            "",
            READS,
            "raw\n",
            "raw\nraw\nget-phy-info\nget-phy-info\n",
            "raw 16\nget-phy-info\nset-phy-info\n",
            "raw 00\nraw 00*40\nraw 00*9000\n",
        ] {
            let bytes = program(text);
            assert_eq!(session(&bytes), Name::Right, "{text}");
        }
        let cut = program(&format!("{READS}tail 050000"));
        assert_eq!(session(&cut), Name::Right);
    }

    #[test]
    fn the_name_session_both() {
        let named = |bytes: &[u8]| named(Form::Both, bytes);
        let reason = "session.both reads as a session in the program's form, of 2 requests; its name then is session";
        assert_eq!(named(&program(READS)), Name::Wrong(reason.to_string()));
        let reason = "session.both reads as a session in the program's form, of 2 requests, up to a cut; its name then is session";
        let cut = program(&format!("{READS}tail 050000"));
        assert_eq!(named(&cut), Name::Wrong(reason.to_string()));
        // its first two requests are empty, and the third reads as one of both headers
        let empty = program(&format!("raw\nraw\n{READS}set-phy-info\n"));
        assert!(wrong(named(&empty)).is_some());
        let bytes = both(&format!("{READS}{WRITES}"));
        for end in 0..=bytes.len() {
            assert_eq!(named(&bytes[..end]), Name::Right, "{end}");
        }
        let strays = [&bytes[..], &[9; 12]].concat();
        assert_eq!(named(&strays), Name::Right);
    }
}
