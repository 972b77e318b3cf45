//! One case as text. Sections begin at the left, and their lines are indented by four blanks:
//!
//! ```text
//! # what the case shows
//! level "CSMI=Restricted;"     (or bytes in hexadecimal, or: missing)
//! adapter shelf                (a shared description, further lines below it; or a whole one; or: missing)
//! session
//!     get-driver-info
//! prints
//!     request call code
//!     1 0 0
//! ```
//!
//! A case of two runs has `low`, `high`, `low-prints`, `high-prints` and the `codes` in their place.

use labkit::text::{line, Line};
use labkit::{adapter, session, value, Fault};

#[derive(Debug, PartialEq, Eq)]
pub struct Case {
    /// None if the file is missing.
    pub adapter: Option<Vec<u8>>,
    pub session: Vec<u8>,
    /// One run, or the low one and the high one.
    pub runs: Vec<Run>,
    /// How many return codes of two runs differ, and how many requests were denied low.
    pub codes: Option<String>,
}

#[derive(Debug, PartialEq, Eq)]
pub struct Run {
    /// None if the file is missing.
    pub level: Option<Vec<u8>>,
    pub prints: String,
}

/// A section: its first line, the lines below it without their indentation, and their numbers in the case.
struct Section {
    head: Line,
    body: String,
    numbers: Vec<usize>,
}

impl Case {
    /// Reads a case; `shared` gives the text of a shared adapter.
    pub fn parse(
        text: &str,
        shared: impl Fn(&str) -> Result<String, String>,
    ) -> Result<Case, Fault> {
        let mut sections = sections(text)?;
        let mut take = |name: &str| take(&mut sections, name);
        let adapter = match take("adapter")? {
            Some(section) => section.adapter(shared)?,
            None => return Err(Fault::new(1, "the case has no adapter")),
        };
        let session = match take("session")? {
            Some(section) => section.session()?,
            None => return Err(Fault::new(1, "the case has no session")),
        };
        let mut runs = Vec::new();
        for (level, prints) in [
            ("level", "prints"),
            ("low", "low-prints"),
            ("high", "high-prints"),
        ] {
            match (take(level)?, take(prints)?) {
                (None, None) => {}
                (Some(level), Some(prints)) => runs.push(Run {
                    level: level.level()?,
                    prints: prints.plain()?,
                }),
                _ => return Err(Fault::new(1, format!("{level} and {prints} go together"))),
            }
        }
        let codes = take("codes")?.map(|section| section.words()).transpose()?;
        if let Some(left) = sections.first() {
            let reason = format!("a case has no section '{}'", left.head.name);
            return Err(Fault::new(left.head.number, reason));
        }
        if runs.is_empty() || (codes.is_some() && runs.len() != 2) {
            return Err(Fault::new(1, "the case has no level, or codes of one run"));
        }
        Ok(Case {
            adapter,
            session,
            runs,
            codes,
        })
    }
}

/// Cuts a text into its sections.
fn sections(text: &str) -> Result<Vec<Section>, Fault> {
    let mut found: Vec<Section> = Vec::new();
    for (i, whole) in text.lines().enumerate() {
        let number = i + 1;
        if let Some(inner) = whole.strip_prefix("    ") {
            let Some(section) = found.last_mut() else {
                return Err(Fault::new(number, "an indented line before any section"));
            };
            section.body.push_str(inner);
            section.body.push('\n');
            section.numbers.push(number);
        } else if let Some(head) = line(whole, number)? {
            found.push(Section {
                head,
                body: String::new(),
                numbers: Vec::new(),
            });
        }
    }
    Ok(found)
}

/// Takes the section of that name; a second one is a fault.
fn take(sections: &mut Vec<Section>, name: &str) -> Result<Option<Section>, Fault> {
    let is_it = |section: &Section| section.head.name == name;
    let Some(at) = sections.iter().position(is_it) else {
        return Ok(None);
    };
    let section = sections.remove(at);
    match sections.iter().find(|section| is_it(section)) {
        Some(second) => Err(Fault::new(
            second.head.number,
            format!("a second section {name}"),
        )),
        None => Ok(Some(section)),
    }
}

impl Section {
    fn fault(&self, reason: impl std::fmt::Display) -> Fault {
        Fault::new(self.head.number, reason.to_string())
    }

    /// A fault of a description below the head, with the line it has in the case.
    fn moved(&self, fault: Fault) -> Fault {
        Fault::new(self.numbers[fault.line - 1], fault.reason)
    }

    /// The bytes of a level text: quoted, in hexadecimal, or missing.
    fn level(mut self) -> Result<Option<Vec<u8>>, Fault> {
        let word = self.head.expect("a text")?;
        self.head.finish()?;
        if word.quoted {
            return Ok(Some(word.value.into_bytes()));
        }
        if word.value == "missing" {
            return Ok(None);
        }
        let bytes = value::bytes(&word.value);
        bytes.map(Some).map_err(|reason| self.fault(reason))
    }

    /// The adapter file: a shared description with the lines below it, the lines alone, or missing.
    fn adapter(
        mut self,
        shared: impl Fn(&str) -> Result<String, String>,
    ) -> Result<Option<Vec<u8>>, Fault> {
        let name = self.head.next_plain().map(|word| word.value);
        self.head.finish()?;
        let mut text = match name.as_deref() {
            Some("missing") => return Ok(None),
            Some(name) => shared(name).map_err(|reason| self.fault(reason))?,
            None => String::new(),
        };
        let before = text.lines().count();
        text.push_str(&self.body);
        let file = adapter::parse(&text).map_err(|fault| match fault.line > before {
            true => self.moved(Fault::new(fault.line - before, fault.reason)),
            false => self.fault(format!("in the shared adapter, {fault}")),
        });
        file.map(Some)
    }

    fn session(self) -> Result<Vec<u8>, Fault> {
        self.head.finish()?;
        session::parse(&self.body).map_err(|fault| self.moved(fault))
    }

    /// The lines below the head as they stand.
    fn plain(self) -> Result<String, Fault> {
        self.head.finish()?;
        Ok(self.body)
    }

    /// The words behind the name.
    fn words(mut self) -> Result<String, Fault> {
        let mut words = Vec::new();
        while let Some(word) = self.head.next_plain() {
            words.push(word.value);
        }
        self.head.finish()?;
        Ok(words.join(" "))
    }
}

#[cfg(test)]
mod tests {
    use super::*;

    fn parse(text: &str) -> Result<Case, Fault> {
        Case::parse(text, |name| match name {
            "one" => Ok("phy\n".to_string()),
            other => Err(format!("there is no adapter '{other}'")),
        })
    }

    #[test]
    fn one_run() {
        let text = "# title\nlevel \"CSMI=Full;\"\nadapter one\n    length 3\nsession\n    raw 07\nprints\n    open 102\n";
        let case = parse(text).unwrap();
        assert_eq!(case.adapter, Some(vec![1, 0, 0]));
        assert_eq!(case.session, [1, 0, 0, 0, 7]);
        let run = Run {
            level: Some(b"CSMI=Full;".to_vec()),
            prints: "open 102\n".to_string(),
        };
        assert_eq!(case.runs, [run]);
    }

    #[test]
    fn two_runs_and_missing_files() {
        let text = "low missing\nhigh 41*3\nadapter missing\nsession\nlow-prints\n    open 102\nhigh-prints\n    open 102\ncodes 0 of 0 differ, 0 denied low\n";
        let case = parse(text).unwrap();
        assert_eq!((case.adapter, case.runs[0].level.clone()), (None, None));
        assert_eq!(case.runs[1].level, Some(b"AAA".to_vec()));
        assert_eq!(case.codes.unwrap(), "0 of 0 differ, 0 denied low");
    }

    #[test]
    fn faults_name_line_and_reason() {
        let fault = |text: &str| parse(text).unwrap_err().to_string();
        let start = "level \"\"\nprints\nadapter one\n";
        assert_eq!(fault(start), "line 1: the case has no session");
        assert_eq!(
            fault(&format!("{start}session\n    raw 00\n\n    rwa 00\n")),
            "line 7: 'rwa' is no request"
        );
        assert_eq!(
            fault(&format!("{start}    byte 9 0 0\nsession\n")),
            "line 4: the file has no such byte"
        );
        assert_eq!(
            fault(&format!("{start}session\nsesion\n")),
            "line 5: a case has no section 'sesion'"
        );
        assert_eq!(fault("adapter two"), "line 1: there is no adapter 'two'");
        assert_eq!(
            fault("adapter one\nsession\nsession"),
            "line 3: a second section session"
        );
    }
}
