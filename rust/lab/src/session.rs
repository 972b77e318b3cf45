//! The session of an exercise: `session.txt`, or `session` or `session.both`, the binaries of its two forms.

use crate::files::{as_it_is, at, beside, shown, words, Part};
use crate::readings::{named, Name};
use labkit::session::Form;
use std::path::Path;

const TEXT: &str = "session.txt";
const BINARIES: [(Form, &str); 2] = [(Form::Program, "session"), (Form::Both, "session.both")];

/// The session of a folder.
pub struct Found {
    pub part: Part,
    pub form: Form,
    /// Why its name is that of the other form, if it is.
    pub misnamed: Option<String>,
}

pub fn read(folder: &Path) -> Result<Found, String> {
    match folder.join(TEXT).exists() {
        true => described(folder),
        false => binary(folder),
    }
}

/// A text, and what is to be said of the binaries beside it.
fn described(folder: &Path) -> Result<Found, String> {
    let path = folder.join(TEXT);
    let text = words(&path)?;
    let form = Form::of(&text).map_err(|fault| at(&path, fault))?;
    let parse = |form: Form| form.parse_in(folder, &text);
    let bytes = parse(form).map_err(|fault| at(&path, fault))?;
    let mut warnings = Vec::new();
    for (other, name) in binaries(folder) {
        let made = parse(other).ok();
        warnings.extend(beside(&path, &folder.join(name), made.as_deref())?);
    }
    let from = TEXT.to_string();
    let part = Part {
        from,
        bytes,
        warnings,
    };
    Ok(Found {
        part,
        form,
        misnamed: None,
    })
}

/// The binaries that are there.
fn binaries(folder: &Path) -> Vec<(Form, &'static str)> {
    let there = |(_, name): &(Form, &str)| folder.join(name).exists();
    BINARIES.into_iter().filter(there).collect()
}

/// The one binary that is there.
fn binary(folder: &Path) -> Result<Found, String> {
    let shown = shown(folder);
    match binaries(folder)[..] {
        [(form, name)] => Ok(held(form, as_it_is(folder, name)?)),
        [] => Err(format!(
            "{shown} has none of session.txt, session and session.both"
        )),
        _ => Err(format!(
            "{shown} has session and session.both, and no session.txt; remove the one that is not to run"
        )),
    }
}

/// A binary, with what is to be said of its name.
fn held(form: Form, mut part: Part) -> Found {
    let misnamed = match named(form, &part.bytes) {
        Name::Right => None,
        Name::Doubtful(warning) => {
            part.warnings.push(warning);
            None
        }
        Name::Wrong(reason) => Some(reason),
    };
    Found {
        part,
        form,
        misnamed,
    }
}
