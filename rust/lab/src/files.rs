//! Files read whole, with faults of one line that name the file.

use labkit::adapter::is_old;
use labkit::Fault;
use std::fs;
use std::path::Path;
use std::time::{Duration, SystemTime};

/// Bytes, and the name of the file that they come from.
pub struct Part {
    pub from: String,
    pub bytes: Vec<u8>,
    /// What is to be said about it.
    pub warnings: Vec<String>,
}

/// Files that were written within this time are taken for copied together: which is newer says nothing.
const TOGETHER: Duration = Duration::from_secs(2);

/// A path as one line.
pub fn shown(path: &Path) -> String {
    labkit::text::one_line(&path.to_string_lossy())
}

pub fn read(path: &Path) -> Result<Vec<u8>, String> {
    let cannot = |error| format!("{} cannot be read: {error}", shown(path));
    // a pipe or a device might never end
    if !fs::metadata(path).map_err(cannot)?.is_file() {
        return Err(format!("{} is not a file", shown(path)));
    }
    fs::read(path).map_err(cannot)
}

/// The bytes that a description makes, or the binary where there is no description.
pub fn part(
    folder: &Path,
    text: &str,
    binary: &str,
    parse: impl Fn(&str) -> Result<Vec<u8>, Fault>,
) -> Result<Part, String> {
    let (described, made) = (folder.join(text), folder.join(binary));
    if described.exists() {
        let bytes = parse(&words(&described)?).map_err(|fault| at(&described, fault))?;
        let warning = match described_before(&made, &bytes) {
            true => Some(format!(
                "{text} is run; {binary} beside it is what it described in the old layout: make it anew with labkit adapter"
            )),
            false => beside(&described, &made, Some(&bytes))?,
        };
        return Ok(Part {
            from: text.to_string(),
            bytes,
            warnings: Vec::from_iter(warning),
        });
    }
    if !made.exists() {
        let folder = shown(folder);
        return Err(format!("{folder} has neither {text} nor {binary}"));
    }
    as_it_is(folder, binary)
}

/// Whether a binary is an adapter file of the old layout that has all that the description says and that layout had.
fn described_before(made: &Path, bytes: &[u8]) -> bool {
    read(made).is_ok_and(|old| is_old(&old) && bytes.starts_with(&old))
}

/// A file's own bytes.
pub fn as_it_is(folder: &Path, name: &str) -> Result<Part, String> {
    Ok(Part {
        from: name.to_string(),
        bytes: read(&folder.join(name))?,
        warnings: Vec::new(),
    })
}

/// A description.
pub fn words(path: &Path) -> Result<String, String> {
    String::from_utf8(read(path)?)
        .map_err(|_| format!("{} is not a text in UTF-8; save it as one", shown(path)))
}

/// A fault in a description.
pub fn at(path: &Path, fault: Fault) -> String {
    format!("{}: {fault}", shown(path))
}

/// What is to be said of a binary beside a description that makes other bytes, or none of its form. One that was put there later is
/// refused: who did that means it to run.
pub fn beside(
    described: &Path,
    made: &Path,
    bytes: Option<&[u8]>,
) -> Result<Option<String>, String> {
    if !made.exists() || read(made).is_ok_and(|old| Some(&old[..]) == bytes) {
        return Ok(None);
    }
    let name = |path: &Path| shown(Path::new(path.file_name().unwrap_or_default()));
    let (text, binary) = (name(described), name(made));
    let later = time(described).checked_add(TOGETHER);
    if later.is_some_and(|later| time(made) > later) {
        return Err(format!(
            "{} is newer than {text} and is not what it describes; remove the one that is not to run",
            shown(made)
        ));
    }
    Ok(Some(format!(
        "{text} is run, and {binary} beside it, which is not what it describes, is not"
    )))
}

/// When a file was written; long ago if nobody knows.
fn time(path: &Path) -> SystemTime {
    let written = fs::metadata(path).and_then(|about| about.modified());
    written.unwrap_or(SystemTime::UNIX_EPOCH)
}
