//! The words of the command line.

use crate::files::shown;
use std::ffi::OsString;
use std::path::PathBuf;

/// What standard output gets.
#[derive(Debug, Default, Clone, Copy, PartialEq, Eq)]
pub enum Output {
    #[default]
    Text,
    Csv,
    Json,
}

#[derive(Debug, Default, PartialEq, Eq)]
pub struct Options {
    pub help: bool,
    /// All four levels in place of the two texts.
    pub levels: bool,
    pub output: Output,
    pub html: Option<PathBuf>,
    pub disks: Option<PathBuf>,
    pub replies: Option<PathBuf>,
    /// The shipped sample, which the front `lab` names; it runs where the user names no folder.
    pub sample: Option<PathBuf>,
    /// The exercise's folder, and the name that it is shown under.
    pub folder: PathBuf,
    pub name: String,
}

impl Options {
    /// Reads the words behind the program's name.
    pub fn parse(words: impl IntoIterator<Item = OsString>) -> Result<Options, String> {
        let mut words = words.into_iter();
        let mut options = Options::default();
        let mut folders = Vec::new();
        while let Some(word) = words.next() {
            let text = word.to_string_lossy().into_owned();
            if text == "--" {
                folders.extend(words.by_ref());
            } else if text.starts_with('-') && text != "-" {
                options.take(&text, word, &mut words)?;
            } else {
                folders.push(word);
            }
        }
        options.take_folder(folders)?;
        Ok(options)
    }

    fn take(
        &mut self,
        text: &str,
        word: OsString,
        words: &mut impl Iterator<Item = OsString>,
    ) -> Result<(), String> {
        match text {
            "--help" | "-h" => self.help = true,
            "--levels" => self.levels = true,
            "--csv" => self.take_output(Output::Csv)?,
            "--json" => self.take_output(Output::Json)?,
            _ => return self.take_path(text, word, words),
        }
        Ok(())
    }

    fn take_output(&mut self, output: Output) -> Result<(), String> {
        if self.output != Output::Text && self.output != output {
            return Err("--csv and --json both go to standard output; take one".to_string());
        }
        self.output = output;
        Ok(())
    }

    /// An option with a path: `--html FILE` or `--html=FILE`.
    fn take_path(
        &mut self,
        text: &str,
        word: OsString,
        words: &mut impl Iterator<Item = OsString>,
    ) -> Result<(), String> {
        let name = text.split('=').next().unwrap_or(text);
        let place = match name {
            "--html" => &mut self.html,
            "--disks" => &mut self.disks,
            "--replies" => &mut self.replies,
            "--sample" => &mut self.sample,
            _ => {
                return Err(format!(
                    "no such option '{text}'; './lab --help' lists them"
                ))
            }
        };
        let path = match behind_equals(&word, name) {
            Some(path) => Some(path),
            None => words.next(),
        };
        let usable =
            |path: &OsString| !path.is_empty() && !path.to_string_lossy().starts_with("--");
        let path = path
            .filter(usable)
            .ok_or(format!("{name} needs a name behind it"))?;
        if place.replace(PathBuf::from(path)).is_some() {
            return Err(format!("{name} is given twice"));
        }
        Ok(())
    }

    fn take_folder(&mut self, mut folders: Vec<OsString>) -> Result<(), String> {
        if folders.len() > 1 {
            let count = folders.len();
            return Err(format!(
                "{count} folders; one exercise at a time, './lab --help' says how"
            ));
        }
        match (folders.pop(), self.sample.take()) {
            (Some(folder), _) => {
                self.folder = PathBuf::from(folder);
                self.name = shown(&self.folder);
            }
            (None, Some(sample)) => {
                self.name = "samples/writes, the shipped sample".to_string();
                self.folder = sample;
            }
            (None, None) if self.help => {}
            (None, None) => return Err("no folder is named; './lab --help' says how".to_string()),
        }
        Ok(())
    }
}

/// The path of `--html=FILE`, byte for byte.
fn behind_equals(word: &OsString, name: &str) -> Option<OsString> {
    use std::os::unix::ffi::{OsStrExt, OsStringExt};
    let rest = word
        .as_bytes()
        .strip_prefix(name.as_bytes())?
        .strip_prefix(b"=")?;
    Some(OsString::from_vec(rest.to_vec()))
}

#[cfg(test)]
mod tests {
    use super::*;

    fn parsed(words: &str) -> Result<Options, String> {
        Options::parse(words.split_whitespace().map(OsString::from))
    }

    #[test]
    fn the_sample_or_a_folder() {
        let options = parsed("--sample /s --levels").unwrap();
        assert_eq!(
            (options.folder, options.levels),
            (PathBuf::from("/s"), true)
        );
        let options = parsed("--sample /s --json -- -x").unwrap();
        assert_eq!(options.output, Output::Json);
        assert_eq!(
            (options.folder, options.name),
            (PathBuf::from("-x"), "-x".to_string())
        );
    }

    #[test]
    fn options_with_paths() {
        let options = parsed("d --html a=b.html --disks=c=d --replies r").unwrap();
        assert_eq!(options.html, Some(PathBuf::from("a=b.html")));
        assert_eq!(options.disks, Some(PathBuf::from("c=d")));
        assert_eq!(options.replies, Some(PathBuf::from("r")));
    }

    #[test]
    fn wrong_uses() {
        for (words, reason) in [
            (
                "--fast",
                "no such option '--fast'; './lab --help' lists them",
            ),
            ("", "no folder is named; './lab --help' says how"),
            ("--html", "--html needs a name behind it"),
            ("--html --csv", "--html needs a name behind it"),
            ("--html=", "--html needs a name behind it"),
            ("--disks a --disks b", "--disks is given twice"),
            (
                "--csv --json",
                "--csv and --json both go to standard output; take one",
            ),
            (
                "a b",
                "2 folders; one exercise at a time, './lab --help' says how",
            ),
        ] {
            assert_eq!(parsed(words).unwrap_err(), reason);
        }
    }
}
