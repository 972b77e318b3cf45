//! An exercise: an adapter, a session and level texts. Where a description stands beside its binary the description is taken, so
//! that an edited text is what runs.

use crate::files::{part, read, shown, Part};
use crate::options::Options;
use crate::{level, session};
use labkit::adapter;
use labkit::names::LEVELS;
use labkit::session::Form;
use std::fs;
use std::path::Path;

pub struct Exercise {
    pub name: String,
    pub adapter: Part,
    pub session: Part,
    /// How the requests stand in the session's bytes.
    pub form: Form,
    /// Why the session's name is that of the other form, if it is.
    pub misnamed: Option<String>,
    /// The level texts of the runs in order: the lower and the higher, or all four.
    pub texts: Vec<Text>,
    pub disks: Option<Part>,
}

/// A run's name and its level text.
pub struct Text {
    pub run: &'static str,
    pub from: String,
    pub bytes: Vec<u8>,
}

impl Exercise {
    pub fn read(options: &Options) -> Result<Exercise, String> {
        let folder = &options.folder;
        if !folder.is_dir() {
            return Err(format!("'{}' is not a folder", shown(folder)));
        }
        // a folder that may not be entered would look as if its files were missing
        fs::metadata(folder.join("."))
            .map_err(|error| format!("{} cannot be entered: {error}", shown(folder)))?;
        let texts = match options.levels {
            true => LEVELS.map(all_levels).into(),
            false => vec![text(folder, "low")?, text(folder, "high")?],
        };
        let adapter = part(folder, "adapter.txt", "adapter.bin", adapter::parse)?;
        let session = session::read(folder)?;
        Ok(Exercise {
            name: options.name.clone(),
            adapter,
            session: session.part,
            form: session.form,
            misnamed: session.misnamed,
            texts,
            disks: options.disks.as_deref().map(disks).transpose()?,
        })
    }

    /// The disks at the start: those given, or zeros for as many phys as the adapter says.
    pub fn medium(&self) -> Vec<u8> {
        match &self.disks {
            Some(disks) => disks.bytes.clone(),
            None => vec![0; crate::state::DISK * self.phys()],
        }
    }

    /// What is to be said of its files.
    pub fn warnings(&self) -> impl Iterator<Item = &String> {
        [&self.adapter, &self.session]
            .into_iter()
            .flat_map(|part| &part.warnings)
    }

    /// Byte 0 of the adapter file.
    pub fn phys(&self) -> usize {
        self.adapter
            .bytes
            .first()
            .map_or(0, |count| usize::from(*count))
    }
}

/// The level text of one run.
fn text(folder: &Path, run: &'static str) -> Result<Text, String> {
    let from = format!("{run}.txt");
    let path = folder.join(&from);
    if !path.exists() {
        return Err(format!(
            "{} is missing; it holds a level text, such as CSMI=Restricted;",
            shown(&path)
        ));
    }
    let bytes = read(&path)?;
    if level::begins_with_mark(&bytes) {
        return Err(format!(
            "{} begins with a byte order mark, so a CSMI= behind it begins no entry; save it as plain ASCII without the mark",
            shown(&path)
        ));
    }
    Ok(Text { run, from, bytes })
}

fn all_levels(name: &'static str) -> Text {
    Text {
        run: name,
        from: "--levels".to_string(),
        bytes: format!("CSMI={name};").into_bytes(),
    }
}

fn disks(path: &Path) -> Result<Part, String> {
    if !path.exists() {
        let path = shown(path);
        return Err(format!(
            "{path} is missing; --disks takes the bytes of the disks"
        ));
    }
    Ok(Part {
        from: shown(path),
        bytes: read(path)?,
        warnings: Vec::new(),
    })
}
