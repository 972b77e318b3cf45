//! The requests and each run's replies written out, in the form of the session, and beside them the calls' numbers and return codes, a
//! line for each request, and their total. `labkit reply` and `labkit session-text` read the first. The codes of requests with the first
//! header are what the program prints, and `labkit compare` reads them. With Linux requests, which the program does not have and which
//! run as Full in every run, they show no need, and their files have another name.

use crate::files::shown;
use crate::marking::Marking;
use crate::run::Run;
use labkit::session::{Form, Request};
use std::fs::{self, File};
use std::io::{BufWriter, Write};
use std::path::{Path, PathBuf};

pub struct Replies {
    form: Form,
    requests: Out,
    /// The replies and the numbers of each run.
    runs: Vec<(Out, Out)>,
    written: usize,
}

struct Out {
    path: PathBuf,
    file: BufWriter<File>,
}

impl Replies {
    /// The files for a marking that is to run.
    pub fn create(folder: &Path, marking: &Marking) -> Result<Replies, String> {
        fs::create_dir_all(folder).map_err(|error| fault(folder, error))?;
        let form = marking.exercise.form;
        let end = ending(form == Form::Both);
        let codes_end = ending(marking.has_linux());
        let mut opened = Vec::new();
        for run in &marking.runs {
            let name = run.name.to_lowercase();
            let replies = Out::create(folder.join(format!("{name}.replies{end}")))?;
            let mut codes = Out::create(folder.join(format!("{name}.codes{codes_end}")))?;
            codes.write(b"request call code\n")?;
            opened.push((replies, codes));
        }
        Ok(Replies {
            form,
            requests: Out::create(folder.join(format!("requests{end}")))?,
            runs: opened,
            written: 0,
        })
    }

    /// Adds a request and the last replies of the runs.
    pub fn add(&mut self, request: &Request, runs: &[Run]) -> Result<(), String> {
        self.written += 1;
        self.requests.add(self.form, request)?;
        for ((replies, codes), run) in self.runs.iter_mut().zip(runs) {
            let (header, buffer) = (request.header, &run.reply);
            replies.add(self.form, &Request { header, buffer })?;
            let code = run
                .answer()
                .code
                .map_or("-".to_string(), |code| code.to_string());
            codes.write(format!("{} {} {code}\n", self.written, run.call).as_bytes())?;
        }
        Ok(())
    }

    /// Ends the files, the codes with the tallies of the runs.
    pub fn end(self, runs: &[Run]) -> Result<(), String> {
        self.requests.end()?;
        for ((replies, mut codes), run) in self.runs.into_iter().zip(runs) {
            replies.end()?;
            codes.write(format!("{}\n", run.tally()).as_bytes())?;
            codes.end()?;
        }
        Ok(())
    }
}

/// How the name of a file ends.
fn ending(both: bool) -> &'static str {
    match both {
        true => ".both",
        false => "",
    }
}

impl Out {
    fn create(path: PathBuf) -> Result<Out, String> {
        let file = File::create(&path).map_err(|error| fault(&path, error))?;
        let file = BufWriter::new(file);
        Ok(Out { path, file })
    }

    fn write(&mut self, bytes: &[u8]) -> Result<(), String> {
        self.file
            .write_all(bytes)
            .map_err(|error| fault(&self.path, error))
    }

    /// A request as it stands in a session.
    fn add(&mut self, form: Form, request: &Request) -> Result<(), String> {
        let mut session = Vec::new();
        form.add(&mut session, request)?;
        self.write(&session)
    }

    fn end(mut self) -> Result<(), String> {
        self.file.flush().map_err(|error| fault(&self.path, error))
    }
}

fn fault(path: &Path, error: std::io::Error) -> String {
    format!("{} cannot be written: {error}", shown(path))
}
