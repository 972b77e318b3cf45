//! The lab's command: reads an exercise, runs it through the proved library, and shows both runs with their mark. The front
//! `lab` in the repository's root builds this program and names the shipped sample to it.
//!
//! Exit status: 0 no difference, 1 differences or Linux requests that need more than the low level, 2 no mark. What stops it before
//! there is anything to show is one line on standard error, with status 2.

mod answer;
mod asked;
mod beside;
mod exercise;
mod files;
mod firmware;
mod front;
mod left;
mod level;
mod linux;
mod marking;
mod options;
mod progress;
mod readings;
mod replies;
mod report;
mod row;
mod run;
mod session;
mod state;
mod verdict;

#[cfg(test)]
mod tests;

use exercise::Exercise;
use labkit::text::one_line;
use marking::Marking;
use options::{Options, Output};
use std::env;
use std::fs;
use std::io::{ErrorKind, Write};
use std::process::ExitCode;

const USAGE: &str = include_str!("usage.txt");
const NO_MARK: u8 = 2;

fn main() -> ExitCode {
    let status = work().unwrap_or_else(|reason| {
        // there is nowhere to say that standard error takes nothing
        let _ = writeln!(std::io::stderr(), "lab: {}", one_line(&reason));
        NO_MARK
    });
    ExitCode::from(status)
}

fn work() -> Result<u8, String> {
    let options = Options::parse(env::args_os().skip(1))?;
    if options.help {
        print(USAGE)?;
        return Ok(0);
    }
    let exercise = Exercise::read(&options)?;
    let marking = Marking::of(&exercise, options.replies.as_deref())?;
    if let Some(file) = &options.html {
        let written = fs::write(file, report::html(&marking));
        written.map_err(|error| format!("{} cannot be written: {error}", files::shown(file)))?;
    }
    print(&match options.output {
        Output::Text => report::text(&marking),
        Output::Csv => report::csv(&marking),
        Output::Json => report::json(&marking),
    })?;
    Ok(marking.status())
}

fn print(text: &str) -> Result<(), String> {
    let mut out = std::io::stdout().lock();
    match out.write_all(text.as_bytes()).and_then(|()| out.flush()) {
        // a reader that has seen enough, as `head` has
        Err(error) if error.kind() == ErrorKind::BrokenPipe => Ok(()),
        written => written.map_err(|error| format!("standard output: {error}")),
    }
}
