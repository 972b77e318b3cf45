//! The simulator run in a folder of its own, and what it prints held against what is expected.

use std::fs::{self, File};
use std::io;
use std::path::Path;
use std::process::{Child, Command, ExitStatus, Stdio};
use std::thread::sleep;
use std::time::{Duration, Instant};

/// A run that takes longer has failed.
const LIMIT: Duration = Duration::from_secs(30);

/// What the simulator reads. A file that is None is missing.
#[derive(Clone, Copy)]
pub struct Input<'a> {
    pub level: Option<&'a [u8]>,
    pub adapter: Option<&'a [u8]>,
    pub session: &'a [u8],
}

/// Whether the simulator prints what is expected; the reason if not.
pub fn prints(
    simulator: &Path,
    scratch: &Path,
    input: Input,
    expected: &str,
) -> Result<(), String> {
    let printed = run(simulator, scratch, input).map_err(|error| error.to_string())??;
    same(expected, &printed)
}

/// What the simulator prints in a folder that holds the files.
fn run(simulator: &Path, scratch: &Path, input: Input) -> io::Result<Result<String, String>> {
    let _ = fs::remove_dir_all(scratch);
    let folder = scratch.join("run");
    fs::create_dir_all(&folder)?;
    if let Some(level) = input.level {
        fs::write(folder.join("level.txt"), level)?;
    }
    if let Some(adapter) = input.adapter {
        fs::write(folder.join("adapter.bin"), adapter)?;
    }
    fs::write(scratch.join("session"), input.session)?;
    let mut child = Command::new(simulator)
        .current_dir(&folder)
        .stdin(File::open(scratch.join("session"))?)
        .stdout(File::create(scratch.join("printed"))?)
        .stderr(Stdio::null())
        .spawn()?;
    let Some(status) = wait(&mut child)? else {
        return Ok(Err("the simulator did not end in time".to_string()));
    };
    if status.code().is_none() {
        return Ok(Err("the simulator was ended by a signal".to_string()));
    }
    let printed = fs::read(scratch.join("printed"))?;
    Ok(Ok(String::from_utf8_lossy(&printed).into_owned()))
}

/// Waits for a process; none if it had to be ended.
fn wait(child: &mut Child) -> io::Result<Option<ExitStatus>> {
    let start = Instant::now();
    while start.elapsed() < LIMIT {
        if let Some(status) = child.try_wait()? {
            return Ok(Some(status));
        }
        sleep(Duration::from_millis(1));
    }
    child.kill()?;
    child.wait()?;
    Ok(None)
}

/// The first line in which two texts differ is the reason.
fn same(expected: &str, printed: &str) -> Result<(), String> {
    if expected == printed {
        return Ok(());
    }
    let (mut wanted, mut got) = (expected.lines(), printed.lines());
    for number in 1.. {
        match (wanted.next(), got.next()) {
            (None, None) => break,
            (wanted, got) if wanted == got => {}
            (wanted, got) => {
                let [wanted, got] = [wanted, got].map(|line| line.unwrap_or("(nothing)"));
                return Err(format!(
                    "line {number}: expected '{wanted}', printed '{got}'"
                ));
            }
        }
    }
    Err("the ends of lines differ".to_string())
}

#[cfg(test)]
mod tests {
    use super::*;

    #[test]
    fn the_first_line_that_differs() {
        assert_eq!(same("a\nb\n", "a\nb\n"), Ok(()));
        assert_eq!(
            same("a\nb\n", "a\nc\n").unwrap_err(),
            "line 2: expected 'b', printed 'c'"
        );
        assert_eq!(
            same("a\n", "a\nb\n").unwrap_err(),
            "line 2: expected '(nothing)', printed 'b'"
        );
        assert_eq!(same("a\n", "a").unwrap_err(), "the ends of lines differ");
    }
}
