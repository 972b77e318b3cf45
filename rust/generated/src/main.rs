//! Runs the simulator in generated folders: `generated SIMULATOR [FOLDERS [SEED]]`. What it prints has to be what the model prints, byte
//! for byte. One line for each folder where it is not, and for each thing that no seed had; the last line says how many there were.

mod firmware;
mod folder;
mod met;

use cases::simulator::prints;
use folder::Folder;
use met::Met;
use std::env;
use std::path::{Path, PathBuf};
use std::process::ExitCode;

const FOLDERS: u64 = 400;
const SEED: u64 = 1;

fn main() -> ExitCode {
    let words: Vec<String> = env::args().skip(1).collect();
    let number = |i: usize, usual| words.get(i).map_or(Ok(usual), |word| word.parse::<u64>());
    let (1..=3, Ok(folders), Ok(seed)) = (words.len(), number(1, FOLDERS), number(2, SEED)) else {
        eprintln!("generated: use: generated SIMULATOR [FOLDERS [SEED]]");
        return ExitCode::from(2);
    };
    match Path::new(&words[0]).canonicalize() {
        Ok(simulator) => compare(&simulator, seed..seed.saturating_add(folders)),
        Err(error) => {
            eprintln!("generated: {}: {error}", words[0]);
            ExitCode::from(2)
        }
    }
}

/// Compares the folders of these seeds, and last the long one. What has to be met the seeds meet: the long one alone has every kind.
fn compare(simulator: &Path, seeds: std::ops::Range<u64>) -> ExitCode {
    let mut comparison = Comparison {
        simulator,
        scratch: Scratch::new(),
        compared: 0,
        failed: 0,
    };
    let mut met = Met::default();
    for seed in seeds {
        let folder = Folder::of_seed(seed);
        met.see(
            &folder,
            &comparison.compare(&format!("seed {seed}"), &folder),
        );
    }
    comparison.compare("the long session", &Folder::long());
    let missing = met.missing();
    missing
        .iter()
        .for_each(|what| println!("FAIL no seed had {what}"));
    let Comparison {
        compared, failed, ..
    } = comparison;
    println!("{compared} folders compared, {failed} differ");
    match failed + missing.len() {
        0 => ExitCode::SUCCESS,
        _ => ExitCode::FAILURE,
    }
}

/// The folders compared so far.
struct Comparison<'a> {
    simulator: &'a Path,
    scratch: Scratch,
    compared: usize,
    failed: usize,
}

impl Comparison<'_> {
    /// Compares a folder; gives what the model prints in it.
    fn compare(&mut self, name: &str, folder: &Folder) -> String {
        let expected = folder.expected();
        let compared = prints(self.simulator, &self.scratch.0, folder.input(), &expected);
        self.compared += 1;
        if let Err(reason) = compared {
            self.failed += 1;
            println!("FAIL {name}: {reason}");
        }
        expected
    }
}

/// A folder of its own, which goes at the end.
struct Scratch(PathBuf);

impl Scratch {
    fn new() -> Scratch {
        Scratch(env::temp_dir().join(format!("generated-{}", std::process::id())))
    }
}

impl Drop for Scratch {
    fn drop(&mut self) {
        let _ = std::fs::remove_dir_all(&self.0);
    }
}
