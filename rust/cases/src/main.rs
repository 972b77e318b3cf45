//! Runs the end-to-end cases: `cases SIMULATOR FOLDER`. The folder has `cases/*.case` and `adapters/NAME.txt`. One line for each
//! case that fails, and the last line is `N passed, M failed`.

mod run;

use cases::case::Case;
use std::path::{Path, PathBuf};
use std::process::ExitCode;
use std::{env, fs};

fn main() -> ExitCode {
    let words: Vec<String> = env::args().skip(1).collect();
    let [simulator, folder] = &words[..] else {
        eprintln!("cases: use: cases SIMULATOR FOLDER");
        return ExitCode::from(2);
    };
    match run_all(Path::new(simulator), Path::new(folder)) {
        Ok(0) => ExitCode::SUCCESS,
        Ok(_) => ExitCode::FAILURE,
        Err(reason) => {
            eprintln!("cases: {reason}");
            ExitCode::from(2)
        }
    }
}

/// Runs every case and says how many failed.
fn run_all(simulator: &Path, folder: &Path) -> Result<usize, String> {
    let simulator = simulator
        .canonicalize()
        .map_err(|error| format!("{}: {error}", simulator.display()))?;
    let files = case_files(&folder.join("cases"))?;
    let scratch = env::temp_dir().join(format!("cases-{}", std::process::id()));
    let mut failed = 0;
    for file in &files {
        if let Err(reason) = run_file(&simulator, folder, file, &scratch) {
            failed += 1;
            let name = file.file_stem().unwrap_or_default();
            println!("FAIL {}: {reason}", name.to_string_lossy());
        }
    }
    let _ = fs::remove_dir_all(&scratch);
    println!("{} passed, {failed} failed", files.len() - failed);
    Ok(failed)
}

/// The files `*.case` of a folder, by name.
fn case_files(folder: &Path) -> Result<Vec<PathBuf>, String> {
    let unreadable = |error| format!("{}: {error}", folder.display());
    let mut files = Vec::new();
    for entry in fs::read_dir(folder).map_err(unreadable)? {
        let path = entry.map_err(unreadable)?.path();
        if path.extension().is_some_and(|end| end == "case") {
            files.push(path);
        }
    }
    files.sort();
    Ok(files)
}

fn run_file(simulator: &Path, folder: &Path, file: &Path, scratch: &Path) -> Result<(), String> {
    run::run(&read(folder, file)?, simulator, scratch)
}

/// Reads a case of a folder.
fn read(folder: &Path, file: &Path) -> Result<Case, String> {
    let text = fs::read_to_string(file).map_err(|error| error.to_string())?;
    let shared = |name: &str| {
        let path = folder.join("adapters").join(format!("{name}.txt"));
        fs::read_to_string(path).map_err(|_| format!("there is no adapter '{name}'"))
    };
    Case::parse(&text, shared).map_err(|fault| fault.to_string())
}

#[cfg(test)]
mod tests {
    use super::*;
    use labkit::report::Transcript;

    /// What each case expects is what the model prints, and the kit reads it.
    #[test]
    fn the_cases_are_confirmed_by_the_model() {
        let folder = Path::new(env!("CARGO_MANIFEST_DIR")).join("../../tests/end_to_end");
        let files = case_files(&folder.join("cases")).unwrap();
        assert!(files.len() > 200);
        for file in files {
            let case = read(&folder, &file).unwrap();
            for run in &case.runs {
                let [text, adapter] = [&run.level, &case.adapter];
                let [text, adapter] = [text, adapter].map(|bytes| bytes.as_deref().unwrap_or(&[]));
                let printed = model::program(text, adapter, &case.session);
                assert_eq!(run.prints, printed, "{}", file.display());
                assert!(Transcript::parse(&printed).is_ok(), "{}", file.display());
            }
        }
    }
}
