//! The lines of `crates/request_cases/stdin`, run through the model, print `stdout` byte for byte.
//! The program of that crate is the proved one: what is expected of it is the model's answer, and
//! nothing here runs the proved code.

mod adapter;
mod digest;
mod line;

use adapter::Adapter;

const STDIN: &str = include_str!("../../../../crates/request_cases/stdin");
const STDOUT: &str = include_str!("../../../../crates/request_cases/stdout");

/// A line that the model prints, and the number of the line of stdin that it belongs to.
struct Printed {
    asked: usize,
    line: String,
}

fn printed() -> Vec<Printed> {
    let mut adapter = Adapter::new();
    let mut printed = Vec::new();
    for (i, line) in STDIN.split_terminator('\n').enumerate() {
        if let Some(line) = adapter.line(line) {
            printed.push(Printed { asked: i + 1, line });
        }
    }
    printed
}

/// Each line that is another in stdout than the model prints it.
fn differences(printed: &[Printed]) -> Vec<String> {
    let mut found = Vec::new();
    let expected = STDOUT.split_terminator('\n');
    for (i, (expected, Printed { asked, line })) in expected.zip(printed).enumerate() {
        if expected != line {
            let at = format!("stdout line {}, stdin line {asked}", i + 1);
            found.push(format!("{at}: expected '{expected}', the model '{line}'"));
        }
    }
    found
}

#[test]
fn the_model_prints_what_is_expected_of_the_program() {
    let printed = printed();
    let differences = differences(&printed);
    assert!(differences.is_empty(), "{}", differences.join("\n"));
    let whole: String = printed
        .iter()
        .map(|one| format!("{}\n", one.line))
        .collect();
    assert!(
        whole == STDOUT,
        "stdout has {} lines and {} bytes, the model prints {} and {}",
        STDOUT.lines().count(),
        STDOUT.len(),
        printed.len(),
        whole.len()
    );
}
