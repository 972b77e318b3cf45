//! The need by ranges of the command code (W-203): the ranges that the model's needs make, the fewest
//! that cover the codes, and the arms of the proved code, read from its text. No contract counts arms,
//! or says that an answer comes from them.

use crate::level::Level;

const NEED: &str = include_str!("../../../../crates/level/src/need.rt");
const LEVEL: &str = include_str!("../../../../crates/level/src/lib.rt");

#[derive(Clone, Copy, Debug, PartialEq)]
struct Range {
    first: u8,
    last: u8,
    need: Level,
}

/// The codes in order, with a new range wherever the need changes.
fn runs() -> Vec<Range> {
    let mut runs: Vec<Range> = Vec::new();
    for code in 0..=255 {
        let need = Level::of_command(code);
        match runs.last_mut() {
            Some(run) if run.need == need => run.last = code,
            _ => runs.push(Range {
                first: code,
                last: code,
                need,
            }),
        }
    }
    runs
}

/// For each `end`, how many ranges of one need it takes at least to cover the codes below it, by
/// trying every range that ends there, after the fewest for the codes before it. (Of ranges that
/// overlap, one can be cut short.)
fn fewest() -> Vec<usize> {
    let mut fewest = vec![0];
    for end in 1..=256 {
        let need = Level::of_command((end - 1) as u8);
        let firsts = (0..end).rev();
        let of_one_need = firsts.take_while(|&first| Level::of_command(first as u8) == need);
        let least = of_one_need.map(|first| fewest[first] + 1).min();
        fewest.push(least.expect("a code is a range of its own"));
    }
    fewest
}

/// An arm of the match: `0x01..=0x1f => Level::FULL,`, or one code before the arrow.
fn arm(line: &str) -> Option<Range> {
    let (codes, level) = line.trim().strip_suffix(',')?.split_once(" => Level::")?;
    let (first, last) = codes.split_once("..=").unwrap_or((codes, codes));
    let code = |text: &str| u8::from_str_radix(text.strip_prefix("0x")?, 16).ok();
    let need = match level {
        "RESTRICTED" => Level::Restricted,
        "LIMITED" => Level::Limited,
        "FULL" => Level::Full,
        _ => return None,
    };
    Some(Range {
        first: code(first)?,
        last: code(last)?,
        need,
    })
}

#[test]
fn the_needs_make_39_ranges_and_none_fewer_cover_the_codes() {
    assert_eq!(runs().len(), 39);
    assert_eq!(fewest()[256], 39);
}

#[test]
fn the_proved_code_has_an_arm_for_each_range_and_goes_by_nothing_else() {
    let (head, body) = NEED.split_once("match command {\n").expect("a match");
    assert!(head.ends_with(" }\n{\n    "), "code before the match");
    let (arms, rest) = body.split_once("\n    }\n").expect("its end");
    let arms: Vec<Range> = arms
        .lines()
        .map(|line| arm(line).unwrap_or_else(|| panic!("no arm: {line}")))
        .collect();
    assert_eq!(arms, runs());
    assert_eq!(rest, "}\n", "code behind the match");
    let (_, from_need) = LEVEL.split_once("fn from_need(").expect("from_need");
    let (_, body) = from_need.split_once("\n    {\n").expect("its body");
    assert!(body.starts_with("        by_range(command)\n    }\n"));
}
