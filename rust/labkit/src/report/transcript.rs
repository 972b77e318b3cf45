//! What the simulator prints: `open N`, or `request call code` and a line for each request, `cut` behind a request that is cut short or
//! oversized, and the total of these lines.

use super::totals::Totals;
use crate::names;
use crate::Fault;

/// The first line of a run.
const HEADING: &str = "request call code";

#[derive(Debug, Clone, PartialEq, Eq)]
pub enum Transcript {
    /// The opening was refused with that number.
    Refused(u32),
    /// The requests' answers in order, and whether `cut` ends the run.
    Run { answers: Vec<Answer>, cut: bool },
}

/// What one request got: the return code, or the call's own number if it is not 0.
#[derive(Debug, Clone, Copy, PartialEq, Eq)]
pub enum Answer {
    Code(u32),
    Call(u32),
}

impl Answer {
    pub fn is_granted(&self) -> bool {
        *self == Answer::Code(names::SUCCESS)
    }

    /// Whether the buffer was too short for its header.
    pub fn is_short(&self) -> bool {
        *self == Answer::Call(names::BUFFER_SHORT)
    }

    pub fn is_denied(&self) -> bool {
        *self == Answer::Code(names::DENIED)
    }

    /// The number with its name.
    pub fn words(&self) -> String {
        match self {
            Answer::Code(code) => names::return_words(*code),
            Answer::Call(call) => format!("call {}", names::call_words(*call)),
        }
    }
}

impl Transcript {
    /// Reads what a run printed.
    pub fn parse(text: &str) -> Result<Transcript, Fault> {
        let lines: Vec<&str> = text.lines().collect();
        let (first, behind) = lines.split_first().unwrap_or((&"", &[]));
        match first.strip_prefix("open ") {
            Some(number) => refused(number, behind),
            None if *first == HEADING => run(behind),
            None => Err(Fault::new(1, format!("neither 'open N' nor '{HEADING}'"))),
        }
    }
}

fn refused(number: &str, behind: &[&str]) -> Result<Transcript, Fault> {
    let number = number
        .parse()
        .map_err(|_| Fault::new(1, format!("'{number}' is not a number")))?;
    match behind {
        [] => Ok(Transcript::Refused(number)),
        _ => Err(Fault::new(2, "a line behind a refused opening")),
    }
}

/// A run by the lines behind its heading: those of its requests, `cut` if the session was, and the total.
fn run(lines: &[&str]) -> Result<Transcript, Fault> {
    let last = lines.len() + 1;
    let (requests, cut, total) = match lines {
        [requests @ .., "cut", total] => (requests, true, *total),
        [requests @ .., total] => (requests, false, *total),
        [] => (lines, false, HEADING),
    };
    if !total.starts_with("total ") {
        return Err(Fault::new(
            last,
            "the last line is no total, with which a run ends since W-206: run the program again",
        ));
    }
    let answers = answers(requests)?;
    let counted = Totals::of(&answers).to_string();
    match total == counted {
        true => Ok(Transcript::Run { answers, cut }),
        false => Err(Fault::new(
            last,
            format!("'{total}' is not '{counted}', the total of the lines above it"),
        )),
    }
}

/// The answers of the lines behind the heading.
fn answers(lines: &[&str]) -> Result<Vec<Answer>, Fault> {
    let of_line = |(i, line): (usize, &&str)| {
        answer(line, i + 1)
            .ok_or_else(|| Fault::new(i + 2, format!("'{line}' is no request's line")))
    };
    lines.iter().enumerate().map(of_line).collect()
}

/// The answer that the line of request n gives: `n call code`, with `-` for the code exactly if the call's number is not 0.
fn answer(line: &str, n: usize) -> Option<Answer> {
    let [number, call, code] = line.split(' ').collect::<Vec<_>>().try_into().ok()?;
    if number != n.to_string() {
        return None;
    }
    match (call.parse().ok()?, code) {
        (0, code) => Some(Answer::Code(code.parse().ok()?)),
        (call, "-") => Some(Answer::Call(call)),
        _ => None,
    }
}

#[cfg(test)]
mod tests {
    use super::*;

    #[test]
    fn runs_and_refusals() {
        assert_eq!(
            Transcript::parse("open 103\n"),
            Ok(Transcript::Refused(103))
        );
        let text = "request call code\n1 0 0\n2 0 4\n3 100 -\ncut\ntotal 3 1 1 0 1\n";
        let answers = vec![Answer::Code(0), Answer::Code(4), Answer::Call(100)];
        assert_eq!(
            Transcript::parse(text),
            Ok(Transcript::Run { answers, cut: true })
        );
        for (text, cut) in [
            ("request call code\ntotal 0 0 0 0 0\n", false),
            ("request call code\ncut\ntotal 0 0 0 0 0\n", true),
        ] {
            let answers = Vec::new();
            assert_eq!(
                Transcript::parse(text),
                Ok(Transcript::Run { answers, cut })
            );
        }
    }

    #[test]
    fn other_texts_are_faults() {
        for text in [
            "",
            "open x\n",
            "open 101\nmore\n",
            "open 101\ntotal 0 0 0 0 0\n",
            "request call code\n2 0 0\ntotal 1 1 0 0 0\n",
            "request call code\n1 0 -\ntotal 1 0 0 1 0\n",
            "request call code\n1 100 3\ntotal 1 0 0 0 1\n",
            "request call code\n1 0\ntotal 1 1 0 0 0\n",
            "request call code\ncut\n1 0 0\ntotal 1 1 0 0 0\n",
        ] {
            assert!(Transcript::parse(text).is_err(), "{text}");
        }
    }

    #[test]
    fn a_run_ends_with_its_total_and_no_other() {
        let fault = |end: &str| {
            let text = format!("request call code\n1 0 0\n2 0 2000\n{end}");
            Transcript::parse(&text).unwrap_err().to_string()
        };
        let no_total =
            "the last line is no total, with which a run ends since W-206: run the program again";
        assert_eq!(fault(""), format!("line 3: {no_total}"));
        assert_eq!(fault("cut\n"), format!("line 4: {no_total}"));
        for behind in ["cut", "3 0 0", "total"] {
            let end = format!("total 2 1 0 1 0\n{behind}\n");
            assert_eq!(fault(&end), format!("line 5: {no_total}"));
        }
        let twice = "total 2 1 0 1 0\ntotal 2 1 0 1 0\n";
        let line = "line 4: 'total 2 1 0 1 0' is no request's line";
        assert_eq!(fault(twice), line);
        for wrong in [
            "total 2 2 0 0 0",
            "total 2 1 1 0 0",
            "total 2 0 1 1 0",
            "total 2 1 0 0 1",
            "total 3 1 0 1 0",
            "total 2 1 0 1",
            "total 2 1 0 1 0 0",
            "total 2 1 0 01 0",
            "total 2 1  0 1 0",
            "total 2 1 0 1 0 ",
            "total ",
        ] {
            let reason = format!(
                "line 4: '{wrong}' is not 'total 2 1 0 1 0', the total of the lines above it"
            );
            assert_eq!(fault(&format!("{wrong}\n")), reason);
        }
    }

    #[test]
    fn answers_in_words() {
        assert_eq!(Answer::Code(2005).words(), "2005 select phy or port");
        assert_eq!(Answer::Call(100).words(), "call 100 buffer too short");
        assert!(Answer::Code(4).is_denied() && !Answer::Call(4).is_denied());
    }
}
