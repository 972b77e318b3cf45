//! The closing tally of a run: how many requests it had, and how many of each kind.

use super::transcript::Answer;
use std::fmt;

/// What the five numbers count. The last four are the kinds of requests, and sum to the first.
pub const COUNTED: [&str; 5] = ["requests", "granted", "denied", "otherwise refused", "100s"];

/// The five numbers.
#[derive(Debug, Clone, Copy, PartialEq, Eq)]
pub struct Totals(pub [u64; COUNTED.len()]);

impl Totals {
    /// Those of the lines that the program printed.
    pub fn of(answers: &[Answer]) -> Totals {
        let count = |kind: fn(&&Answer) -> bool| answers.iter().filter(kind).count() as u64;
        let requests = answers.len() as u64;
        let granted = count(|answer| answer.is_granted());
        let denied = count(|answer| answer.is_denied());
        let short = count(|answer| answer.is_short());
        let otherwise = requests - granted - denied - short;
        Totals([requests, granted, denied, otherwise, short])
    }
}

/// The program's last line.
impl fmt::Display for Totals {
    fn fmt(&self, f: &mut fmt::Formatter) -> fmt::Result {
        let numbers = self.0.map(|number| number.to_string());
        write!(f, "total {}", numbers.join(" "))
    }
}

#[cfg(test)]
mod tests {
    use super::*;

    fn line(answers: &[Answer]) -> String {
        Totals::of(answers).to_string()
    }

    #[test]
    fn each_answer_is_of_one_kind() {
        use Answer::{Call, Code};
        assert_eq!(line(&[]), "total 0 0 0 0 0");
        assert_eq!(line(&[Code(0)]), "total 1 1 0 0 0");
        assert_eq!(line(&[Code(4)]), "total 1 0 1 0 0");
        for code in [1, 2, 3, 100, 2000, 2014, u32::MAX] {
            assert_eq!(line(&[Code(code)]), "total 1 0 0 1 0");
        }
        for call in [4, 101, 106, 107] {
            assert_eq!(line(&[Call(call)]), "total 1 0 0 1 0");
        }
        assert_eq!(line(&[Call(100)]), "total 1 0 0 0 1");
        let all = [Code(0), Code(4), Call(100), Code(0), Code(2000)];
        assert_eq!(line(&all), "total 5 2 1 1 1");
    }
}
