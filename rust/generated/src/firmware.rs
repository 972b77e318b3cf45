//! What the codes 4 of the sessions met: what they asked for, and the return code that was printed.

use differential::firmware::Asked;
use differential::request::Header;
use labkit::report::Answer;
use std::collections::BTreeSet;

/// What has to be met.
const ANSWERS: [(Asked, u32); 8] = [
    (Asked::Validation, 0),
    (Asked::Validation, 4),
    (Asked::WrongImage, 1),
    (Asked::WrongLength, 3),
    (Asked::Bytes, 3),
    (Asked::Commit, 0),
    (Asked::Commit, 1),
    (Asked::Commit, 4),
];

#[derive(Default)]
pub struct Firmware {
    met: BTreeSet<(Asked, u32)>,
}

impl Firmware {
    /// Notes the answers to a session.
    pub fn see(&mut self, requests: &[&[u8]], answers: &[Answer]) {
        for (request, answer) in requests.iter().zip(answers) {
            let asked = Asked::of_request(Header::First, request);
            if let (Some(asked), Answer::Code(code)) = (asked, answer) {
                self.met.insert((asked, *code));
            }
        }
    }

    /// What was not met.
    pub fn missing(&self) -> Vec<String> {
        let missing = ANSWERS.iter().filter(|answer| !self.met.contains(answer));
        missing
            .map(|(asked, code)| format!("{asked:?} with code {code}"))
            .collect()
    }
}
