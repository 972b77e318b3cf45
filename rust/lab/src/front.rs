//! The front page that a console shows first: what the last replies of codes 2, 3 and 30 that a run gave say, in words.

use crate::run::Run;
use labkit::report::{front, Difference, FRONT};
use labkit::session::Request;

/// What stands for a run that gave no such reply.
const NOT_SEEN: &str = "-";

/// For each run the body of the last reply of each code that has return code 0.
pub struct Front(Vec<[Option<Vec<u8>>; FRONT.len()]>);

impl Front {
    pub fn new(runs: usize) -> Front {
        Front(vec![[const { None }; FRONT.len()]; runs])
    }

    /// Keeps the replies to a request that the runs have just handled.
    pub fn see(&mut self, request: &Request, runs: &[Run]) {
        let control = request.control();
        let Some(place) = FRONT.iter().position(|code| Some(*code) == control) else {
            return;
        };
        for (seen, run) in self.0.iter_mut().zip(runs) {
            if run.answer().code == Some(0) {
                seen[place] = Some(run.reply[request.header.size()..].to_vec());
            }
        }
    }

    /// The lines of an adapter of so many phys, with the words of each run; nothing of a code that no run answered.
    pub fn lines(&self, phys: usize) -> Vec<Difference> {
        let mut found = Vec::new();
        for (place, control) in FRONT.into_iter().enumerate() {
            let of_run = |seen: &[Option<Vec<u8>>; FRONT.len()]| {
                let body = seen[place].as_ref();
                body.map(|body| front(control, body, phys))
            };
            let pages: Vec<_> = self.0.iter().map(of_run).collect();
            let names = pages.iter().flatten().next();
            for (i, (name, _)) in names.into_iter().flatten().enumerate() {
                let words = |page: &Option<Vec<(String, String)>>| {
                    let line = page.as_ref().and_then(|lines| lines.get(i));
                    line.map_or(NOT_SEEN.to_string(), |(_, words)| words.clone())
                };
                found.push(Difference {
                    what: name.clone(),
                    values: pages.iter().map(words).collect(),
                });
            }
        }
        found
    }
}

#[cfg(test)]
mod tests {
    use super::*;
    use labkit::session::{Form, Header};

    fn run(header: Header, reply: &[u8]) -> Run {
        Run {
            name: "low",
            opening: 0,
            state: Vec::new(),
            medium: Vec::new(),
            stage: Vec::new(),
            header,
            call: 0,
            reply: reply.to_vec(),
            record: Vec::new(),
        }
    }

    /// The page after replies, of each run a line that describes it.
    fn page(replies: &[[&str; 2]]) -> Vec<String> {
        let mut front = Front::new(2);
        for lines in replies {
            let sessions = lines.map(|line| Form::Both.parse(line).unwrap());
            let got: Vec<Request> = sessions
                .iter()
                .map(|session| Form::Both.split(session).requests[0])
                .collect();
            let runs: Vec<Run> = got.iter().map(|r| run(r.header, r.buffer)).collect();
            front.see(&got[0], &runs);
        }
        let line = |d: Difference| format!("{}: {}", d.what, d.values.join(" | "));
        front.lines(2).into_iter().map(line).collect()
    }

    #[test]
    fn the_last_replies_of_each_run() {
        let denied = "get-cntlr-status return-code=4";
        let good = "get-cntlr-status status=good";
        let offline = "linux get-cntlr-status status=offline offline-reason=1";
        assert_eq!(page(&[["get-phy-info"; 2]]), [""; 0]);
        assert_eq!(page(&[[denied; 2]]), [""; 0]);
        assert_eq!(page(&[[denied, good]]), ["status: - | good"]);
        assert_eq!(page(&[[good; 2], [denied; 2]]), ["status: good | good"]);
        assert_eq!(
            page(&[[good; 2], [offline; 2]]),
            ["status: offline, initializing | offline, initializing"]
        );
    }

    /// In the order of a front page, whatever was asked first, and a connector for each phy.
    #[test]
    fn a_whole_page() {
        let found = page(&[
            ["get-connector-info references=01*1152"; 2],
            ["get-cntlr-status status=good"; 2],
            ["get-cntlr-config slot=unknown", "get-cntlr-config slot=7"],
        ]);
        assert_eq!(found.len(), 9 + 1 + 2);
        assert_eq!(found[1], "slot: unknown | 7");
        assert_eq!(found[9], "status: good | good");
        assert!(found[11].starts_with("phy 1: connector 01*16"));
    }
}
