//! What is asked of the library about a request: whether it gets past its header's checks; and of a Linux request, which is never
//! denied, whether its twin, the same request under the first header, would be.

use crate::run::Run;
use labkit::session::{layout, srb, Header, Request, DIRECTION, DRIVER_INFO};

/// How a Linux request's twin is made; none if its buffer is shorter than its header, so that it has no body.
pub type Twin = fn(&Request) -> Option<Vec<u8>>;

/// The runs that are asked. None of them is shown.
pub struct Asked {
    twin: Twin,
    /// At level None, and always as it was opened: it grants nothing to the first header, and of Linux requests it is sent those alone
    /// that read the driver info.
    none: Run,
    /// A copy of another run.
    copy: Run,
}

impl Asked {
    /// Asks a run at None that was just opened.
    pub fn new(none: Run, twin: Twin) -> Asked {
        let copy = none.clone();
        Asked { twin, none, copy }
    }

    /// Whether a request gets past its header's checks. Every request needs Restricted at least, so at None exactly those are denied that
    /// do. Code and Length of a Linux request are asked by its twin.
    pub fn passes(&mut self, request: &Request) -> bool {
        match request.header {
            Header::Srb => denies(&mut self.none, request.buffer),
            Header::Linux { .. } => {
                let twin = (self.twin)(request);
                twin.is_some_and(|twin| denies(&mut self.none, &twin))
                    && self.direction_passes(request.buffer)
            }
        }
    }

    /// Whether the Direction of a Linux request passes: whether the driver info can be read with it.
    fn direction_passes(&mut self, buffer: &[u8]) -> bool {
        let header = Header::Linux {
            control: DRIVER_INFO,
        };
        let body = vec![0; layout(DRIVER_INFO).size];
        let mut asked = [header.sound(DRIVER_INFO, &body), body].concat();
        let direction = DIRECTION.at..DIRECTION.at + DIRECTION.size;
        asked[direction.clone()].copy_from_slice(&buffer[direction]);
        let buffer = &asked;
        self.none.handle(&Request { header, buffer });
        self.none.answer().code == Some(0)
    }

    /// Of a Linux request that gets past its header's checks: for each run, as it is before the request, whether it would deny the twin.
    /// Of any other nothing.
    pub fn above(&mut self, request: &Request, runs: &[Run]) -> Vec<bool> {
        let linux = request.header.is_linux() && self.passes(request);
        let Some(twin) = (self.twin)(request).filter(|_| linux) else {
            return Vec::new();
        };
        let mut denied = |run: &Run| {
            self.copy.become_like(run);
            denies(&mut self.copy, &twin)
        };
        runs.iter().map(&mut denied).collect()
    }
}

/// Whether a run denies a request with the first header.
fn denies(run: &mut Run, buffer: &[u8]) -> bool {
    let header = Header::Srb;
    run.handle(&Request { header, buffer });
    run.answer().is_denied()
}

/// The twin of a Linux request: a sound first header with its control code, and with a Length that does not count the header; then its
/// body. A Length under 20 wraps round to one that no body has, so that it is the library that refuses it.
pub fn twin(request: &Request) -> Option<Vec<u8>> {
    let (control, body) = (request.control()?, request.body()?);
    let length = request.header.length().get(request.buffer);
    let length = length.wrapping_sub(request.header.size() as u32);
    Some([&srb(control, length), body].concat())
}

#[cfg(test)]
mod tests {
    use super::*;
    use labkit::session::Form;

    fn buffer(line: &str) -> (Header, Vec<u8>) {
        let session = Form::Both.parse(line).unwrap();
        let request = Form::Both.split(&session).requests[0];
        (request.header, request.buffer.to_vec())
    }

    fn twin_of(line: &str) -> Option<Vec<u8>> {
        let (header, buffer) = buffer(line);
        let buffer = &buffer;
        twin(&Request { header, buffer })
    }

    #[test]
    fn twins() {
        for line in [
            "get-driver-info",
            "set-phy-info phy=3",
            "get-link-errors length=0 buffer=31",
            "stp-passthru command=30h data=5A*512",
        ] {
            let (_, first) = buffer(line);
            let linux = line.replace("length=0 buffer=31", "length=20 buffer=23");
            assert_eq!(twin_of(&format!("linux {linux}")), Some(first), "{line}");
        }
        assert_eq!(twin_of("linux get-phy-info buffer=19"), None);
    }

    /// That a Length under 20 does not pass is the library's rule.
    #[test]
    fn lengths_that_do_not_count_the_header() {
        let file = labkit::adapter::parse("phy\n").unwrap();
        let medium = vec![0; crate::state::DISK];
        let none = Run::open("None", b"CSMI=None;", &file, &medium);
        assert_eq!(none.opening, 0);
        let mut asked = Asked::new(none, twin);
        let mut passes = |line: &str| {
            let (header, buffer) = buffer(line);
            let buffer = &buffer;
            asked.passes(&Request { header, buffer })
        };
        for length in 0..20 {
            for name in ["get-phy-info", "set-phy-info", "stp-passthru"] {
                assert!(!passes(&format!("linux {name} length={length}")));
            }
            let line = format!("get-phy-info length={}", u32::MAX - length);
            assert_eq!(
                twin_of(&format!("linux get-phy-info length={}", 19 - length)),
                Some(buffer(&line).1)
            );
        }
        assert!(passes("linux get-phy-info") && passes("linux set-phy-info"));
    }
}
