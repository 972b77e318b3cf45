//! What a reply says first: the call's number or the return code, and of an ATA command its status and error.

use labkit::names;
use labkit::session::{layout, Header, STP_PASSTHRU};

/// The return codes of a header's checks: 2 for the code or the signature, 3 for a Length or a Direction. Later checks give 3 too.
const OF_HEADERS: [u32; 2] = [2, 3];

/// The beginning of a reply. Two replies with the same answer may still differ in other bytes.
#[derive(Debug, Clone, Copy, PartialEq, Eq)]
pub struct Answer {
    pub call: u32,
    /// The return code; none if the call has a number of its own.
    pub code: Option<u32>,
    /// Status and error of the status FIS, of a code 25 with return code 0.
    pub ata: Option<(u8, u8)>,
    denied: bool,
}

impl Answer {
    pub fn of(header: Header, call: u32, reply: &[u8]) -> Answer {
        let control = header.control(reply).filter(|_| call == 0);
        let code = control.map(|_| header.return_code().get(reply));
        let passed = code == Some(0) && control == Some(STP_PASSTHRU);
        Answer {
            call,
            code,
            ata: passed.then(|| status(&reply[header.size()..])).flatten(),
            denied: code == Some(names::DENIED) && header == Header::Srb,
        }
    }

    /// Return code 4, with which the library answers a request whose need is above the level. It denies no Linux request.
    pub fn is_denied(&self) -> bool {
        self.denied
    }

    /// Whether it has a return code that no header's check gives.
    pub fn is_behind_header(&self) -> bool {
        self.code.is_some_and(|code| !OF_HEADERS.contains(&code))
    }

    /// The numbers with their names.
    pub fn words(&self) -> String {
        match (self.code, self.ata) {
            (None, _) => format!("call {}", names::call_words(self.call)),
            (Some(code), None) => names::return_words(code),
            (Some(code), Some((status, error))) => {
                let ata = names::ata_words(status, error);
                format!("{}; {ata}", names::return_words(code))
            }
        }
    }
}

/// Status and error in the status FIS of a code 25's body.
fn status(body: &[u8]) -> Option<(u8, u8)> {
    let fields = layout(STP_PASSTHRU).fields;
    let fis = fields.iter().find(|field| field.name == "status-fis")?;
    Some((*body.get(fis.at + 2)?, *body.get(fis.at + 3)?))
}

#[cfg(test)]
mod tests {
    use super::*;
    use labkit::session::Form;

    fn answer(call: u32, line: &str) -> Answer {
        let session = Form::Both.parse(line).unwrap();
        let request = Form::Both.split(&session).requests[0];
        Answer::of(request.header, call, request.buffer)
    }

    fn words(call: u32, line: &str) -> String {
        answer(call, line).words()
    }

    #[test]
    fn answers_in_words() {
        assert_eq!(words(100, "raw 0102"), "call 100 buffer too short");
        let fis = "stp-passthru command=20h status-fis=340051+04+00*16";
        let refused = "stp-passthru command=20h return-code=2008 status-fis=340051+04+00*16";
        for word in ["", "linux "] {
            let words = |line: &str| words(0, &format!("{word}{line}"));
            assert_eq!(
                words("get-phy-info return-code=2002"),
                "2002 phy does not exist"
            );
            assert_eq!(words(fis), "0 success; ATA 51h 04h error, aborted");
            assert_eq!(words(refused), "2008 connection failed");
        }
    }

    #[test]
    fn denied_is_return_code_4_of_the_first_header_and_nothing_else() {
        assert!(answer(0, "set-phy-info return-code=4").is_denied());
        assert!(!answer(107, "set-phy-info return-code=4").is_denied());
        assert!(!answer(4, "set-phy-info return-code=4 buffer=20").is_denied());
        assert!(!answer(0, "linux set-phy-info return-code=4").is_denied());
    }

    #[test]
    fn codes_that_come_behind_a_header() {
        let behind = |call, line: &str| answer(call, line).is_behind_header();
        for code in [0, 1, 4, 2002] {
            assert!(behind(0, &format!("linux set-phy-info return-code={code}")));
        }
        assert!(!behind(0, "linux set-phy-info return-code=2"));
        assert!(!behind(0, "linux set-phy-info return-code=3"));
        assert!(!behind(100, "linux raw control=21 00*19"));
        assert!(!behind(107, "linux set-phy-info"));
    }

    #[test]
    fn short_replies() {
        for length in 0..200 {
            let code = |line: &str| answer(0, &format!("{line} buffer={length}")).code;
            assert_eq!(code("stp-passthru data=00*40").is_some(), length >= 28);
            assert_eq!(code("linux stp-passthru").is_some(), length >= 20);
        }
    }
}
