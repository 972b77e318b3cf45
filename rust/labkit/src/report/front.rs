//! The front page that a console shows first: what the replies of codes 2, 3 and 30 say, in words.

use crate::adapter::{connector_words, controller_lines, status_line, CONNECTOR_BYTES};
use crate::session::{layout, CNTLR_CONFIG, CNTLR_STATUS, CONNECTOR_INFO};

/// The control codes whose replies it shows, in its order.
pub const FRONT: [u32; 3] = [CNTLR_CONFIG, CNTLR_STATUS, CONNECTOR_INFO];

/// The lines that the body of a reply gives, a name and words for each; of code 30 for so many phys. None of another code.
pub fn front(control: u32, body: &[u8], phys: usize) -> Vec<(String, String)> {
    let Some(body) = body.get(..layout(control).size) else {
        return Vec::new();
    };
    let connector = |(n, reference): (usize, &[u8])| {
        let name = format!("phy {n}");
        (name, connector_words(reference))
    };
    match control {
        CNTLR_CONFIG => controller_lines(body),
        CNTLR_STATUS => vec![status_line(body)],
        CONNECTOR_INFO => {
            let references = body.chunks(CONNECTOR_BYTES).take(phys);
            references.enumerate().map(connector).collect()
        }
        _ => Vec::new(),
    }
}

#[cfg(test)]
mod tests {
    use super::*;
    use crate::session::Form;

    fn lines(line: &str, phys: usize) -> Vec<String> {
        let session = Form::Both.parse(line).unwrap();
        let request = Form::Both.split(&session).requests[0];
        let found = front(request.control().unwrap(), request.body().unwrap(), phys);
        let shown = found.iter().map(|(name, words)| format!("{name}: {words}"));
        shown.collect()
    }

    #[test]
    fn the_replies_of_a_front_page() {
        for word in ["", "linux "] {
            let config = lines(&format!("{word}get-cntlr-config slot=2"), 4);
            assert_eq!((config.len(), config[1].as_str()), (9, "slot: 2"));
            let status = lines(&format!("{word}get-cntlr-status status=failed"), 4);
            assert_eq!(status, ["status: failed"]);
            let connectors = lines(&format!("{word}get-connector-info references=01*1152"), 3);
            assert_eq!(connectors.len(), 3);
            assert!(connectors[2].starts_with("phy 2: connector 01*16, pinout "));
        }
    }

    #[test]
    fn other_replies_give_nothing() {
        assert_eq!(lines("get-phy-info", 4), [""; 0]);
        assert_eq!(lines("request control=99", 4), [""; 0]);
        assert_eq!(lines("get-cntlr-status buffer=63", 4), [""; 0]);
        assert_eq!(lines("linux get-connector-info buffer=40", 4), [""; 0]);
    }
}
