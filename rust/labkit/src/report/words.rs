//! A request in a few words, for one column of a table.

use crate::names;
use crate::session::{firmware_words, layout, Header, Request, FIRMWARE_DOWNLOAD, STP_PASSTHRU};
use crate::value::{show_bytes, show_code};

/// The request's name and the fields that say what it asks for; `linux` before it if it has that header.
pub fn request_words(request: &Request) -> String {
    match request.header {
        Header::Srb => first_words(request),
        Header::Linux { control } => format!("linux {}", linux_words(request, control)),
    }
}

fn first_words(request: &Request) -> String {
    let (Some(control), Some(body)) = (request.control(), request.body()) else {
        return no_header(request);
    };
    match names::control_name(control) {
        Some(name) => named(name, control, body),
        None => format!("control code {control}"),
    }
}

/// The control code, handed in beside the buffer, is known of a short one too.
fn linux_words(request: &Request, control: u32) -> String {
    let code = || format!("control code {}", show_code(control));
    let name = names::control_name(control);
    match (name, request.body()) {
        (Some(name), Some(body)) => named(name, control, body),
        (name, None) => {
            let name = name.map_or_else(code, str::to_string);
            format!("{name}, {}", no_header(request))
        }
        (None, Some(_)) => code(),
    }
}

fn no_header(request: &Request) -> String {
    format!("{} bytes, no header", request.buffer.len())
}

fn named(name: &str, control: u32, body: &[u8]) -> String {
    if body.len() < layout(control).size {
        return format!("{name}, cut off");
    }
    let byte = |at: usize| u32::from(body[at]);
    match control {
        FIRMWARE_DOWNLOAD => format!("{name}: {}", firmware_words(body)),
        21 => format!("{name} phy {}{}", byte(0), changes(body)),
        22 => format!("{name} phy {}{}", byte(0), reset(body)),
        STP_PASSTHRU => format!("{name} {}: {}{}", selected(body), command(body), rate(body)),
        26 => format!("{name} phy {}", byte(0)),
        27 => format!("{name} {}", show_bytes(&body[..8])),
        28 => format!("{name} {}/{}/{}/{}", byte(0), byte(1), byte(2), byte(3)),
        _ => name.to_string(),
    }
}

/// The reset byte of a code 22: 1 clears the counters, and all others but 0 are refused.
fn reset(body: &[u8]) -> String {
    match body[1] {
        0 => String::new(),
        1 => ", reset".to_string(),
        other => format!(", reset {other}"),
    }
}

/// What a code 21 asks for.
fn changes(body: &[u8]) -> String {
    let mut words = String::new();
    match body[1] {
        0 => {}
        1 => words.push_str(", disable"),
        other => words.push_str(&format!(", negotiated {other}")),
    }
    for (name, value) in [("minimum", body[2]), ("maximum", body[3])] {
        if value != 0 {
            words.push_str(&format!(", {name} {value}"));
        }
    }
    words
}

/// The phy and the port that a code 25 selects.
fn selected(body: &[u8]) -> String {
    match (body[0], body[1]) {
        (0xFF, 0xFF) => "no phy, no port".to_string(),
        (0xFF, port) => format!("port {port}"),
        (phy, 0xFF) => format!("phy {phy}"),
        (phy, port) => format!("phy {phy} port {port}"),
    }
}

/// The ATA command of a code 25.
fn command(body: &[u8]) -> String {
    let lba = u32::from_le_bytes([body[20], body[21], body[22], body[23] & 0x0F]);
    let count = body[28];
    match body[18] {
        0x20 => format!("read LBA {lba} count {count}"),
        0x30 => format!("write LBA {lba} count {count}"),
        0xEC => "identify device".to_string(),
        0xE5 => "check power mode".to_string(),
        other => format!("command {other:02X}h"),
    }
}

/// The connection rate of a code 25, if it asks for one.
fn rate(body: &[u8]) -> String {
    match body[2] {
        0 => String::new(),
        rate => format!(", rate {rate}"),
    }
}

#[cfg(test)]
mod tests {
    use super::*;
    use crate::session::Form;

    fn words_of(line: &str) -> String {
        let session = Form::Both.parse(line).unwrap();
        request_words(&Form::Both.split(&session).requests[0])
    }

    #[test]
    fn requests_in_words() {
        for (line, words) in [
            ("get-phy-info", "get-phy-info"),
            (
                "set-phy-info phy=1 minimum=8",
                "set-phy-info phy 1, minimum 8",
            ),
            ("set-phy-info negotiated=1", "set-phy-info phy 0, disable"),
            ("get-link-errors phy=2", "get-link-errors phy 2"),
            ("get-link-errors reset=1", "get-link-errors phy 0, reset"),
            ("get-link-errors reset=2", "get-link-errors phy 0, reset 2"),
            (
                "stp-passthru phy=1 command=30h lba=3 count=2",
                "stp-passthru phy 1: write LBA 3 count 2",
            ),
            (
                "stp-passthru phy=FFh port=2 rate=9 command=E8h",
                "stp-passthru port 2: command E8h, rate 9",
            ),
            ("get-sata-signature phy=4", "get-sata-signature phy 4"),
            (
                "get-scsi-address address=5000C50000000001",
                "get-scsi-address 5000C50000000001",
            ),
            ("get-device-address target=3", "get-device-address 0/0/3/0"),
            (
                "firmware-download validate major=2 minor=1 release=7 blocks=2",
                "firmware-download: validate 2.1.0.7, 2 blocks",
            ),
            (
                "firmware-download validate major=2 blocks=3 damage=2",
                "firmware-download: validate 2.0.0.0, 3 blocks, damaged",
            ),
            (
                "firmware-download validate major=2 flags=5",
                "firmware-download: validate 2.0.0.0, 1 block",
            ),
            (
                "firmware-download validate buffer-length=700 major=2",
                "firmware-download: validate, 700 bytes",
            ),
            (
                "firmware-download validate data=5A*7",
                "firmware-download: validate, 7 bytes",
            ),
            (
                "firmware-download flags=validate",
                "firmware-download: validate, 0 bytes",
            ),
            (
                "firmware-download commit flags=2",
                "firmware-download: commit",
            ),
            (
                "firmware-download validate flags=soft-reset blocks=2",
                "firmware-download: commit, 2 blocks",
            ),
            (
                "firmware-download commit buffer=71",
                "firmware-download, cut off",
            ),
            ("get-link-errors buffer=47", "get-link-errors, cut off"),
            ("request control=99", "control code 99"),
            ("raw 0102", "2 bytes, no header"),
        ] {
            assert_eq!(words_of(line), words);
        }
    }

    #[test]
    fn linux_requests_in_words() {
        for (line, words) in [
            ("linux get-phy-info", "linux get-phy-info"),
            (
                "linux stp-passthru phy=0 command=30h lba=3 count=1",
                "linux stp-passthru phy 0: write LBA 3 count 1",
            ),
            (
                "linux get-link-errors buffer=39",
                "linux get-link-errors, cut off",
            ),
            (
                "linux firmware-download validate release=1 blocks=32",
                "linux firmware-download: validate 0.0.0.1, 32 blocks",
            ),
            (
                "linux firmware-download commit",
                "linux firmware-download: commit",
            ),
            ("linux request control=99", "linux control code 99"),
            (
                "linux request control=CC770014h",
                "linux control code CC770014h",
            ),
            (
                "linux raw control=22 0102",
                "linux get-link-errors, 2 bytes, no header",
            ),
            (
                "linux raw control=99",
                "linux control code 99, 0 bytes, no header",
            ),
        ] {
            assert_eq!(words_of(line), words);
        }
    }
}
