//! What W-204 added to a file: the controller's configuration and status, and a connector for each phy. What a description does not
//! name is that of a plain SAS host adapter in a PCI slot that works, of which nothing else is known.

use super::fields::*;
use super::{CONNECTOR_BYTES, CONTROLLER_BYTES, STATUS_BYTES};
use crate::field::Field;

/// The configuration with nothing said: a SAS HBA on PCI. Its slot is unknown; by 6.2.3 so are serial number and revisions of 0.
pub fn controller() -> [u8; CONTROLLER_BYTES] {
    let mut info = [0; CONTROLLER_BYTES];
    info[SLOT..SLOT + 2].copy_from_slice(&[0xFF, 0xFF]);
    info[CLASS] = 5;
    info[BUS] = 3;
    info[FLAGS] = 1;
    info
}

/// The status with nothing said: good.
pub fn status() -> [u8; STATUS_BYTES] {
    let mut info = [0; STATUS_BYTES];
    info[0] = 1;
    info
}

/// The connector of a phy with nothing said: pinout and location unknown, no name.
pub fn connector() -> [u8; CONNECTOR_BYTES] {
    let mut info = [0; CONNECTOR_BYTES];
    info[PINOUT] = 1;
    info[LOCATION] = 1;
    info
}

/// A connector in words: `connector "J1", pinout sff-8484-lane-1, location internal`.
pub fn connector_words(reference: &[u8]) -> String {
    let shown = |at: usize| shown(&CONNECTOR, at, reference);
    format!(
        "connector {}, pinout {}, location {}",
        shown(CONNECTOR_NAME),
        shown(PINOUT),
        shown(LOCATION)
    )
}

/// The lines of a console's front page that a configuration gives: a name and words for each.
pub fn controller_lines(info: &[u8]) -> Vec<(String, String)> {
    let shown = |at: usize| shown(&CONTROLLER, at, info);
    let revision = |at: usize| revision_words(&info[at..at + REVISIONS_BYTES]);
    let half = |at: usize| format!("{:02X}{:02X}h", info[at + 1], info[at]);
    let [bus, device, function] = [0, 1, 2].map(|i| info[PCI_ADDRESS + i]);
    let lines = [
        (
            "board",
            format!(
                "{}, subsystem {} of vendor {}",
                shown(BOARD),
                half(BOARD + 2),
                half(BOARD)
            ),
        ),
        ("slot", shown(SLOT)),
        ("class", shown(CLASS)),
        (
            "bus",
            format!(
                "{}, bus {bus} device {device} function {function}",
                shown(BUS)
            ),
        ),
        ("serial", shown(SERIAL)),
        ("firmware", revision(FIRMWARE)),
        ("BIOS", revision(BIOS)),
        (
            "redundant",
            format!(
                "firmware {}, BIOS {}",
                revision(RROM_FIRMWARE),
                revision(RROM_BIOS)
            ),
        ),
        ("flags", shown(FLAGS)),
    ];
    lines.map(|(name, words)| (name.to_string(), words)).into()
}

/// Revisions of 16 bits each as a console shows them: `1.26.0.0`, major, minor, build and release.
pub fn revision_words(revisions: &[u8]) -> String {
    let numbers = revisions.chunks_exact(2);
    let shown = numbers.map(|pair| u16::from_le_bytes([pair[0], pair[1]]).to_string());
    shown.collect::<Vec<_>>().join(".")
}

/// The bytes of revisions.
pub const REVISIONS_BYTES: usize = 8;

/// The line of a front page that a status gives.
pub fn status_line(info: &[u8]) -> (String, String) {
    let [status, reason] = [0, 1].map(|i| STATUS[i].show(info));
    let words = match STATUS[0].get(info) {
        OFFLINE => format!("{status}, {reason}"),
        _ => status,
    };
    ("status".to_string(), words)
}

/// The status that has a reason.
const OFFLINE: u32 = 3;

/// What the field of a table that stands at a place says.
fn shown(table: &[Field], at: usize, info: &[u8]) -> String {
    let field = table.iter().find(|field| field.at == at);
    field.map_or(String::new(), |field| field.show(info))
}

#[cfg(test)]
mod tests {
    use super::*;
    use crate::field::{differences, fill};
    use crate::text::lines;

    fn made(mut info: Vec<u8>, table: &[Field], text: &str) -> Vec<u8> {
        let mut line = lines(text).unwrap().remove(0);
        fill(&mut info, table, &mut line).unwrap();
        line.finish().unwrap();
        info
    }

    #[test]
    fn the_defaults_by_name() {
        let zero = [0; CONTROLLER_BYTES];
        assert_eq!(
            differences(&controller(), &zero, &CONTROLLER).join(" "),
            "slot=unknown class=hba bus=pci flags=sas-hba"
        );
        assert_eq!(differences(&status(), &zero, &STATUS), ["status=good"]);
        assert_eq!(
            differences(&connector(), &zero, &CONNECTOR).join(" "),
            "pinout=unknown location=unknown"
        );
    }

    #[test]
    fn a_front_page_in_words() {
        let text = "controller board=30A81000h slot=3 bus=pci pci-bus=4 pci-device=1 serial=\"L4\" major=1 minor=26 bios-major=6
    flags=sas-hba+fwd-support rrom-major=1 rrom-bios-release=9";
        let found = controller_lines(&made(controller().into(), &CONTROLLER, text));
        let lines: Vec<String> = found.iter().map(|(a, b)| format!("{a}: {b}")).collect();
        assert_eq!(
            lines,
            [
                "board: 30A81000h, subsystem 30A8h of vendor 1000h",
                "slot: 3",
                "class: hba",
                "bus: pci, bus 4 device 1 function 0",
                "serial: \"L4\"",
                "firmware: 1.26.0.0",
                "BIOS: 6.0.0.0",
                "redundant: firmware 1.0.0.0, BIOS 0.0.0.9",
                "flags: sas-hba+fwd-support",
            ]
        );
        let status_of = |text| status_line(&made(status().into(), &STATUS, text)).1;
        assert_eq!(status_of("status"), "good");
        assert_eq!(status_of("status offline-reason=initializing"), "good");
        let offline = "status status=offline offline-reason=initializing";
        assert_eq!(status_of(offline), "offline, initializing");
        let text = "phy connector=\"J1\" pinout=sff-8484-lane-1+sff-8482 location=internal";
        assert_eq!(
            connector_words(&made(connector().into(), &CONNECTOR, text)),
            "connector \"J1\", pinout sff-8482+sff-8484-lane-1, location internal"
        );
    }
}
