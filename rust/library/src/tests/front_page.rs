//! Codes 2, 3 and 30 under both headers, and the places of the tables that they show.

use super::*;

/// A control code, its signature, and where a state has what it shows.
const PAGES: [(u32, &[u8; 8], usize, usize); 3] = [
    (2, b"CSMIALL\0", CONTROLLER, CONTROLLER_SIZE),
    (3, b"CSMIALL\0", STATUS, STATUS_SIZE),
    (30, b"CSMISAS\0", CONNECTOR, STAGED - CONNECTOR),
];

/// The reply: its return code, and the part of the state where it is 0.
fn replied(sent: &[u8], code_at: usize, code: u32, body_at: usize, shown: &[u8]) -> Vec<u8> {
    let mut reply = sent.to_vec();
    put(&mut reply, code_at, code);
    if code == 0 {
        reply[body_at..].copy_from_slice(shown);
    }
    reply
}

#[test]
fn a_reply_is_a_part_of_the_state() {
    for level in 0..=3 {
        for (control, signature, at, size) in PAGES {
            let (mut lent, mut medium, mut stage) = (state(level), [0; DISK], stage());
            let shown = &state(level)[at..at + size];
            let sent = first(control, signature, &vec![OTHER; size]);
            let mut buffer = sent.clone();
            assert_eq!(request(&mut lent, &mut medium, &mut stage, &mut buffer), 0);
            let code = if level == 0 { 4 } else { 0 };
            let expected = replied(&sent, header::RETURN_CODE, code, header::SIZE, shown);
            assert_eq!(buffer, expected, "code {control}, level {level}");

            let sent = under_linux(&vec![OTHER; size]);
            let mut buffer = sent.clone();
            let number = request_linux(&mut lent, &mut medium, &mut stage, control, &mut buffer);
            assert_eq!(number, 0);
            let expected = replied(
                &sent,
                linux_header::RETURN_CODE,
                0,
                linux_header::SIZE,
                shown,
            );
            assert_eq!(buffer, expected, "code {control}, level {level}");
            assert!(lent == state(level) && medium == [0; DISK] && stage == self::stage());
        }
    }
}

#[test]
fn another_pinout_and_a_second_connector_are_107() {
    let connector = CONNECTOR + CONNECTOR_SIZE;
    for at in [CONNECTOR + CONNECTOR_PINOUT + 3, connector, STAGED - 1] {
        let (mut lent, mut medium, mut stage) = (state(3), [0; DISK], stage());
        lent[at] ^= 1;
        let before = lent;
        assert_eq!(request(&mut lent, &mut medium, &mut stage, &mut []), 107);
        let number = request_linux(&mut lent, &mut medium, &mut stage, 2, &mut []);
        assert_eq!(number, 107);
        assert_eq!(lent, before);
    }
}

/// A file that ends behind its rows, as it did before these codes were served.
#[test]
fn a_file_of_the_old_layout_is_102() {
    let mut lent = [OTHER; STATE_SIZE];
    let old = &file()[..2 * BLOCK];
    assert_eq!(open(b"CSMI=Full;", old, &[0; DISK], &mut lent), 102);
    assert_eq!(lent, [0; STATE_SIZE]);
}

/// The constants here are those of `include/ascheknopf.h`, all that it has of these tables, and the model's.
#[test]
fn the_places_are_those_of_the_c_header() {
    let tables = ["STATE_SIZE", "CONTROLLER", "STATUS", "CONNECTOR_"];
    assert_eq!(
        defined(&tables),
        by_name!(
            STATE_SIZE CONTROLLER CONTROLLER_SIZE CONTROLLER_BASE_IO CONTROLLER_BASE_MEMORY CONTROLLER_BOARD CONTROLLER_SLOT
            CONTROLLER_CLASS CONTROLLER_BUS_TYPE CONTROLLER_BUS_ADDRESS CONTROLLER_SERIAL CONTROLLER_FIRMWARE CONTROLLER_BIOS
            CONTROLLER_FLAGS CONTROLLER_RROM_FIRMWARE CONTROLLER_RROM_BIOS CONTROLLER_RESERVED STATUS STATUS_SIZE STATUS_STATUS
            STATUS_OFFLINE_REASON CONNECTOR_SIZE CONNECTOR_PINOUT CONNECTOR_NAME CONNECTOR_LOCATION
        )
    );
    let line =
        format!("#define ASCHEKNOPF_CONNECTOR(n) ({CONNECTOR} + {CONNECTOR_SIZE} * (size_t)(n))");
    assert!(HEADER.lines().any(|found| found == line), "{line}");
    assert_eq!(at::CONTROLLER_CONFIG, CONTROLLER);
    assert_eq!(at::CONTROLLER_STATUS, STATUS);
    assert_eq!((at::CONNECTORS, at::SIZE), (CONNECTOR, STATE_SIZE));
}
