//! Small inputs whose answers document 01 gives at a glance. Whole adapters are compared in `rust/differential`.

mod firmware;
mod front_page;
mod linux;
mod spinup;
mod tally;

use super::*;
use model::codes::control;
use model::layout::file::{self, BLOCK, CHECK};
use model::layout::{entity, header, linux_header, set_phy_info, state as at, DISK};

/// The C header.
const HEADER: &str = include_str!("../../../include/ascheknopf.h");
const OTHER: u8 = 0x5A;
/// The rates of the phy: minimum and maximum, programmed and hardware.
const RATES: [u8; 2] = [0x88, 0x99];

/// A stage that no request may alter.
fn stage() -> Vec<u8> {
    vec![OTHER; STAGE_SIZE]
}

/// The number of an opening without file and medium, and the state that it leaves, which was full of other bytes.
fn opened(text: &[u8]) -> (u32, [u8; STATE_SIZE]) {
    let mut state = [OTHER; STATE_SIZE];
    (open(text, &[], &[], &mut state), state)
}

/// The subsystem ID of the controller, its status, and the connector's pinout and location.
const BOARD: u32 = 0x3220_0E11;
const GOOD: u32 = 1;
const LANE_1: u32 = 0x100;
const INTERNAL: u8 = 2;

/// A file of one phy without device and no rows.
fn file() -> [u8; 4 * BLOCK] {
    let mut file = [0; 4 * BLOCK];
    let [first, second, controller, connector] = file.as_chunks_mut::<BLOCK>().0 else {
        unreachable!("these are four blocks");
    };
    first[file::PHY_COUNT] = 1;
    second[entity::MINIMUM..=entity::MAXIMUM].copy_from_slice(&RATES);
    put(controller, CONTROLLER_BOARD, BOARD);
    put(controller, CONTROLLER_SIZE + STATUS_STATUS, GOOD);
    put(connector, CONNECTOR_PINOUT, LANE_1);
    connector[CONNECTOR_LOCATION] = INTERNAL;
    // each check: the words that are not 0, the block's number, and 1
    put(first, CHECK, 1 + 1);
    put(second, CHECK, 0x9988_0000 + 1 + 1);
    put(controller, CHECK, BOARD + GOOD + 2 + 1);
    put(connector, CHECK, LANE_1 + u32::from(INTERNAL) + 3 + 1);
    file
}

fn put(bytes: &mut [u8], at: usize, number: u32) {
    bytes[at..at + 4].copy_from_slice(&number.to_le_bytes());
}

/// A record of these lines.
fn record(lines: &[[u32; 2]]) -> Vec<u8> {
    let numbers = lines.as_flattened().iter();
    numbers.flat_map(|number| number.to_le_bytes()).collect()
}

/// The places that `include/ascheknopf.h` defines with names that begin so, in their order.
fn defined(tables: &[&str]) -> Vec<(&'static str, usize)> {
    let number = |text: &str| text.split(' ').next()?.parse().ok();
    HEADER
        .lines()
        .filter_map(|line| line.strip_prefix("#define ASCHEKNOPF_")?.split_once(' '))
        .filter(|(name, _)| tables.iter().any(|table| name.starts_with(table)))
        .map(|(name, text)| (name, number(text).expect(name)))
        .collect()
}

/// Constants with their names.
macro_rules! by_name {
    ($($name:ident)*) => { [$((stringify!($name), $name)),*] };
}
use by_name;

/// The file's state at a level.
fn state(level: u8) -> [u8; STATE_SIZE] {
    let mut state = [0; STATE_SIZE];
    (state[at::LEVEL], state[at::PHY_COUNT]) = (level, 1);
    phy(&mut state)[entity::MINIMUM..=entity::MAXIMUM].copy_from_slice(&RATES);
    put(&mut state, CONTROLLER + CONTROLLER_BOARD, BOARD);
    put(&mut state, STATUS + STATUS_STATUS, GOOD);
    put(&mut state, CONNECTOR + CONNECTOR_PINOUT, LANE_1);
    state[CONNECTOR + CONNECTOR_LOCATION] = INTERNAL;
    state
}

/// The bytes from its phy on.
fn phy(state: &mut [u8; STATE_SIZE]) -> &mut [u8] {
    &mut state[at::PHYS..]
}

/// A request under the first header, other bytes where its header is not read.
fn first(control: u32, signature: &[u8; 8], body: &[u8]) -> Vec<u8> {
    let mut buffer = vec![OTHER; header::SIZE];
    put(&mut buffer, header::HEADER_LENGTH, header::SIZE as u32);
    buffer[header::SIGNATURE..header::TIMEOUT].copy_from_slice(signature);
    put(&mut buffer, header::CONTROL_CODE, control);
    put(&mut buffer, header::LENGTH, body.len() as u32);
    buffer.extend(body);
    buffer
}

/// The same under the Linux header, where the code stands beside it.
fn under_linux(body: &[u8]) -> Vec<u8> {
    let mut buffer = vec![OTHER; linux_header::SIZE];
    let length = linux_header::SIZE + body.len();
    put(&mut buffer, linux_header::LENGTH, length as u32);
    buffer[linux_header::DIRECTION..linux_header::IGNORED].fill(0);
    buffer.extend(body);
    buffer
}

/// The body of a code 21: phy 0 disabled, 3.0 Gb/s alone, class 2.
const DISABLE: [u8; set_phy_info::SIZE] = [0, 1, 9, 9, 2, 0, 0, 0];

/// The file's state at a level after it.
fn disabled(level: u8) -> [u8; STATE_SIZE] {
    let mut state = state(level);
    phy(&mut state)[entity::SIGNAL_CLASS] = 2;
    phy(&mut state)[entity::NEGOTIATED..=entity::MAXIMUM].copy_from_slice(&[1, 0x98, 0x99]);
    state
}

#[test]
fn an_opening_writes_the_whole_state() {
    let mut lent = [OTHER; STATE_SIZE];
    assert_eq!(open(b"CSMI=Full;", &file(), &[0; DISK], &mut lent), 0);
    assert_eq!(lent, state(3));
}

#[test]
fn an_empty_file_is_102_and_leaves_the_zero_state() {
    assert_eq!(opened(&[]), (102, [0; STATE_SIZE]));
}

#[test]
fn a_wrong_text_is_101_and_leaves_the_zero_state() {
    assert_eq!(opened(b"CSMI=full;"), (101, [0; STATE_SIZE]));
}

#[test]
fn a_state_of_another_length_is_107_and_stays() {
    for length in [
        0,
        1,
        CONTROLLER,
        STATE_SIZE - 1,
        STATE_SIZE + 1,
        2 * STATE_SIZE,
    ] {
        let mut lent = vec![OTHER; length];
        let (mut medium, mut stage, mut buffer) = ([0; DISK], stage(), [OTHER; 40]);
        assert_eq!(open(b"", &file(), &medium, &mut lent), 107);
        assert_eq!(open(b"CSMI=full;", &[], &[], &mut lent), 107);
        let number = request(&mut lent, &mut medium, &mut stage, &mut buffer);
        assert_eq!(number, 107);
        assert_eq!(request(&mut lent, &mut [], &mut [], &mut []), 107);
        assert_eq!(lent, vec![OTHER; length]);
        assert!(medium == [0; DISK] && stage == self::stage() && buffer == [OTHER; 40]);
    }
}

#[test]
fn the_numbers_of_a_request_in_their_order() {
    let (mut lent, mut medium, mut stage) = (state(4), [0; DISK], stage());
    assert_eq!(request(&mut lent, &mut [], &mut [], &mut []), 107);
    lent = state(3);
    assert_eq!(
        request(&mut lent, &mut medium[1..], &mut stage, &mut []),
        106
    );
    assert_eq!(
        request(&mut lent, &mut medium, &mut stage[1..], &mut []),
        106
    );
    let mut short = [OTHER; header::SIZE - 1];
    assert_eq!(request(&mut lent, &mut medium, &mut stage, &mut short), 100);
    let mut buffer = [0; header::SIZE];
    assert_eq!(request(&mut lent, &mut medium, &mut stage, &mut buffer), 0);
    // HeaderLength is 0, which is return code 3
    assert_eq!((buffer[header::RETURN_CODE], lent), (3, state(3)));
}

#[test]
fn a_request_changes_the_state_in_place() {
    let (mut lent, mut medium, mut stage) = (state(3), [0; DISK], stage());
    let mut buffer = first(control::SET_PHY_INFO, b"CSMISAS\0", &DISABLE);
    let mut reply = buffer.clone();
    put(&mut reply, header::RETURN_CODE, 0);
    assert_eq!(request(&mut lent, &mut medium, &mut stage, &mut buffer), 0);
    assert_eq!((buffer, lent), (reply, disabled(3)));
    assert_eq!(stage, self::stage());
}

#[test]
fn a_request_after_a_refused_opening_gets_107() {
    let mut session = [5, 0, 0, 0, 1, 2, 3, 4, 5];
    let mut record = [0x5A; 10];
    let handled = run(&[], &[], &mut [], &mut [], &mut session, &mut record);
    assert_eq!(handled, 1);
    assert_eq!(session, [5, 0, 0, 0, 1, 2, 3, 4, 5]);
    assert_eq!(record, [107, 0, 0, 0, 0xFF, 0xFF, 0xFF, 0xFF, 0x5A, 0x5A]);
}

#[test]
fn an_empty_session_has_no_requests() {
    assert_eq!(run(&[], &[], &mut [], &mut [], &mut [], &mut []), 0);
}
