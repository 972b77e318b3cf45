//! Requests with the Linux header, by the call and in a session of both headers.

use super::*;

/// A code 21 behind a Linux header.
fn set_phy_info() -> Vec<u8> {
    under_linux(&DISABLE)
}

/// The reply, with this return code.
fn replied(code: u32) -> Vec<u8> {
    let mut reply = set_phy_info();
    put(&mut reply, linux_header::RETURN_CODE, code);
    reply
}

/// A request of a session of both headers.
fn framed(header: u32, control: u32, request: &[u8]) -> Vec<u8> {
    let numbers = [header, control, request.len() as u32];
    [numbers.map(u32::to_le_bytes).as_flattened(), request].concat()
}

/// A run at level None over a session; the number handled, the session and the record afterwards.
fn ran(session: &[u8]) -> (usize, Vec<u8>, [u8; 3 * record::SIZE]) {
    let (mut session, mut medium, mut stage) = (session.to_vec(), [0; DISK], stage());
    let mut record = [OTHER; 3 * record::SIZE];
    let text = b"CSMI=None;";
    let handled = run_both(
        text,
        &file(),
        &mut medium,
        &mut stage,
        &mut session,
        &mut record,
    );
    assert_eq!(stage, self::stage());
    (handled, session, record)
}

#[test]
fn a_linux_request_is_served_at_every_level() {
    for level in 0..=3 {
        let (mut lent, mut medium, mut stage) = (state(level), [0; DISK], stage());
        let mut buffer = set_phy_info();
        let number = request_linux(&mut lent, &mut medium, &mut stage, 21, &mut buffer);
        assert_eq!((number, stage), (0, self::stage()));
        assert_eq!((buffer, lent), (replied(0), disabled(level)));
    }
}

#[test]
fn the_answers_to_a_linux_request_in_their_order() {
    let (mut lent, mut medium, mut stage) = (state(4), [0; DISK], stage());
    assert_eq!(request_linux(&mut lent, &mut [], &mut [], 0, &mut []), 107);
    lent = state(0);
    let number = request_linux(&mut lent, &mut medium[1..], &mut stage, 0, &mut []);
    assert_eq!(number, 106);
    let number = request_linux(&mut lent, &mut medium, &mut stage[1..], 0, &mut []);
    assert_eq!(number, 106);
    let mut short = [OTHER; linux_header::SIZE - 1];
    let number = request_linux(&mut lent, &mut medium, &mut stage, 0, &mut short);
    assert_eq!(number, 100);
    let mut code_of = |control, change: fn(&mut [u8])| {
        let mut buffer = set_phy_info();
        change(&mut buffer);
        assert_eq!(
            request_linux(&mut lent, &mut medium, &mut stage, control, &mut buffer),
            0
        );
        assert_eq!(lent, state(0));
        buffer[linux_header::RETURN_CODE]
    };
    // Direction before the code, and the code before Length
    assert_eq!(code_of(24, |buffer| buffer[linux_header::DIRECTION] = 2), 3);
    assert_eq!(code_of(24, |buffer| buffer[linux_header::LENGTH] = 0), 2);
    assert_eq!(code_of(21, |buffer| buffer[linux_header::LENGTH] += 1), 3);
}

#[test]
fn a_state_of_another_length_is_107_to_a_linux_request() {
    for length in [0, 1, CONTROLLER, STATE_SIZE - 1, STATE_SIZE + 1] {
        let mut lent = vec![OTHER; length];
        let (mut medium, mut stage, mut buffer) = ([0; DISK], stage(), set_phy_info());
        let number = request_linux(&mut lent, &mut medium, &mut stage, 21, &mut buffer);
        assert_eq!(number, 107);
        assert_eq!((lent, buffer), (vec![OTHER; length], set_phy_info()));
    }
}

/// With the first header denied, with the other served; each return code stands in its own place.
#[test]
fn a_session_of_both_headers() {
    let first = first(control::SET_PHY_INFO, b"CSMISAS\0", &DISABLE);
    let mut denied = first.clone();
    put(&mut denied, header::RETURN_CODE, 4);
    let session = [
        framed(prefix::FIRST, 0, &first),
        framed(prefix::LINUX, 21, &set_phy_info()),
        framed(prefix::LINUX, 21, &[OTHER; 19]),
    ];
    let expected = [
        framed(prefix::FIRST, 0, &denied),
        framed(prefix::LINUX, 21, &replied(0)),
        framed(prefix::LINUX, 21, &[OTHER; 19]),
    ];
    let record = record(&[[0, 4], [0, 0], [100, record::NO_CODE]]);
    let (handled, after, lines) = ran(&session.concat());
    assert_eq!(
        (handled, after, &lines[..]),
        (3, expected.concat(), &record[..])
    );
}

/// Another header, the first with a control code, a request cut short: it and what follows stay.
#[test]
fn what_ends_a_session_of_both_headers() {
    let linux = framed(prefix::LINUX, 21, &set_phy_info());
    let ends = [
        framed(2, 21, &set_phy_info()),
        framed(u32::MAX, 0, &set_phy_info()),
        framed(prefix::FIRST, 21, &set_phy_info()),
        linux[..linux.len() - 1].to_vec(),
        linux[..prefix::SIZE - 1].to_vec(),
    ];
    for end in ends {
        let rest = if end.len() < linux.len() {
            &[]
        } else {
            &linux[..]
        };
        let session = [&linux[..], &end, rest].concat();
        let (handled, after, record) = ran(&session);
        assert_eq!(handled, 1);
        assert_eq!(after[linux.len()..], session[linux.len()..]);
        assert_eq!(after[prefix::SIZE..linux.len()], replied(0));
        assert_eq!(record[..record::SIZE], [0; record::SIZE]);
        assert_eq!(record[record::SIZE..], [OTHER; 2 * record::SIZE]);
    }
}

#[test]
fn after_a_refused_opening_both_headers_get_107() {
    let requests = [
        framed(prefix::FIRST, 0, &[]),
        framed(prefix::LINUX, 21, &set_phy_info()),
    ];
    let session = requests.concat();
    let (mut after, mut record) = (session.clone(), [OTHER; 2 * record::SIZE]);
    let handled = run_both(&[], &[], &mut [], &mut [], &mut after, &mut record);
    assert_eq!(handled, 2);
    let line = [107, 0, 0, 0, 0xFF, 0xFF, 0xFF, 0xFF];
    assert_eq!(
        (after, record),
        (session, [line; 2].concat().try_into().unwrap())
    );
}
