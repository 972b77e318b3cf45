//! Code 4 under both headers: an image of one block validated, made current and shown by code 2; the stage; and the places of all this.

use super::*;
use model::layout::{firmware, STAGE};

const REVISIONS: [u8; STAGED_REVISIONS_SIZE] = [3, 0, 0x21, 0x43, 5, 6, 7, 8];
/// Flags that are not read.
const OTHER_FLAGS: u32 = !DOWNLOAD_VALIDATE;

/// An image of one block: its revisions, and else 0.
fn image() -> [u8; BLOCK] {
    let mut image = [0; BLOCK];
    image[..REVISIONS.len()].copy_from_slice(&REVISIONS);
    // the check: the words that are not 0, the block's number, and 1
    put(&mut image, CHECK, 0x4321_0003 + 0x0807_0605 + 1);
    image
}

/// The body of a code 4; what is not read, status and severity hold other bytes.
fn body(flags: u32, data: &[u8]) -> Vec<u8> {
    let mut body = vec![OTHER; DOWNLOAD_DATA];
    put(&mut body, DOWNLOAD_BUFFER_LENGTH, data.len() as u32);
    put(&mut body, DOWNLOAD_FLAGS, flags);
    body.extend(data);
    body
}

/// What a caller lends.
#[derive(Clone, Debug, PartialEq, Eq)]
struct Lent {
    state: [u8; STATE_SIZE],
    stage: Vec<u8>,
}

impl Lent {
    fn new(level: u8) -> Self {
        Lent {
            state: state(level),
            stage: stage(),
        }
    }

    /// The same after a granted validation.
    fn validated(mut self) -> Self {
        self.stage[..BLOCK].copy_from_slice(&image());
        self.state[STAGED] = 1;
        self.state[STAGED_REVISIONS..].copy_from_slice(&REVISIONS);
        self
    }

    /// And after a granted commit.
    fn committed(mut self) -> Self {
        self.state[STAGED..].fill(0);
        self.state[CONTROLLER + CONTROLLER_FIRMWARE..][..REVISIONS.len()]
            .copy_from_slice(&REVISIONS);
        self
    }

    /// A code 4 with the Linux header or the first: the return code. With 0 status and severity are 0, and nothing else of the body changes.
    fn answers(&mut self, linux: bool, body: &[u8]) -> u32 {
        let (code_at, at) = match linux {
            true => (linux_header::RETURN_CODE, linux_header::SIZE),
            false => (header::RETURN_CODE, header::SIZE),
        };
        let sent = match linux {
            true => under_linux(body),
            false => first(control::FIRMWARE_DOWNLOAD, b"CSMIALL\0", body),
        };
        let (mut buffer, mut medium) = (sent.clone(), [OTHER; DISK]);
        let (state, stage) = (&mut self.state, &mut self.stage);
        let number = match linux {
            true => request_linux(state, &mut medium, stage, 4, &mut buffer),
            false => request(state, &mut medium, stage, &mut buffer),
        };
        assert_eq!((number, medium), (0, [OTHER; DISK]));
        let code = u32::from_le_bytes(buffer[code_at..code_at + 4].try_into().unwrap());
        let mut expected = sent;
        put(&mut expected, code_at, code);
        if code == 0 {
            expected[at + DOWNLOAD_STATUS..at + DOWNLOAD_DATA].fill(0);
        }
        assert_eq!(buffer, expected);
        code
    }
}

#[test]
fn an_image_is_validated_and_then_made_current() {
    for (level, linux) in (0..=3).flat_map(|level| [(level, false), (level, true)]) {
        let mut lent = Lent::new(level);
        let denied = level < 2 && !linux;
        let validation = body(OTHER_FLAGS | DOWNLOAD_VALIDATE, &image());
        let code = lent.answers(linux, &validation);
        if denied {
            assert_eq!((code, lent), (4, Lent::new(level)));
            continue;
        }
        let staged = Lent::new(level).validated();
        assert_eq!((code, &lent), (0, &staged), "level {level}");
        let commit = body(OTHER_FLAGS, &[]);
        assert_eq!(lent.answers(linux, &commit), 0);
        assert_eq!(lent, staged.clone().committed(), "level {level}");
        // nothing is staged any more
        assert_eq!(lent.answers(linux, &commit), 1);
        assert_eq!(lent, staged.committed(), "level {level}");
    }
}

/// Bytes without the flag and lengths that are not 1 to 32 blocks are 3, a wrong check is 1; what was staged stays.
#[test]
fn what_is_refused_changes_nothing() {
    let mut changed = image();
    changed[100] ^= 1;
    let refused = [
        (0, image().to_vec(), 3),
        (0, vec![0], 3),
        (1, Vec::new(), 3),
        (1, image()[1..].to_vec(), 3),
        (1, [&image()[..], &[0]].concat(), 3),
        (1, vec![0; STAGE_SIZE + BLOCK], 3),
        (1, changed.to_vec(), 1),
        (1, [image(), image()].concat(), 1),
    ];
    let staged = Lent::new(3).validated();
    for (flags, data, code) in refused {
        for (linux, before) in [(false, &staged), (true, &staged), (true, &Lent::new(3))] {
            let mut lent = before.clone();
            assert_eq!(lent.answers(linux, &body(flags, &data)), code, "{flags}");
            assert_eq!(lent, *before, "{flags}, {} bytes", data.len());
        }
    }
}

/// By either run, which opens: the stage is the caller's, and is left with the image; code 2 shows the revisions.
#[test]
fn a_run_leaves_the_stage() {
    let requests = [
        first(control::FIRMWARE_DOWNLOAD, b"CSMIALL\0", &body(0, &[])),
        first(control::FIRMWARE_DOWNLOAD, b"CSMIALL\0", &body(1, &image())),
        first(control::FIRMWARE_DOWNLOAD, b"CSMIALL\0", &body(0, &[])),
        first(
            control::CNTLR_CONFIG,
            b"CSMIALL\0",
            &[OTHER; CONTROLLER_SIZE],
        ),
    ];
    for both in [false, true] {
        let framed = requests.iter().map(|request| {
            let frame = [0, 0, request.len() as u32].map(u32::to_le_bytes);
            let frame = &frame.as_flattened()[if both { 0 } else { 8 }..];
            [frame, request].concat()
        });
        let mut session = framed.collect::<Vec<_>>().concat();
        let (mut medium, mut stage, mut lines) = ([0; DISK], stage(), [OTHER; 4 * record::SIZE]);
        let run = if both { run_both } else { run };
        let text = b"CSMI=Limited;";
        let handled = run(
            text,
            &file(),
            &mut medium,
            &mut stage,
            &mut session,
            &mut lines,
        );
        let expected = record(&[[0, 1], [0, 0], [0, 0], [0, 0]]);
        assert_eq!((handled, &lines[..]), (4, &expected[..]));
        assert_eq!(stage, Lent::new(2).validated().stage);
        let shown = &session[session.len() - CONTROLLER_SIZE + CONTROLLER_FIRMWARE..];
        assert_eq!(shown[..REVISIONS.len()], REVISIONS);
    }
}

/// 106, whatever the request, and in a run too; not of an opening.
#[test]
fn a_stage_of_another_length_is_106() {
    for length in [0, 1, STAGE_SIZE - 1, STAGE_SIZE + 1] {
        let before = Lent {
            state: state(3),
            stage: vec![OTHER; length],
        };
        let (mut lent, mut medium, mut buffer) = (before.clone(), [0; DISK], [OTHER; 99]);
        let (state, stage) = (&mut lent.state, &mut lent.stage);
        assert_eq!(request(state, &mut medium, stage, &mut []), 106);
        assert_eq!(request(state, &mut medium, stage, &mut buffer), 106);
        let number = request_linux(state, &mut medium, stage, 4, &mut buffer);
        assert_eq!((number, buffer), (106, [OTHER; 99]));
        let (mut session, mut lines) = ([1, 0, 0, 0, 9], [OTHER; record::SIZE]);
        let text = b"CSMI=Full;";
        let handled = run(text, &file(), &mut medium, stage, &mut session, &mut lines);
        assert_eq!((handled, session), (1, [1, 0, 0, 0, 9]));
        assert_eq!(lines[..], record(&[[106, record::NO_CODE]]));
        assert_eq!(lent, before);
    }
}

/// Over 1, or revisions of nothing; an image may have the revisions 0.
#[test]
fn a_wrong_staged_image_in_a_state_is_107() {
    let numbers = (0..=255).map(|byte| {
        let (mut lent, mut medium, mut stage) = (state(3), [0; DISK], stage());
        lent[STAGED] = byte;
        request(&mut lent, &mut medium, &mut stage, &mut [])
    });
    let expected = (0..=255).map(|byte| if byte < 2 { 100 } else { 107 });
    assert!(numbers.eq(expected));
    for at in STAGED_REVISIONS..STATE_SIZE {
        let (mut lent, mut medium, mut stage) = (state(3), [0; DISK], stage());
        lent[at] = 1;
        assert_eq!(request(&mut lent, &mut medium, &mut stage, &mut []), 107);
        lent[STAGED] = 1;
        assert_eq!(request(&mut lent, &mut medium, &mut stage, &mut []), 100);
    }
}

/// The constants here are those of `include/ascheknopf.h`, all that it has of these, and the model's.
#[test]
fn the_places_are_those_of_the_c_header() {
    let places = by_name!(
        STAGE_SIZE STAGED STAGED_REVISIONS STAGED_REVISIONS_SIZE DOWNLOAD_BUFFER_LENGTH DOWNLOAD_FLAGS DOWNLOAD_STATUS DOWNLOAD_SEVERITY
        DOWNLOAD_DATA
    );
    let mut defined = defined(&["STAGE", "DOWNLOAD"]);
    defined.retain(|(name, _)| *name != "DOWNLOAD_VALIDATE");
    defined.sort();
    let mut expected = places.to_vec();
    expected.sort();
    assert_eq!(defined, expected);
    let (of_body, of_state) = (&places[4..], &places[..4]);
    assert_eq!(
        of_body.iter().map(|place| place.1).collect::<Vec<_>>(),
        [
            firmware::BUFFER_LENGTH,
            firmware::FLAGS,
            firmware::STATUS,
            firmware::SEVERITY,
            firmware::DATA
        ]
    );
    assert_eq!(
        of_state.iter().map(|place| place.1).collect::<Vec<_>>(),
        [
            STAGE,
            at::STAGED,
            at::STAGED_REVISIONS,
            at::SIZE - at::STAGED_REVISIONS
        ]
    );
}
