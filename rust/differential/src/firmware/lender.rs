//! One adapter, which both sides are asked to update: what each gets is worked out from W-207.

use super::{check_request, Asked};
use crate::adapter::Adapter;
use crate::lent::Lent;
use crate::names::{code, status};
use crate::random::Random;
use crate::request::firmware::Download;
use crate::request::{OfBody, Request, HEADERS};
use crate::side::{return_code, CALLS};
use crate::state::put_staged;
use crate::text::{LEVELS, LIMITED};
use crate::wire::put_word;

/// Every level with every header.
pub fn places() -> impl Iterator<Item = (u8, OfBody)> {
    let levels = LEVELS.into_iter();
    levels.flat_map(|level| HEADERS.map(|of_body| (level, of_body)))
}

/// One adapter at a level, with an image staged or without, and the header that its requests have.
pub struct Lender {
    pub lent: Lent,
    pub of_body: OfBody,
    /// What a code 4 gets past its header's checks if it gets no further.
    pub denied: Option<u32>,
}

impl Lender {
    pub fn of(random: &mut Random, (level, of_body): (u8, OfBody), staged: bool) -> Self {
        let adapter = Adapter::of_counts(random, 2, 2);
        let mut lent = Lent::of(random, &adapter, level);
        if staged {
            put_staged(random, &mut lent.state);
        }
        let linux = of_body(code::FIRMWARE_DOWNLOAD, &[]).header.is_linux();
        Lender {
            lent,
            of_body,
            denied: (!linux && level < LIMITED).then_some(status::WRITE_ATTEMPTED),
        }
    }

    /// Both sides leave the same, and answer as W-207 says: with this code, or 4 where it is denied.
    #[track_caller]
    pub fn gets(&self, what: &str, request: &Request, asked: Asked, code: u32) {
        let code = self.denied.unwrap_or(code);
        let [library, model] = CALLS.map(|side| {
            let mut lent = self.lent.clone();
            let given = check_request(side, &mut lent, request)
                .unwrap_or_else(|wrong| panic!("{what}, {side:?}: {wrong}"));
            assert_eq!(given, Some((asked, code)), "{what}, {side:?}");
            lent
        });
        assert!(library == model, "{what}");
    }

    #[track_caller]
    pub fn sends(&self, random: &mut Random, what: &str, sent: Download, asked: Asked, code: u32) {
        let request = (self.of_body)(code::FIRMWARE_DOWNLOAD, &sent.body(random));
        self.gets(what, &request, asked, code);
    }

    /// Both sides refuse with this code before the level, and leave everything.
    #[track_caller]
    pub fn stops(&self, what: &str, request: &Request, code: u32) {
        for side in CALLS {
            let mut lent = self.lent.clone();
            let (number, reply) = lent.request(side, request);
            let given = return_code(number, request.header, &reply);
            assert_eq!(given, code, "{what}, {side:?}");
            let mut expected = request.buffer.clone();
            put_word(&mut expected, request.header.return_code(), code);
            assert!(lent == self.lent && reply == expected, "{what}, {side:?}");
        }
    }
}
