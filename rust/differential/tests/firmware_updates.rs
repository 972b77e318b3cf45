//! Updates from the first validation to the reply of code 2, on both implementations; at each level and with both headers.

use differential::adapter::Adapter;
use differential::firmware::{check_request, places, Lender};
use differential::generate;
use differential::lent::Lent;
use differential::names::file::BLOCK;
use differential::names::firmware::{DATA, FIRMWARE_REVISIONS, FWD_VALIDATE, MAX_BLOCKS};
use differential::names::{code, status, CONTROLLER_CONFIG, REVISIONS};
use differential::random::Random;
use differential::request::firmware::{image, Download};
use differential::request::{Request, HEADERS};
use differential::side::{Side, CALLS};
use differential::text::LEVELS;

/// The return code of a request.
fn code_of(side: Side, lent: &mut Lent, request: &Request) -> u32 {
    check_request(side, lent, request).unwrap().unwrap().1
}

/// What code 2 shows as its first four revisions, with a Linux header, which no level denies.
fn shown(side: Side, lent: &mut Lent) -> Vec<u8> {
    let request = HEADERS[1](code::CNTLR_CONFIG, &[0x5A; CONTROLLER_CONFIG]);
    let (_, reply) = lent.request(side, &request);
    request.header.body(&reply)[FIRMWARE_REVISIONS..][..REVISIONS].to_vec()
}

/// Validated, shown as before, made current, shown; a second commit fails; of two validations the second counts; a failed one, and one that is
/// no image, keeps what was staged; every number of blocks.
#[test]
fn updates_from_the_validation_to_the_reply_of_code_2() {
    let random = &mut Random::new(8);
    for (blocks, place) in (1..=MAX_BLOCKS).flat_map(|n| places().map(move |place| (n, place))) {
        let lender = Lender::of(random, place, false);
        let [one, two] = [0; 2].map(|_| image(random, blocks));
        let mut damaged = one.clone();
        damaged[random.below(blocks * BLOCK)] ^= 0x40;
        let sent = |download: Download| {
            (lender.of_body)(code::FIRMWARE_DOWNLOAD, &download.body(&mut Random::new(9)))
        };
        let validation = |data: &[u8]| Download::of(FWD_VALIDATE, data.to_vec());
        let [first, second, wrong] = [&one, &two, &damaged].map(|data| sent(validation(data)));
        let [commit, bytes] = [&[][..], &two].map(|data| sent(Download::of(0, data.to_vec())));
        for side in CALLS {
            let mut lent = lender.lent.clone();
            let running = shown(side, &mut lent);
            let mut steps = |requests: &[(&Request, u32)], left: &[u8]| {
                for (request, code) in requests {
                    let code = lender.denied.unwrap_or(*code);
                    assert_eq!(code_of(side, &mut lent, request), code, "{side:?}");
                }
                let left = if lender.denied.is_some() {
                    &running
                } else {
                    left
                };
                assert_eq!(shown(side, &mut lent), left, "{side:?}");
            };
            let after = |image: &[u8]| image[..REVISIONS].to_vec();
            steps(&[(&commit, 1), (&wrong, 1), (&commit, 1)], &running);
            steps(&[(&first, 0)], &running);
            steps(&[(&wrong, 1), (&bytes, 3), (&commit, 0)], &after(&one));
            steps(&[(&commit, 1)], &after(&one));
            steps(&[(&first, 0), (&second, 0), (&commit, 0)], &after(&two));
            steps(&[(&commit, 1), (&wrong, 1), (&commit, 1)], &after(&two));
        }
    }
}

/// With every other code between the validation and the commit.
#[test]
fn what_is_staged_stays_through_other_requests() {
    let random = &mut Random::new(9);
    for round in 0..40 {
        let adapter = Adapter::sound(random);
        let lent = Lent::of(random, &adapter, LEVELS[round % 4]);
        let [validation, commit] = [Download::validation(random), Download::commit(random)];
        let bodies = [validation.body(random), commit.body(random)];
        let [validation, commit] = bodies.map(|body| HEADERS[1](code::FIRMWARE_DOWNLOAD, &body));
        let others = generate::requests(random, &adapter, 60);
        let others = others
            .into_iter()
            .filter(|one| one.is_short() || one.control() != code::FIRMWARE_DOWNLOAD);
        let requests: Vec<Request> = others.collect();
        for side in CALLS {
            let mut lent = lent.clone();
            assert_eq!(code_of(side, &mut lent, &validation), status::SUCCESS);
            for request in &requests {
                assert_eq!(check_request(side, &mut lent, request), Ok(None));
            }
            assert_eq!(code_of(side, &mut lent, &commit), status::SUCCESS);
            assert_eq!(
                shown(side, &mut lent),
                validation.body()[DATA..][..REVISIONS]
            );
        }
    }
}
