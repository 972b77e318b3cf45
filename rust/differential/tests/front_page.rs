//! Codes 2, 3 and 30 as W-204 has them, on both implementations: whole replies at every level with both headers, for every number of phys,
//! and the checks that come before the level.

use differential::adapter::Adapter;
use differential::names::{
    body_size, call, code, connector_info, header, linux_header, signature, status, CSMI_ALL,
    CSMI_SAS, MAX_PHYS,
};
use differential::pair::Pair;
use differential::random::Random;
use differential::request::linux::put_direction;
use differential::request::{first, linux, Request, HEADERS};
use differential::side::return_code;
use differential::text::{LEVELS, NONE};
use differential::wire::put_word;

/// What a code shows of an adapter: "References from p on are zero."
fn shown(adapter: &Adapter, control: u32) -> Vec<u8> {
    match control {
        code::CNTLR_CONFIG => adapter.controller.to_vec(),
        code::CNTLR_STATUS => adapter.status.to_vec(),
        _ => {
            let mut references = adapter.connectors.concat();
            references.resize(connector_info::SIZE, 0);
            references
        }
    }
}

/// One adapter at a level, and what it is asked.
struct Asked {
    state: Vec<u8>,
    medium: Vec<u8>,
    pair: Pair,
}

impl Asked {
    fn of(random: &mut Random, adapter: &Adapter, level: u8) -> Self {
        let (state, medium) = (adapter.state(level), random.bytes(adapter.medium_length()));
        let pair = Pair::of(&state, &medium);
        Asked {
            state,
            medium,
            pair,
        }
    }

    /// Both sides answer with this code. With 0 the body begins with what is shown; every other byte stays, of state and medium too.
    fn answers(&mut self, what: &str, request: &Request, code: u32, shown: &[u8]) {
        let mut expected = request.clone();
        put_word(&mut expected.buffer, request.header.return_code(), code);
        if code == status::SUCCESS {
            expected.body_mut()[..shown.len()].copy_from_slice(shown);
        }
        let reply = self
            .pair
            .request(request)
            .unwrap_or_else(|difference| panic!("{what}: {difference}"));
        assert_eq!(reply.number, call::DONE, "{what}");
        let given = return_code(reply.number, request.header, &reply.buffer);
        assert_eq!(given, code, "{what}");
        assert!(reply.buffer == expected.buffer, "{what}: the reply");
        assert!(self.pair.state() == self.state, "{what}: the state");
        assert!(self.pair.medium() == self.medium, "{what}: the medium");
    }

    /// The same of a request that is refused.
    fn refuses(&mut self, what: &str, request: &Request, code: u32) {
        self.answers(what, request, code, &[]);
    }
}

/// Whatever the body was it is filled in, and what stands behind it stays.
#[test]
fn whole_replies_of_every_number_of_phys_at_every_level() {
    let random = &mut Random::new(1);
    for p in 1..=MAX_PHYS {
        let a = random.pick(&[0, 3, 25, 64]);
        let adapter = Adapter::of_counts(random, p, a);
        for (level, of_body) in LEVELS
            .into_iter()
            .flat_map(|level| HEADERS.map(|of_body| (level, of_body)))
        {
            let mut asked = Asked::of(random, &adapter, level);
            for control in code::FRONT_PAGE {
                for more in [0, 1, 60] {
                    let shown = shown(&adapter, control);
                    let request = of_body(control, &random.bytes(shown.len() + more));
                    let denied = level == NONE && !request.header.is_linux();
                    let expected = if denied {
                        status::WRITE_ATTEMPTED
                    } else {
                        status::SUCCESS
                    };
                    let what = format!("p {p}, level {level}, code {control}");
                    asked.answers(&what, &request, expected, &shown);
                }
            }
        }
    }
}

/// What the header's checks stop is not denied: buffers and Lengths that are short, and one wrong field.
#[test]
fn the_checks_before_the_level() {
    let random = &mut Random::new(2);
    let adapter = Adapter::of_counts(random, 3, 2);
    for (level, control) in LEVELS
        .into_iter()
        .flat_map(|level| code::FRONT_PAGE.map(|control| (level, control)))
    {
        let mut asked = Asked::of(random, &adapter, level);
        let size = body_size(control).unwrap();
        for of_body in HEADERS {
            let sound = of_body(control, &random.bytes(size));
            let header = sound.header;
            for body in 0..size {
                let what = format!("code {control}, a body of {body}");
                let mut cut = sound.clone();
                cut.buffer.truncate(header.size() + body);
                asked.refuses(&what, &cut, status::INVALID_PARAMETER);
                let length = (header.counted() + body) as u32;
                put_word(&mut cut.buffer, header.length(), length);
                asked.refuses(&what, &cut, status::INVALID_PARAMETER);
                let mut short = sound.clone();
                put_word(&mut short.buffer, header.length(), length);
                asked.refuses(&what, &short, status::INVALID_PARAMETER);
            }
        }
        let mut wrong = first::of_body(control, &random.bytes(size));
        wrong.buffer[header::HEADER_LENGTH] ^= 1;
        asked.refuses("HeaderLength", &wrong, status::INVALID_PARAMETER);
        let mut wrong = linux::of_body(control, &random.bytes(size));
        put_direction(&mut wrong.buffer, 2);
        asked.refuses("Direction", &wrong, status::INVALID_PARAMETER);
        wrong.buffer[linux_header::DIRECTION] = 0;
        wrong = Request::linux(24, wrong.buffer);
        asked.refuses("code", &wrong, status::BAD_CNTL_CODE);
    }
}

/// "signature CSMIALL for 2 and 3, CSMISAS for 30": neither the other, nor code 60's, nor one with a byte changed, on any code.
#[test]
fn signatures() {
    let random = &mut Random::new(3);
    let adapter = Adapter::of_counts(random, 2, 2);
    for (level, control) in LEVELS
        .into_iter()
        .flat_map(|level| code::ALL.map(|control| (level, control)))
    {
        let mut asked = Asked::of(random, &adapter, level);
        let sound = first::sound(random, &adapter, control);
        let named = signature(control);
        let mut wrong = vec![CSMI_ALL, CSMI_SAS, *b"CSMIPHY\0", [0; 8]];
        wrong.retain(|other| *other != named);
        wrong.extend((0..8).map(|at| {
            let mut changed = named;
            changed[at] = random.other_than(changed[at]);
            changed
        }));
        assert_eq!(wrong.len(), 11);
        for other in wrong {
            let mut request = sound.clone();
            request.buffer[header::SIGNATURE..header::TIMEOUT].copy_from_slice(&other);
            asked.refuses("signature", &request, status::BAD_CNTL_CODE);
        }
    }
}

/// The codes beside them stay unknown, behind either signature.
#[test]
fn the_codes_beside_them() {
    let random = &mut Random::new(4);
    let adapter = Adapter::of_counts(random, 2, 2);
    for level in LEVELS {
        let mut asked = Asked::of(random, &adapter, level);
        for control in [0, 5, 6, 19, 23, 24, 29, 31, 60, 258, 259, 286] {
            let body = random.bytes(2100);
            for named in [CSMI_ALL, CSMI_SAS] {
                let mut request = first::of_body(control, &body);
                request.buffer[header::SIGNATURE..header::TIMEOUT].copy_from_slice(&named);
                asked.refuses("code", &request, status::BAD_CNTL_CODE);
            }
            let request = linux::of_body(control, &body);
            asked.refuses("code", &request, status::BAD_CNTL_CODE);
        }
    }
}
