//! Whole cases from a seed.

use crate::adapter::form::Form;
use crate::adapter::{damage, Adapter};
use crate::case::Case;
use crate::names::{code, record, CONTROLLER_CONFIG};
use crate::random::Random;
use crate::request::firmware::Download;
use crate::request::{self, first, linux, Request};
use crate::session::{end, Framing};
use crate::text::{self, FULL, LIMITED, NONE, RESTRICTED};
use crate::{medium, stage};

/// An opening: what the calls start from.
pub struct Opening {
    pub text: Vec<u8>,
    pub file: Vec<u8>,
    pub medium: Vec<u8>,
}

/// A level; Full is the most frequent, since it grants the most.
fn any_level(random: &mut Random) -> u8 {
    random.pick(&[
        NONE, RESTRICTED, RESTRICTED, LIMITED, FULL, FULL, FULL, FULL,
    ])
}

/// An opening that is accepted.
pub fn sound_opening(random: &mut Random, adapter: &Adapter) -> Opening {
    let level = any_level(random);
    Opening {
        text: text::of_level(random, level),
        file: adapter.file(),
        medium: random.bytes(adapter.medium_length()),
    }
}

/// An opening with one fault, sometimes with more.
pub fn damaged_opening(random: &mut Random, adapter: &Adapter) -> Opening {
    let mut opening = sound_opening(random, adapter);
    loop {
        match random.below(8) {
            0 => opening.text = text::damaged(random),
            1 => opening.text = text::changed(random),
            2 => opening.medium = medium::of_wrong_length(random, adapter.phys.len()),
            _ => opening.file = damaged_file(random, adapter),
        }
        if !random.one_in(4) {
            return opening;
        }
    }
}

fn damaged_file(random: &mut Random, adapter: &Adapter) -> Vec<u8> {
    let all = damage::all(Form::File);
    loop {
        let damage = random.pick(&all);
        let file = if random.one_in(4) {
            damage.unsealed(random, adapter)
        } else {
            damage.file(random, adapter)
        };
        if let Some(file) = file {
            return file;
        }
    }
}

/// A list of requests for an adapter, with either header.
pub fn requests(random: &mut Random, adapter: &Adapter, count: usize) -> Vec<Request> {
    requests_of(random, adapter, count, Framing::Both)
}

/// A list of requests that a session of this framing may hold.
pub fn requests_of(
    random: &mut Random,
    adapter: &Adapter,
    count: usize,
    framing: Framing,
) -> Vec<Request> {
    let any = match framing {
        Framing::First => request::first::any,
        Framing::Both => request::any,
    };
    let mut requests = Vec::new();
    while requests.len() < count {
        if random.one_in(40) {
            requests.extend(update(random, framing));
        } else {
            requests.push(any(random, adapter));
        }
    }
    requests.truncate(count);
    requests
}

/// An image validated, made current, and its revisions shown.
fn update(random: &mut Random, framing: Framing) -> [Request; 3] {
    let bodies = [
        Download::validation(random).body(random),
        Download::commit(random).body(random),
        random.bytes(CONTROLLER_CONFIG),
    ];
    let [validation, commit, shown] = bodies;
    [
        (code::FIRMWARE_DOWNLOAD, validation),
        (code::FIRMWARE_DOWNLOAD, commit),
        (code::CNTLR_CONFIG, shown),
    ]
    .map(|(control, body)| headed(random, framing, control, &body))
}

/// A body behind a header that a session of this framing may hold.
fn headed(random: &mut Random, framing: Framing, control: u32, body: &[u8]) -> Request {
    let linux = framing == Framing::Both && random.one_in(2);
    let (of_body, fill): (request::OfBody, fn(&mut Random, &mut Request)) = match linux {
        true => (linux::of_body, linux::fill),
        false => (first::of_body, first::fill),
    };
    let mut request = of_body(control, body);
    fill(random, &mut request);
    request
}

/// A case: an opening, which is damaged one time in eight, a session of up to so many requests, with any end, and a record.
pub fn case(seed: u64, most: usize, framing: Framing) -> Case {
    let random = &mut Random::new(seed);
    let adapter = Adapter::sound(random);
    let opening = if random.one_in(8) {
        damaged_opening(random, &adapter)
    } else {
        sound_opening(random, &adapter)
    };
    let count = random.within(0, most);
    let mut session = framing.join(&requests_of(random, &adapter, count, framing));
    session.extend(end::any(random, framing));
    let record = record_length(random, count);
    Case {
        seed,
        text: opening.text,
        file: opening.file,
        medium: opening.medium,
        stage: stage::any(random),
        framing,
        session,
        record: random.bytes(record),
    }
}

/// Mostly enough for every request, and bytes to spare; sometimes short.
fn record_length(random: &mut Random, count: usize) -> usize {
    let enough = record::SIZE * count;
    match random.below(8) {
        0 => random.below(enough + 1),
        1 => enough,
        _ => enough + random.within(1, 20),
    }
}
