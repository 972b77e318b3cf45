//! The model with the state tested once for a run: it answers as the model does, and the tests would pass at each request.

use differential::adapter::Adapter;
use differential::generate;
use differential::names::{call, STAGE};
use differential::random::Random;
use differential::run;
use differential::session::Framing;
use differential::side::Side;
use differential::stage;

/// Some 5,000 requests over 400 openings, refused ones too: every number and every byte.
#[test]
fn random_runs_agree_with_the_model() {
    let (mut requests, mut refused) = (0, 0);
    for seed in 0..400 {
        let framing = if seed % 2 == 0 {
            Framing::First
        } else {
            Framing::Both
        };
        let case = generate::case(seed, 30, framing);
        let model = Side::Model.run(&case);
        assert!(Side::ModelTestedOnce.run(&case) == model, "seed {seed}");
        requests += model.handled;
        refused += usize::from(model.opening != call::DONE && model.handled > 0);
    }
    assert!(requests > 4_000, "only {requests} requests");
    assert!(refused > 20, "only {refused} runs after a refused opening");
}

/// The states too, after each of 4,000 requests.
#[test]
fn states_agree_and_keep_the_rules() {
    for seed in 0..40 {
        let random = &mut Random::new(seed);
        let adapter = Adapter::sound(random);
        let opening = generate::sound_opening(random, &adapter);
        let (number, mut state) = model::open(&opening.text, &opening.file, &opening.medium);
        assert_eq!(number, call::DONE);
        let (mut other, mut medium) = (state.clone(), opening.medium);
        let mut stage = stage::of_seed(seed);
        let (mut other_medium, mut other_stage) = (medium.clone(), stage.clone());
        for request in generate::requests(random, &adapter, 100) {
            let header = request.header;
            let (mut reply, mut same) = (request.buffer.clone(), request.buffer);
            let number = run::request(header, &mut state, &mut medium, &mut stage, &mut reply);
            let (medium_left, stage_left) = (&mut other_medium, &mut other_stage);
            let answer = run::answer(header, &mut other, medium_left, stage_left, &mut same);
            assert_eq!(answer, number);
            assert!(reply == same && state == other);
            assert!(medium == other_medium && stage == other_stage);
            assert_eq!(model::tested(&other, &other_medium, &other_stage), Ok(()));
        }
    }
}

/// Where a test fails, both calls give its number, whatever the buffer.
#[test]
fn a_failed_test_is_the_number_of_each_request() {
    let random = &mut Random::new(3);
    let adapter = Adapter::of_counts(random, 3, 2);
    let medium = vec![0; adapter.medium_length()];
    let (_, sound) = model::open(b"CSMI=Full;", &adapter.file(), &medium);
    let mut broken = sound.clone();
    broken.level = 4;
    let short = vec![0; medium.len() - 1];
    let (stage, cut) = (vec![0; STAGE], vec![0; STAGE - 1]);
    for (state, medium, stage, expected) in [
        (&sound, &medium, &cut, call::STAGE_LENGTH),
        (&sound, &short, &stage, call::MEDIUM_LENGTH),
        (&sound, &short, &cut, call::MEDIUM_LENGTH),
        (&broken, &medium, &stage, call::STATE),
        (&broken, &short, &cut, call::STATE),
    ] {
        assert_eq!(model::tested(state, medium, stage), Err(expected));
        let (mut state, mut medium, mut stage) = (state.clone(), medium.clone(), stage.clone());
        for mut request in generate::requests(random, &adapter, 200) {
            let buffer = &mut request.buffer;
            let header = request.header;
            let number = run::request(header, &mut state, &mut medium, &mut stage, buffer);
            assert_eq!(number, expected);
        }
    }
}
