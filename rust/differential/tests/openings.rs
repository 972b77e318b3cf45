//! Openings of both implementations: the numbers that document 01 gives them, and the states that they leave.

use differential::adapter::damage::{self, Damage};
use differential::adapter::form::Form;
use differential::adapter::{connector_at, seal, Adapter};
use differential::generate;
use differential::names::file::{BLOCK, CHECK, PHY_COUNT, ROW_COUNT};
use differential::names::{call, file, phy, row, state, DISK};
use differential::pair::Pair;
use differential::random::Random;
use differential::side::{Side, CALLS};
use differential::{medium, sweep, text};

/// Both sides open with this number, over a state of other bytes; a refusal leaves the zero state.
fn assert_number(what: &str, number: u32, text: &[u8], file: &[u8], medium: &[u8]) {
    for side in CALLS {
        let mut state = [0xA5; state::SIZE];
        let given = side.open(text, file, medium, &mut state);
        assert_eq!(given, number, "{what}, {side:?}");
        assert_eq!(
            state == [0; state::SIZE],
            number != call::DONE,
            "{what}, {side:?}"
        );
    }
}

/// What both sides open with, over a state of other bytes, and the state that both leave.
fn opened(what: &str, text: &[u8], file: &[u8], medium: &[u8]) -> (u32, Vec<u8>) {
    let mut pair = Pair::of(&[0xA5; state::SIZE], medium);
    let number = pair
        .open(text, file)
        .unwrap_or_else(|difference| panic!("{what}: {difference}"));
    (number, pair.state().to_vec())
}

/// An adapter that has a place for the damage, and its file.
fn damaged(random: &mut Random, damage: &Damage) -> (Adapter, Vec<u8>) {
    for _ in 0..1000 {
        let adapter = Adapter::sound(random);
        if let Some(file) = damage.file(random, &adapter) {
            return (adapter, file);
        }
    }
    panic!("no adapter has a place for: {}", damage.name);
}

#[test]
fn sound_files_of_every_size_open() {
    let random = &mut Random::new(1);
    for p in 1..=32 {
        for a in [0, 1, 24, 25, 26, 50, 51, 64] {
            let adapter = Adapter::of_counts(random, p, a);
            let medium = vec![0; adapter.medium_length()];
            let level = random.pick(&text::LEVELS);
            let text = text::of_level(random, level);
            let (number, state) = opened("sound", &text, &adapter.file(), &medium);
            assert_eq!(number, call::DONE);
            assert_eq!(state, adapter.state(level), "p {p}, a {a}");
        }
    }
}

/// What the state was before makes no difference: neither zeros, nor another adapter, nor bytes that are no state.
#[test]
fn an_opening_does_not_look_at_the_state() {
    let random = &mut Random::new(9);
    for _ in 0..100 {
        let adapter = Adapter::sound(random);
        let opening = generate::sound_opening(random, &adapter);
        let expected = Side::Model.opening(&opening.text, &opening.file, &opening.medium);
        let befores = [
            vec![0; state::SIZE],
            vec![0xFF; state::SIZE],
            Adapter::of_counts(random, 32, 64).state(3),
            random.bytes(state::SIZE),
        ];
        let mut afters = befores.map(|before| {
            let mut pair = Pair::of(&before, &opening.medium);
            assert_eq!(pair.open(&opening.text, &opening.file), Ok(expected));
            pair.state().to_vec()
        });
        let level = afters[0][state::LEVEL];
        assert!(afters
            .iter_mut()
            .all(|after| *after == adapter.state(level)));
    }
}

/// "a state of another length is 107", before every other check, and it stays.
#[test]
fn a_state_of_another_length_is_107_before_all() {
    let random = &mut Random::new(10);
    let near = [state::SIZE - 1, state::SIZE + 1, state::SIZE + 2];
    let others = [0, 1, 3, 4096, 8192, 2 * state::SIZE];
    for length in [&near[..], &others].concat() {
        for round in 0..6 {
            let adapter = Adapter::sound(random);
            let opening = if round % 2 == 0 {
                generate::sound_opening(random, &adapter)
            } else {
                generate::damaged_opening(random, &adapter)
            };
            let before = random.bytes(length);
            let mut pair = Pair::of(&before, &opening.medium);
            let number = pair.open(&opening.text, &opening.file);
            assert_eq!(number, Ok(call::STATE), "length {length}");
            assert!(*pair.state() == before, "length {length}");
        }
    }
}

#[test]
fn each_rule_broken_alone() {
    let random = &mut Random::new(2);
    for damage in damage::all(Form::File) {
        for _ in 0..40 {
            let (adapter, file) = damaged(random, damage);
            let medium = vec![0; adapter.medium_length()];
            assert_number(damage.name, damage.number, b"CSMI=Full;", &file, &medium);
        }
    }
}

#[test]
fn damage_with_the_checks_left_is_answered_alike() {
    let random = &mut Random::new(3);
    let mut checks = 0;
    for damage in damage::all(Form::File) {
        for _ in 0..20 {
            let adapter = Adapter::sound(random);
            let Some(file) = damage.unsealed(random, &adapter) else {
                continue;
            };
            let medium = vec![0; adapter.medium_length()];
            let (number, _) = opened(damage.name, b"", &file, &medium);
            checks += usize::from(number == call::BLOCK_CHECK);
        }
    }
    assert!(checks > 300, "only {checks} files were refused by a check");
}

#[test]
fn the_text_comes_first_and_the_medium_last() {
    let random = &mut Random::new(4);
    for damage in damage::all(Form::File) {
        let (adapter, file) = damaged(random, damage);
        let wrong_text = text::damaged(random);
        let wrong_medium = medium::of_wrong_length(random, adapter.phys.len());
        assert_number(damage.name, call::TEXT, &wrong_text, &file, &wrong_medium);
        assert_number(damage.name, damage.number, b"", &file, &wrong_medium);
        assert_number(
            "medium",
            call::MEDIUM_LENGTH,
            b"",
            &adapter.file(),
            &wrong_medium,
        );
    }
}

/// The first of two damages in the order of the opening's checks decides.
#[test]
fn checks_come_before_fields_and_fields_before_rows() {
    const UNNAMED: usize = ROW_COUNT + 2;
    let random = &mut Random::new(5);
    for _ in 0..200 {
        let adapter = Adapter::of_counts(random, 3, 30);
        let medium = vec![0; adapter.medium_length()];
        let mut file = adapter.file();
        let (last_phy, first, second) = (file::phy_at(2), 4 * BLOCK, 5 * BLOCK);
        let connector = connector_at(3, 30, 2);
        file.copy_within(first..first + row::OS, second);
        seal(&mut file);
        assert_number("rows", call::SHARED_ROW, b"", &file, &medium);
        file[UNNAMED] = 1;
        seal(&mut file);
        assert_number(
            "unnamed byte and rows",
            call::COUNT_OR_FIELD,
            b"",
            &file,
            &medium,
        );
        file[UNNAMED] = 0;
        file[connector + 3] = 0x80;
        seal(&mut file);
        assert_number("pinout and rows", call::COUNT_OR_FIELD, b"", &file, &medium);
        file[connector + 3] = 0;
        file[last_phy + phy::FIXED] = 2;
        seal(&mut file);
        assert_number("field and rows", call::COUNT_OR_FIELD, b"", &file, &medium);
        file[second + CHECK] ^= 1;
        assert_number(
            "check, field and rows",
            call::BLOCK_CHECK,
            b"",
            &file,
            &medium,
        );
        file.truncate(second);
        assert_number("length and all", call::FILE_LENGTH, b"", &file, &medium);
        file[PHY_COUNT] = 33;
        seal(&mut file);
        assert_number("count and all", call::COUNT_OR_FIELD, b"", &file, &medium);
        file[UNNAMED] ^= 1;
        assert_number(
            "block 0's check and all",
            call::BLOCK_CHECK,
            b"",
            &file,
            &medium,
        );
        file.truncate(BLOCK - 1);
        assert_number("under one block", call::FILE_LENGTH, b"", &file, &medium);
    }
}

/// Any two of 64 rows that share SAS address and LUN, or all four OS bytes.
#[test]
fn any_two_rows_that_share_are_105() {
    let adapter = Adapter::of_counts(&mut Random::new(11), 1, 64);
    let medium = vec![0; adapter.medium_length()];
    for (one, other) in (0..64).flat_map(|one| (0..one).map(move |other| (one, other))) {
        for shared in [0..row::OS, row::OS..row::SIZE] {
            let mut changed = adapter.clone();
            let bytes = adapter.rows[other][shared.clone()].to_vec();
            changed.rows[one][shared].copy_from_slice(&bytes);
            let what = format!("rows {other} and {one}");
            assert_number(&what, call::SHARED_ROW, b"", &changed.file(), &medium);
        }
    }
}

#[test]
fn texts_are_answered_alike() {
    let random = &mut Random::new(6);
    let file = Adapter::of_counts(random, 1, 0).file();
    let medium = vec![0; DISK];
    for round in 0..6000 {
        let level = text::LEVELS[round % 4];
        assert_number(
            "text",
            call::DONE,
            &text::of_level(random, level),
            &file,
            &medium,
        );
        assert_number("text", call::TEXT, &text::damaged(random), &file, &medium);
        let changed = text::changed(random);
        opened("changed text", &changed, &file, &medium);
    }
}

#[test]
fn thousands_of_damaged_openings_are_answered_alike() {
    let random = &mut Random::new(7);
    let mut refused = 0;
    for round in 0..4000 {
        let adapter = Adapter::sound(random);
        let opening = generate::damaged_opening(random, &adapter);
        let (number, _) = opened(
            &format!("round {round}"),
            &opening.text,
            &opening.file,
            &opening.medium,
        );
        refused += usize::from(number != call::DONE);
    }
    assert!(refused > 3600, "only {refused} openings were refused");
}

#[test]
fn single_bytes_of_a_file_damaged() {
    let sweep = sweep::run(8, 2, 3, 29);
    assert_eq!(
        sweep.differences.len(),
        0,
        "{:?}",
        sweep.differences.first()
    );
    assert!(sweep.openings > 30_000 && sweep.accepted > 3000);
}
