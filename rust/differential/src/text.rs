//! Level texts: sound ones of each level, and ones that document 01 answers with 101.

use crate::random::Random;

pub const NONE: u8 = 0;
pub const RESTRICTED: u8 = 1;
pub const LIMITED: u8 = 2;
pub const FULL: u8 = 3;
pub const LEVELS: [u8; 4] = [NONE, RESTRICTED, LIMITED, FULL];

const EXACT: [&[u8]; 4] = [
    b"CSMI=None;",
    b"CSMI=Restricted;",
    b"CSMI=Limited;",
    b"CSMI=Full;",
];

/// Closed entries that do not begin with `CSMI=`.
const OTHERS: [&[u8]; 10] = [
    b"Something=here;",
    b"XCSMI=None;",
    b" CSMI=Full;",
    b"csmi=Full;",
    b"CSMI;",
    b"CSMI =None;",
    b"CSM=CSMI=Full;",
    b";",
    b"\0CSMI=None;",
    b"CSMi=Restricted;",
];

/// Single closed entries that begin with `CSMI=` and are no level.
const WRONG: [&[u8]; 14] = [
    b"CSMI=full;",
    b"CSMI=FULL;",
    b"CSMI=none;",
    b"CSMI=restricted;",
    b"CSMI=;",
    b"CSMI= Full;",
    b"CSMI=Full ;",
    b"CSMI=Fullx;",
    b"CSMI=Ful;",
    b"CSMI=None\0;",
    b"CSMI=Limited,CSMI=Full;",
    b"CSMI=3;",
    b"CSMI=LimiteD;",
    b"CSMI=Restricte;",
];

const LONGEST: usize = 1024;

/// A text of this level.
pub fn of_level(random: &mut Random, level: u8) -> Vec<u8> {
    let mut text = others(random);
    if level != LIMITED || !random.one_in(3) {
        text.extend(EXACT[usize::from(level)]);
        text.extend(others(random));
    }
    if random.one_in(4) {
        text.extend(unclosed(random));
    } else if random.one_in(8) {
        pad(&mut text, LONGEST);
    }
    text
}

/// A text that gives 101.
pub fn damaged(random: &mut Random) -> Vec<u8> {
    let level = random.pick(&LEVELS);
    match random.below(5) {
        0 => twice(random, level),
        1 => unclosed_level(random, level),
        2 => too_long(random, level),
        3 => [
            of_level(random, FULL),
            b";".to_vec(),
            random.pick(&WRONG).to_vec(),
        ]
        .concat(),
        _ => [others(random), random.pick(&WRONG).to_vec(), others(random)].concat(),
    }
}

/// A text with one byte changed, left out or put in; what it gives is left open.
pub fn changed(random: &mut Random) -> Vec<u8> {
    let level = random.pick(&LEVELS);
    let mut text = EXACT[usize::from(level)].to_vec();
    let at = random.below(text.len());
    let byte = random.byte();
    match random.below(3) {
        0 => text[at] = byte,
        1 => drop(text.remove(at)),
        _ => text.insert(at, byte),
    }
    [others(random), text].concat()
}

/// Some closed entries that are not the level's.
fn others(random: &mut Random) -> Vec<u8> {
    let mut text = Vec::new();
    while !random.one_in(2) {
        text.extend(match random.below(3) {
            0 => noise(random),
            _ => random.pick(&OTHERS).to_vec(),
        });
    }
    text
}

/// A closed entry of random bytes.
fn noise(random: &mut Random) -> Vec<u8> {
    let length = random.within(1, 20);
    let mut entry = random.bytes(length);
    entry.retain(|&byte| byte != b';');
    entry.insert(0, b'=');
    entry.push(b';');
    entry
}

/// An unclosed entry that does not begin with `CSMI=`.
fn unclosed(random: &mut Random) -> Vec<u8> {
    let mut entry = random.pick(&OTHERS).to_vec();
    entry.pop();
    entry
}

fn twice(random: &mut Random, level: u8) -> Vec<u8> {
    let second = random.pick(&EXACT);
    let between = others(random);
    [
        &others(random)[..],
        EXACT[usize::from(level)],
        &between,
        second,
    ]
    .concat()
}

/// The level's entry is the last, and its semicolon is missing.
fn unclosed_level(random: &mut Random, level: u8) -> Vec<u8> {
    let entry = EXACT[usize::from(level)];
    let kept = random.within(b"CSMI=".len(), entry.len() - 1);
    [&others(random)[..], &entry[..kept]].concat()
}

fn too_long(random: &mut Random, level: u8) -> Vec<u8> {
    let mut text = of_level(random, level);
    let length = random.pick(&[LONGEST + 1, LONGEST + 2, 2 * LONGEST, 5000]);
    pad(&mut text, length);
    text
}

/// An entry of blanks at the end brings the text to this length.
fn pad(text: &mut Vec<u8>, length: usize) {
    if text.last().is_some_and(|&byte| byte != b';') {
        text.push(b';');
    }
    if text.len() < length {
        text.resize(length - 1, b' ');
        text.push(b';');
    }
}

#[cfg(test)]
mod tests {
    use super::*;

    /// What the model makes of a text: 101, or its level. The rest of the opening stays the same.
    fn level(text: &[u8]) -> Result<u8, u32> {
        let file = crate::adapter::Adapter::of_counts(&mut Random::new(3), 1, 0).file();
        let (number, state) = model::open(text, &file, &[0; crate::names::DISK]);
        if number == 0 {
            Ok(state.level)
        } else {
            Err(number)
        }
    }

    #[test]
    fn sound_texts_give_their_level() {
        let mut random = Random::new(1);
        for round in 0..2000 {
            let expected = LEVELS[round % 4];
            let text = of_level(&mut random, expected);
            assert_eq!(
                level(&text),
                Ok(expected),
                "{:?}",
                String::from_utf8_lossy(&text)
            );
        }
    }

    #[test]
    fn damaged_texts_give_101() {
        let mut random = Random::new(2);
        for _ in 0..2000 {
            let text = damaged(&mut random);
            assert_eq!(
                level(&text),
                Err(101),
                "{:?}",
                String::from_utf8_lossy(&text)
            );
        }
    }
}
