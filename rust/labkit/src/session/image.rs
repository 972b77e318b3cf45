//! A firmware image (W-207): blocks as an adapter file has them, numbered from 0, each with its check, and the image's revisions in the first
//! eight bytes. A description gives the revisions, the number of blocks, the byte that fills the rest, and blocks whose check is wrong.

use super::request::number;
use crate::adapter::{check, revision_words, seal, BLOCK, CHECK_AT, REVISIONS_BYTES};
use crate::field::{self, differences, Field};
use crate::text::{Line, Word};
use crate::value::{show_bytes, MOST_BYTES};
use crate::Fault;

const REVISIONS: [Field; 4] = [
    field::number("major", 0, 2),
    field::number("minor", 2, 2),
    field::number("build", 4, 2),
    field::number("release", 6, 2),
];

/// The words that describe an image but for its damage.
pub const WORDS: [&str; 6] = ["major", "minor", "build", "release", "blocks", "fill"];

/// The image that a line describes: if nothing is named one block of zeros, with its check.
pub fn from_line(line: &mut Line) -> Result<Vec<u8>, Fault> {
    let blocks = match line.take("blocks")? {
        Some(word) => match number(&word, (MOST_BYTES / BLOCK) as u64)? {
            0 => return Err(word.fault("an image has at least 1")),
            blocks => blocks as usize,
        },
        None => 1,
    };
    let fill = match line.take("fill")? {
        Some(word) => number(&word, 255)? as u8,
        None => 0,
    };
    let mut image = plain(blocks, fill);
    field::fill(&mut image, &REVISIONS, line)?;
    seal(&mut image);
    Ok(image)
}

/// An image of revisions 0, without its checks.
fn plain(blocks: usize, fill: u8) -> Vec<u8> {
    let mut image = vec![fill; blocks * BLOCK];
    image[..REVISIONS_BYTES].fill(0);
    image
}

/// Makes the checks wrong of the blocks that a word names, joined by `+`.
pub fn damage_by(image: &mut [u8], word: &Word) -> Result<(), Fault> {
    for part in word.value.split('+') {
        let named = Word {
            value: part.to_string(),
            ..word.clone()
        };
        let block = number(&named, (MOST_BYTES / BLOCK) as u64)? as usize;
        match image.chunks_exact_mut(BLOCK).nth(block) {
            Some(block) => damage(block),
            None => return Err(word.fault(format!("there is no whole block {block}"))),
        }
    }
    Ok(())
}

/// Adds one to the check of a block.
fn damage(block: &mut [u8]) {
    let wrong = stored(block).wrapping_add(1);
    block[CHECK_AT..].copy_from_slice(&wrong.to_le_bytes());
}

/// The check that stands in a block.
fn stored(block: &[u8]) -> u32 {
    let four = block[CHECK_AT..].iter().rev();
    four.fold(0, |n, b| n << 8 | u32::from(*b))
}

/// The blocks whose check is wrong.
fn damaged(image: &[u8]) -> Vec<String> {
    let blocks = image.chunks_exact(BLOCK).enumerate();
    let wrong = blocks.filter(|(n, block)| stored(block) != check(block, *n));
    wrong.map(|(n, _)| n.to_string()).collect()
}

/// Whether the check of some whole block is wrong.
pub fn is_damaged(image: &[u8]) -> bool {
    !damaged(image).is_empty()
}

/// Whether bytes are whole blocks, at least one.
fn is_blocks(data: &[u8]) -> bool {
    !data.is_empty() && data.len().is_multiple_of(BLOCK)
}

/// The words that describe an image; none of bytes that they cannot describe.
pub fn to_words(data: &[u8]) -> Option<Vec<String>> {
    if !is_blocks(data) {
        return None;
    }
    let (blocks, fill) = (data.len() / BLOCK, data[REVISIONS_BYTES]);
    let mut words = differences(data, &[0; REVISIONS_BYTES], &REVISIONS);
    if blocks != 1 {
        words.push(format!("blocks={blocks}"));
    }
    if fill != 0 {
        words.push(format!("fill={fill:02X}h"));
    }
    let mut image = plain(blocks, fill);
    image[..REVISIONS_BYTES].copy_from_slice(&data[..REVISIONS_BYTES]);
    seal(&mut image);
    let wrong = damaged(data);
    for block in &wrong {
        let n: usize = block.parse().ok()?;
        damage(&mut image[n * BLOCK..][..BLOCK]);
    }
    if !wrong.is_empty() {
        words.push(format!("damage={}", wrong.join("+")));
    }
    (image == data).then_some(words)
}

/// An image for a person: `2.1.0.7, 2 blocks, the check of block 1 wrong`; bytes that are no blocks as they are.
pub fn in_words(data: &[u8]) -> String {
    if !is_blocks(data) {
        return show_bytes(data);
    }
    let checks = match &damaged(data)[..] {
        [] => "checks right".to_string(),
        [block] => format!("the check of block {block} wrong"),
        blocks => format!("the checks of blocks {} wrong", blocks.join(", ")),
    };
    let revisions = revision_words(&data[..REVISIONS_BYTES]);
    format!("{revisions}, {}, {checks}", blocks_words(data.len()))
}

/// The length of an image: `2 blocks`, or `700 bytes` where they are no whole blocks.
pub fn blocks_words(length: usize) -> String {
    match (length, length % BLOCK) {
        (BLOCK, _) => "1 block".to_string(),
        (0, _) | (_, 1..) => format!("{length} bytes"),
        _ => format!("{} blocks", length / BLOCK),
    }
}

/// The revisions that bytes begin with, if they have them.
pub fn revisions(data: &[u8]) -> Option<String> {
    data.get(..REVISIONS_BYTES).map(revision_words)
}

#[cfg(test)]
mod tests {
    use super::*;
    use crate::text::lines;

    fn made(words: &str) -> Result<Vec<u8>, Fault> {
        let mut line = lines(&format!("x {words}"))?.remove(0);
        let mut image = from_line(&mut line)?;
        if let Some(word) = line.take("damage")? {
            damage_by(&mut image, &word)?;
        }
        line.finish()?;
        Ok(image)
    }

    #[test]
    fn revisions_fill_and_checks() {
        let image = made("major=2 minor=258 build=3 release=65535 blocks=3 fill=5Ah").unwrap();
        assert_eq!(image.len(), 3 * BLOCK);
        assert_eq!(image[..9], [2, 0, 2, 1, 3, 0, 0xFF, 0xFF, 0x5A]);
        for (n, block) in image.chunks(BLOCK).enumerate() {
            assert_eq!(block[508..], check(block, n).to_le_bytes());
            assert!(block[8..508].iter().all(|b| *b == 0x5A));
        }
        let plain = made("").unwrap();
        assert_eq!(plain[..508], [0; 508]);
        assert_eq!(plain[508..], [1, 0, 0, 0]);
    }

    #[test]
    fn every_description_and_back() {
        for words in [
            "",
            "major=1",
            "minor=2 release=4",
            "blocks=2",
            "major=65535 minor=65535 build=65535 release=65535 blocks=32 fill=FFh",
            "blocks=33 fill=01h damage=32",
            "major=9 damage=0",
            "blocks=4 damage=0+2+3",
        ] {
            let image = made(words).unwrap();
            assert_eq!(to_words(&image).unwrap().join(" "), words);
        }
    }

    /// A byte that is altered makes a check wrong, and the words then do not say the image.
    #[test]
    fn other_bytes_have_no_description() {
        let whole = made("major=1 blocks=2 fill=5Ah").unwrap();
        assert!(to_words(&[]).is_none());
        for length in [1, 511, 513, 1023] {
            assert!(to_words(&whole[..length]).is_none());
        }
        for at in (8..508).chain(512..1020).step_by(7) {
            let mut image = whole.clone();
            image[at] ^= 1;
            assert!(to_words(&image).is_none(), "{at}");
        }
    }

    #[test]
    fn images_for_a_person() {
        let words = |text: &str| in_words(&made(text).unwrap());
        assert_eq!(words("major=2 release=7"), "2.0.0.7, 1 block, checks right");
        assert_eq!(
            words("blocks=2 damage=1"),
            "0.0.0.0, 2 blocks, the check of block 1 wrong"
        );
        assert_eq!(
            words("blocks=32 damage=0+31"),
            "0.0.0.0, 32 blocks, the checks of blocks 0, 31 wrong"
        );
        assert_eq!(in_words(&[0x5A; 513]), "5A*513");
        assert_eq!(blocks_words(0), "0 bytes");
        assert_eq!(blocks_words(511), "511 bytes");
    }

    #[test]
    fn faults() {
        let fault = |words: &str| made(words).unwrap_err().to_string();
        assert_eq!(fault("major=65536"), "line 1: major: 65536 is over 65535");
        assert_eq!(fault("fill=256"), "line 1: fill: 256 is over 255");
        for none in ["0", "00", "0h"] {
            let found = fault(&format!("blocks={none}"));
            assert_eq!(found, "line 1: blocks: an image has at least 1", "{none}");
        }
        assert_eq!(fault("blocks=2049"), "line 1: blocks: 2049 is over 2048");
        assert_eq!(
            fault("blocks=2 damage=2"),
            "line 1: damage: there is no whole block 2"
        );
        assert_eq!(
            fault("damage=0+x"),
            "line 1: damage: 'x' is not a number (decimal, or hexadecimal with an h)"
        );
    }
}
