//! A line of stdin: its words, their numbers, and the bytes that it puts into a slice. A word that
//! is not what its place asks for is a fault of stdin, and ends the test.

use std::str::{from_utf8, FromStr};

/// What is left of a line.
pub struct Line<'a>(pub &'a str);

impl<'a> Line<'a> {
    pub fn word(&mut self) -> &'a str {
        let (word, rest) = self.0.split_once(' ').unwrap_or((self.0, ""));
        self.0 = rest;
        word
    }

    pub fn number<N: FromStr>(&mut self) -> N {
        number(self.word())
    }

    /// Puts the words that are left: AT:HEX puts bytes at a place.
    pub fn patch(&mut self, bytes: &mut [u8]) {
        while !self.0.is_empty() {
            let word = self.word();
            let Some((at, digits)) = word.split_once(':') else {
                panic!("'{word}' is no place with bytes");
            };
            let at: usize = number(at);
            let put = hexadecimal(digits);
            bytes[at..][..put.len()].copy_from_slice(&put);
        }
    }

    /// The words that are left, over zeros.
    pub fn patched<const SIZE: usize>(&mut self) -> [u8; SIZE] {
        let mut bytes = [0; SIZE];
        self.patch(&mut bytes);
        bytes
    }
}

/// The decimal number that a word is; it has to fit into its type.
fn number<N: FromStr>(word: &str) -> N {
    let Ok(number) = word.parse() else {
        panic!("'{word}' is no number that fits its place");
    };
    number
}

/// The bytes, of two digits each.
fn hexadecimal(digits: &str) -> Vec<u8> {
    let (pairs, rest) = digits.as_bytes().as_chunks();
    let bytes: Option<Vec<u8>> = pairs.iter().map(byte).collect();
    match bytes {
        Some(bytes) if rest.is_empty() => bytes,
        _ => panic!("'{digits}' is not bytes of two digits"),
    }
}

fn byte(pair: &[u8; 2]) -> Option<u8> {
    u8::from_str_radix(from_utf8(pair).ok()?, 16).ok()
}
