//! A named field of a structure: where it stands, how long it is, and how its bytes are written as text. Tables of fields turn a
//! line of a description into bytes and back.

use crate::named::{self, Names};
use crate::text::{Line, Word};
use crate::value;
use crate::Fault;

#[derive(Debug, Clone, Copy, PartialEq, Eq)]
pub enum Kind {
    /// A little-endian number, shown in decimal.
    Number,
    /// A little-endian number, shown in hexadecimal.
    Code,
    /// Bytes in their order, all of them.
    Bytes,
    /// A quoted text, zeros behind it; or all its bytes.
    Text,
    /// The low four bits of a byte.
    Low,
    /// The high four bits of a byte.
    High,
    /// 28 bits: three bytes, the lowest first, and the low four bits of the next.
    Lba,
    /// A little-endian number that may have one of these names.
    Named(Names),
    /// A little-endian number whose bits have these names.
    Bits(Names),
}

#[derive(Debug, Clone, Copy, PartialEq, Eq)]
pub struct Field {
    pub name: &'static str,
    pub at: usize,
    pub size: usize,
    pub kind: Kind,
}

pub const fn number(name: &'static str, at: usize, size: usize) -> Field {
    field(name, at, size, Kind::Number)
}

pub const fn byte(name: &'static str, at: usize) -> Field {
    field(name, at, 1, Kind::Number)
}

pub const fn code(name: &'static str, at: usize) -> Field {
    field(name, at, 1, Kind::Code)
}

pub const fn bytes(name: &'static str, at: usize, size: usize) -> Field {
    field(name, at, size, Kind::Bytes)
}

pub const fn named(name: &'static str, at: usize, size: usize, names: Names) -> Field {
    field(name, at, size, Kind::Named(names))
}

pub const fn bits(name: &'static str, at: usize, size: usize, names: Names) -> Field {
    field(name, at, size, Kind::Bits(names))
}

pub const fn field(name: &'static str, at: usize, size: usize, kind: Kind) -> Field {
    Field {
        name,
        at,
        size,
        kind,
    }
}

impl Field {
    /// Puts what a word says into the structure.
    pub fn put(&self, structure: &mut [u8], word: &Word) -> Result<(), Fault> {
        let part = &mut structure[self.at..self.at + self.size];
        self.put_part(part, word)
            .map_err(|reason| word.fault(reason))
    }

    fn put_part(&self, part: &mut [u8], word: &Word) -> Result<(), String> {
        if word.quoted {
            return match self.kind {
                Kind::Text => put_text(part, &word.value),
                _ => Err("takes no quoted text".into()),
            };
        }
        let text = &word.value;
        let n = match self.kind {
            Kind::Text | Kind::Bytes => return put_bytes(part, &value::bytes(text)?),
            Kind::Named(names) => named::one(text, names, self.most())?,
            Kind::Bits(names) => named::bits(text, names, self.most())?,
            _ => value::number(text, self.most())? as u32,
        };
        self.put_number(part, n);
        Ok(())
    }

    /// The highest number that the field holds.
    fn most(&self) -> u64 {
        match self.kind {
            Kind::Low | Kind::High => 15,
            Kind::Lba => (1 << 28) - 1,
            _ => (1 << (8 * self.size)) - 1,
        }
    }

    fn put_number(&self, part: &mut [u8], n: u32) {
        let low = n.to_le_bytes();
        match self.kind {
            Kind::Low => part[0] = part[0] & 0xF0 | low[0],
            Kind::High => part[0] = part[0] & 0x0F | low[0] << 4,
            Kind::Lba => {
                part[..3].copy_from_slice(&low[..3]);
                part[3] = part[3] & 0xF0 | low[3];
            }
            _ => part.copy_from_slice(&low[..self.size]),
        }
    }

    /// The number that the structure holds here.
    pub fn get(&self, structure: &[u8]) -> u32 {
        let part = &structure[self.at..self.at + self.size];
        let whole = part.iter().rev().fold(0, |n, b| n << 8 | u32::from(*b));
        match self.kind {
            Kind::Low => whole & 0x0F,
            Kind::High => whole >> 4,
            Kind::Lba => whole & 0x0FFF_FFFF,
            _ => whole,
        }
    }

    /// What the structure holds here, as `put` reads it.
    pub fn show(&self, structure: &[u8]) -> String {
        let part = &structure[self.at..self.at + self.size];
        match self.kind {
            Kind::Code => format!("{:02X}h", self.get(structure)),
            Kind::Bytes => value::show_bytes(part),
            Kind::Text => match value::printable(part) {
                Some(text) => format!("\"{text}\""),
                None => value::show_bytes(part),
            },
            Kind::Named(names) => named::show_one(self.get(structure), names),
            Kind::Bits(names) => named::show_bits(self.get(structure), names),
            _ => self.get(structure).to_string(),
        }
    }

    /// What the structure holds here, for a person: a number that has a name with both, as `5 (hba)`.
    pub fn words(&self, structure: &[u8]) -> String {
        let shown = self.show(structure);
        let n = self.get(structure);
        match self.kind {
            Kind::Named(names) if named::name(n, names).is_some() => format!("{n} ({shown})"),
            Kind::Bits(_) if n != 0 => format!("{n:0digits$X}h ({shown})", digits = 2 * self.size),
            _ => shown,
        }
    }
}

fn put_text(part: &mut [u8], text: &str) -> Result<(), String> {
    if value::printable(text.as_bytes()) != Some(text) {
        return Err("a quoted text holds printable ASCII alone".into());
    }
    if text.len() > part.len() {
        return Err(format!("the text has more than {} bytes", part.len()));
    }
    part.fill(0);
    part[..text.len()].copy_from_slice(text.as_bytes());
    Ok(())
}

fn put_bytes(part: &mut [u8], bytes: &[u8]) -> Result<(), String> {
    if bytes.len() != part.len() {
        return Err(format!("{} bytes, not {}", bytes.len(), part.len()));
    }
    part.copy_from_slice(bytes);
    Ok(())
}

/// Takes the fields of a table from a line and puts them into the structure.
pub fn fill(structure: &mut [u8], table: &[Field], line: &mut Line) -> Result<(), Fault> {
    for field in table {
        if let Some(word) = line.take(field.name)? {
            field.put(structure, &word)?;
        }
    }
    Ok(())
}

/// The words `name=value` of the fields in which two structures differ, as the first has them.
pub fn differences(structure: &[u8], other: &[u8], table: &[Field]) -> Vec<String> {
    let shown = |field: &&Field| field.show(structure) != field.show(other);
    let word = |field: &Field| format!("{}={}", field.name, field.show(structure));
    table.iter().filter(shown).map(word).collect()
}

#[cfg(test)]
mod tests {
    use super::*;
    use crate::text::lines;

    const NAMES: Names = &[(1, "one"), (4, "four")];
    const TABLE: [Field; 9] = [
        number("two", 0, 2),
        code("code", 2),
        bytes("bytes", 3, 2),
        field("text", 5, 4, Kind::Text),
        field("low", 9, 1, Kind::Low),
        field("high", 9, 1, Kind::High),
        field("lba", 10, 4, Kind::Lba),
        named("named", 14, 1, NAMES),
        bits("bits", 15, 4, NAMES),
    ];

    fn filled(words: &str) -> Result<[u8; 19], Fault> {
        let mut structure = [0; 19];
        let mut line = lines(&format!("x {words}"))?.remove(0);
        fill(&mut structure, &TABLE, &mut line)?;
        line.finish()?;
        Ok(structure)
    }

    #[test]
    fn every_kind_and_back() {
        let words = "two=513 code=FFh bytes=0A0B text=\"ab\" low=9 high=8 lba=268435455 named=four bits=one+four+80000000h";
        let structure = filled(words).unwrap();
        let expected = [
            1, 2, 0xFF, 10, 11, b'a', b'b', 0, 0, 0x89, 0xFF, 0xFF, 0xFF, 0x0F, 4, 5, 0, 0, 0x80,
        ];
        assert_eq!(structure, expected);
        assert_eq!(differences(&structure, &[0; 19], &TABLE).join(" "), words);
    }

    #[test]
    fn names_in_words() {
        let words = |line: &str, i: usize| TABLE[i].words(&filled(line).unwrap());
        assert_eq!(words("named=1", 7), "1 (one)");
        assert_eq!(words("named=2", 7), "2");
        assert_eq!(words("bits=one+80h", 8), "00000081h (one+80h)");
        assert_eq!(words("bits=0", 8), "0");
        assert_eq!(words("two=7 text=\"a\"", 3), "\"a\"");
    }

    #[test]
    fn faults() {
        let fault = |words: &str| filled(words).unwrap_err().to_string();
        assert_eq!(fault("two=65536"), "line 1: two: 65536 is over 65535");
        assert_eq!(fault("low=16"), "line 1: low: 16 is over 15");
        assert_eq!(fault("bytes=01"), "line 1: bytes: 1 bytes, not 2");
        assert_eq!(fault("code=\"a\""), "line 1: code: takes no quoted text");
        assert_eq!(
            fault("text=\"abcde\""),
            "line 1: text: the text has more than 4 bytes"
        );
        assert_eq!(fault("three=3"), "line 1: x has no field 'three'");
        assert_eq!(fault("named=256"), "line 1: named: 256 is over 255");
        assert_eq!(
            fault("bits=one+five"),
            "line 1: bits: 'five' is no number and none of one, four"
        );
    }
}
