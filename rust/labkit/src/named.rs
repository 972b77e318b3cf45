//! Numbers that have names: one of a list, as `bus=pci`, or bits that may be set together, as `flags=sas-hba+fwd-support`. A number may
//! always stand in place of a name.

use crate::value::{is_number, number};

/// Numbers with their names.
pub type Names = &'static [(u32, &'static str)];

/// The number of a name, or the number itself.
pub fn one(text: &str, names: Names, most: u64) -> Result<u32, String> {
    if let Some(found) = names.iter().find(|row| row.1 == text) {
        return Ok(found.0);
    }
    // hexadecimal may begin with a letter
    if is_number(text) || text.starts_with(|c: char| c.is_ascii_digit()) {
        return Ok(number(text, most)? as u32);
    }
    let known: Vec<&str> = names.iter().map(|row| row.1).collect();
    Err(format!(
        "'{text}' is no number and none of {}",
        known.join(", ")
    ))
}

/// The bits of all names and numbers that `+` joins.
pub fn bits(text: &str, names: Names, most: u64) -> Result<u32, String> {
    text.split('+')
        .try_fold(0, |all, part| Ok(all | one(part, names, most)?))
}

/// The name of a number, or the number, as `one` reads it.
pub fn show_one(n: u32, names: Names) -> String {
    match name(n, names) {
        Some(name) => name.to_string(),
        None => n.to_string(),
    }
}

/// The names of the bits, and the rest as a number, as `bits` reads it.
pub fn show_bits(n: u32, names: Names) -> String {
    let set = names.iter().filter(|row| n & row.0 != 0);
    let mut parts: Vec<String> = set.map(|row| row.1.to_string()).collect();
    let rest = n & !mask(names);
    match (rest, parts.is_empty()) {
        (0, true) => return "0".to_string(),
        (0, false) => {}
        _ => parts.push(format!("{rest:02X}h")),
    }
    parts.join("+")
}

/// All bits that have a name.
pub fn mask(names: Names) -> u32 {
    names.iter().fold(0, |all, row| all | row.0)
}

/// The name of a number.
pub fn name(n: u32, names: Names) -> Option<&'static str> {
    names.iter().find(|row| row.0 == n).map(|row| row.1)
}

#[cfg(test)]
mod tests {
    use super::*;

    const NAMES: Names = &[(1, "one"), (2, "two"), (0x100, "far")];

    #[test]
    fn one_of_a_list_and_back() {
        for (text, n) in [("one", 1), ("far", 256), ("0", 0), ("77", 77)] {
            assert_eq!(one(text, NAMES, 999), Ok(n));
            assert_eq!(show_one(n, NAMES), text);
        }
        assert_eq!(one("2", NAMES, 999), Ok(2));
        assert_eq!(one("FEh", NAMES, 999), Ok(254));
        assert_eq!(
            one("three", NAMES, 999),
            Err("'three' is no number and none of one, two, far".to_string())
        );
        assert!(one("", NAMES, 999).is_err() && one("one+two", NAMES, 999).is_err());
    }

    /// In decimal and in hexadecimal, which may begin with a letter, and over 64 bits.
    #[test]
    fn numbers_that_are_too_large() {
        let long = "F".repeat(17) + "h";
        for text in ["1000", "3E8h", "FFFh", "fffH", "0FFFh", &long] {
            let fault = Err(format!("{text} is over 999"));
            assert_eq!(one(text, NAMES, 999), fault);
            assert_eq!(bits(&format!("one+{text}"), NAMES, 999), fault);
        }
        for text in ["FFF", "h", "Fgh"] {
            let fault = one(text, NAMES, 999).unwrap_err();
            assert!(fault.contains(" is no number and none of "), "{fault}");
        }
    }

    #[test]
    fn bits_and_back() {
        for (text, n) in [
            ("0", 0),
            ("one", 1),
            ("one+two+far", 0x103),
            ("two+80h", 0x82),
            ("80000000h", 0x8000_0000),
        ] {
            assert_eq!(bits(text, NAMES, u32::MAX.into()), Ok(n));
            assert_eq!(show_bits(n, NAMES), text);
        }
        assert_eq!(bits("3+far", NAMES, 999), Ok(0x103));
        assert!(bits("one+", NAMES, 999).is_err());
        assert_eq!(mask(NAMES), 0x103);
        for bit in 0..32 {
            let n = 1 << bit;
            assert_eq!(bits(&show_bits(n, NAMES), NAMES, u32::MAX.into()), Ok(n));
        }
    }
}
