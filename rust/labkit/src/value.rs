//! Numbers and bytes as text. A number is decimal, or hexadecimal with an `h` behind it, as the papers print it. Bytes are
//! hexadecimal digits; `5A*512` is 512 bytes 5Ah, and `+` joins runs: `00*510+55AA`.

/// The most bytes that one value may have.
pub const MOST_BYTES: usize = 1 << 20;

/// A run of equal bytes of this length or more is shown as `XX*N`.
const SHOWN_AS_RUN: usize = 9;

/// The digits of a number and their base; none of what is no number.
fn digits(text: &str) -> Option<(&str, u32)> {
    let (digits, base) = match text.strip_suffix(['h', 'H']) {
        Some(digits) => (digits, 16),
        None => (text, 10),
    };
    let only_digits = !digits.is_empty() && digits.chars().all(|c| c.is_digit(base));
    only_digits.then_some((digits, base))
}

/// Whether a text is a number, however large.
pub fn is_number(text: &str) -> bool {
    digits(text).is_some()
}

/// A number up to `most`.
pub fn number(text: &str, most: u64) -> Result<u64, String> {
    let Some((digits, base)) = digits(text) else {
        return Err(format!(
            "'{text}' is not a number (decimal, or hexadecimal with an h)"
        ));
    };
    match u64::from_str_radix(digits, base) {
        Ok(n) if n <= most => Ok(n),
        _ => Err(format!("{text} is over {most}")),
    }
}

/// A control code as `number` reads it: in decimal as CSMI has them, in hexadecimal as Linux numbers its own.
pub fn show_code(code: u32) -> String {
    match code {
        0..=0xFFFF => code.to_string(),
        _ => format!("{code:08X}h"),
    }
}

/// Bytes in hexadecimal, with runs.
pub fn bytes(text: &str) -> Result<Vec<u8>, String> {
    let mut found = Vec::new();
    if text.is_empty() {
        return Ok(found);
    }
    for part in text.split('+') {
        let (digits, times) = match part.split_once('*') {
            Some((digits, times)) => (digits, number(times, MOST_BYTES as u64)? as usize),
            None => (part, 1),
        };
        let run = hexadecimal(digits)?;
        if found.len() + run.len() * times > MOST_BYTES {
            return Err(format!("more than {MOST_BYTES} bytes"));
        }
        found.extend(run.repeat(times));
    }
    Ok(found)
}

fn hexadecimal(digits: &str) -> Result<Vec<u8>, String> {
    let is_hex = !digits.is_empty() && digits.chars().all(|c| c.is_ascii_hexdigit());
    if !is_hex {
        return Err(format!("'{digits}' is not bytes in hexadecimal"));
    }
    if digits.len() % 2 == 1 {
        return Err(format!("'{digits}' has an odd number of digits"));
    }
    let pair = |at: usize| u8::from_str_radix(&digits[at..at + 2], 16).unwrap_or(0);
    Ok((0..digits.len()).step_by(2).map(pair).collect())
}

/// Bytes as `bytes` reads them, long runs shortened.
pub fn show_bytes(bytes: &[u8]) -> String {
    let mut parts: Vec<String> = Vec::new();
    let mut plain = String::new();
    let mut at = 0;
    while at < bytes.len() {
        let same = bytes[at..].iter().take_while(|b| **b == bytes[at]).count();
        if same >= SHOWN_AS_RUN {
            if !plain.is_empty() {
                parts.push(std::mem::take(&mut plain));
            }
            parts.push(format!("{:02X}*{same}", bytes[at]));
        } else {
            plain.push_str(&format!("{:02X}", bytes[at]).repeat(same));
        }
        at += same;
    }
    if !plain.is_empty() {
        parts.push(plain);
    }
    parts.join("+")
}

/// The text of bytes that are printable ASCII followed by zeros alone; None of others.
pub fn printable(bytes: &[u8]) -> Option<&str> {
    let end = bytes.iter().position(|b| *b == 0).unwrap_or(bytes.len());
    let is_plain = |b: &u8| (b' '..=b'~').contains(b) && *b != b'"';
    let whole = bytes[..end].iter().all(is_plain) && bytes[end..].iter().all(|b| *b == 0);
    if !whole {
        return None;
    }
    std::str::from_utf8(&bytes[..end]).ok()
}

#[cfg(test)]
mod tests {
    use super::*;

    #[test]
    fn numbers() {
        assert_eq!(number("255", 255), Ok(255));
        assert_eq!(number("FFh", 255), Ok(255));
        assert_eq!(number("0", 0), Ok(0));
        assert_eq!(number("256", 255), Err("256 is over 255".into()));
        assert!(number("99999999999999999999999", u64::MAX).is_err());
        for bad in ["", "h", "FF", "-1", "+1", "1.5", "0x1F"] {
            assert!(
                number(bad, 255).unwrap_err().contains("not a number"),
                "{bad}"
            );
        }
    }

    #[test]
    fn control_codes_and_back() {
        assert_eq!(show_code(65_535), "65535");
        assert_eq!(show_code(65_536), "00010000h");
        assert_eq!(show_code(0xCC77_0014), "CC770014h");
        for code in [0, 65_535, 65_536, u32::MAX] {
            assert_eq!(
                number(&show_code(code), u64::from(u32::MAX)),
                Ok(code.into())
            );
        }
    }

    #[test]
    fn bytes_and_back() {
        assert_eq!(
            bytes("00*3+5AA5*2").unwrap(),
            [0, 0, 0, 0x5A, 0xA5, 0x5A, 0xA5]
        );
        assert_eq!(bytes("").unwrap(), []);
        assert_eq!(
            bytes("abc").unwrap_err(),
            "'abc' has an odd number of digits"
        );
        assert_eq!(bytes("zz").unwrap_err(), "'zz' is not bytes in hexadecimal");
        assert!(bytes("00*1048577").is_err());
        assert!(bytes("00*1048576+00").is_err());
        assert_eq!(show_bytes(&[0; 512]), "00*512");
        assert_eq!(show_bytes(&[1, 1, 2]), "010102");
        for n in 0..40 {
            let mixed: Vec<u8> = (0..n)
                .map(|i| if i % 20 < 12 { 7 } else { i as u8 })
                .collect();
            assert_eq!(bytes(&show_bytes(&mixed)).unwrap(), mixed);
        }
    }

    #[test]
    fn printable_texts() {
        assert_eq!(printable(b"CSMISAS\0"), Some("CSMISAS"));
        assert_eq!(printable(b"\0\0"), Some(""));
        assert_eq!(printable(b"a\0b"), None);
        assert_eq!(printable(b"a\"b"), None);
    }
}
