//! 32-bit little-endian numbers in bytes, and where bytes differ.

pub fn word(bytes: &[u8], at: usize) -> u32 {
    u32::from_le_bytes([bytes[at], bytes[at + 1], bytes[at + 2], bytes[at + 3]])
}

pub fn put_word(bytes: &mut [u8], at: usize, word: u32) {
    bytes[at..at + 4].copy_from_slice(&word.to_le_bytes());
}

/// The first place where two runs of bytes differ; their lengths count too.
pub fn first_difference(left: &[u8], right: &[u8]) -> Option<usize> {
    if left == right {
        return None;
    }
    let common = left.len().min(right.len());
    let differs = (0..common).find(|&at| left[at] != right[at]);
    Some(differs.unwrap_or(common))
}

/// The bytes of the two sides are equal; if not, where they differ.
pub fn equal_bytes(name: &str, library: &[u8], model: &[u8]) -> Result<(), String> {
    let Some(at) = first_difference(library, model) else {
        return Ok(());
    };
    let (left, right) = (library.get(at), model.get(at));
    Err(format!(
        "{name}, byte {at}: library {left:02X?}, model {right:02X?}"
    ))
}
