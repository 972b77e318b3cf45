//! The level text, and the need of each ATA command.

/// "None 0, Restricted 1, Limited 2, Full 3."
#[derive(Clone, Copy, PartialEq, Eq, Debug)]
#[repr(u8)]
pub enum Level {
    None = 0,
    Restricted = 1,
    Limited = 2,
    Full = 3,
}

const MAX_TEXT: usize = 1024;

impl Level {
    /// The level of a text; `None` is number 101.
    pub fn of_text(text: &[u8]) -> Option<Level> {
        if text.len() > MAX_TEXT {
            return None;
        }
        // "cut into entries, each ending with its semicolon; bytes after the last semicolon are
        // one unclosed entry"
        let mut found = text
            .split_inclusive(|&byte| byte == b';')
            .filter(|entry| entry.starts_with(b"CSMI="));
        match (found.next(), found.next()) {
            (None, _) => Some(Level::Limited),
            (Some(entry), None) => Level::of_entry(entry),
            // "two such entries included"
            (Some(_), Some(_)) => None,
        }
    }

    fn of_entry(entry: &[u8]) -> Option<Level> {
        match entry {
            b"CSMI=None;" => Some(Level::None),
            b"CSMI=Restricted;" => Some(Level::Restricted),
            b"CSMI=Limited;" => Some(Level::Limited),
            b"CSMI=Full;" => Some(Level::Full),
            _ => None,
        }
    }

    /// The need of a command code, byte 2 of the command FIS, from Table 8.
    pub fn of_command(command: u8) -> Level {
        match command {
            0x00 | 0x20 | 0x24 | 0x25 | 0x26 | 0x27 | 0x29 | 0x2F | 0x40 | 0x42 | 0x70 | 0x90
            | 0xA1 | 0xB0 | 0xC4 | 0xC7 | 0xC8 | 0xE4 | 0xE5 | 0xE7 | 0xEA | 0xEC | 0xF8 => {
                Level::Restricted
            }
            0x92 | 0xE8 => Level::Limited,
            _ => Level::Full,
        }
    }
}
