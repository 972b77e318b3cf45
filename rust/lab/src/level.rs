//! The level texts, as far as the lab looks at them: what each level is comes from the library.

use crate::exercise::Text;
use crate::run::Run;
use labkit::names::level_name;

/// The marks that editors put before a text: UTF-8, and UTF-16 in both orders.
const MARKS: [&[u8]; 3] = [b"\xEF\xBB\xBF", b"\xFF\xFE", b"\xFE\xFF"];
/// How much of a text is shown.
const SHOWN: usize = 60;

pub fn begins_with_mark(text: &[u8]) -> bool {
    MARKS.iter().any(|mark| text.starts_with(mark))
}

/// The beginning of a text as one line; a byte that is not printable ASCII is a point.
pub fn shown(text: &[u8]) -> String {
    let plain = text.trim_ascii_end();
    let byte = |b: &u8| match b {
        b' '..=b'~' => char::from(*b),
        _ => '.',
    };
    let more = if plain.len() > SHOWN { ".." } else { "" };
    let begin: String = plain.iter().take(SHOWN).map(byte).collect();
    format!("{begin}{more}")
}

/// What is to be said about the texts of two runs that were opened.
pub fn warnings(texts: &[Text], runs: &[Run]) -> Vec<String> {
    let mut found: Vec<String> = texts.iter().zip(runs).filter_map(by_default).collect();
    if let [low, high] = runs {
        if low.level() == high.level() {
            let level = level_name(low.level());
            found.push(format!(
                "both texts give {level}, so the runs cannot differ"
            ));
        }
    }
    found
}

/// A text that gets a level that it does not name gets it as an empty text does.
fn by_default((text, run): (&Text, &Run)) -> Option<String> {
    let level = level_name(run.level());
    let entry = format!("CSMI={level};");
    let named = text
        .bytes
        .windows(entry.len())
        .any(|part| part == entry.as_bytes());
    (!named).then(|| {
        format!("{} has no entry CSMI=, so it gives {level}; an entry begins the text or stands right behind a semicolon", text.from)
    })
}

#[cfg(test)]
mod tests {
    use super::*;

    #[test]
    fn texts_on_one_line() {
        assert_eq!(shown(b"CSMI=Full;\n"), "CSMI=Full;");
        assert_eq!(shown(b"a\n\x1B[31mb\xFF"), "a..[31mb.");
        assert_eq!(shown(&[b'x'; 61]).len(), 62);
        assert_eq!(shown(b""), "");
    }

    #[test]
    fn marks_of_editors() {
        assert!(begins_with_mark(b"\xEF\xBB\xBFCSMI=Full;"));
        assert!(begins_with_mark(b"\xFF\xFEC\0"));
        assert!(!begins_with_mark(b"CSMI=Full;") && !begins_with_mark(b""));
    }
}
