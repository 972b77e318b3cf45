//! A description cut into lines and words. A word is `value` or `key=value`; a value may be quoted. `#` begins a comment. A line
//! that begins with a blank goes on with the line before it.

use crate::Fault;

#[derive(Debug, Clone, PartialEq, Eq)]
pub struct Word {
    /// The line of the text on which the word stands.
    pub line: usize,
    pub key: Option<String>,
    pub value: String,
    pub quoted: bool,
}

impl Word {
    /// A fault at this word, which begins with its key.
    pub fn fault(&self, reason: impl AsRef<str>) -> Fault {
        let reason = reason.as_ref();
        match &self.key {
            Some(key) => Fault::new(self.line, format!("{key}: {reason}")),
            None => Fault::new(self.line, reason),
        }
    }
}

/// One line with its continuations: its first word, and the rest, which the reader takes one by one.
#[derive(Debug, Clone, PartialEq, Eq)]
pub struct Line {
    pub number: usize,
    pub name: String,
    words: Vec<Word>,
}

impl Line {
    /// Takes the word with that key; a second one is a fault.
    pub fn take(&mut self, key: &str) -> Result<Option<Word>, Fault> {
        let is_it = |w: &Word| w.key.as_deref() == Some(key);
        let Some(at) = self.words.iter().position(is_it) else {
            return Ok(None);
        };
        let word = self.words.remove(at);
        match self.words.iter().find(|w| is_it(w)) {
            Some(second) => Err(second.fault("given twice")),
            None => Ok(Some(word)),
        }
    }

    /// Takes a word without a key, if it is there.
    pub fn take_plain(&mut self, value: &str) -> bool {
        let is_it = |w: &Word| w.key.is_none() && !w.quoted && w.value == value;
        let at = self.words.iter().position(is_it);
        at.map(|at| self.words.remove(at)).is_some()
    }

    /// Takes the next word without a key.
    pub fn next_plain(&mut self) -> Option<Word> {
        let at = self.words.iter().position(|w| w.key.is_none())?;
        Some(self.words.remove(at))
    }

    /// The next word without a key; `what` is missing if there is none.
    pub fn expect(&mut self, what: &str) -> Result<Word, Fault> {
        self.next_plain()
            .ok_or_else(|| Fault::new(self.number, format!("{} needs {what}", self.name)))
    }

    /// A word that nobody took is a fault.
    pub fn finish(&self) -> Result<(), Fault> {
        let Some(word) = self.words.first() else {
            return Ok(());
        };
        let reason = match &word.key {
            Some(key) => format!("{} has no field '{key}'", self.name),
            None => format!("{} does not take '{}'", self.name, word.value),
        };
        Err(Fault::new(word.line, reason))
    }
}

/// A text as one line that a terminal takes as it is: a question mark for each control character.
pub fn one_line(text: &str) -> String {
    let plain = |c: char| if c.is_control() { '?' } else { c };
    text.chars().map(plain).collect()
}

/// The lines of a text, without empty ones and comments.
pub fn lines(text: &str) -> Result<Vec<Line>, Fault> {
    let mut found: Vec<Line> = Vec::new();
    // some editors begin a text with a byte order mark
    let text = text.strip_prefix('\u{FEFF}').unwrap_or(text);
    for (i, whole) in text.lines().enumerate() {
        let number = i + 1;
        if !whole.starts_with([' ', '\t']) {
            found.extend(line(whole, number)?);
            continue;
        }
        let mut words = words(whole, number)?;
        match found.last_mut() {
            Some(last) => last.words.append(&mut words),
            None if words.is_empty() => {}
            None => return Err(Fault::new(number, "the first line begins with a blank")),
        }
    }
    Ok(found)
}

/// One line with its number, without a continuation; none if it is empty or a comment.
pub fn line(text: &str, number: usize) -> Result<Option<Line>, Fault> {
    let mut words = words(text, number)?;
    if words.is_empty() {
        return Ok(None);
    }
    let first = words.remove(0);
    if first.key.is_some() || first.quoted {
        return Err(Fault::new(number, "a line begins with a name"));
    }
    Ok(Some(Line {
        number,
        name: first.value,
        words,
    }))
}

fn words(line: &str, number: usize) -> Result<Vec<Word>, Fault> {
    let mut found = Vec::new();
    let mut rest = line.trim_start();
    while !rest.is_empty() && !rest.starts_with('#') {
        let end = word_end(rest).ok_or_else(|| Fault::new(number, "a quote is not closed"))?;
        found.push(word(&rest[..end], number)?);
        rest = rest[end..].trim_start();
    }
    Ok(found)
}

/// Where the word at the front ends: at a blank outside quotes. None if a quote is not closed.
fn word_end(rest: &str) -> Option<usize> {
    let mut quoted = false;
    for (i, c) in rest.char_indices() {
        match c {
            '"' => quoted = !quoted,
            ' ' | '\t' if !quoted => return Some(i),
            _ => {}
        }
    }
    (!quoted).then_some(rest.len())
}

fn word(word: &str, line: usize) -> Result<Word, Fault> {
    let equals = word.find('=').filter(|at| !word[..*at].contains('"'));
    let (key, value) = match equals {
        Some(at) => (Some(word[..at].to_string()), &word[at + 1..]),
        None => (None, word),
    };
    let inner = value
        .strip_prefix('"')
        .and_then(|rest| rest.strip_suffix('"'));
    let plain = inner.unwrap_or(value);
    if plain.contains('"') {
        return Err(Fault::new(line, format!("a quote inside the word {word}")));
    }
    Ok(Word {
        line,
        key,
        value: plain.to_string(),
        quoted: inner.is_some(),
    })
}

#[cfg(test)]
mod tests {
    use super::*;

    #[test]
    fn words_keys_quotes_and_comments() {
        let mut found = lines("# all\n\nrow a=1 \"b c\" # x\n    d=\"e = f\"\nend\n").unwrap();
        assert_eq!(found.len(), 2);
        let row = &mut found[0];
        assert_eq!((row.number, row.name.as_str()), (3, "row"));
        assert_eq!(row.take("a").unwrap().unwrap().value, "1");
        let d = row.take("d").unwrap().unwrap();
        assert_eq!((d.line, d.value.as_str(), d.quoted), (4, "e = f", true));
        assert_eq!(row.next_plain().unwrap().value, "b c");
        assert!(row.finish().is_ok());
    }

    #[test]
    fn a_byte_order_mark_and_line_ends_of_two_bytes() {
        let found = lines("\u{FEFF}row a=1\r\nend\r\n").unwrap();
        assert_eq!(found, lines("row a=1\nend\n").unwrap());
    }

    #[test]
    fn faults_name_line_and_reason() {
        let fault = |text: &str| lines(text).unwrap_err().to_string();
        assert_eq!(fault("a\nb \"c"), "line 2: a quote is not closed");
        assert_eq!(fault(" a"), "line 1: the first line begins with a blank");
        assert_eq!(fault("a=1"), "line 1: a line begins with a name");
        assert_eq!(
            fault("a b\"c\"d"),
            "line 1: a quote inside the word b\"c\"d"
        );

        let mut line = lines("a\n  b=1\n  b=2").unwrap().remove(0);
        assert_eq!(
            line.take("b").unwrap_err().to_string(),
            "line 3: b: given twice"
        );
        let line = lines("a\n  b=1").unwrap().remove(0);
        assert_eq!(
            line.finish().unwrap_err().to_string(),
            "line 2: a has no field 'b'"
        );
        let line = lines("a b").unwrap().remove(0);
        assert_eq!(
            line.finish().unwrap_err().to_string(),
            "line 1: a does not take 'b'"
        );
    }
}
