//! The two forms of a session: what stands before each request, and where a session ends.

use super::parse::{self, Source};
use super::{describe, Header, Request, Session};
use crate::text::lines;
use crate::value::MOST_BYTES;
use crate::Fault;
use std::path::Path;

/// How a session stands in a file.
#[derive(Debug, Clone, Copy, PartialEq, Eq)]
pub enum Form {
    /// What the program reads: before each request its length, 4 bytes. All have the first header.
    Program,
    /// `session.both`: before each request its header, its control code and its length, 4 bytes each.
    Both,
}

/// The most bytes of a request that the program reads.
pub const MOST_REQUEST: usize = 32_768;
/// The word before a request's name, and before `tail`, that says that it belongs to a session of both headers.
pub const LINUX: &str = "linux";
/// Why the program's session holds no Linux request.
pub const FIRST_ALONE: &str = "the program's session has the first header alone; a Linux request stands in a session.both: labkit session --both";
/// The numbers of the headers in a session of both.
const FIRST_HEADER: u32 = 0;
const LINUX_HEADER: u32 = 1;

impl Form {
    /// The form that a description needs.
    pub fn of(text: &str) -> Result<Form, Fault> {
        let linux = lines(text)?.iter().any(|line| line.name == LINUX);
        Ok(if linux { Form::Both } else { Form::Program })
    }

    /// The session that a description makes, which names no file.
    pub fn parse(self, text: &str) -> Result<Vec<u8>, Fault> {
        let (form, folder) = (self, None);
        parse::parse(Source { form, folder }, text)
    }

    /// The session that a description makes whose files stand in a folder.
    pub fn parse_in(self, folder: &Path, text: &str) -> Result<Vec<u8>, Fault> {
        let (form, folder) = (self, Some(folder));
        parse::parse(Source { form, folder }, text)
    }

    /// The description of a session.
    pub fn describe(self, session: &[u8]) -> String {
        describe::describe(&self.split(session))
    }

    /// How many bytes stand before a request.
    pub fn before(self) -> usize {
        match self {
            Form::Program => 4,
            Form::Both => 12,
        }
    }

    /// The most bytes of a request that a description may give.
    pub fn most(self) -> usize {
        match self {
            Form::Program => MOST_REQUEST,
            Form::Both => MOST_BYTES,
        }
    }

    /// Cuts a session into its requests.
    pub fn split(self, session: &[u8]) -> Session<'_> {
        let mut requests = Vec::new();
        let mut tail = session;
        while let Some((request, rest)) = self.first(tail) {
            requests.push(request);
            tail = rest;
        }
        Session {
            form: self,
            requests,
            tail,
        }
    }

    /// The request at the front, if it is whole, and what follows it.
    fn first(self, session: &[u8]) -> Option<(Request<'_>, &[u8])> {
        let (before, rest) = session.split_at_checked(self.before())?;
        let (header, length) = self.announced(before).ok()?;
        let (buffer, rest) = rest.split_at_checked(length)?;
        Some((Request { header, buffer }, rest))
    }

    /// The header and the length that stand before a request, or why they end the session.
    fn announced(self, before: &[u8]) -> Result<(Header, usize), String> {
        let length = number(before, before.len() - 4);
        match self {
            Form::Program if length as usize > MOST_REQUEST => {
                Err(format!("its length says {length}, over {MOST_REQUEST}"))
            }
            Form::Program => Ok((Header::Srb, length as usize)),
            Form::Both => Ok((
                header(number(before, 0), number(before, 4))?,
                length as usize,
            )),
        }
    }

    /// Whether bytes begin a request, whole or cut short.
    pub fn begins(self, bytes: &[u8]) -> bool {
        let before = bytes.get(..self.before());
        before.is_none_or(|before| self.announced(before).is_ok())
    }

    /// Why no whole request stands at the front.
    pub fn why_cut(self, tail: &[u8]) -> String {
        let Some((before, rest)) = tail.split_at_checked(self.before()) else {
            let (whole, there) = (self.before(), tail.len());
            return match self {
                Form::Program => format!("of its length of {whole} bytes there are {there}"),
                Form::Both => format!("of the {whole} bytes before it there are {there}"),
            };
        };
        match self.announced(before) {
            Ok((_, length)) => {
                let there = rest.len();
                format!("its length says {length} bytes, and there are {there}")
            }
            Err(reason) => reason,
        }
    }

    /// Adds a request to a session; or why this form cannot hold it.
    pub fn add(self, session: &mut Vec<u8>, request: &Request) -> Result<(), String> {
        let length = request.buffer.len();
        let numbers = match (self, request.header) {
            (Form::Program, Header::Linux { .. }) => return Err(FIRST_ALONE.to_string()),
            (Form::Program, _) if length > MOST_REQUEST => {
                return Err(format!("a request of {length} bytes, over {MOST_REQUEST}"))
            }
            (Form::Program, Header::Srb) => vec![length as u32],
            (Form::Both, Header::Srb) => vec![FIRST_HEADER, 0, length as u32],
            (Form::Both, Header::Linux { control }) => vec![LINUX_HEADER, control, length as u32],
        };
        session.extend(numbers.iter().flat_map(|number| number.to_le_bytes()));
        session.extend(request.buffer);
        Ok(())
    }
}

/// The header that its number and the control code behind it give, or why there is none.
fn header(number: u32, control: u32) -> Result<Header, String> {
    match (number, control) {
        (FIRST_HEADER, 0) => Ok(Header::Srb),
        (FIRST_HEADER, _) => Err(format!(
            "it has the first header, and the control code before it is {control}, where 0 has to stand"
        )),
        (LINUX_HEADER, _) => Ok(Header::Linux { control }),
        _ => Err(format!(
            "its header is {number}, which is neither 0, the first, nor 1, Linux's"
        )),
    }
}

/// The four bytes at a place as a number.
fn number(bytes: &[u8], at: usize) -> u32 {
    let four = bytes[at..at + 4].iter().rev();
    four.fold(0, |n, b| n << 8 | u32::from(*b))
}

#[cfg(test)]
mod tests {
    use super::*;

    fn buffers<'a>(session: &Session<'a>) -> Vec<&'a [u8]> {
        session.requests.iter().map(|r| r.buffer).collect()
    }

    #[test]
    fn cut_into_requests() {
        let session = [2, 0, 0, 0, 7, 8, 0, 0, 0, 0, 1, 0, 0, 0, 9];
        let cut = Form::Program.split(&session);
        assert_eq!(buffers(&cut), [&[7, 8][..], &[], &[9]]);
        assert_eq!(cut.tail, []);
        for tail in 1..5 {
            let cut = Form::Program.split(&session[..10 + tail]);
            assert_eq!((cut.requests.len(), cut.tail.len()), (2, tail));
        }
    }

    #[test]
    fn the_longest_request() {
        let mut session = 32_768u32.to_le_bytes().to_vec();
        session.resize(4 + 32_769, 0);
        let longest = Form::Program.split(&session[..4 + 32_768]);
        assert_eq!(longest.requests.len(), 1);
        session[0] = 1;
        assert_eq!(Form::Program.split(&session).tail.len(), 4 + 32_769);
        let both = [&[0; 8][..], &session].concat();
        assert_eq!(Form::Both.split(&both).requests.len(), 1);
    }

    #[test]
    fn both_headers_cut_into_requests() {
        let session = [
            &[0, 0, 0, 0, 0, 0, 0, 0, 2, 0, 0, 0, 7, 8][..],
            &[1, 0, 0, 0, 22, 1, 0, 0, 1, 0, 0, 0, 9],
            &[1, 0, 0, 0, 0, 0, 0, 0, 0, 0, 0, 0],
        ]
        .concat();
        let cut = Form::Both.split(&session);
        assert_eq!(buffers(&cut), [&[7, 8][..], &[9], &[]]);
        let headers: Vec<Header> = cut.requests.iter().map(|r| r.header).collect();
        let linux = |control| Header::Linux { control };
        assert_eq!(headers, [Header::Srb, linux(278), linux(0)]);
        assert_eq!(cut.tail, []);
        let mut again = Vec::new();
        for request in &cut.requests {
            Form::Both.add(&mut again, request).unwrap();
        }
        assert_eq!(again, session);
        for end in 28..session.len() {
            let cut = Form::Both.split(&session[..end]);
            assert_eq!((cut.requests.len(), cut.tail.len()), (2, end - 27));
            assert!(!cut.is_whole() && !cut.strays());
        }
        assert!(cut.is_whole() && !cut.strays());
        assert_eq!(
            (cut.linux(), Form::Both.split(&session[..14]).linux()),
            (2, 0)
        );
    }

    #[test]
    fn why_sessions_end() {
        let both = |numbers: [u32; 3]| {
            let bytes = numbers.map(u32::to_le_bytes).concat();
            let cut = Form::Both.split(&bytes);
            assert_eq!((cut.requests.len(), cut.tail), (0, &bytes[..]));
            assert_eq!(cut.strays(), numbers[0] != 1);
            Form::Both.why_cut(&bytes)
        };
        assert_eq!(
            both([2, 22, 0]),
            "its header is 2, which is neither 0, the first, nor 1, Linux's"
        );
        assert_eq!(
            both([0, 22, 0]),
            "it has the first header, and the control code before it is 22, where 0 has to stand"
        );
        assert_eq!(both([1, 22, 7]), "its length says 7 bytes, and there are 0");
        assert_eq!(
            Form::Both.why_cut(&[1; 11]),
            "of the 12 bytes before it there are 11"
        );
        assert_eq!(
            Form::Program.why_cut(&[1, 128, 0, 0]),
            "its length says 32769, over 32768"
        );
    }

    #[test]
    fn the_form_that_a_description_needs() {
        let form = |text| Form::of(text).unwrap();
        assert_eq!(form("get-phy-info\ntail 01"), Form::Program);
        assert_eq!(form("get-phy-info\nlinux get-phy-info"), Form::Both);
        assert_eq!(form("get-phy-info\nlinux tail 01"), Form::Both);
    }
}
