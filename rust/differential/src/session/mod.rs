//! Sessions: requests one after the other, each behind a prefix that says how long it is and, where both headers may stand, which it has.

pub mod end;

use crate::names::prefix;
use crate::request::{Header, Request};
use crate::wire::word;
use std::ops::Range;

/// What stands before each request of a session.
#[derive(Clone, Copy, Debug, PartialEq, Eq)]
pub enum Framing {
    /// A length of 4 bytes; every request has the first header.
    First,
    /// Header, control code and length, 4 bytes each.
    Both,
}

impl Framing {
    /// That of a list: the shorter one where every request has the first header.
    pub fn of(requests: &[Request]) -> Self {
        if requests.iter().any(|request| request.header.is_linux()) {
            Framing::Both
        } else {
            Framing::First
        }
    }

    /// The size of a prefix, whose last 4 bytes are the length.
    pub fn size(self) -> usize {
        match self {
            Framing::First => 4,
            Framing::Both => prefix::SIZE,
        }
    }

    /// The prefix of a request of so many bytes.
    pub fn prefix(self, header: Header, length: u32) -> Vec<u8> {
        let length = length.to_le_bytes();
        let (number, control) = match header {
            Header::First => (prefix::FIRST, 0),
            Header::Linux { control } => (prefix::LINUX, control),
        };
        match self {
            Framing::First => length.to_vec(),
            Framing::Both => [number.to_le_bytes(), control.to_le_bytes(), length].concat(),
        }
    }

    pub fn join(self, requests: &[Request]) -> Vec<u8> {
        assert!(self == Framing::Both || Framing::of(requests) == Framing::First);
        let mut session = Vec::new();
        for request in requests {
            session.extend(self.prefix(request.header, request.buffer.len() as u32));
            session.extend(&request.buffer);
        }
        session
    }

    /// The header of the next request of a session, from `at` on, and where it stands; `None` at the end, where it is cut, and behind a
    /// prefix that names no header.
    pub fn next(self, session: &[u8], at: usize) -> Option<(Header, Range<usize>)> {
        let start = at
            .checked_add(self.size())
            .filter(|&start| start <= session.len())?;
        let header = self.header(&session[at..start])?;
        let length = word(session, start - 4) as usize;
        let rest = session.len() - start;
        (length <= rest).then_some((header, start..start + length))
    }

    fn header(self, bytes: &[u8]) -> Option<Header> {
        if self == Framing::First {
            return Some(Header::First);
        }
        match (word(bytes, prefix::HEADER), word(bytes, prefix::CONTROL)) {
            (prefix::FIRST, 0) => Some(Header::First),
            (prefix::LINUX, control) => Some(Header::Linux { control }),
            _ => None,
        }
    }

    /// The first requests of a session.
    pub fn split(self, session: &[u8], count: usize) -> Vec<(Header, &[u8])> {
        let mut requests = Vec::with_capacity(count);
        let mut at = 0;
        while requests.len() < count {
            let Some((header, place)) = self.next(session, at) else {
                break;
            };
            at = place.end;
            requests.push((header, &session[place]));
        }
        requests
    }
}

#[cfg(test)]
mod tests {
    use super::*;
    use crate::names::PROGRAM_LONGEST;

    fn comes_apart(framing: Framing, requests: &[Request]) {
        let mut session = framing.join(requests);
        session.extend([9, 0, 0]);
        let split: Vec<Request> = framing
            .split(&session, 10)
            .into_iter()
            .map(|(header, bytes)| Request {
                header,
                buffer: bytes.to_vec(),
            })
            .collect();
        assert_eq!(split, requests);
        assert_eq!(framing.split(&session, 1).len(), 1);
    }

    #[test]
    fn a_session_comes_apart_as_it_was_joined() {
        let mut requests =
            [vec![1, 2, 3], vec![], vec![7; 2 * PROGRAM_LONGEST]].map(Request::first);
        comes_apart(Framing::First, &requests);
        comes_apart(Framing::Both, &requests);
        requests[1] = Request::linux(u32::MAX, vec![5; 20]);
        comes_apart(Framing::Both, &requests);
    }
}
