//! A session made from its description: one request a line, by its CSMI name and fields, or `raw` and its bytes; at the end, if
//! wanted, `tail` and bytes that are no whole request. `linux` before the name says that a request has the Linux header.

use super::form::{FIRST_ALONE, LINUX};
use super::request::{self, bytes};
use super::{Form, Header, Request};
use crate::text::{lines, Line};
use crate::Fault;
use std::path::Path;

/// Where a description is read: in a form, and in the folder of the files that it names.
#[derive(Clone, Copy)]
pub struct Source<'a> {
    pub form: Form,
    pub folder: Option<&'a Path>,
}

/// What a line says.
enum Said {
    Request(Header, Vec<u8>),
    Tail(Vec<u8>),
}

/// The session that a description makes.
pub fn parse(source: Source, text: &str) -> Result<Vec<u8>, Fault> {
    let mut session = Vec::new();
    let mut ended = false;
    for mut line in lines(text)? {
        if ended {
            return Err(Fault::new(line.number, "a line behind the tail"));
        }
        let number = line.number;
        let refused = |reason| Fault::new(number, reason);
        match said(source, &mut line)? {
            Said::Request(header, buffer) => {
                let buffer = &buffer;
                let added = source.form.add(&mut session, &Request { header, buffer });
                added.map_err(refused)?;
            }
            Said::Tail(bytes) => {
                session.extend(bytes);
                ended = true;
            }
        }
        line.finish()?;
    }
    Ok(session)
}

fn said(source: Source, line: &mut Line) -> Result<Said, Fault> {
    let (name, linux) = name(source.form, line)?;
    match name.as_str() {
        "tail" => Ok(Said::Tail(all_bytes(line)?)),
        "raw" => {
            let header = request::header(linux, 0, line)?;
            Ok(Said::Request(header, all_bytes(line)?))
        }
        name => {
            let (header, buffer) = request::from_line(source, name, linux, line)?;
            Ok(Said::Request(header, buffer))
        }
    }
}

/// The request's name, and whether `linux` stands before it.
fn name(form: Form, line: &mut Line) -> Result<(String, bool), Fault> {
    if line.name != LINUX {
        return Ok((line.name.clone(), false));
    }
    if form == Form::Program {
        return Err(Fault::new(line.number, FIRST_ALONE));
    }
    let name = line.expect("the name of a request")?.value;
    line.name = format!("{LINUX} {name}");
    Ok((name, true))
}

/// The bytes of all words without a key, one after the other.
fn all_bytes(line: &mut Line) -> Result<Vec<u8>, Fault> {
    let mut found = Vec::new();
    while let Some(word) = line.next_plain() {
        found.extend(bytes(&word)?);
    }
    Ok(found)
}

#[cfg(test)]
mod tests {
    use super::super::split;
    use super::*;

    fn program(text: &str) -> Result<Vec<u8>, Fault> {
        Form::Program.parse(text)
    }

    fn both(text: &str) -> Result<Vec<u8>, Fault> {
        Form::Both.parse(text)
    }

    /// The control code and the buffer of a line with `linux`.
    fn linux(line: &str) -> (u32, Vec<u8>) {
        let session = both(line).unwrap();
        match Form::Both.split(&session).requests[0] {
            Request {
                header: Header::Linux { control },
                buffer,
            } => (control, buffer.to_vec()),
            request => panic!("{request:?}"),
        }
    }

    #[test]
    fn a_sound_request() {
        let session = program("get-link-errors phy=3 reset=1").unwrap();
        let mut expected = vec![48, 0, 0, 0, 28, 0, 0, 0];
        expected.extend(b"CSMISAS\0");
        expected.extend([60, 0, 0, 0, 22, 0, 0, 0, 0, 0, 0, 0, 20, 0, 0, 0, 3, 1]);
        expected.resize(52, 0);
        assert_eq!(session, expected);
        let framed = [&[0; 8][..], &expected].concat();
        assert_eq!(both("get-link-errors phy=3 reset=1").unwrap(), framed);
    }

    #[test]
    fn a_sound_linux_request() {
        let mut expected = vec![1, 0, 0, 0, 22, 0, 0, 0, 40, 0, 0, 0];
        expected.extend([
            0, 0, 0, 0, 40, 0, 0, 0, 0, 0, 0, 0, 60, 0, 0, 0, 0, 0, 0, 0, 3, 1,
        ]);
        expected.resize(52, 0);
        assert_eq!(
            both("linux get-link-errors phy=3 reset=1").unwrap(),
            expected
        );
    }

    #[test]
    fn the_fields_of_a_linux_header() {
        let (control, buffer) = linux(
            "linux set-phy-info control=CC770015h controller=1 length=7 return-code=9 timeout=2 direction=258 ignored=0A0B phy=5 buffer=30",
        );
        assert_eq!(control, 0xCC77_0015);
        let header = [1, 0, 0, 0, 7, 0, 0, 0, 9, 0, 0, 0, 2, 0, 0, 0, 2, 1, 10, 11];
        assert_eq!(buffer[..20], header);
        assert_eq!(buffer[20..], [5, 0, 0, 0, 0, 0, 0, 0, 0, 0]);
        let (_, buffer) = linux("linux set-phy-info");
        assert_eq!(buffer[16..18], [1, 0]);
        let (_, buffer) = linux("linux stp-passthru command=30h data=5A*512");
        assert_eq!((buffer.len(), buffer[16]), (20 + 136 + 512, 1));
        assert_eq!(buffer[4..8], [0x9C, 2, 0, 0]);
    }

    #[test]
    fn linux_requests_without_a_name() {
        let (control, buffer) = linux("linux request control=99 body=0102");
        assert_eq!((control, &buffer[4..8]), (99, &[22, 0, 0, 0][..]));
        assert_eq!(buffer[20..], [1, 2]);
        assert_eq!(linux("linux raw control=22 01 02*2"), (22, vec![1, 2, 2]));
        assert_eq!(linux("linux raw"), (0, vec![]));
    }

    #[test]
    fn a_write_of_one_sector() {
        let line = "stp-passthru phy=1 destination=5000C50000000001 command=30h lba=11259375 count=1 data=5A*512";
        let session = program(line).unwrap();
        let request = split(&session).requests[0].buffer;
        assert_eq!(request.len(), 28 + 136 + 512);
        assert_eq!(request[24..28], [0x88, 2, 0, 0]);
        assert_eq!(
            request[28..40],
            [1, 0xFF, 0, 0, 0x50, 0, 0xC5, 0, 0, 0, 0, 1]
        );
        assert_eq!(
            request[44..58],
            [0x27, 0x80, 0x30, 0, 0xEF, 0xCD, 0xAB, 0x40, 0, 0, 0, 0, 1, 0]
        );
        assert_eq!(request[68..72], [0, 2, 0, 0]);
        assert_eq!(request[164..], [0x5A; 512]);
        let (_, buffer) = linux(&format!("linux {line}"));
        assert_eq!(buffer[20..], request[28..]);
    }

    #[test]
    fn damaged_requests_and_the_tail() {
        let text = "get-phy-info header-length=27 buffer=30\nraw 01 02*2\nraw\nrequest control=99 body=0A\ntail 0102";
        let session = program(text).unwrap();
        let cut = split(&session);
        let buffer = |i: usize| cut.requests[i].buffer;
        assert_eq!(buffer(0).len(), 30);
        assert_eq!(buffer(0)[0], 27);
        assert_eq!(buffer(0)[24..28], 2052u32.to_le_bytes());
        assert_eq!([buffer(1), buffer(2)], [&[1, 2, 2][..], &[]]);
        assert_eq!(buffer(3)[16..], [99, 0, 0, 0, 0, 0, 0, 0, 1, 0, 0, 0, 10]);
        assert_eq!(cut.tail, [1, 2]);
        assert_eq!(both("raw\nlinux tail 0102").unwrap()[12..], [1, 2]);
    }

    #[test]
    fn faults_name_line_and_reason() {
        let fault = |text: &str| program(text).unwrap_err().to_string();
        assert_eq!(
            fault("get-phy-info\nget-phys"),
            "line 2: 'get-phys' is no request"
        );
        assert_eq!(
            fault("set-phy-info phy=256"),
            "line 1: phy: 256 is over 255"
        );
        assert_eq!(
            fault("get-phy-info phy=1"),
            "line 1: get-phy-info has no field 'phy'"
        );
        assert_eq!(fault("raw 0g"), "line 1: '0g' is not bytes in hexadecimal");
        assert_eq!(fault("tail 00\nraw 00"), "line 2: a line behind the tail");
        assert_eq!(
            fault("raw 00*32769"),
            "line 1: a request of 32769 bytes, over 32768"
        );
        assert_eq!(
            fault("raw\nget-phy-info buffer=32769"),
            "line 2: buffer: 32769 is over 32768"
        );
        assert_eq!(fault("raw a=1"), "line 1: raw has no field 'a'");
        assert_eq!(
            fault("get-phy-info signature=\"CSMISAS89\""),
            "line 1: signature: the text has more than 8 bytes"
        );
        for line in ["linux get-phy-info", "linux tail 01", "linux"] {
            assert_eq!(
                fault(&format!("get-phy-info\n{line}")),
                format!("line 2: {FIRST_ALONE}")
            );
        }
    }

    #[test]
    fn faults_of_linux_requests() {
        let fault = |text: &str| both(text).unwrap_err().to_string();
        assert_eq!(fault("linux"), "line 1: linux needs the name of a request");
        assert_eq!(fault("linux get-phys"), "line 1: 'get-phys' is no request");
        assert_eq!(
            fault("linux get-phy-info signature=\"CSMISAS\""),
            "line 1: linux get-phy-info has no field 'signature'"
        );
        assert_eq!(
            fault("linux get-phy-info direction=65536"),
            "line 1: direction: 65536 is over 65535"
        );
        assert_eq!(
            fault("linux raw control=4294967296"),
            "line 1: control: 4294967296 is over 4294967295"
        );
        assert_eq!(
            fault("linux raw control=1 direction=1"),
            "line 1: linux raw has no field 'direction'"
        );
        assert_eq!(
            fault("linux get-phy-info ignored=00"),
            "line 1: ignored: 1 bytes, not 2"
        );
        assert_eq!(
            fault("linux linux get-phy-info"),
            "line 1: 'linux' is no request"
        );
        assert_eq!(fault("linux tail\nraw"), "line 2: a line behind the tail");
    }
}
