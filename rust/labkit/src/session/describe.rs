//! The description of a session. It makes the same bytes again, whatever they are: a request that its named fields do not say is
//! given as `raw`.

use super::firmware;
use super::form::LINUX;
use super::layout::{layout, FIRMWARE_DOWNLOAD, STP_PASSTHRU};
use super::request::{body, UNNAMED};
use super::{Form, Header, Request, Session};
use crate::field::differences;
use crate::names;
use crate::value::{show_bytes, show_code, MOST_BYTES};

/// The description of a session.
pub fn describe(session: &Session) -> String {
    let mut text = String::new();
    for request in &session.requests {
        text.push_str(&describe_request(request));
        text.push('\n');
    }
    if !session.tail.is_empty() {
        let linux = said_by_the_tail(session).then_some(LINUX);
        let tail = words("tail", session.tail);
        text.extend(linux.map(|word| format!("{word} ")));
        text.push_str(&format!("{tail}\n"));
    }
    text
}

/// The tail alone can say that the session is one of both headers, where no request does.
fn said_by_the_tail(session: &Session) -> bool {
    session.form == Form::Both && session.linux() == 0
}

/// The line of one request.
pub fn describe_request(request: &Request) -> String {
    match by_fields(request) {
        Some(line) if makes(&line, request) => line,
        _ => words(&first_words("raw", request.header, 0), request.buffer),
    }
}

/// Words, and bytes behind them; a word has not more than can be read again.
fn words(first: &str, bytes: &[u8]) -> String {
    let bytes = bytes.chunks(MOST_BYTES).map(show_bytes);
    let all: Vec<String> = std::iter::once(first.to_string()).chain(bytes).collect();
    all.join(" ")
}

/// The name; of a Linux request with the control code beside it, if that is another than the name says.
fn first_words(name: &str, header: Header, named: u32) -> String {
    match header {
        Header::Srb => name.to_string(),
        Header::Linux { control } if control == named => format!("{LINUX} {name}"),
        Header::Linux { control } => format!("{LINUX} {name} control={}", show_code(control)),
    }
}

fn makes(line: &str, request: &Request) -> bool {
    let made = Form::Both.parse(line);
    made.is_ok_and(|session| Form::Both.split(&session).requests == [*request])
}

/// How a body is described.
pub struct Described {
    /// A word behind the name.
    pub first: Option<&'static str>,
    /// The body of the line if no field is named.
    pub sound: Vec<u8>,
    /// The words behind the fields.
    pub data: Vec<String>,
}

/// The description of a body that has its whole structure.
fn described(control: u32, given: &[u8]) -> Described {
    let layout = layout(control);
    let data = &given[layout.size..];
    let (sound, data) = match control {
        FIRMWARE_DOWNLOAD => return firmware::described(given),
        STP_PASSTHRU => (body(control, data), word("data", data)),
        _ if !layout.fields.is_empty() => (body(control, &[]), None),
        _ => {
            let zeros = data.is_empty() && given.iter().all(|b| *b == 0);
            (given.to_vec(), word("body", given).filter(|_| !zeros))
        }
    };
    Described {
        first: None,
        sound,
        data: Vec::from_iter(data),
    }
}

/// A word that gives bytes, if there are any.
pub fn word(name: &str, bytes: &[u8]) -> Option<String> {
    (!bytes.is_empty()).then(|| format!("{name}={}", show_bytes(bytes)))
}

/// The line by name and fields; a buffer that is cut is shown as if zeros followed.
fn by_fields(request: &Request) -> Option<String> {
    let Request { header, buffer } = *request;
    let control = request.control()?;
    let layout = layout(control);
    let named = names::control_name(control);
    let mut given = request.body()?.to_vec();
    given.resize(given.len().max(layout.size), 0);
    let Described { first, sound, data } = described(control, &given);
    let code = named.map_or(0, |_| control);
    let mut words = vec![first_words(named.unwrap_or(UNNAMED), header, code)];
    words.extend(first.map(str::to_string));
    words.extend(differences(
        buffer,
        &header.sound(code, &given[..sound.len()]),
        header.fields(),
    ));
    words.extend(differences(&given, &sound, layout.fields));
    words.extend(data);
    if buffer.len() != header.size() + sound.len() {
        words.push(format!("buffer={}", buffer.len()));
    }
    Some(words.join(" "))
}

#[cfg(test)]
mod tests {
    use super::*;

    fn round(form: Form, session: &[u8]) -> String {
        let text = form.describe(session);
        assert_eq!(form.parse(&text).unwrap(), session, "{text}");
        text
    }

    fn comes_back(form: Form, text: &str) {
        assert_eq!(round(form, &form.parse(text).unwrap()), text);
    }

    /// Every byte altered, and every cut.
    fn every_byte_comes_back(form: Form, text: &str) {
        let whole = form.parse(text).unwrap();
        for at in 0..whole.len() {
            let mut session = whole.clone();
            session[at] ^= 0x11;
            round(form, &session);
        }
        for end in 0..whole.len() {
            round(form, &whole[..end]);
        }
    }

    /// The line of a buffer, which makes it again.
    fn line(header: Header, buffer: &[u8]) -> String {
        let request = Request { header, buffer };
        let line = describe_request(&request);
        assert!(makes(&line, &request), "{line}");
        line
    }

    const TEXT: &str = "\
get-driver-info
get-phy-info length=2051
set-phy-info phy=1 minimum=8 maximum=9 class=2
get-link-errors phy=1 reset=1
stp-passthru phy=01h destination=5000C50000000001 command=30h lba=15 count=1 data=5A*512
stp-passthru phy=FFh port=00h command=ECh device=0 data-length=512
get-sata-signature phy=3 buffer=30
get-scsi-address address=5000C50000000001 lun=0100000000000000
get-device-address host=1 target=3
get-cntlr-config slot=unknown class=hba bus=pci serial=\"L4\" flags=sas-hba+fwd-rrom reserved=01020304050607
get-cntlr-status status=offline offline-reason=255 reserved=FF*28
get-connector-info references=01*1152
phy-control
firmware-download commit
firmware-download commit buffer-length=255 flags=soft-reset+80000000h status=reject severity=fatal
firmware-download flags=validate
firmware-download validate
firmware-download validate major=2 minor=1 build=65535 release=7 blocks=32 fill=5Ah
firmware-download validate length=1067 buffer-length=512 flags=validate+hard-reset blocks=2 damage=0+1
firmware-download validate flags=0 reserved=01*32 major=1
firmware-download flags=validate data=5A*700
request control=99
request control=99 body=00*9
request signature=\"CSMIALL\" control=99 length=7 body=0102
raw 010203
raw
";

    const LINUX_TEXT: &str = "\
linux get-driver-info
linux get-phy-info controller=3 length=2052 return-code=77 timeout=0
linux set-phy-info direction=0 phy=1
linux get-link-errors direction=2 ignored=0102 phy=1 reset=1
linux stp-passthru phy=01h destination=5000C50000000001 command=30h lba=15 count=1 data=5A*512
linux stp-passthru direction=1 phy=01h command=20h count=1 data=00*512
linux get-sata-signature phy=3 buffer=22
linux get-cntlr-config return-code=1 bus=pcmcia
linux get-cntlr-status status=good
linux get-connector-info references=00*1151+FF
linux firmware-download commit
linux firmware-download commit direction=0 buffer-length=255
linux firmware-download validate major=2 blocks=2 fill=5Ah damage=1
linux firmware-download flags=validate data=00*513
linux request
linux request control=99
linux request control=CC770014h body=00*2052
linux raw control=22 010203
linux raw control=CC770016h
linux raw
";

    #[test]
    fn a_description_and_back() {
        comes_back(Form::Program, &format!("{TEXT}tail 050000\n"));
        comes_back(Form::Both, &format!("{TEXT}linux tail 050000\n"));
        comes_back(Form::Both, &format!("{TEXT}{LINUX_TEXT}tail 050000\n"));
    }

    #[test]
    fn every_byte_of_a_request_comes_back() {
        let names = [
            "get-driver-info",
            "get-cntlr-config",
            "get-cntlr-status",
            "get-connector-info",
            "get-phy-info",
            "set-phy-info",
            "get-link-errors",
            "get-sata-signature",
            "get-scsi-address",
            "get-device-address",
            "stp-passthru data=00*3",
            "firmware-download commit",
            "firmware-download validate major=1 fill=5Ah",
            "firmware-download data=00*3",
            "get-raid-info",
        ];
        for name in names {
            every_byte_comes_back(Form::Program, &format!("{name}\nset-phy-info\n"));
            every_byte_comes_back(Form::Both, &format!("set-phy-info\nlinux {name}\n"));
        }
    }

    #[test]
    fn cut_and_extended_buffers_come_back() {
        for word in ["", "linux "] {
            let buffer_of = |text: &str| {
                let session = Form::Both.parse(&format!("{word}{text}")).unwrap();
                let request = Form::Both.split(&session).requests[0];
                (request.header, request.buffer.to_vec())
            };
            let (header, whole) = buffer_of("stp-passthru command=30h data=01*9");
            for end in 0..whole.len() {
                line(header, &whole[..end]);
            }
            let (header, mut long) = buffer_of("get-link-errors");
            long.extend([0; 5]);
            let buffer = long.len();
            let extended = format!("{word}get-link-errors buffer={buffer}");
            assert_eq!(line(header, &long), extended);
            long[buffer - 1] = 1;
            assert!(line(header, &long).starts_with(&format!("{word}raw ")));
        }
    }

    /// The control code beside a Linux header, whatever it is.
    #[test]
    fn every_control_code_comes_back() {
        for control in (0..=256).chain([0xFFFF, 0x1_0000, 0xCC77_0014, u32::MAX]) {
            for length in [0, 19, 20, 40, 60] {
                line(Header::Linux { control }, &vec![1; length]);
            }
        }
    }

    /// A session of both headers holds requests of any length; a word holds not more than a mebibyte.
    #[test]
    fn long_requests_come_back() {
        let long: Vec<u8> = (0..=MOST_BYTES).map(|i| i as u8 & 0x7F).collect();
        line(Header::Srb, &long[..32_769]);
        line(Header::Linux { control: 25 }, &long);
        round(Form::Both, &[&2u32.to_le_bytes()[..], &long].concat());
    }
}
