//! The lab kit's commands. Faults go to standard error in one line, with status 1; bad use has status 2.

use labkit::report::{self, Transcript};
use labkit::session::{Form, Header, Request};
use labkit::text::one_line;
use labkit::{adapter, names, value};
use std::env;
use std::fs::{self, File};
use std::io::{ErrorKind, Write};
use std::path::Path;
use std::process::ExitCode;

const USAGE: &str = "\
labkit adapter TEXT FILE        makes an adapter file from its description, for the program, which takes up to 7 phys
labkit adapter --library TEXT FILE
                                the same for the library and ./lab, which take 32
labkit adapter-text FILE TEXT   describes an adapter file
labkit upgrade OLD NEW          makes an adapter file from one of the layout that ended behind the rows; overwrites nothing
labkit session TEXT FILE        makes a session from its description
labkit session-text FILE TEXT   describes a session
labkit reply REQUEST REPLY      shows a reply in words; both files hold a buffer in hexadecimal
labkit reply REQUESTS REPLIES N shows reply N of files that './lab --replies FOLDER' writes
labkit compare SESSION LOW HIGH shows the return codes that the program printed in two runs side by side, and their totals

Of sessions whose requests have either header, as session.both has them:
labkit session --both TEXT FILE
labkit session-text --both FILE TEXT
labkit reply --both REQUESTS REPLIES N
labkit reply --linux CODE REQUEST REPLY
                                the reply to a Linux request with that control code, a number or a name

'-' for the last file of adapter, adapter-text, upgrade, session and session-text writes to standard output
";

fn main() -> ExitCode {
    let words: Option<Vec<String>> = env::args_os()
        .skip(1)
        .map(|word| word.into_string().ok())
        .collect();
    let Some(words) = words else {
        say("a file's name is not UTF-8; give it another");
        return ExitCode::from(2);
    };
    let words: Vec<&str> = words.iter().map(String::as_str).collect();
    let done = match words[..] {
        ["adapter", "--library", from, to] => make_adapter(from, to, adapter::MOST_PHYS),
        ["adapter", from, to] => make_adapter(from, to, adapter::PROGRAM_PHYS),
        ["upgrade", from, to] => upgrade(from, to),
        ["session", "--both", from, to] => make(from, to, Form::Both),
        ["session", from, to] => make(from, to, Form::Program),
        ["adapter-text", from, to] => show(from, to, adapter::describe),
        ["session-text", "--both", from, to] => show_session(from, to, Form::Both),
        ["session-text", from, to] => show_session(from, to, Form::Program),
        ["compare", session, low, high] => compare(session, low, high),
        ["reply", "--linux", code, request, reply] => show_linux_reply(code, request, reply),
        ["reply", "--both", requests, replies, number] => {
            show_numbered(Form::Both, requests, replies, number)
        }
        ["reply", request, reply] => show_reply(Header::Srb, request, reply),
        ["reply", requests, replies, number] => {
            show_numbered(Form::Program, requests, replies, number)
        }
        ["help" | "--help" | "-h"] => write("-", USAGE.as_bytes()),
        _ => {
            say("no such command; 'labkit help' lists them");
            return ExitCode::from(2);
        }
    };
    match done {
        Ok(()) => ExitCode::SUCCESS,
        Err(reason) => {
            say(&reason);
            ExitCode::FAILURE
        }
    }
}

/// A line on standard error, if that takes it.
fn say(line: &str) {
    let _ = writeln!(std::io::stderr(), "labkit: {}", one_line(line));
}

/// Makes an adapter file of at most so many phys, and warns of what makes real consoles behave oddly.
fn make_adapter(from: &str, to: &str, most: usize) -> Result<(), String> {
    let file = adapter::parse(&text(from)?).map_err(|fault| format!("{from}: {fault}"))?;
    let phys = file.first().map_or(0, |count| usize::from(*count));
    if most == adapter::PROGRAM_PHYS && phys > most {
        return Err(format!(
            "{from}: {phys} phys, and the program takes up to {most} (it prints open 104); the library takes 32: labkit adapter --library"
        ));
    }
    for line in adapter::warnings(&file, |_| false) {
        say(&format!("warning: {from}: {line}"));
    }
    write(to, &file)
}

/// Makes an adapter file of the present layout from one of the old, in a file that was not there before.
fn upgrade(from: &str, to: &str) -> Result<(), String> {
    let file = adapter::upgrade(&read(from)?).map_err(|reason| format!("{from}: {reason}"))?;
    if to == "-" {
        return write(to, &file);
    }
    let mut new = match File::create_new(to) {
        Err(error) if error.kind() == ErrorKind::AlreadyExists => {
            return Err(format!("{to} is there already, and nothing is overwritten"))
        }
        made => made.map_err(|error| format!("{to}: {error}"))?,
    };
    new.write_all(&file).map_err(|error| {
        // the next try would refuse a part of it
        let _ = fs::remove_file(to);
        format!("{to}: {error}")
    })
}

/// Makes a session from its description, whose images stand in its folder.
fn make(from: &str, to: &str, form: Form) -> Result<(), String> {
    let folder = Path::new(from).parent().unwrap_or(Path::new(""));
    let bytes = form
        .parse_in(folder, &text(from)?)
        .map_err(|fault| format!("{from}: {fault}"))?;
    write(to, &bytes)
}

fn show_session(from: &str, to: &str, form: Form) -> Result<(), String> {
    show(from, to, |bytes| Ok(form.describe(bytes)))
}

/// Makes a description from bytes.
fn show(
    from: &str,
    to: &str,
    describe: impl Fn(&[u8]) -> Result<String, String>,
) -> Result<(), String> {
    let text = describe(&read(from)?).map_err(|reason| format!("{from}: {reason}"))?;
    write(to, text.as_bytes())
}

fn compare(session: &str, low: &str, high: &str) -> Result<(), String> {
    for from in [session, low, high] {
        of_the_program(from)?;
    }
    let run =
        |from: &str| Transcript::parse(&text(from)?).map_err(|fault| format!("{from}: {fault}"));
    let compared = report::compare(&read(session)?, &run(low)?, &run(high)?)?;
    write("-", compared.table().as_bytes())
}

/// Refuses what `./lab --replies` writes of a session with Linux requests.
fn of_the_program(from: &str) -> Result<(), String> {
    match from.ends_with(".both") {
        true => Err(format!(
            "{from}: of both headers, and the program, whose codes are compared, has the first alone; Linux requests run as Full, so their codes show no need: ./lab gives the mark"
        )),
        false => Ok(()),
    }
}

fn show_reply(header: Header, request: &str, reply: &str) -> Result<(), String> {
    let words = report::reply(header, &buffer(request)?, &buffer(reply)?)?;
    write("-", words.as_bytes())
}

fn show_linux_reply(code: &str, request: &str, reply: &str) -> Result<(), String> {
    let control = match names::control_code(code) {
        Some(control) => control,
        None => value::number(code, u64::from(u32::MAX))? as u32,
    };
    show_reply(Header::Linux { control }, request, reply)
}

/// One request and its reply, of files in the form of a session.
fn show_numbered(form: Form, requests: &str, replies: &str, number: &str) -> Result<(), String> {
    let number = value::number(number, u64::from(u32::MAX))? as usize;
    let (sent, got) = (read(requests)?, read(replies)?);
    let sent = find(form, requests, &sent, number)?;
    let got = find(form, replies, &got, number)?;
    let words = report::reply(sent.header, sent.buffer, got.buffer)?;
    write("-", words.as_bytes())
}

/// Request n of a session.
fn find<'a>(
    form: Form,
    from: &str,
    session: &'a [u8],
    number: usize,
) -> Result<Request<'a>, String> {
    let found = form.split(session).requests;
    let request = number.checked_sub(1).and_then(|i| found.get(i));
    let count = found.len();
    request
        .copied()
        .ok_or_else(|| format!("{from} has requests 1 to {count}, and no {number}"))
}

/// A buffer in hexadecimal, blanks between its bytes or not.
fn buffer(from: &str) -> Result<Vec<u8>, String> {
    let parts = text(from)?
        .split_whitespace()
        .map(value::bytes)
        .collect::<Result<Vec<_>, _>>();
    parts
        .map(|parts| parts.concat())
        .map_err(|reason| format!("{from}: {reason}"))
}

fn read(from: &str) -> Result<Vec<u8>, String> {
    fs::read(from).map_err(|error| format!("{from}: {error}"))
}

fn text(from: &str) -> Result<String, String> {
    String::from_utf8(read(from)?)
        .map_err(|_| format!("{from}: not a text in UTF-8; save it as one"))
}

fn write(to: &str, bytes: &[u8]) -> Result<(), String> {
    let written = match to {
        "-" => std::io::stdout().write_all(bytes),
        _ => fs::write(to, bytes),
    };
    match written {
        // a reader that has seen enough, as `head` has
        Err(error) if error.kind() == ErrorKind::BrokenPipe => Ok(()),
        written => written.map_err(|error| format!("{to}: {error}")),
    }
}
