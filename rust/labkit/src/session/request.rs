//! One request made from its line.

use super::firmware;
use super::layout::{layout, DATA_LENGTH, FIRMWARE_DOWNLOAD, STP_PASSTHRU};
use super::parse::Source;
use super::Header;
use crate::field::fill;
use crate::names;
use crate::text::{Line, Word};
use crate::value;
use crate::Fault;

/// The name of a request whose control code has no name.
pub const UNNAMED: &str = "request";

/// The body of a request with no field named: zeros, and of code 25 a command FIS that is sound and for any port.
pub fn body(control: u32, data: &[u8]) -> Vec<u8> {
    let mut body = vec![0; layout(control).size];
    if control == STP_PASSTHRU {
        body[1] = 0xFF;
        body[16] = 0x27;
        body[17] = 0x80;
        body[23] = 0x40;
        body[DATA_LENGTH.at..][..4].copy_from_slice(&(data.len() as u32).to_le_bytes());
        body.extend(data);
    }
    body
}

/// The header and the bytes of a request that a line describes by its name and fields.
pub fn from_line(
    source: Source,
    name: &str,
    linux: bool,
    line: &mut Line,
) -> Result<(Header, Vec<u8>), Fault> {
    let control = match name {
        UNNAMED => 0,
        name => names::control_code(name)
            .ok_or_else(|| Fault::new(line.number, format!("'{name}' is no request")))?,
    };
    let mut body = body_from_line(source, control, line)?;
    let header = header(linux, control, line)?;
    let mut buffer = header.sound(control, &body);
    fill(&mut buffer, header.fields(), line)?;
    buffer.append(&mut body);
    if let Some(word) = line.take("buffer")? {
        buffer.resize(number(&word, source.form.most() as u64)? as usize, 0);
    }
    Ok((header, buffer))
}

/// The kind of header. The control code beside a Linux one is the name's, or what `control` says.
pub fn header(linux: bool, control: u32, line: &mut Line) -> Result<Header, Fault> {
    if !linux {
        return Ok(Header::Srb);
    }
    let control = match line.take("control")? {
        Some(word) => number(&word, u64::from(u32::MAX))? as u32,
        None => control,
    };
    Ok(Header::Linux { control })
}

fn body_from_line(source: Source, control: u32, line: &mut Line) -> Result<Vec<u8>, Fault> {
    let layout = layout(control);
    let mut whole = match control {
        FIRMWARE_DOWNLOAD => firmware::from_line(line, source.folder)?,
        STP_PASSTHRU => body(control, &taken(line, "data")?),
        _ => body(control, &[]),
    };
    if layout.fields.is_empty() {
        let given = taken(line, "body")?;
        whole.resize(whole.len().max(given.len()), 0);
        whole[..given.len()].copy_from_slice(&given);
    }
    fill(&mut whole, layout.fields, line)?;
    Ok(whole)
}

/// The bytes that a word of the line gives, or none.
fn taken(line: &mut Line, key: &str) -> Result<Vec<u8>, Fault> {
    match line.take(key)? {
        Some(word) => bytes(&word),
        None => Ok(Vec::new()),
    }
}

/// The bytes of a word in hexadecimal.
pub fn bytes(word: &Word) -> Result<Vec<u8>, Fault> {
    if word.quoted {
        return Err(word.fault("takes no quoted text"));
    }
    value::bytes(&word.value).map_err(|reason| word.fault(reason))
}

/// The number of a word.
pub fn number(word: &Word, most: u64) -> Result<u64, Fault> {
    value::number(&word.value, most).map_err(|reason| word.fault(reason))
}
