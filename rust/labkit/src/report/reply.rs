//! A reply in words: the return code, the fields of its structure, and which of them the reply changed.

use crate::adapter::{connector_words, entity_words, CONNECTOR_BYTES, ENTITY_BYTES, MOST_PHYS};
use crate::field::Field;
use crate::names;
use crate::session::{
    image_words, layout, split_image, Header, DOWNLOAD_SEVERITY, DOWNLOAD_STATUS,
    FIRMWARE_DOWNLOAD, STP_PASSTHRU,
};
use crate::value::{show_bytes, show_code};

/// The reply to a request of that header in words, or why the two do not fit.
pub fn reply(header: Header, request: &[u8], reply: &[u8]) -> Result<String, String> {
    if request.len() != reply.len() {
        let (sent, got) = (request.len(), reply.len());
        return Err(format!("the request has {sent} bytes, the reply {got}"));
    }
    let Some(control) = header.control(reply) else {
        return Ok("no header, so no return code\n".to_string());
    };
    let code = header.return_code().get(reply);
    let mut text = format!(
        "{}: {}\n",
        title(header, control),
        names::return_words(code)
    );
    let layout = layout(control);
    let (sent, got) = (&request[header.size()..], &reply[header.size()..]);
    if got.len() < layout.size || layout.fields.is_empty() {
        text.push_str(match sent == got {
            true => "the body is as sent\n",
            false => "the body is not as sent\n",
        });
        return Ok(text);
    }
    text.push_str("* marks what the reply changed\n");
    for field in layout.fields {
        text.push_str(&shown(field, sent, got, code == 0));
    }
    let (before, data) = (&sent[layout.size..], &got[layout.size..]);
    text.push_str(&match control {
        STP_PASSTHRU => row("data", &show_bytes(data), before != data),
        FIRMWARE_DOWNLOAD => download(before, got),
        _ => String::new(),
    });
    Ok(text)
}

/// What stands behind the structure of a code 4, where that was these bytes: its image, and bytes that are none.
fn download(before: &[u8], got: &[u8]) -> String {
    let (image, rest) = split_image(got);
    let (image_before, rest_before) = before.split_at(image.len());
    let mut text = String::new();
    if !image.is_empty() {
        text.push_str(&row("image", &image_words(image), image_before != image));
    }
    if !rest.is_empty() {
        text.push_str(&row("data", &show_bytes(rest), rest_before != rest));
    }
    text
}

/// The request's name and control code.
fn title(header: Header, control: u32) -> String {
    let name = names::control_name(control).unwrap_or("unknown control code");
    match header {
        Header::Srb => format!("{name} ({control})"),
        Header::Linux { .. } => format!("linux {name} ({})", show_code(control)),
    }
}

/// The line of one field; of the entities of code 20 and the references of code 30 a line for each phy.
fn shown(field: &Field, sent: &[u8], got: &[u8], success: bool) -> String {
    let [before, part] = [sent, got].map(|body| &body[field.at..field.at + field.size]);
    match field.name {
        "entities" => phys(before, part, ENTITY_BYTES, got[0].into(), entity_words),
        "references" if success => {
            let count = filled(part);
            let behind = count * CONNECTOR_BYTES;
            let rest = match count {
                MOST_PHYS => String::new(),
                _ => row(
                    &others(count),
                    "00*36 each",
                    before[behind..] != part[behind..],
                ),
            };
            phys(before, part, CONNECTOR_BYTES, count, connector_words) + &rest
        }
        _ if success => row(field.name, &meaning(field, got), before != part),
        // a refusal leaves them, so that their names would say what is not so
        _ if [DOWNLOAD_STATUS, DOWNLOAD_SEVERITY].contains(field) && before == part => {
            row(field.name, &format!("{}, as sent", field.get(got)), false)
        }
        _ => row(field.name, &field.show(got), before != part),
    }
}

/// A line for each of the first phys in a list of structures of that size.
fn phys(sent: &[u8], got: &[u8], size: usize, count: usize, words: fn(&[u8]) -> String) -> String {
    let each = sent.chunks(size).zip(got.chunks(size)).take(count);
    let line = |(n, (before, phy)): (usize, (&[u8], &[u8]))| {
        row(&format!("phy {n}"), &words(phy), before != phy)
    };
    each.enumerate().map(line).collect()
}

/// How many references there are up to the last that is not zero. A reply of code 30 does not count the phys.
fn filled(references: &[u8]) -> usize {
    let last = references.iter().rposition(|b| *b != 0);
    last.map_or(0, |at| at / CONNECTOR_BYTES + 1)
}

/// The references from a number on.
fn others(first: usize) -> String {
    const LAST: usize = MOST_PHYS - 1;
    match first {
        LAST => format!("phy {LAST}"),
        first => format!("phys {first} to {LAST}"),
    }
}

/// A field's value, with words for the connection and the status FIS of a code 25, and for numbers that have names.
fn meaning(field: &Field, got: &[u8]) -> String {
    let shown = field.words(got);
    let part = &got[field.at..];
    let words = match (field.name, part) {
        ("connection", [0, ..]) => Some("open accept"),
        ("status-fis", [_, _, status, error, ..]) => names::ata_meaning(*status, *error),
        _ => None,
    };
    match words {
        Some(words) => format!("{shown} ({words})"),
        None => shown,
    }
}

fn row(name: &str, value: &str, changed: bool) -> String {
    let mark = if changed { '*' } else { ' ' };
    format!("{mark} {name:<18} {value}\n")
}

#[cfg(test)]
mod tests;
