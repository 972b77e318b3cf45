//! Where the replies to one request differ, with each run's value: the header's fields, those of the structure by name, the data,
//! and what no field names.

use crate::adapter::{phy_value, CONNECTOR, CONNECTOR_BYTES, ENTITY_BYTES, PHY};
use crate::field::{Field, Kind};
use crate::session::{layout, Header, FIRMWARE_DOWNLOAD, STP_PASSTHRU};
use crate::value::show_bytes;

/// A part in which runs differ, and its value in each.
#[derive(Debug, Clone, PartialEq, Eq)]
pub struct Difference {
    pub what: String,
    pub values: Vec<String>,
}

impl Difference {
    /// Whether the values are not all the same.
    pub fn values_differ(&self) -> bool {
        self.values.windows(2).any(|pair| pair[0] != pair[1])
    }
}

/// Values longer than this are shown from the first byte that differs.
const WIDEST: usize = 40;
/// How many bytes are shown of them.
const EXCERPT: usize = 8;

/// The differences of replies of one length to one request of that header; none if they are the same bytes. Each reply is compared with
/// the one that `like` names for it, all with the first if that is all zeros. From so many on they are counted and not shown.
pub fn differences(
    header: Header,
    replies: &[&[u8]],
    like: &[usize],
    most: usize,
) -> Vec<Difference> {
    let mut finder = Finder {
        like,
        most,
        found: Vec::new(),
        more: 0,
    };
    finder.reply(header, replies);
    finder.end(replies.len())
}

struct Finder<'a> {
    like: &'a [usize],
    most: usize,
    found: Vec<Difference>,
    more: usize,
}

impl Finder<'_> {
    fn reply(&mut self, header: Header, replies: &[&[u8]]) {
        let Some(control) = replies.first().and_then(|reply| header.control(reply)) else {
            return self.bytes("buffer", replies);
        };
        let layout = layout(control);
        self.fields("", header.fields(), &parts(replies, 0, header.size()));
        let bodies = parts(replies, header.size(), replies[0].len());
        if layout.fields.is_empty() || bodies[0].len() < layout.size {
            return self.bytes("body", &bodies);
        }
        for field in layout.fields {
            match field.name {
                "entities" => {
                    self.phys(&field_parts(field, &bodies), ENTITY_BYTES, entity_fields())
                }
                "references" => {
                    self.phys(&field_parts(field, &bodies), CONNECTOR_BYTES, &CONNECTOR)
                }
                _ => self.fields("", std::slice::from_ref(field), &bodies),
            }
        }
        let rest = match control {
            STP_PASSTHRU => "data",
            FIRMWARE_DOWNLOAD => "image",
            _ => "bytes behind the structure",
        };
        self.bytes(rest, &parts(&bodies, layout.size, bodies[0].len()));
    }

    /// The fields of a table.
    fn fields(&mut self, prefix: &str, table: &[Field], structures: &[&[u8]]) {
        for field in table {
            let strings = field_parts(field, structures);
            let differ = match field.kind {
                Kind::Bytes | Kind::Text => self.differ(|run| strings[run]),
                _ => self.differ(|run| field.get(structures[run])),
            };
            if !differ {
                continue;
            }
            let what = || format!("{prefix}{}", field.name);
            let values = || structures.iter().map(|s| phy_value(field, s)).collect();
            match field.kind {
                Kind::Bytes => self.keep(|like| bytes_difference(&what(), &strings, like)),
                _ => self.keep(|_| Difference {
                    what: what(),
                    values: values(),
                }),
            }
        }
    }

    /// The fields of each phy, in lists of structures of that size: entities of a code 20, references of a code 30.
    fn phys(&mut self, lists: &[&[u8]], size: usize, table: &[Field]) {
        for n in 0..lists[0].len() / size {
            let phys = parts(lists, n * size, (n + 1) * size);
            if self.differ(|run| phys[run]) {
                self.fields(&format!("phy {n} "), table, &phys);
            }
        }
    }

    fn bytes(&mut self, name: &str, strings: &[&[u8]]) {
        if self.differ(|run| strings[run]) {
            self.keep(|like| bytes_difference(name, strings, like));
        }
    }

    fn differ<T: PartialEq>(&self, value: impl Fn(usize) -> T) -> bool {
        let mut runs = self.like.iter().enumerate();
        runs.any(|(run, first)| value(run) != value(*first))
    }

    fn keep(&mut self, make: impl Fn(&[usize]) -> Difference) {
        match self.found.len() < self.most {
            true => self.found.push(make(self.like)),
            false => self.more += 1,
        }
    }

    fn end(mut self, runs: usize) -> Vec<Difference> {
        if self.more > 0 {
            self.found.push(Difference {
                what: format!("and {} more", self.more),
                values: vec![String::new(); runs],
            });
        }
        self.found
    }
}

/// The fields of an entity.
fn entity_fields() -> &'static [Field] {
    let count = PHY.partition_point(|field| field.at + field.size <= ENTITY_BYTES);
    &PHY[..count]
}

/// A difference of values that a function shows.
pub fn values_differ(
    what: String,
    structures: &[&[u8]],
    show: impl Fn(&[u8]) -> String,
) -> Option<Difference> {
    let values = structures.iter().map(|s| show(s)).collect();
    let found = Difference { what, values };
    found.values_differ().then_some(found)
}

/// A difference of byte strings.
pub fn bytes_differ(name: &str, strings: &[&[u8]]) -> Option<Difference> {
    let differ = strings.windows(2).any(|pair| pair[0] != pair[1]);
    differ.then(|| bytes_difference(name, strings, &vec![0; strings.len()]))
}

/// Byte strings that differ. Long ones are shown from the first byte in which one differs from that which `like` names for it.
fn bytes_difference(name: &str, strings: &[&[u8]], like: &[usize]) -> Difference {
    let length = strings.iter().map(|s| s.len()).max().unwrap_or(0);
    let pairs = || strings.iter().zip(like);
    let differs = |at: usize| pairs().any(|(s, first)| s.get(at) != strings[*first].get(at));
    let first = (0..length).find(|at| differs(*at)).unwrap_or(0);
    let count = (first..length).filter(|at| differs(*at)).count();
    let whole: Vec<String> = strings.iter().map(|s| show_bytes(s)).collect();
    let values = match whole.iter().all(|value| value.len() <= WIDEST) {
        true => whole,
        false => strings.iter().map(|s| excerpt(s, first)).collect(),
    };
    let what = match count {
        1 => format!("{name}, 1 byte"),
        many => format!("{name}, {many} bytes"),
    };
    Difference { what, values }
}

/// Some bytes of a string from a place on: `at 17: 5A5A5A5A..`.
fn excerpt(bytes: &[u8], at: usize) -> String {
    let end = bytes.len().min(at + EXCERPT);
    let part = bytes.get(at..end).unwrap_or(&[]);
    let shown: String = part.iter().map(|b| format!("{b:02X}")).collect();
    let more = if end < bytes.len() { ".." } else { "" };
    format!("at {at}: {shown}{more}")
}

fn field_parts<'a>(field: &Field, structures: &[&'a [u8]]) -> Vec<&'a [u8]> {
    parts(structures, field.at, field.at + field.size)
}

fn parts<'a>(strings: &[&'a [u8]], from: usize, to: usize) -> Vec<&'a [u8]> {
    let part = |s: &&'a [u8]| s.get(from..to).unwrap_or(&[]);
    strings.iter().map(part).collect()
}

#[cfg(test)]
mod tests;
