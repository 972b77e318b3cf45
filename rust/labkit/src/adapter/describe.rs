//! The description of an adapter file. It makes the same bytes again, whatever they are: what the named fields do not say stands in
//! `byte`, `length` and `damage` lines.

use super::fields::{CONNECTOR, CONTROLLER, DRIVER, ROW, STATUS};
use super::{
    connector_at, controller_at, front, parse, phy, row_at, status_at, BLOCK, CHECK_AT, DRIVER_AT,
    DRIVER_BYTES, MOST_PHYS, MOST_ROWS, ROW_BYTES,
};
use crate::field::{differences, Field};
use crate::value::MOST_BYTES;

/// The most columns of a line; a longer one goes on in the next.
const COLUMNS: usize = 110;

/// The description of a file, or why it has none.
pub fn describe(file: &[u8]) -> Result<String, String> {
    if file.len() > MOST_BYTES {
        return Err(format!("the file has more than {MOST_BYTES} bytes"));
    }
    let mut text = named(file);
    let made = remade(&text)?;
    for at in 0..made.len().min(file.len()) {
        if at % BLOCK < CHECK_AT && made[at] != file[at] {
            text.push_str(&place("byte", at, file[at]));
        }
    }
    let mut made = remade(&text)?;
    if made.len() != file.len() {
        text.push_str(&format!("length {}\n", file.len()));
        made.resize(file.len(), 0);
    }
    for at in 0..file.len() {
        if made[at] != file[at] {
            text.push_str(&place("damage", at, file[at]));
        }
    }
    Ok(text)
}

/// The lines of the named fields: driver info, controller and status, the phys and rows that the counts promise and the file has room for.
/// Where the file ends before a block of W-204, that says nothing.
fn named(file: &[u8]) -> String {
    let mut whole = file.to_vec();
    whole.resize(file.len().next_multiple_of(BLOCK).max(BLOCK), 0);
    let room = whole.len() / BLOCK - 1;
    let phys = usize::from(whole[0]).min(MOST_PHYS).min(room);
    let rows = usize::from(whole[1]).min(MOST_ROWS);
    let driver = Some(&whole[DRIVER_AT..DRIVER_AT + DRIVER_BYTES]);
    let controller = whole.get(controller_at(phys, rows)..);
    let status = whole.get(status_at(phys, rows)..);
    let mut text = line("driver", driver, &[0; DRIVER_BYTES], &DRIVER);
    text.push_str(&line(
        "controller",
        controller,
        &front::controller(),
        &CONTROLLER,
    ));
    text.push_str(&line("status", status, &front::status(), &STATUS));
    for n in 0..phys {
        let mut words = phy::to_words(&whole[BLOCK * (1 + n)..], n);
        let connector = whole.get(connector_at(phys, rows, n)..);
        words.extend(said(connector, &front::connector(), &CONNECTOR));
        text.push_str(&wrapped(&words));
    }
    for i in 0..rows {
        let Some(row) = whole.get(row_at(phys, i)..row_at(phys, i) + ROW_BYTES) else {
            break;
        };
        let mut words = vec!["row".to_string()];
        words.extend(differences(row, &[0; ROW_BYTES], &ROW));
        text.push_str(&wrapped(&words));
    }
    text
}

/// A line that says in what a structure differs from what it is if nothing is said; none if it does not, or is not there.
fn line(name: &str, structure: Option<&[u8]>, unsaid: &[u8], table: &[Field]) -> String {
    let words = said(structure, unsaid, table);
    match words.is_empty() {
        true => String::new(),
        false => wrapped(&[vec![name.to_string()], words].concat()),
    }
}

fn said(structure: Option<&[u8]>, unsaid: &[u8], table: &[Field]) -> Vec<String> {
    let there = structure.filter(|structure| structure.len() >= unsaid.len());
    there.map_or(Vec::new(), |structure| {
        differences(structure, unsaid, table)
    })
}

fn remade(text: &str) -> Result<Vec<u8>, String> {
    parse(text).map_err(|fault| format!("the description cannot be read back: {fault}"))
}

fn place(name: &str, at: usize, value: u8) -> String {
    format!("{name} {} {} {value:02X}h\n", at / BLOCK, at % BLOCK)
}

/// The words in lines of at most `COLUMNS`, those after the first indented.
fn wrapped(words: &[String]) -> String {
    let mut text = String::new();
    let mut column = 0;
    for word in words {
        if column > 0 && column + 1 + word.len() > COLUMNS {
            text.push_str("\n   ");
            column = 3;
        }
        if column > 0 {
            text.push(' ');
            column += 1;
        }
        text.push_str(word);
        column += word.len();
    }
    text.push('\n');
    text
}

#[cfg(test)]
mod tests {
    use super::*;

    fn round(file: &[u8]) -> String {
        let text = describe(file).unwrap();
        assert_eq!(parse(&text).unwrap(), file, "{text}");
        text
    }

    #[test]
    fn a_description_and_back() {
        let text = "\
driver name=\"ash\" description=\"A lab adapter\" major=1 csmi-minor=81
controller base-io=D000h base-memory-low=FE000000h base-memory-high=01h board=30A81000h slot=3 class=0
    bus=pcmcia pci-bus=1 pci-device=2 pci-function=3 bus-reserved=04*29 serial=\"L4\" major=1 minor=2 build=3
    release=4 bios-major=5 bios-minor=6 bios-build=7 bios-release=8 flags=sas-hba+fwd-rrom+80000000h
    rrom-major=9 rrom-minor=10 rrom-build=11 rrom-release=12 rrom-bios-major=13 rrom-bios-minor=14
    rrom-bios-build=15 rrom-bios-release=16 reserved=11121314151617
status status=offline offline-reason=backside-bus-failure reserved=18*28
phy attached=sata signature=ata attached-address=5000C50000000001 invalid-dword=3
phy attached=edge port=0
phy pinout=sff-8470-lane-1+sff-8484-lane-4 connector=\"J1\" location=external
phy pinout=0 connector=FF*16 location=unknown+40h connector-reserved=19*15
phy attached=sata fixed=1 spin-up-hold=1 connector=\"J2\"
row address=5000C50000000001 target=1
row address=5000C50000000002 lun=0001000000000000 host=1 path=2 target=3 os-lun=4
";
        assert_eq!(round(&parse(text).unwrap()), text);
    }

    #[test]
    fn damaged_files_and_back() {
        let text = "driver name=\"x\"\ncontroller slot=1\nphy attached=sata location=2\nphy\nrow target=1\n";
        for damage in [
            "byte 0 0 33\n",
            "byte 0 1 65\n",
            "byte 0 1 26\n",
            "byte 1 36 40h\n",
            "byte 1 104 1\n",
            "byte 2 104 FFh\n",
            "byte 1 105 1\n",
            "byte 2 507 1\n",
            "damage 1 104 1\n",
            "length 511\n",
            "length 0\n",
            "length 5000\ndamage 7 3 09h\n",
            "length 2048\n",
            "length 2100\n",
            "length 2561\n",
            "byte 4 0 0\n",
            "byte 4 212 1\n",
            "byte 4 507 1\n",
            "byte 5 2 4\n",
            "byte 6 36 1\n",
            "damage 6 20 4\n",
            "damage 0 508 07h\n",
            "damage 3 300 FFh\n",
        ] {
            round(&parse(&format!("{text}{damage}")).unwrap());
        }
        assert_eq!(round(&[]), "length 0\n");
        round(&[0xFF; 7 * BLOCK + 5]);
        round(&[8]);
    }

    #[test]
    fn every_byte_of_a_file_comes_back() {
        let whole = parse("phy attached=sas\nphy\nrow\nrow target=1").unwrap();
        for at in 0..whole.len() {
            for value in [0x01, 0x10, 0xFF] {
                let mut file = whole.clone();
                file[at] = value;
                round(&file);
            }
        }
    }

    /// Every value of a phy's spin-up hold, with the check made good and with the check that another value had.
    #[test]
    fn every_spinup_hold_comes_back() {
        for kind in ["none", "sata", "sas", "edge", "fanout"] {
            for hold in 0..=255 {
                let sealed =
                    parse(&format!("phy\nphy attached={kind}\nbyte 2 104 {hold}")).unwrap();
                let text = round(&sealed);
                assert!(!text.contains("byte"), "{text}");
                let mut damaged = sealed.clone();
                damaged[2 * BLOCK + 104] ^= 1;
                assert!(round(&damaged).contains("\ndamage "));
            }
        }
    }

    #[test]
    fn long_lines_go_on() {
        let fields = "attached=sata signature=ata address=5000C50000000001 attached-address=5000C50000000002";
        let text = round(&parse(&format!("phy {fields} fixed=1 changes=3 class=2")).unwrap());
        assert!(text.lines().all(|line| line.len() <= COLUMNS));
        assert_eq!(text.lines().count(), 2);
    }
}
