//! One phy of a description, `phy attached=sata ..`, as its block and back.

use super::fields::*;
use super::BLOCK;
use crate::field::{differences, fill, Field};
use crate::names;
use crate::text::Line;
use crate::value;
use crate::Fault;

/// What `attached=` stands for: device type, target protocols.
const ATTACHED: [(&str, u8, u8); 5] = [
    ("none", 0x00, 0x00),
    ("sata", 0x10, 0x01),
    ("sas", 0x10, 0x08),
    ("edge", 0x20, 0x02),
    ("fanout", 0x30, 0x02),
];

/// What `signature=ata` stands for: the first register FIS of an ATA disk.
const ATA_SIGNATURE: [u8; 20] = [
    0x34, 0, 0x50, 1, 1, 0, 0, 0, 0, 0, 0, 0, 1, 0, 0, 0, 0, 0, 0, 0,
];

/// Phy n with nothing said: an end device with SSP, STP and SMP initiators, a port of its own, all rates, nothing attached.
fn blank(n: usize) -> [u8; BLOCK] {
    let mut block = [0; BLOCK];
    block[0] = 0x10;
    block[2] = 0x0E;
    block[IDENTIFIER] = n as u8;
    block[PORT] = n as u8;
    block[MINIMUM] = 0x88;
    block[MAXIMUM] = 0x99;
    block
}

/// The block of phy n that a line describes.
pub fn from_line(line: &mut Line, n: usize) -> Result<[u8; BLOCK], Fault> {
    let mut block = blank(n);
    if let Some(word) = line.take("attached")? {
        if !attach(&mut block, &word.value) {
            return Err(word.fault(format!(
                "'{}' is none of none, sata, sas, edge, fanout",
                word.value
            )));
        }
    }
    if let Some(word) = line.take("signature")? {
        if word.value == "ata" {
            block[SIGNATURE..SIGNATURE + 20].copy_from_slice(&ATA_SIGNATURE);
        } else {
            named("signature").put(&mut block, &word)?;
        }
        block[HELD] = 1;
    }
    let negotiated = line.take("negotiated")?;
    fill(&mut block, &PHY, line)?;
    block[NEGOTIATED] = link_rule(&block);
    if let Some(word) = negotiated {
        named("negotiated").put(&mut block, &word)?;
    }
    Ok(block)
}

fn attach(block: &mut [u8], name: &str) -> bool {
    let Some(row) = ATTACHED.iter().find(|row| row.0 == name) else {
        return false;
    };
    block[ATTACHED_TYPE] = row.1;
    block[ATTACHED_TARGET] = row.2;
    if row.1 != 0 {
        block[LOWEST] = 8;
        block[HIGHEST] = 9;
    }
    true
}

fn named(name: &str) -> Field {
    PHY.into_iter()
        .find(|field| field.name == name)
        .expect("a field of the table")
}

/// The negotiated rate for a description that names none: what the link rule gives, of a phy held at spin-up 3 in place of a rate (W-205).
pub fn link_rule(block: &[u8]) -> u8 {
    match rates_rule(block) {
        8 | 9 if block[SPINUP_HOLD] == 1 => names::SATA_SPINUP_HOLD,
        result => result,
    }
}

/// Document 01's link rule, which goes by device and rates alone.
fn rates_rule(block: &[u8]) -> u8 {
    if block[ATTACHED_TYPE] == 0 {
        return 0;
    }
    let lowest = (block[MINIMUM] >> 4).max(block[LOWEST]);
    let highest = (block[MAXIMUM] >> 4).min(block[HIGHEST]);
    let inside = |rate: &u8| (lowest..=highest).contains(rate);
    [9, 8].into_iter().find(inside).unwrap_or(2)
}

/// The words of a line that gives the named fields of a block.
pub fn to_words(block: &[u8], n: usize) -> Vec<String> {
    let mut said = blank(n);
    let mut words = vec!["phy".to_string()];
    let kind = attached(block);
    if kind != "none" {
        attach(&mut said, kind);
        words.push(format!("attached={kind}"));
    }
    let signature = &block[SIGNATURE..SIGNATURE + 20];
    if signature.iter().any(|b| *b != 0) || block[HELD] == 1 {
        said[SIGNATURE..SIGNATURE + 20].copy_from_slice(signature);
        said[HELD] = 1;
        words.push(match signature == ATA_SIGNATURE {
            true => "signature=ata".to_string(),
            false => format!("signature={}", value::show_bytes(signature)),
        });
    }
    said[NEGOTIATED] = link_rule(block);
    words.extend(differences(block, &said, &PHY));
    words
}

/// The name in `ATTACHED` that fits best: the type, and of an end device whether it speaks SATA.
fn attached(block: &[u8]) -> &'static str {
    match (block[ATTACHED_TYPE], block[ATTACHED_TARGET] & 1) {
        (0x10, 1) => "sata",
        (0x10, _) => "sas",
        (0x20, _) => "edge",
        (0x30, _) => "fanout",
        _ => "none",
    }
}

/// The fields of a phy that are link rates.
const RATES: [&str; 7] = [
    "negotiated",
    "hardware-minimum",
    "programmed-minimum",
    "programmed-maximum",
    "hardware-maximum",
    "lowest",
    "highest",
];

/// A field's value, a link rate or another number that has a name with it.
pub fn phy_value(field: &Field, structure: &[u8]) -> String {
    match RATES.contains(&field.name) {
        true => names::rate_words(field.get(structure)),
        false => field.words(structure),
    }
}

/// An entity of a code 20 reply in words.
pub fn entity_words(entity: &[u8]) -> String {
    let rate = |at: usize| names::rate_words(entity[at].into());
    let programmed = |at: usize| names::rate_words((entity[at] >> 4).into());
    let device = match entity[ATTACHED_TYPE] {
        0 => "no device".to_string(),
        kind => format!(
            "{} {}",
            names::device_words(kind.into()),
            value::show_bytes(&entity[ATTACHED_ADDRESS..ATTACHED_ADDRESS + 8])
        ),
    };
    format!(
        "port {}, negotiated {}, programmed {} to {}, {device}",
        entity[PORT],
        rate(NEGOTIATED),
        programmed(MINIMUM),
        programmed(MAXIMUM)
    )
}

#[cfg(test)]
mod tests {
    use super::*;
    use crate::text::lines;

    fn block(text: &str) -> [u8; BLOCK] {
        let mut line = lines(text).unwrap().remove(0);
        let block = from_line(&mut line, 2).unwrap();
        line.finish().unwrap();
        block
    }

    #[test]
    fn a_phy_and_back() {
        for text in [
            "phy",
            "phy attached=sata",
            "phy attached=sata signature=ata attached-address=5000C50000000001 fixed=1",
            "phy attached=edge class=3 port=0 invalid-dword=7 reset-problem=4294967295",
            "phy attached=sata negotiated=1 programmed-minimum=9",
            "phy attached=sata signature=00*20",
            "phy attached=sas attached-target=0Ah",
            "phy signature=ata held=0",
            "phy attached=sata spin-up-hold=1",
            "phy attached=sata signature=ata negotiated=1 fixed=1 spin-up-hold=1",
            "phy attached=sata negotiated=9 spin-up-hold=1",
            "phy attached=sata programmed-minimum=9 highest=8 spin-up-hold=1",
            "phy attached=sas spin-up-hold=255",
            "phy spin-up-hold=1",
        ] {
            assert_eq!(to_words(&block(text), 2).join(" "), text);
        }
    }

    /// Whatever the byte is, on every kind of phy, negotiated as it may be.
    #[test]
    fn every_spinup_hold_and_back() {
        for kind in [
            "attached=none",
            "attached=sata",
            "attached=sata programmed-maximum=8 lowest=9",
            "attached=sas",
            "attached=edge",
            "attached=fanout",
            "attached-type=40h",
        ] {
            for (hold, rate) in (0..=255).flat_map(|hold| [0, 1, 2, 3, 8, 9].map(|r| (hold, r))) {
                let said = block(&format!("phy {kind} negotiated={rate} spin-up-hold={hold}"));
                assert_eq!((said[SPINUP_HOLD], said[NEGOTIATED]), (hold, rate));
                assert_eq!(block(&to_words(&said, 2).join(" ")), said);
            }
        }
    }

    #[test]
    fn the_negotiated_rate_by_default() {
        assert_eq!(block("phy")[NEGOTIATED], 0);
        assert_eq!(block("phy attached=sata")[NEGOTIATED], 9);
        assert_eq!(block("phy attached=sas highest=8")[NEGOTIATED], 8);
        let apart = "phy attached=sata programmed-maximum=8 lowest=9";
        assert_eq!(block(apart)[NEGOTIATED], 2);
    }

    /// 3 in place of 8 or 9, and nothing else.
    #[test]
    fn the_negotiated_rate_of_a_held_phy() {
        let rate = |text: &str| block(&format!("phy {text}"))[NEGOTIATED];
        assert_eq!(rate("attached=sata spin-up-hold=1"), 3);
        assert_eq!(rate("attached=sata spin-up-hold=1 highest=8"), 3);
        assert_eq!(rate("attached=sata spin-up-hold=1 fixed=1"), 3);
        let apart = "programmed-maximum=8 lowest=9";
        assert_eq!(rate(&format!("attached=sata spin-up-hold=1 {apart}")), 2);
        assert_eq!(rate("attached=sata spin-up-hold=1 negotiated=1"), 1);
        assert_eq!(rate("attached=sata spin-up-hold=0"), 9);
        assert_eq!(rate("attached=sata held=1"), 9);
        assert_eq!(rate("spin-up-hold=1"), 0);
    }

    #[test]
    fn faults() {
        let fault = |text: &str| {
            let mut line = lines(text).unwrap().remove(0);
            from_line(&mut line, 0).unwrap_err().to_string()
        };
        assert_eq!(
            fault("phy attached=disk"),
            "line 1: attached: 'disk' is none of none, sata, sas, edge, fanout"
        );
        assert_eq!(
            fault("phy signature=34"),
            "line 1: signature: 1 bytes, not 20"
        );
    }

    #[test]
    fn an_entity_in_words() {
        let text = "phy attached=sata attached-address=5000C50000000001";
        assert_eq!(
            entity_words(&block(text)),
            "port 2, negotiated 9 (3.0 Gb/s), programmed 8 (1.5 Gb/s) to 9 (3.0 Gb/s), end device 5000C50000000001"
        );
        assert_eq!(
            entity_words(&block(&format!("{text} spin-up-hold=1"))),
            "port 2, negotiated 3 (spin-up hold), programmed 8 (1.5 Gb/s) to 9 (3.0 Gb/s), end device 5000C50000000001"
        );
    }
}
