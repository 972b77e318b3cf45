//! What document 01 leaves free and real consoles read all the same: a file that an opening accepts and that makes them behave
//! oddly. And what an opening refuses: a pinout by its bits, a spin-up hold over 1 or of what is no SATA disk, a negotiated rate that does
//! not go with the hold. One line for each.

use super::fields::*;
use super::phy::link_rule;
use super::{connector_at, controller_at, BLOCK, CONNECTOR_BYTES, MOST_PHYS};
use crate::named::mask;
use crate::names::{rate_words, DISABLED, PINOUTS, SATA_SPINUP_HOLD};

/// An end device, as Attached and Identify say it.
const END_DEVICE: u8 = 0x10;
/// Bits of the target protocols.
const SATA: u8 = 0x01;
const STP: u8 = 0x04;
const SSP: u8 = 0x08;

/// The warnings about an adapter file; `asked_ata` says whether the console sends ATA commands to an attached SAS address.
pub fn warnings(file: &[u8], asked_ata: impl Fn(&[u8]) -> bool) -> Vec<String> {
    let count = |at: usize| file.get(at).map_or(0, |count| usize::from(*count));
    let (phys, rows) = (count(0), count(1));
    let mut found = Vec::new();
    let controller = controller_at(phys, rows);
    let serial = file.get(controller + SERIAL..controller + FIRMWARE);
    if serial.is_some_and(unended) {
        found.push(format!("controller: the serial number {UNENDED}"));
    }
    let blocks = file.chunks_exact(BLOCK).skip(1);
    for (n, block) in blocks.take(phys.min(MOST_PHYS)).enumerate() {
        let attached = &block[ATTACHED_ADDRESS..ATTACHED_ADDRESS + 8];
        let at = connector_at(phys, rows, n);
        let connector = file
            .get(at..at + CONNECTOR_BYTES)
            .unwrap_or(&[0; CONNECTOR_BYTES]);
        let lines = about(block, asked_ata(attached)).into_iter();
        for line in lines.chain(about_connector(connector)).flatten() {
            found.push(format!("phy {n}: {line}"));
        }
    }
    found
}

/// What 6.2.3 and 6.18.3 say of their texts.
const UNENDED: &str = "has no zero byte behind it: consoles that take it for a text read on";

/// Whether a text fills its bytes to the last.
fn unended(text: &[u8]) -> bool {
    !text.contains(&0)
}

fn about_connector(connector: &[u8]) -> [Option<String>; 2] {
    let name = &connector[CONNECTOR_NAME..LOCATION];
    [
        pinout(connector),
        unended(name).then(|| format!("the connector's name {UNENDED}")),
    ]
}

/// Bits that are none of section 10's pinout constants.
fn pinout(connector: &[u8]) -> Option<String> {
    let field = CONNECTOR[0];
    let (pinout, known) = (field.get(connector), mask(PINOUTS));
    let other = pinout & !known;
    (other != 0).then(|| {
        format!("pinout {pinout:08X}h has bits that no pinout has ({other:08X}h, outside {known:08X}h): the opening refuses it with 104")
    })
}

fn about(block: &[u8], asked_ata: bool) -> [Option<String>; 4] {
    [
        identify_type(block),
        attached_identifier(block),
        no_sata_bit(block, asked_ata),
        spinup_hold(block),
    ]
}

fn identify_type(block: &[u8]) -> Option<String> {
    (block[0] == 0).then(|| {
        "its own identify device type is 0, no device: consoles skip such a phy; 10h is an end device"
            .to_string()
    })
}

fn attached_identifier(block: &[u8]) -> Option<String> {
    let identifier = block[ATTACHED_IDENTIFIER];
    (identifier != 0).then(|| {
        format!("the attached phy identifier is {identifier}: consoles that go by it ask another phy or port; a disk has 0")
    })
}

/// An end device is taken for a disk if it is no plain SSP target, or if the console sends ATA commands to it.
fn no_sata_bit(block: &[u8], asked_ata: bool) -> Option<String> {
    let protocols = block[ATTACHED_TARGET];
    let end_device = block[ATTACHED_TYPE] == END_DEVICE;
    let plain_ssp = protocols & (SSP | STP) == SSP;
    let like_a_disk = end_device && (!plain_ssp || asked_ata);
    (like_a_disk && protocols & SATA == 0).then(|| {
        format!("what is attached looks like a disk, but its target protocols {protocols:02X}h have no SATA bit (01h): it is served as none")
    })
}

/// A spin-up hold that is neither 0 nor 1, or one of a phy that is no SATA phy; a held disk with another negotiated rate than 1 and what
/// the link rule gives; and a negotiated rate 3 without a hold.
fn spinup_hold(block: &[u8]) -> Option<String> {
    let is_sata = block[ATTACHED_TYPE] == END_DEVICE && block[ATTACHED_TARGET] & SATA != 0;
    let (hold, negotiated) = (block[SPINUP_HOLD], block[NEGOTIATED]);
    let words = |rate: u8| rate_words(rate.into());
    let reason = match hold {
        0 if negotiated == SATA_SPINUP_HOLD => format!(
            "and negotiated is {}, which a held disk alone has",
            words(negotiated)
        ),
        0 => return None,
        1 if !is_sata => "and no SATA disk is attached".to_string(),
        1 if [DISABLED, link_rule(block)].contains(&negotiated) => return None,
        1 => format!(
            "and negotiated is {}, where a held disk of these rates has {} or {}",
            words(negotiated),
            words(link_rule(block)),
            words(DISABLED)
        ),
        _ => "neither 0 nor 1".to_string(),
    };
    Some(format!(
        "the spin-up hold is {hold}, {reason}: the opening refuses it with 104"
    ))
}

#[cfg(test)]
mod tests {
    use super::super::parse;
    use super::*;

    fn warned(text: &str) -> Vec<String> {
        warnings(&parse(text).unwrap(), |_| false)
    }

    #[test]
    fn sound_adapters_get_none() {
        let text = "phy\nphy attached=sata signature=ata\nphy attached=sas\nphy attached=edge\nphy attached=fanout";
        assert_eq!(warned(text), [""; 0]);
    }

    #[test]
    fn each_oddity_by_its_phy() {
        let found = warned("phy\nphy device-type=0\nphy attached=sata attached-identifier=3");
        assert_eq!(found.len(), 2);
        assert!(found[0].starts_with("phy 1: its own identify device type is 0"));
        assert!(found[1].starts_with("phy 2: the attached phy identifier is 3"));
        for protocols in ["00h", "02h", "04h", "0Ch"] {
            let found = warned(&format!("phy attached=sata attached-target={protocols}"));
            assert_eq!(found.len(), 1, "{protocols}");
            assert!(found[0].contains(&format!("target protocols {protocols} have no SATA bit")));
        }
    }

    /// Each of the 32 bits of a pinout, on any phy.
    #[test]
    fn pinouts_that_an_opening_refuses() {
        for bit in 0..32 {
            let pinout = 1u32 << bit;
            let found = warned(&format!("phy\nphy pinout={pinout:X}h\nrow"));
            let known = pinout & 0x000F_0F03 != 0;
            assert_eq!(found.len(), usize::from(!known), "{pinout:X}h");
        }
        assert_eq!(
            warned("phy pinout=sff-8482+80000000h"),
            ["phy 0: pinout 80000002h has bits that no pinout has (80000000h, outside 000F0F03h): the opening refuses it with 104"]
        );
        assert_eq!(warned("phy pinout=000F0F03h\nphy pinout=0"), [""; 0]);
    }

    /// Every value on every kind of phy.
    #[test]
    fn spinup_holds_that_an_opening_refuses() {
        for kind in ["none", "sata", "sas", "edge", "fanout"] {
            for hold in 0..=255 {
                let found = warned(&format!("phy\nphy attached={kind} spin-up-hold={hold}"));
                let sound = hold == 0 || hold == 1 && kind == "sata";
                assert_eq!(found.len(), usize::from(!sound), "{kind} {hold}");
            }
        }
        assert_eq!(
            warned("phy attached=sas spin-up-hold=1\nphy attached=sata spin-up-hold=2"),
            [
                "phy 0: the spin-up hold is 1, and no SATA disk is attached: the opening refuses it with 104",
                "phy 1: the spin-up hold is 2, neither 0 nor 1: the opening refuses it with 104"
            ]
        );
        // an expander with the SATA bit is no SATA phy; other bits beside it do no harm
        let bit = "phy attached=edge attached-target=01h spin-up-hold=1";
        assert_eq!(warned(bit).len(), 1);
        let bits = "phy attached=sata attached-target=09h spin-up-hold=1";
        assert_eq!(warned(bits), [""; 0]);
        let unlinked =
            "phy attached=sata spin-up-hold=1 negotiated=1\nphy attached=sata spin-up-hold=1 fixed=1";
        assert_eq!(warned(unlinked), [""; 0]);
    }

    /// Every negotiated rate with each hold, on every kind of phy, with what a held one has; rates that meet and rates that do not.
    #[test]
    fn negotiated_rates_that_do_not_go_with_a_hold() {
        for (kind, held) in [
            ("none", None),
            ("sata", Some(3)),
            ("sata highest=8", Some(3)),
            ("sata programmed-maximum=8 lowest=9", Some(2)),
            ("sata attached-target=FFh fixed=1", Some(3)),
            ("sas", None),
            ("edge attached-target=01h", None),
            ("fanout", None),
        ] {
            for (hold, rate) in (0..3).flat_map(|hold| (0..=255).map(move |rate| (hold, rate))) {
                let text = format!("phy attached={kind} spin-up-hold={hold} negotiated={rate}");
                let sound = match hold {
                    0 => rate != 3,
                    1 => held.is_some_and(|link| rate == 1 || rate == link),
                    _ => false,
                };
                assert_eq!(warned(&text).len(), usize::from(!sound), "{text}");
            }
        }
        assert_eq!(
            warned("phy attached=sata spin-up-hold=1 negotiated=9\nphy attached=sata negotiated=3"),
            [
                "phy 0: the spin-up hold is 1, and negotiated is 9 (3.0 Gb/s), where a held disk of these rates has 3 (spin-up hold) or \
                 1 (disabled): the opening refuses it with 104",
                "phy 1: the spin-up hold is 0, and negotiated is 3 (spin-up hold), which a held disk alone has: the opening refuses it with 104"
            ]
        );
        // rates that do not meet
        assert_eq!(
            warned("phy attached=sata programmed-minimum=9 highest=8 spin-up-hold=1 negotiated=3"),
            ["phy 0: the spin-up hold is 1, and negotiated is 3 (spin-up hold), where a held disk of these rates has 2 (failed) or \
              1 (disabled): the opening refuses it with 104"]
        );
    }

    #[test]
    fn texts_that_do_not_end() {
        let found = warned("controller serial=41*81\nphy\nphy connector=\"sixteen letters.\"");
        assert_eq!(
            found,
            [
                format!("controller: the serial number {UNENDED}"),
                format!("phy 1: the connector's name {UNENDED}")
            ]
        );
        let text = "controller serial=41*80+00\nphy connector=\"fifteen letters\"";
        assert_eq!(warned(text), [""; 0]);
    }

    #[test]
    fn a_device_that_is_asked_ata_looks_like_a_disk() {
        let file = parse("phy attached=sas attached-address=5000C50000000003").unwrap();
        let asked = |address: &[u8]| address == [0x50, 0, 0xC5, 0, 0, 0, 0, 3];
        assert_eq!(warnings(&file, asked).len(), 1);
        assert_eq!(warnings(&file, |_| false).len(), 0);
    }

    #[test]
    fn any_bytes() {
        for length in [0, 1, 511, 512, 1023, 1024, 5000, 200_000] {
            warnings(&vec![0xFF; length], |_| true);
        }
        // a count over what a file may have, and every length of a sound one
        let file = parse("phy\nphy\nrow").unwrap();
        for end in 0..file.len() {
            assert_eq!(warnings(&file[..end], |_| false), [""; 0]);
        }
    }
}
