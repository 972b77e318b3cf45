//! The hold at spin-up in files and in states, as W-205 has it, on both implementations: on which phys it may be, with which negotiated
//! rate, and the bytes behind it. What each gets is worked out here, not by the model alone.

use differential::adapter::phy::Phy;
use differential::adapter::{seal, Adapter};
use differential::names::file::{BLOCK, CHECK};
use differential::names::{
    call, code, device, file, phy, phy_info, row, state, status, ENTITY, MAX_PHYS,
};
use differential::pair::Pair;
use differential::random::Random;
use differential::request::HEADERS;
use differential::text::FULL;
use differential::wire::put_word;

/// Every type of device: its type, its target protocols, and whether it is a SATA phy's.
const DEVICES: [(u8, u8, bool); 8] = [
    (device::NONE, 0x00, false),
    (device::END, 0x00, false),
    (device::END, 0xFE, false),
    (device::EDGE_EXPANDER, 0x01, false),
    (device::FANOUT_EXPANDER, 0x01, false),
    (device::END, 0x01, true),
    (device::END, 0x03, true),
    (device::END, 0xFF, true),
];

/// A minimum and a maximum rate byte, a device's lowest and highest rate, and what the link rule gives without a hold.
const RATES: [(u8, u8, u8, u8, u8); 8] = [
    (0x88, 0x99, 8, 9, 9),
    (0x98, 0x99, 8, 9, 9),
    (0x99, 0x99, 9, 9, 9),
    (0x88, 0x99, 8, 8, 8),
    (0x88, 0x89, 8, 9, 8),
    (0x88, 0x88, 9, 9, 2),
    (0x88, 0x89, 9, 9, 2),
    (0x98, 0x99, 8, 8, 2),
];

/// A device in a phy's bytes, which hold no signature and no hold.
fn attach(phy: &mut Phy, device: (u8, u8, bool), rates: (u8, u8, u8, u8, u8)) {
    let bytes = &mut phy.bytes;
    bytes[phy::ATTACHED..ENTITY].fill(0);
    bytes[phy::SIGNATURE..phy::FIXED].fill(0);
    (bytes[phy::ATTACHED], bytes[phy::ATTACHED_TARGET_PROTOCOLS]) = (device.0, device.1);
    (bytes[phy::MINIMUM], bytes[phy::MAXIMUM]) = (rates.0, rates.1);
    (bytes[phy::LOWEST], bytes[phy::HIGHEST]) = match device.0 {
        device::NONE => (0, 0),
        _ => (rates.2, rates.3),
    };
    bytes[phy::SPINUP_HOLD] = 0;
}

/// Whether a phy may have this hold with this negotiated rate.
fn may_have(device: (u8, u8, bool), rule: u8, hold: u8, negotiated: u8) -> bool {
    let link = match (device.0, hold) {
        (device::NONE, _) => 0,
        (_, 1) if rule >= 8 => 3,
        _ => rule,
    };
    let may_hold = hold == 0 || hold == 1 && device.2;
    may_hold && (negotiated == 1 || negotiated == link)
}

/// Code 20 with both headers: all get 107, or all show the phys' entities. Nothing is altered.
fn state_gives(what: &str, adapter: &Adapter, state: &[u8], number: u32) {
    let medium = vec![0; adapter.medium_length()];
    let mut pair = Pair::of(state, &medium);
    for of_body in HEADERS {
        let mut expected = of_body(code::PHY_INFO, &[0x5A; phy_info::SIZE]);
        let reply = pair
            .request(&expected)
            .unwrap_or_else(|difference| panic!("{what}: {difference}"));
        assert_eq!(reply.number, number, "{what}");
        if number == call::DONE {
            let place = expected.header.return_code();
            put_word(&mut expected.buffer, place, status::SUCCESS);
            expected.body_mut().copy_from_slice(&adapter.phy_info());
        }
        assert!(reply.buffer == expected.buffer, "{what}: the reply");
        assert!(pair.state() == state && pair.medium() == medium, "{what}");
    }
}

/// The adapter's file and its state, with this hold and this negotiated rate of phy n.
fn phy_gives(adapter: &mut Adapter, n: usize, hold: u8, negotiated: u8, sound: bool) {
    let bytes = &mut adapter.phys[n].bytes;
    (bytes[phy::SPINUP_HOLD], bytes[phy::NEGOTIATED]) = (hold, negotiated);
    let what = format!("phy {n}, {bytes:02X?}");
    let [file, state] = if sound {
        [call::DONE; 2]
    } else {
        [call::COUNT_OR_FIELD, call::STATE]
    };
    let (medium, accepted) = (vec![0; adapter.medium_length()], adapter.state(FULL));
    Pair::opens(&what, &adapter.file(), &medium, file, &accepted);
    state_gives(&what, adapter, &accepted, state);
}

/// Every device at all rates, with each hold and each negotiated rate that the rules tell from others, fixed or not.
#[test]
fn every_device_with_each_hold_and_rate() {
    let random = &mut Random::new(1);
    let mut adapter = Adapter::of_counts(random, 3, 2);
    let mut accepted = 0;
    for (device, rates) in DEVICES
        .into_iter()
        .flat_map(|device| RATES.map(|rates| (device, rates)))
    {
        let n = random.below(3);
        attach(&mut adapter.phys[n], device, rates);
        adapter.phys[n].bytes[phy::FIXED] = random.below(2) as u8;
        for hold in [0, 1, 2, 3, 0x80, 0xFF] {
            for negotiated in [0, 1, 2, 3, 4, 7, 8, 9, 10, 0x83, 0xFF] {
                let sound = may_have(device, rates.4, hold, negotiated);
                phy_gives(&mut adapter, n, hold, negotiated, sound);
                accepted += usize::from(sound);
            }
        }
        attach(&mut adapter.phys[n], device, rates);
        adapter.phys[n].bytes[phy::NEGOTIATED] = 1;
    }
    // both values of a SATA phy and 0 of the others, each with rate 1 and one more
    assert_eq!(accepted, (3 * 2 + 5) * RATES.len() * 2);
}

/// Every negotiated rate of a SATA phy with a hold and without, and every value of the byte.
#[test]
fn every_rate_and_every_value_of_the_byte() {
    let random = &mut Random::new(2);
    let mut adapter = Adapter::of_counts(random, 2, 0);
    let sata = DEVICES[5];
    for rates in RATES {
        attach(&mut adapter.phys[1], sata, rates);
        for byte in 0..=255 {
            for hold in [0, 1] {
                let sound = may_have(sata, rates.4, hold, byte);
                phy_gives(&mut adapter, 1, hold, byte, sound);
            }
            for negotiated in [1, 3] {
                let sound = may_have(sata, rates.4, byte, negotiated);
                phy_gives(&mut adapter, 1, byte, negotiated, sound);
            }
        }
    }
}

#[test]
fn every_byte_of_a_phy_block_from_105_on_is_104() {
    let random = &mut Random::new(3);
    for p in [1, 4] {
        let adapter = Adapter::of_counts(random, p, 3);
        let medium = vec![0; adapter.medium_length()];
        for (n, offset) in (0..p).flat_map(|n| (105..CHECK).map(move |offset| (n, offset))) {
            for byte in [1, 0x80, random.other_than(0)] {
                let mut file = adapter.file();
                file[file::phy_at(n) + offset] = byte;
                let what = format!("phy {n}, byte {offset}");
                Pair::opens(&what, &file, &medium, call::BLOCK_CHECK, &[]);
                seal(&mut file);
                Pair::opens(&what, &file, &medium, call::COUNT_OR_FIELD, &[]);
            }
        }
    }
}

#[test]
fn a_hold_past_p_is_107() {
    let random = &mut Random::new(4);
    for p in [1, 7, 31] {
        let adapter = Adapter::of_counts(random, p, 3);
        for n in p..MAX_PHYS {
            for byte in [1, 2, random.other_than(0)] {
                let mut state = adapter.state(FULL);
                state[state::phy_at(n) + phy::SPINUP_HOLD] = byte;
                state_gives(&format!("p {p}, phy {n}"), &adapter, &state, call::STATE);
            }
        }
    }
}

/// A hold is a field: after every block's check, before rows that share and the medium's length.
#[test]
fn a_hold_comes_after_the_checks_and_before_the_rows() {
    let random = &mut Random::new(5);
    for _ in 0..100 {
        let mut adapter = Adapter::of_counts(random, 3, 9);
        adapter.rows[4][..row::OS].copy_from_slice(&[7; row::OS]);
        adapter.rows[5][..row::OS].copy_from_slice(&[7; row::OS]);
        let short = vec![0; adapter.medium_length() - 1];
        Pair::opens("rows", &adapter.file(), &short, call::SHARED_ROW, &[]);
        adapter.phys[random.below(3)].bytes[phy::SPINUP_HOLD] = random.within(2, 255) as u8;
        let mut file = adapter.file();
        Pair::opens("hold", &file, &short, call::COUNT_OR_FIELD, &[]);
        let block = random.below(file.len() / BLOCK);
        file[block * BLOCK + CHECK] ^= 1;
        Pair::opens("check", &file, &short, call::BLOCK_CHECK, &[]);
    }
}
