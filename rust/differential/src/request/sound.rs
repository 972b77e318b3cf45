//! The bodies of sound requests. Addresses, phys and rows are mostly the adapter's own, and images mostly valid.

use super::firmware::Download;
use super::passthrough::Passthrough;
use crate::adapter::Adapter;
use crate::names::link_error::{DONT_RESET_COUNTS, RESET_COUNTS};
use crate::names::row::OS;
use crate::names::{
    body_size, code, device_address, link_errors, sata_signature, scsi_address, set_phy_info as at,
};
use crate::random::Random;

pub fn body(random: &mut Random, adapter: &Adapter, control: u32) -> Vec<u8> {
    match control {
        code::FIRMWARE_DOWNLOAD => return Download::any(random).body(random),
        code::STP_PASSTHRU => return Passthrough::sound(random, adapter).body(random),
        _ => {}
    }
    let mut body = random.bytes(body_size(control).unwrap_or(0));
    match control {
        code::SET_PHY_INFO => set_phy_info(random, adapter, &mut body),
        code::LINK_ERRORS => {
            body[link_errors::PHY] = phy(random, adapter);
            body[link_errors::RESET] = random.pick(&[DONT_RESET_COUNTS, RESET_COUNTS]);
        }
        code::SATA_SIGNATURE => body[sata_signature::PHY] = phy(random, adapter),
        code::SCSI_ADDRESS => scsi_address(random, adapter, &mut body),
        code::DEVICE_ADDRESS => device_address(random, adapter, &mut body),
        _ => {}
    }
    body
}

/// A phy of the adapter.
fn phy(random: &mut Random, adapter: &Adapter) -> u8 {
    random.below(adapter.phys.len()) as u8
}

fn set_phy_info(random: &mut Random, adapter: &Adapter, body: &mut [u8]) {
    body[at::PHY] = phy(random, adapter);
    body[at::NEGOTIATED] = u8::from(random.one_in(6));
    (body[at::MINIMUM], body[at::MAXIMUM]) = random.pick(&[
        (0, 0),
        (8, 9),
        (8, 9),
        (8, 8),
        (9, 9),
        (0, 9),
        (8, 0),
        (0, 8),
        (9, 0),
    ]);
    body[at::SIGNAL_CLASS] = random.below(4) as u8;
}

fn scsi_address(random: &mut Random, adapter: &Adapter, body: &mut [u8]) {
    if !adapter.rows.is_empty() {
        let row = random.pick(&adapter.rows);
        body[..scsi_address::OS].copy_from_slice(&row[..OS]);
    }
}

fn device_address(random: &mut Random, adapter: &Adapter, body: &mut [u8]) {
    if !adapter.rows.is_empty() {
        let row = random.pick(&adapter.rows);
        body[..device_address::SAS_ADDRESS].copy_from_slice(&row[OS..]);
    }
}
