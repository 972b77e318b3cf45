//! Requests with the first header whose replies show a byte of a state, or go by it.

use crate::names::{ata, body_size, code, phy, row, state, stp, ENTITY, MAX_ROWS};
use crate::random::Random;
use crate::request::first::of_body;
use crate::request::{fis, Request};

/// Where a byte of a state stands.
enum Place {
    Counts,
    Driver,
    /// The phy's number, and the offset in its bytes.
    Phy(usize, usize),
    Row(usize),
    /// The code that shows it.
    FrontPage(u32),
    Staged,
}

fn place(at: usize) -> Place {
    match at {
        0..state::DRIVER_INFO => Place::Counts,
        state::DRIVER_INFO..state::PHYS => Place::Driver,
        state::PHYS..state::ROWS => {
            let in_phys = at - state::PHYS;
            Place::Phy(in_phys / phy::SIZE, in_phys % phy::SIZE)
        }
        state::ROWS..state::CONTROLLER_CONFIG => Place::Row((at - state::ROWS) / row::SIZE),
        state::CONTROLLER_CONFIG..state::CONTROLLER_STATUS => Place::FrontPage(code::CNTLR_CONFIG),
        state::CONTROLLER_STATUS..state::CONNECTORS => Place::FrontPage(code::CNTLR_STATUS),
        state::CONNECTORS..state::STAGED => Place::FrontPage(code::CONNECTOR_INFO),
        _ => Place::Staged,
    }
}

/// The requests that read byte `at` of a state, worked out from the state itself.
pub fn requests(random: &mut Random, state: &[u8], at: usize) -> Vec<Request> {
    match place(at) {
        Place::Counts => vec![
            phy_info(),
            device_address(last_row(state)),
            front_page(code::CONNECTOR_INFO),
        ],
        Place::Driver => vec![driver_info()],
        Place::Phy(n, offset) => match offset {
            0..ENTITY => vec![phy_info(), check_power(random, phy_of(state, n), n)],
            phy::COUNTERS..phy::SIGNATURE => vec![link_errors(n)],
            phy::SIGNATURE..phy::FIXED => vec![sata_signature(n)],
            phy::SPINUP_HOLD => vec![
                set_phy_info(random, n),
                disabling(n),
                check_power(random, phy_of(state, n), n),
            ],
            _ => vec![set_phy_info(random, n)],
        },
        Place::Row(i) => vec![
            scsi_address(row_of(state, i)),
            device_address(row_of(state, i)),
        ],
        Place::FrontPage(control) => vec![front_page(control)],
        Place::Staged => vec![commit()],
    }
}

fn phy_of(state: &[u8], n: usize) -> &[u8] {
    &state[state::phy_at(n)..state::phy_at(n + 1)]
}

fn row_of(state: &[u8], i: usize) -> &[u8] {
    &state[state::row_at(i)..state::row_at(i + 1)]
}

fn last_row(state: &[u8]) -> &[u8] {
    let last = usize::from(state[state::ROW_COUNT]).clamp(1, MAX_ROWS) - 1;
    row_of(state, last)
}

/// A request of this code, its body zero but for what is put at its start.
fn request(control: u32, start: &[u8]) -> Request {
    let mut body = start.to_vec();
    body.resize(body_size(control).unwrap_or(0), 0);
    of_body(control, &body)
}

pub fn driver_info() -> Request {
    request(code::DRIVER_INFO, &[])
}

pub fn phy_info() -> Request {
    request(code::PHY_INFO, &[])
}

/// One of codes 2, 3 and 30.
pub fn front_page(control: u32) -> Request {
    request(control, &[])
}

/// Makes what is staged current.
fn commit() -> Request {
    request(code::FIRMWARE_DOWNLOAD, &[])
}

fn link_errors(n: usize) -> Request {
    request(code::LINK_ERRORS, &[n as u8])
}

fn sata_signature(n: usize) -> Request {
    request(code::SATA_SIGNATURE, &[n as u8])
}

/// Clears a spin-up hold without a link reset.
fn disabling(n: usize) -> Request {
    request(code::SET_PHY_INFO, &[n as u8, 1])
}

/// A link reset with other rates: it goes by fixed, by the device's rates and by the spin-up hold.
fn set_phy_info(random: &mut Random, n: usize) -> Request {
    let (minimum, maximum) = random.pick(&[(8, 8), (9, 9), (8, 9), (0, 0)]);
    request(code::SET_PHY_INFO, &[n as u8, 0, minimum, maximum, 1])
}

/// To the phy by its number and by its port: it goes by port, rates, device and address.
fn check_power(random: &mut Random, phy: &[u8], n: usize) -> Request {
    let mut body = [0; stp::DATA];
    (body[stp::PHY], body[stp::PORT]) = (n as u8, phy[phy::PORT_IDENTIFIER]);
    body[stp::RATE] = random.pick(&[0, 8, 9]);
    let address = &phy[phy::ATTACHED_SAS_ADDRESS..phy::ATTACHED_SAS_ADDRESS + 8];
    body[stp::DESTINATION..stp::DESTINATION + 8].copy_from_slice(address);
    let fis = fis::command(random, ata::CHECK_POWER_MODE, 0, 0);
    body[stp::COMMAND_FIS..stp::FLAGS].copy_from_slice(&fis);
    of_body(code::STP_PASSTHRU, &body)
}

fn scsi_address(row: &[u8]) -> Request {
    request(code::SCSI_ADDRESS, &row[..row::OS])
}

fn device_address(row: &[u8]) -> Request {
    request(code::DEVICE_ADDRESS, &row[row::OS..])
}
