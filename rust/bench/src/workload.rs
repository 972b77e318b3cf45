//! What is measured: an adapter of which every phy is connected, and sessions of granted requests; and one of which all are denied, by
//! their needs.

use differential::adapter::phy::Phy;
use differential::adapter::Adapter;
use differential::case::Case;
use differential::names::{ata, code, device, phy, ENTITY, SECTORS};
use differential::random::Random;
use differential::request::passthrough::Passthrough;
use differential::request::{first, fis, linux, Request};

#[derive(Clone, Copy, PartialEq, Eq)]
pub enum Kind {
    /// No requests: the opening alone.
    Opening,
    Code(u32),
    Command(u8),
    Mixed,
    /// The same under the Linux header.
    MixedLinux,
    /// What a console begins with, codes 1, 2, 3, 20 and 30 in turn.
    ConsoleStart,
    /// Passthrough requests of every command code in turn, at level None: all are denied, once the need of the command is known.
    Needs,
}

impl Kind {
    /// The text of the opening.
    fn text(self) -> &'static [u8] {
        match self {
            Kind::Needs => b"CSMI=None;",
            _ => b"CSMI=Full;",
        }
    }
}

pub const SESSIONS: [(&str, Kind); 15] = [
    ("opening", Kind::Opening),
    ("driver-info", Kind::Code(code::DRIVER_INFO)),
    ("phy-info", Kind::Code(code::PHY_INFO)),
    ("set-phy-info", Kind::Code(code::SET_PHY_INFO)),
    ("link-errors", Kind::Code(code::LINK_ERRORS)),
    ("read", Kind::Command(ata::READ_SECTORS)),
    ("write", Kind::Command(ata::WRITE_SECTORS)),
    ("identify", Kind::Command(ata::IDENTIFY_DEVICE)),
    ("signature", Kind::Code(code::SATA_SIGNATURE)),
    ("scsi-address", Kind::Code(code::SCSI_ADDRESS)),
    ("device-address", Kind::Code(code::DEVICE_ADDRESS)),
    ("mixed", Kind::Mixed),
    ("mixed-linux", Kind::MixedLinux),
    ("console-start", Kind::ConsoleStart),
    ("needs", Kind::Needs),
];

/// Those of one code or command, of which a mixed session is made.
const SINGLE: std::ops::RangeInclusive<usize> = 1..=10;

/// The codes that a console begins with.
const CONSOLE_START: [u32; 5] = [
    code::DRIVER_INFO,
    code::CNTLR_CONFIG,
    code::CNTLR_STATUS,
    code::PHY_INFO,
    code::CONNECTOR_INFO,
];

/// The counts p and a that are measured.
pub const SIZES: [(usize, usize); 4] = [(7, 0), (7, 64), (32, 0), (32, 64)];

pub fn kind(name: &str) -> Option<Kind> {
    let mut sessions = SESSIONS.iter();
    sessions
        .find(|session| session.0 == name)
        .map(|session| session.1)
}

/// A session of so many requests.
pub fn case(kind: Kind, p: usize, a: usize, requests: usize) -> Case {
    let random = &mut Random::new(7);
    let adapter = connected(random, p, a);
    let count = if kind == Kind::Opening { 0 } else { requests };
    let list: Vec<Request> = (0..count)
        .map(|i| request(random, &adapter, kind, i))
        .collect();
    let medium = random.bytes(adapter.medium_length());
    Case::of_requests(0, kind.text(), &adapter.file(), &medium, &list)
}

/// An adapter whose phys all have a SATA disk at 3.0 Gb/s, a signature, and rates that may be changed.
fn connected(random: &mut Random, p: usize, a: usize) -> Adapter {
    let mut adapter = Adapter::of_counts(random, p, a);
    for phy in &mut adapter.phys {
        connect(random, phy);
    }
    adapter
}

fn connect(random: &mut Random, phy: &mut Phy) {
    let bytes = &mut phy.bytes;
    random.fill(&mut bytes[phy::ATTACHED..ENTITY]);
    bytes[phy::ATTACHED] = device::END;
    bytes[phy::ATTACHED_TARGET_PROTOCOLS] |= 1;
    (bytes[phy::MINIMUM], bytes[phy::MAXIMUM]) = (0x88, 0x99);
    (bytes[phy::LOWEST], bytes[phy::HIGHEST]) = (8, 9);
    bytes[phy::NEGOTIATED] = 9;
    random.fill(&mut bytes[phy::SIGNATURE..phy::HELD]);
    (bytes[phy::HELD], bytes[phy::FIXED], bytes[phy::SPINUP_HOLD]) = (1, 0, 0);
}

/// The request at a place of a session: granted at Full; of the two address codes, only if there are rows.
fn request(random: &mut Random, adapter: &Adapter, kind: Kind, at: usize) -> Request {
    match kind {
        Kind::Code(code::SET_PHY_INFO) => set_phy_info(random, adapter),
        Kind::Code(control) => first::sound(random, adapter, control),
        Kind::Command(command) => passthrough(random, adapter, command),
        Kind::Mixed | Kind::Opening => {
            let one = SESSIONS[random.within(*SINGLE.start(), *SINGLE.end())].1;
            request(random, adapter, one, at)
        }
        Kind::MixedLinux => {
            let first = request(random, adapter, Kind::Mixed, at);
            linux::of_body(first.control(), first.body())
        }
        Kind::ConsoleStart => {
            first::sound(random, adapter, CONSOLE_START[at % CONSOLE_START.len()])
        }
        Kind::Needs => passthrough(random, adapter, at as u8),
    }
}

/// Enables a phy with rates that keep it connected.
fn set_phy_info(random: &mut Random, adapter: &Adapter) -> Request {
    let phy = random.below(adapter.phys.len()) as u8;
    let (minimum, maximum) = random.pick(&[(8, 9), (0, 9), (8, 0), (0, 0), (8, 8)]);
    let class = random.below(4) as u8;
    first::of_body(
        code::SET_PHY_INFO,
        &[phy, 0, minimum, maximum, class, 0, 0, 0],
    )
}

/// One sector, anywhere on the disk, at a rate that every link has.
fn passthrough(random: &mut Random, adapter: &Adapter, command: u8) -> Request {
    let lba = random.below(SECTORS) as u32;
    let fis = fis::command(random, command, lba, 1);
    let mut passthrough = Passthrough::of_fis(random, adapter, fis);
    passthrough.rate = 8;
    first::of_body(code::STP_PASSTHRU, &passthrough.body(random))
}
