//! Disks held at spin-up as W-205 has them, on both implementations: one that is read, released or disabled, code 21 refused, and what is
//! shown. What each gets is worked out here, not by the model alone.

use differential::adapter::Adapter;
use differential::names::{
    ata, call, code, header, phy, phy_info, rate, set_phy_info as info, state, status, stp, DISK,
    ENTITY, NOT_GIVEN, SECTOR,
};
use differential::pair::Pair;
use differential::random::Random;
use differential::request::{fis, OfBody, Request, HEADERS};
use differential::side::return_code;
use differential::text::{FULL, LEVELS};
use differential::wire::{put_word, word};

/// The phy reset problem counter.
const PROBLEM: usize = phy::COUNTERS + 12;

/// An adapter of some phys, of which phy n has a disk of both rates that is held at spin-up, with a signature.
fn with_hold(random: &mut Random) -> (Adapter, usize) {
    let p = random.within(1, 6);
    let mut adapter = Adapter::of_counts(random, p, 2);
    let n = random.below(p);
    adapter.phys[n].hold_at_spinup(random);
    put_word(&mut adapter.phys[n].bytes, PROBLEM, 7);
    (adapter, n)
}

/// One adapter on both sides, whose phy n is asked.
struct Asked {
    adapter: Adapter,
    n: usize,
    medium: Vec<u8>,
    pair: Pair,
    of_body: OfBody,
}

impl Asked {
    fn of(random: &mut Random, adapter: &Adapter, n: usize, level: u8, of_body: OfBody) -> Self {
        let medium = random.bytes(adapter.medium_length());
        Asked {
            adapter: adapter.clone(),
            n,
            pair: Pair::of(&adapter.state(level), &medium),
            medium,
            of_body,
        }
    }

    /// The return code of a request and the reply's body; the medium stays.
    fn asks(&mut self, control: u32, body: &[u8]) -> (u32, Vec<u8>) {
        let request = (self.of_body)(control, body);
        let reply = self.pair.request(&request).unwrap();
        assert!(self.pair.medium() == self.medium, "the medium");
        let code = return_code(reply.number, request.header, &reply.buffer);
        (code, request.header.body(&reply.buffer).to_vec())
    }

    /// The same of one that leaves the state; refused, it leaves its body too.
    fn reports(&mut self, control: u32, body: &[u8], expected: u32) -> Vec<u8> {
        let before = self.pair.state().to_vec();
        let (code, reply) = self.asks(control, body);
        assert_eq!(code, expected, "code {control}");
        assert!(self.pair.state() == before, "code {control}: the state");
        assert!(expected == status::SUCCESS || reply == body);
        reply
    }

    /// A command to the phy, by its number.
    fn command(&mut self, random: &mut Random, command: u8, expected: u32) -> Vec<u8> {
        let fis = fis::command(random, command, 3, 1);
        let mut body = vec![0x5A; stp::DATA + SECTOR];
        (body[stp::PHY], body[stp::PORT]) = (self.n as u8, NOT_GIVEN);
        body[stp::RATE] = random.pick(&[0, 8]);
        let address = self.adapter.phys[self.n].attached_address();
        body[stp::DESTINATION..stp::DESTINATION + 8].copy_from_slice(&address);
        body[stp::COMMAND_FIS..stp::FLAGS].copy_from_slice(&fis);
        put_word(&mut body, stp::DATA_LENGTH, SECTOR as u32);
        self.reports(code::STP_PASSTHRU, &body, expected)
    }

    /// Reads, writes and every other command get 2008, and nothing is touched.
    fn is_not_connected(&mut self, random: &mut Random) {
        for command in [
            ata::READ_SECTORS,
            ata::WRITE_SECTORS,
            ata::IDENTIFY_DEVICE,
            ata::CHECK_POWER_MODE,
            random.byte(),
        ] {
            self.command(random, command, status::CONNECTION_FAILED);
        }
    }

    /// A read shows the disk's sector.
    fn is_read(&mut self, random: &mut Random) {
        let reply = self.command(random, ata::READ_SECTORS, status::SUCCESS);
        let at = self.n * DISK + 3 * SECTOR;
        assert_eq!(reply[stp::STATUS_FIS + fis::STATUS], ata::STATUS_GOOD);
        assert!(reply[stp::DATA..] == self.medium[at..at + SECTOR]);
    }

    /// A code 21 to the phy is granted, and leaves it without a hold, with these rates and so many problems more; no other byte of the
    /// state changes.
    fn is_set(&mut self, body: [u8; 5], rates: [u8; 3], problems: u32) {
        let body = [&body[..], &[0x5A; 3]].concat();
        let mut expected = self.pair.state().to_vec();
        let (code, reply) = self.asks(code::SET_PHY_INFO, &body);
        assert_eq!((code, &reply), (status::PHY_INFO_CHANGED, &body));
        let phy = &mut expected[state::phy_at(self.n)..state::phy_at(self.n + 1)];
        phy[phy::SIGNAL_CLASS] = body[info::SIGNAL_CLASS];
        phy[phy::NEGOTIATED..=phy::MAXIMUM].copy_from_slice(&rates);
        phy[phy::SPINUP_HOLD] = 0;
        let counter = word(phy, PROBLEM) + problems;
        put_word(phy, PROBLEM, counter);
        assert!(self.pair.state() == expected, "{body:?}: the state");
    }
}

/// Levels that grant what is asked, and the header: Full, and with the Linux header any.
fn granting() -> Vec<(u8, OfBody)> {
    let linux = LEVELS.map(|level| (level, HEADERS[1]));
    [&[(FULL, HEADERS[0])], &linux[..]].concat()
}

/// What a code 21 asks for, and the rates that it leaves to the disk.
const RELEASES: [([u8; 2], [u8; 3]); 8] = [
    ([0, 0], [9, 0x88, 0x99]),
    ([8, 9], [9, 0x88, 0x99]),
    ([8, 0], [9, 0x88, 0x99]),
    ([0, 9], [9, 0x88, 0x99]),
    ([9, 0], [9, 0x98, 0x99]),
    ([9, 9], [9, 0x98, 0x99]),
    ([0, 8], [8, 0x88, 0x89]),
    ([8, 8], [8, 0x88, 0x89]),
];

/// Read, released, read; and disabled while it has its hold, read, enabled again, read.
#[test]
fn a_hold_is_cleared_by_the_next_granted_code_21() {
    let random = &mut Random::new(6);
    for ((level, of_body), ([minimum, maximum], left)) in granting()
        .into_iter()
        .flat_map(|asked| RELEASES.map(|release| (asked, release)))
    {
        let (adapter, n) = with_hold(random);
        let (phy, class) = (n as u8, random.below(4) as u8);
        let mut asked = Asked::of(random, &adapter, n, level, of_body);
        asked.is_not_connected(random);
        asked.is_set([phy, 0, minimum, maximum, class], left, 0);
        asked.is_read(random);
        asked.is_set([phy, 0, 0, 0, class], left, 0);
        asked.is_read(random);

        let mut asked = Asked::of(random, &adapter, n, level, of_body);
        let off = [rate::DISABLED, left[1], left[2]];
        asked.is_set([phy, 1, minimum, maximum, class], off, 0);
        asked.is_not_connected(random);
        asked.is_set([phy, 0, 0, 0, class], left, 0);
        asked.is_read(random);
    }
}

/// A link reset that fails clears the hold and counts one, as those after it do; so of a phy that has failed in spite of its hold.
#[test]
fn a_release_that_fails_counts_one() {
    let random = &mut Random::new(7);
    for (level, of_body) in granting() {
        let (mut adapter, n) = with_hold(random);
        let phy = n as u8;
        adapter.phys[n].bytes[phy::LOWEST] = 9;
        let failed = [rate::FAILED, 0x88, 0x89];
        let mut asked = Asked::of(random, &adapter, n, level, of_body);
        asked.is_set([phy, 0, 0, 8, 1], failed, 1);
        asked.is_not_connected(random);
        asked.is_set([phy, 0, 0, 0, 1], failed, 1);
        asked.is_set([phy, 1, 0, 0, 1], [rate::DISABLED, 0x88, 0x89], 0);
        asked.is_set([phy, 0, 0, 9, 1], [9, 0x88, 0x99], 0);
        asked.is_read(random);

        adapter.phys[n].bytes[phy::NEGOTIATED..=phy::MAXIMUM].copy_from_slice(&failed);
        let mut asked = Asked::of(random, &adapter, n, level, of_body);
        asked.is_not_connected(random);
        asked.is_set([phy, 0, 0, 0, 1], failed, 1);
        put_word(&mut adapter.phys[n].bytes, PROBLEM, u32::MAX);
        let mut asked = Asked::of(random, &adapter, n, level, of_body);
        asked.is_set([phy, 0, 0, 0, 1], failed, 0);
    }
}

/// A disabled phy keeps its hold until a code 21 names it.
#[test]
fn a_hold_of_a_disabled_phy() {
    let random = &mut Random::new(8);
    for (level, of_body) in granting() {
        let (mut adapter, n) = with_hold(random);
        adapter.phys[n].bytes[phy::NEGOTIATED] = rate::DISABLED;
        for negotiated in [0, 1] {
            let mut asked = Asked::of(random, &adapter, n, level, of_body);
            asked.is_not_connected(random);
            let left = [[9, 0x88, 0x99], [1, 0x88, 0x99]][usize::from(negotiated)];
            asked.is_set([n as u8, negotiated, 0, 0, 2], left, 0);
        }
    }
}

/// Each refusal of a code 21, by its own checks, leaves every byte of the state, and the disk is not reached.
#[test]
fn a_refused_code_21_leaves_the_hold() {
    let random = &mut Random::new(9);
    for (level, of_body) in granting() {
        let (mut adapter, n) = with_hold(random);
        let (phy, p) = (n as u8, adapter.phys.len() as u8);
        let refused = [
            ([p, 0, 0, 0, 0], status::PHY_DOES_NOT_EXIST),
            ([255, 1, 0, 0, 0], status::PHY_DOES_NOT_EXIST),
            ([phy, 2, 0, 0, 0], status::INVALID_PARAMETER),
            ([phy, 3, 0, 0, 0], status::INVALID_PARAMETER),
            ([phy, 9, 0, 0, 0], status::INVALID_PARAMETER),
            ([phy, 0, 0, 0, 4], status::INVALID_PARAMETER),
            ([phy, 1, 0, 0, 255], status::INVALID_PARAMETER),
            ([phy, 0, 3, 0, 0], status::LINK_RATE_OUT_OF_RANGE),
            ([phy, 0, 0, 10, 0], status::LINK_RATE_OUT_OF_RANGE),
            ([phy, 0, 9, 8, 0], status::LINK_RATE_OUT_OF_RANGE),
            ([phy, 1, 9, 8, 0], status::LINK_RATE_OUT_OF_RANGE),
        ];
        let mut asked = Asked::of(random, &adapter, n, level, of_body);
        for (body, code) in refused {
            let body = [&body[..], &[0; 3]].concat();
            asked.reports(code::SET_PHY_INFO, &body, code);
            asked.is_not_connected(random);
        }
        adapter.phys[n].bytes[phy::FIXED] = 1;
        let mut asked = Asked::of(random, &adapter, n, level, of_body);
        for negotiated in [0, 1, 2] {
            let body = [phy, negotiated, 0, 0, 0, 0, 0, 0];
            asked.reports(code::SET_PHY_INFO, &body, status::PHY_INFO_NOT_CHANGEABLE);
            asked.is_not_connected(random);
        }
    }
}

/// So does one that the level denies, or that its header's checks stop.
#[test]
fn a_code_21_that_is_denied_or_stopped_leaves_the_hold() {
    let random = &mut Random::new(10);
    for level in LEVELS {
        let (adapter, n) = with_hold(random);
        let sound = adapter.state(level);
        let medium = random.bytes(adapter.medium_length());
        let mut pair = Pair::of(&sound, &medium);
        let mut stopped = |request: &Request, expected: (u32, u32)| {
            let reply = pair.request(request).unwrap();
            let code = return_code(reply.number, request.header, &reply.buffer);
            assert_eq!((reply.number, code), expected, "level {level}");
            assert!(pair.state() == sound && pair.medium() == medium);
        };
        let body = [n as u8, 0, 0, 0, 0, 0, 0, 0];
        let [first, linux] = HEADERS.map(|of_body| of_body(code::SET_PHY_INFO, &body));
        if level < FULL {
            stopped(&first, (call::DONE, status::WRITE_ATTEMPTED));
        }
        for at in header::SIGNATURE..header::TIMEOUT {
            let mut wrong = first.clone();
            wrong.buffer[at] ^= 0x20;
            stopped(&wrong, (call::DONE, status::BAD_CNTL_CODE));
        }
        for (sound, cut) in [&first, &linux]
            .into_iter()
            .flat_map(|sound| (0..body.len()).map(move |cut| (sound, cut)))
        {
            let header = sound.header;
            let mut short = sound.clone();
            let length = (header.counted() + cut) as u32;
            put_word(&mut short.buffer, header.length(), length);
            stopped(&short, (call::DONE, status::INVALID_PARAMETER));
            short.buffer.truncate(header.size() + cut);
            stopped(&short, (call::DONE, status::INVALID_PARAMETER));
        }
    }
}

/// Code 20 shows the rate 3, and after a release the rate; codes 22 and 26 answer.
#[test]
fn what_is_shown_of_a_hold() {
    let random = &mut Random::new(11);
    for (level, of_body) in granting() {
        let (mut adapter, n) = with_hold(random);
        let bytes = adapter.phys[n].bytes;
        let mut asked = Asked::of(random, &adapter, n, level, of_body);
        let reply = asked.reports(code::PHY_INFO, &[0x5A; phy_info::SIZE], status::SUCCESS);
        assert_eq!(reply[phy_info::PHYS + ENTITY * n + phy::NEGOTIATED], 3);
        assert_eq!(reply, adapter.phy_info());
        let mut body = [0; 24];
        body[0] = n as u8;
        let reply = asked.reports(code::LINK_ERRORS, &body[..20], status::SUCCESS);
        assert_eq!(reply[4..], bytes[phy::COUNTERS..phy::SIGNATURE]);
        let reply = asked.reports(code::SATA_SIGNATURE, &body, status::SUCCESS);
        assert_eq!(reply[4..], bytes[phy::SIGNATURE..phy::HELD]);

        let class = bytes[phy::SIGNAL_CLASS];
        asked.is_set([n as u8, 0, 0, 0, class], [9, 0x88, 0x99], 0);
        adapter.phys[n].bytes[phy::NEGOTIATED] = 9;
        let reply = asked.reports(code::PHY_INFO, &[0x5A; phy_info::SIZE], status::SUCCESS);
        assert_eq!(reply, adapter.phy_info());
    }
}
