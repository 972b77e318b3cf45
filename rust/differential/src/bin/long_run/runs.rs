//! The random cases, the tally of their records, and the claims about whole runs and about the two headers.

use differential::adapter::Adapter;
use differential::case::{Case, Outcome};
use differential::compare::{compare, Difference};
use differential::coverage::Coverage;
use differential::random::Random;
use differential::read_only::Kept;
use differential::session::Framing;
use differential::side::{CALLS, SIDES};
use differential::start::{Level, Start};
use differential::two_runs::{check, check_denied, check_each};
use differential::{
    firmware, generate, last_writer, read_only, reporting, sameness, spinup, stage, tally, text,
};

/// The most requests of a case, the requests of a list, the bodies behind both headers, the requests that report, those of firmware.
const CASE: usize = 120;
const LIST: usize = 80;
const TWINS: usize = 40;
const REPORTS: usize = 40;
const FIRMWARE: usize = 40;

#[derive(Default)]
pub struct Runs {
    pub coverage: Coverage,
    /// The lines of all runs.
    pub lines: Vec<u8>,
    pub properties: u64,
    pub twins: u64,
    pub reports: u64,
    pub firmware: u64,
    pub faults: Vec<String>,
}

impl Runs {
    pub fn compare(&mut self, seed: u64, framing: Framing) {
        let case = generate::case(seed, CASE, framing);
        match compare(&case) {
            Ok(outcome) => {
                self.coverage.count(&case, &outcome);
                self.tally(&case, &outcome);
            }
            Err(Difference { seed, what }) => {
                // So that a run in which everything differs ends too.
                self.coverage.requests += 1;
                self.faults.push(format!("seed {seed}: {what}"));
            }
        }
    }

    fn tally(&mut self, case: &Case, outcome: &Outcome) {
        self.lines.extend(tally::lines(outcome));
        let totals = tally::of_run(case, outcome).map(drop);
        self.note(&format!("seed {}, tally", case.seed), totals);
    }

    /// Two runs, the last writers, the spin-up holds and the firmware of a list.
    pub fn properties(&mut self, seed: u64, framing: Framing) {
        self.properties += 1;
        let random = &mut Random::new(seed);
        let adapter = Adapter::sound(random);
        let opening = generate::sound_opening(random, &adapter);
        let requests = generate::requests_of(random, &adapter, LIST, framing);
        let stage = stage::any(random);
        let low = text::LEVELS[random.below(4)];
        let high = text::LEVELS[random.within(usize::from(low), 3)];
        let low = Level::of_number(random, low);
        let high = Level::of_number(random, high);
        let start = Start {
            seed,
            file: &opening.file,
            medium: &opening.medium,
            stage: &stage,
            requests: &requests,
        };
        let (file, medium) = (&opening.file, &opening.medium);
        let mut case = Case::of_requests(seed, &high.text, file, medium, &requests);
        case.stage.clone_from(&stage);
        for side in SIDES {
            let name = format!("seed {seed}, {side:?}");
            let denied = check(side, &start, &low, &high).map(drop);
            self.note(&format!("{name}, two runs"), denied);
            for kept in [Kept::Linux, Kept::LinuxAndFirmware] {
                if low.number < kept.level() {
                    let left = read_only::check(side, &start, &low, kept);
                    self.note(&format!("{name}, read-only, {kept:?}"), left);
                }
            }
            let outcome = side.run(&case);
            let rates = last_writer::check(&case, &outcome).map(drop);
            self.note(&format!("{name}, last writer"), rates);
            let holds = spinup::check(&case, &outcome).map(drop);
            self.note(&format!("{name}, spin-up holds"), holds);
            let written = firmware::check(&case, &outcome, high.number).map(drop);
            self.note(&format!("{name}, firmware"), written);
        }
        for side in CALLS {
            let name = format!("seed {seed}, {side:?}");
            let left = check_each(side, &start, &low, &high);
            self.note(&format!("{name}, two runs by calls"), left);
            let holds = spinup::check_each(side, &start, &high);
            self.note(&format!("{name}, spin-up holds by calls"), holds);
            let written = firmware::check_each(side, &start, &high);
            self.note(&format!("{name}, firmware by calls"), written);
        }
        self.note(&format!("seed {seed}, denied"), check_denied(&start, &low));
    }

    /// Bodies behind both headers.
    pub fn sameness(&mut self, seed: u64) {
        self.twins += TWINS as u64;
        for side in CALLS {
            let same = sameness::walk(side, seed, TWINS, |_| ());
            self.note(&format!("seed {seed}, {side:?}, both headers"), same);
        }
    }

    /// Requests that report.
    pub fn reporting(&mut self, seed: u64) {
        self.reports += REPORTS as u64;
        for side in CALLS {
            let left = reporting::walk(side, seed, REPORTS, |_| ());
            self.note(&format!("seed {seed}, {side:?}, reports only"), left);
        }
    }

    /// Requests of firmware.
    pub fn firmware(&mut self, seed: u64) {
        self.firmware += FIRMWARE as u64;
        for side in CALLS {
            let left = firmware::walk(side, seed, FIRMWARE, |_| ());
            self.note(&format!("seed {seed}, {side:?}, firmware alone"), left);
        }
    }

    fn note(&mut self, name: &str, result: Result<(), String>) {
        if let Err(what) = result {
            self.faults.push(format!("{name}: {what}"));
        }
    }
}
