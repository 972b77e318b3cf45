//! The aims: how fast the library has to be, of a model that tests the state as often.

use crate::workload::Kind;

/// Speeds of the library in one row of the table, of the model's.
pub struct Ratios {
    /// The run, of the model with the state tested once.
    pub run: f64,
    /// The calls, of the model.
    pub calls: f64,
}

struct Aim {
    name: &'static str,
    least: f64,
    /// The lowest that was measured, and where.
    lowest: Option<(f64, String)>,
}

pub struct Aims {
    run: Aim,
    calls: Aim,
    mixed_calls: Aim,
    opening: Aim,
}

impl Aims {
    pub fn new() -> Self {
        Aims {
            run: Aim::new(
                "the mixed session by the run, of the model with the state tested once",
                1.0,
            ),
            mixed_calls: Aim::new("the mixed session one request at a time, of the model", 1.0),
            calls: Aim::new("any session one request at a time, of the model", 1.0),
            opening: Aim::new("an opening by the call, of the model", 0.7),
        }
    }

    pub fn note(&mut self, kind: Kind, place: &str, ratios: &Ratios) {
        if kind == Kind::Opening {
            self.opening.note(ratios.calls, place);
            return;
        }
        self.calls.note(ratios.calls, place);
        if kind == Kind::Mixed {
            self.run.note(ratios.run, place);
            self.mixed_calls.note(ratios.calls, place);
        }
    }

    pub fn print(&self) {
        println!("| aim | at least | lowest | at |");
        println!("|---|---|---|---|");
        for aim in [&self.run, &self.mixed_calls, &self.calls, &self.opening] {
            if let Some((lowest, place)) = &aim.lowest {
                println!(
                    "| {} | {:.1} | {lowest:.2} | {place} |",
                    aim.name, aim.least
                );
            }
        }
    }
}

impl Aim {
    fn new(name: &'static str, least: f64) -> Self {
        Aim {
            name,
            least,
            lowest: None,
        }
    }

    fn note(&mut self, ratio: f64, place: &str) {
        let is_lowest = match &self.lowest {
            Some((lowest, _)) => ratio < *lowest,
            None => true,
        };
        if is_lowest {
            self.lowest = Some((ratio, place.to_string()));
        }
    }
}
