//! The return codes of two runs of one session side by side, as the program printed them. They are not the mark, which goes by
//! whole replies and by what the runs left: that is `lab`'s.

use super::totals::{Totals, COUNTED};
use super::transcript::{Answer, Transcript};
use super::words::request_words;
use crate::names;
use crate::session::split;

/// Two runs of a session, under the low level and under the high one.
#[derive(Debug)]
pub struct Comparison {
    rows: Vec<Row>,
    /// Of the low run and of the high one; none of a refused opening.
    totals: [Option<Totals>; 2],
    openings: Vec<String>,
    cut: bool,
}

/// What stands for a run whose opening was refused.
const NOT_OPENED: &str = "not opened";

#[derive(Debug)]
struct Row {
    request: String,
    low: Option<Answer>,
    high: Option<Answer>,
}

/// Holds two runs against each other; a run that does not fit the session is refused with a reason.
pub fn compare(session: &[u8], low: &Transcript, high: &Transcript) -> Result<Comparison, String> {
    let cut = split(session);
    let count = cut.requests.len();
    let low_answers = answers("low", low, count, !cut.tail.is_empty())?;
    let high_answers = answers("high", high, count, !cut.tail.is_empty())?;
    let mut rows = Vec::new();
    for (i, request) in cut.requests.iter().enumerate() {
        rows.push(Row {
            request: request_words(request),
            low: low_answers.map(|answers| answers[i]),
            high: high_answers.map(|answers| answers[i]),
        });
    }
    Ok(Comparison {
        rows,
        totals: [low_answers, high_answers].map(|answers| answers.map(Totals::of)),
        openings: [refused("low", low), refused("high", high)].concat(),
        cut: !cut.tail.is_empty(),
    })
}

/// The answers of a run that fits the session; none of a refused opening.
fn answers<'a>(
    name: &str,
    run: &'a Transcript,
    requests: usize,
    has_tail: bool,
) -> Result<Option<&'a [Answer]>, String> {
    let Transcript::Run { answers, cut } = run else {
        return Ok(None);
    };
    if answers.len() != requests {
        let count = answers.len();
        return Err(format!(
            "the {name} run answers {count} requests, the session has {requests}"
        ));
    }
    if *cut != has_tail {
        return Err(format!(
            "the {name} run and the session disagree about a cut request"
        ));
    }
    Ok(Some(answers))
}

fn refused(name: &str, run: &Transcript) -> Vec<String> {
    match run {
        Transcript::Refused(number) => {
            vec![format!(
                "{name}: opening refused, {}",
                names::call_words(*number)
            )]
        }
        Transcript::Run { .. } => Vec::new(),
    }
}

impl Row {
    fn differs(&self) -> bool {
        self.low != self.high
    }

    fn words(answer: &Option<Answer>) -> String {
        match answer {
            Some(answer) => answer.words(),
            None => NOT_OPENED.to_string(),
        }
    }
}

impl Comparison {
    pub fn differing(&self) -> usize {
        self.rows.iter().filter(|row| row.differs()).count()
    }

    pub fn denied_low(&self) -> usize {
        let denied = |row: &&Row| row.low.is_some_and(|answer| answer.is_denied());
        self.rows.iter().filter(denied).count()
    }

    /// How many return codes differ, and how many requests were denied in the low run.
    pub fn codes(&self) -> String {
        format!(
            "codes: {} of {} differ, {} denied low",
            self.differing(),
            self.rows.len(),
            self.denied_low()
        )
    }

    /// The totals of both runs, a line for each number below a blank line and a heading.
    fn tally(&self) -> Vec<[String; 5]> {
        let mut lines = vec![
            [""; 5].map(String::from),
            ["", "tally", "low", "high", ""].map(String::from),
        ];
        lines.extend(COUNTED.iter().enumerate().map(|(i, name)| {
            let number = |totals: Option<Totals>| match totals {
                Some(totals) => totals.0[i].to_string(),
                None => NOT_OPENED.to_string(),
            };
            let [low, high] = self.totals.map(number);
            [String::new(), name.to_string(), low, high, String::new()]
        }));
        lines
    }

    /// The table, the totals below it, the openings that were refused, and how many differ in the last line.
    pub fn table(&self) -> String {
        let mut cells = vec![["no", "request", "low", "high", ""].map(String::from)];
        for (i, row) in self.rows.iter().enumerate() {
            cells.push([
                (i + 1).to_string(),
                row.request.clone(),
                Row::words(&row.low),
                Row::words(&row.high),
                if row.differs() { "differs" } else { "" }.to_string(),
            ]);
        }
        if self.cut {
            cells.push(["", "a last request, cut", "", "", ""].map(String::from));
        }
        cells.extend(self.tally());
        let mut text = columns(&cells);
        for line in self.openings.iter().chain([&self.codes()]) {
            text.push_str(line);
            text.push('\n');
        }
        text
    }
}

/// The cells in columns, each as wide as its widest cell; numbers stand at the right.
fn columns(cells: &[[String; 5]]) -> String {
    let width = |column: usize| cells.iter().map(|row| row[column].len()).max().unwrap_or(0);
    let [number, request, low, high] = [0, 1, 2, 3].map(width);
    let line = |row: &[String; 5]| {
        let [a, b, c, d, e] = row;
        let whole = format!("{a:>number$}  {b:<request$}  {c:<low$}  {d:<high$}  {e}");
        format!("{}\n", whole.trim_end())
    };
    cells.iter().map(line).collect()
}

#[cfg(test)]
mod tests {
    use super::*;
    use crate::session::parse;

    fn run(text: &str) -> Transcript {
        Transcript::parse(text).unwrap()
    }

    #[test]
    fn side_by_side() {
        let session = parse("get-phy-info\nset-phy-info phy=9\nraw 00\ntail 01").unwrap();
        let low = run("request call code\n1 0 0\n2 0 4\n3 100 -\ncut\ntotal 3 1 1 0 1\n");
        let high = run("request call code\n1 0 0\n2 0 2002\n3 100 -\ncut\ntotal 3 1 0 1 1\n");
        let compared = compare(&session, &low, &high).unwrap();
        assert_eq!((compared.differing(), compared.denied_low()), (1, 1));
        let table = compared.table();
        let lines: Vec<&str> = table.lines().collect();
        assert_eq!(lines.len(), 13);
        assert!(lines[2].contains("4 denied, write attempted"));
        assert!(lines[2].contains("2002 phy does not exist"));
        assert!(lines[2].ends_with("differs") && !lines[1].ends_with("differs"));
        assert_eq!(lines[4].trim(), "a last request, cut");
        let numbers = |line: &&str| line.split_whitespace().collect::<Vec<_>>().join(" ");
        let tally: Vec<String> = lines[5..12].iter().map(numbers).collect();
        let expected = [
            "",
            "tally low high",
            "requests 3 3",
            "granted 1 1",
            "denied 1 0",
            "otherwise refused 0 1",
            "100s 1 1",
        ];
        assert_eq!(tally, expected);
        assert_eq!(lines[12], "codes: 1 of 3 differ, 1 denied low");
    }

    #[test]
    fn refused_openings() {
        let session = parse("get-phy-info").unwrap();
        let opened = run("request call code\n1 0 0\ntotal 1 1 0 0 0\n");
        let one = compare(&session, &run("open 101\n"), &opened).unwrap();
        assert_eq!(one.codes(), "codes: 1 of 1 differ, 0 denied low");
        assert!(one
            .table()
            .contains("low: opening refused, 101 bad level text\n"));
        assert!(one.table().contains("granted            not opened  1\n"));
        let both = compare(&session, &run("open 104\n"), &run("open 104\n")).unwrap();
        assert_eq!(both.codes(), "codes: 0 of 1 differ, 0 denied low");
    }

    #[test]
    fn runs_that_do_not_fit() {
        let session = parse("get-phy-info\nget-phy-info").unwrap();
        let one = run("request call code\n1 0 0\ntotal 1 1 0 0 0\n");
        let two = run("request call code\n1 0 0\n2 0 0\ntotal 2 2 0 0 0\n");
        let cut = run("request call code\n1 0 0\n2 0 0\ncut\ntotal 2 2 0 0 0\n");
        assert_eq!(
            compare(&session, &two, &one).unwrap_err(),
            "the high run answers 1 requests, the session has 2"
        );
        assert!(compare(&session, &cut, &two).is_err());
    }
}
