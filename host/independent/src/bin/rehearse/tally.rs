//! What a run has met, counted from the transcripts.

use independent::drill::words::Complaint;
use std::collections::HashMap;

/// From how many steps on a run has to meet everything.
pub const ENOUGH: u64 = 10_000;

/// How often something has to be met.
#[derive(Clone, Copy)]
enum Least {
    /// So often in `ENOUGH` steps, and more often in more.
    InSteps(u64),
    /// Once, since a script has it at most once.
    Once,
}

/// What each row, each number and each complaint has to be met.
const OFTEN: Least = Least::InSteps(20);

/// What each number of the reader and of the chooser has to be met, of which most count above already.
const LESS_OFTEN: Least = Least::InSteps(10);

/// How often something was met.
struct Count {
    what: String,
    met: u64,
    least: Least,
}

/// The counts of a run.
pub struct Tally {
    pub steps: u64,
    scripts: u64,
    bytes: u64,
    counts: Vec<Count>,
    /// The places of the counts by what they count.
    places: HashMap<String, usize>,
}

impl Tally {
    /// Starts with nothing met.
    pub fn new() -> Tally {
        let rows = (1..=29).map(|row| format!("row R{row}"));
        let rows = rows.chain((1..=11).map(|row| format!("row G{row}")));
        let numbers = (0..=10).map(|number| format!("number {number}"));
        let reader = (1..=5).map(|number| format!("reader {number}"));
        // A line that the chooser is asked about always has its line end.
        let chooser = [0, 2, 3, 4, 5, 10].map(|number| format!("chooser {number}"));
        let complaints = Complaint::ALL.map(|complaint| unreadable(complaint.text()));
        let sentences = ["Private call", "Group call"]
            .map(|call| SENTENCES.map(|sentence| format!("{call}: {sentence}")));
        let once = [TOO_LONG.to_string()]
            .into_iter()
            .chain(sentences.into_iter().flatten());
        let counts: Vec<Count> = rows
            .chain(numbers)
            .chain(complaints)
            .map(|what| count(what, OFTEN))
            .chain(reader.chain(chooser).map(|what| count(what, LESS_OFTEN)))
            .chain(once.map(|what| count(what, Least::Once)))
            .collect();
        let places = counts.iter().map(|count| count.what.clone()).zip(0..);
        Tally {
            steps: 0,
            scripts: 0,
            bytes: 0,
            places: places.collect(),
            counts,
        }
    }

    /// Counts a script of so many bytes and all that its transcript tells.
    pub fn add(&mut self, script: usize, transcript: &[u8]) {
        self.scripts += 1;
        self.bytes += script as u64;
        for line in String::from_utf8_lossy(transcript).lines() {
            self.line(line);
        }
    }

    /// Counts a line of a transcript.
    fn line(&mut self, line: &str) {
        if let Some(wrong) = line.strip_prefix("! ") {
            match wrong.split_once(": ") {
                Some((place, text)) if place.starts_with("line ") => self.meet(&unreadable(text)),
                _ => self.meet(TOO_LONG),
            }
            return;
        }
        if line.starts_with('#') || line.starts_with("end ") {
            return;
        }
        if line.starts_with("Private call: ") || line.starts_with("Group call: ") {
            return self.meet(line);
        }
        let mut fields = line.split(' ').skip(2);
        let mut field = || fields.next().unwrap_or_default();
        let (machine, number, row) = (field(), field(), field());
        self.meet(&format!("number {number}"));
        match machine {
            "reader" | "chooser" => self.meet(&format!("{machine} {number}")),
            _ => {
                self.steps += 1;
                if row != "-" {
                    self.meet(&format!("row {row}"));
                }
            }
        }
    }

    /// Counts what is met, which must be one of what the tally was started with.
    fn meet(&mut self, what: &str) {
        let place = self.places.get(what);
        let place = *place.unwrap_or_else(|| panic!("no count of {what}"));
        self.counts[place].met += 1;
    }

    /// Lists what was not met often enough, if there were steps enough to meet it.
    fn missing(&self) -> Vec<String> {
        if self.steps < ENOUGH {
            return Vec::new();
        }
        let least = |count: &Count| match count.least {
            Least::InSteps(least) => least * self.steps / ENOUGH,
            Least::Once => 1,
        };
        let missing = self.counts.iter().filter(|count| count.met < least(count));
        missing
            .map(|count| format!("{} {} of {}", count.what, count.met, least(count)))
            .collect()
    }

    /// Says how a run without a difference ended: well, or with something met too seldom.
    pub fn verdict(&self) -> Result<String, String> {
        let missing = self.missing().join("; ");
        if missing.is_empty() {
            return Ok(format!("no difference: {} steps", self.steps));
        }
        Err(format!(
            "FAILED: no difference, but not met often enough: {missing}"
        ))
    }

    /// Gives one line for all of the run and one for each count.
    pub fn table(&self) -> String {
        let Tally {
            steps,
            scripts,
            bytes,
            ..
        } = self;
        let mut table = format!("steps {steps}, scripts {scripts}, bytes {bytes}");
        for count in &self.counts {
            table += &format!("\n  {}: {}", count.what, count.met);
        }
        table
    }
}

/// Names the count of scripts that were not taken whole.
const TOO_LONG: &str = "script of more than 65536 bytes";

/// The sentences about the calls that the cabs are in.
const SENTENCES: [&str; 6] = [
    "neither cab is in a call.",
    "cab a is in a call, cab b is in none.",
    "cab b is in a call, cab a is in none.",
    "both cabs are in the same call.",
    "the cabs are in calls with the same identifier that differ in other fields.",
    "the cabs are in different calls.",
];

/// Names the count of a complaint.
fn unreadable(text: &str) -> String {
    format!("unreadable, {text}")
}

/// Starts a count.
fn count(what: String, least: Least) -> Count {
    Count {
        what,
        met: 0,
        least,
    }
}

#[cfg(test)]
mod tests {
    use super::*;

    /// Gives the tally of so many steps, of which so many are of row R2 and all others of row R1.
    fn of_steps(steps: usize, second: usize) -> Tally {
        let first = "1 a private 0 R1 P0 P2\n".repeat(steps - second);
        let second = "1 a private 0 R2 P2 P2\n".repeat(second);
        let mut tally = Tally::new();
        tally.add(0, (first + &second).as_bytes());
        tally
    }

    /// Gives what a tally says of one count, if it was not met often enough.
    fn said(tally: &Tally, what: &str) -> Option<String> {
        let mut missing = tally.missing().into_iter();
        missing.find(|line| line.starts_with(&format!("{what} ")))
    }

    /// From 10,000 steps on everything that never came is missed, and a run of one step less is asked for nothing.
    #[test]
    fn never_met() {
        let short = of_steps(9_999, 0);
        assert_eq!(short.verdict(), Ok("no difference: 9999 steps".to_string()));
        let long = of_steps(10_000, 0);
        let missing = long.missing();
        // All but row R1 and number 0.
        assert_eq!(missing.len(), long.counts.len() - 2);
        for line in [
            "row R2 0 of 20",
            "row G11 0 of 20",
            "number 10 0 of 20",
            "unreadable, expires was expected 0 of 20",
            "reader 5 0 of 10",
            "chooser 10 0 of 10",
            "script of more than 65536 bytes 0 of 1",
            "Group call: both cabs are in the same call. 0 of 1",
        ] {
            assert!(missing.contains(&line.to_string()), "{line}");
        }
        let failed = "FAILED: no difference, but not met often enough: row R2 0 of 20; row R3";
        assert!(long.verdict().is_err_and(|line| line.starts_with(failed)));
    }

    /// One time too few is missed, and the least grows with the steps.
    #[test]
    fn one_too_few() {
        for (steps, least) in [(10_000, 20), (19_999, 39), (20_000, 40)] {
            let line = format!("row R2 {} of {least}", least - 1);
            assert_eq!(said(&of_steps(steps, least - 1), "row R2"), Some(line));
            assert_eq!(said(&of_steps(steps, least), "row R2"), None);
        }
    }

    /// Numbers of the reader are wanted half as often, and what a script has at most once only once.
    #[test]
    fn less_often() {
        let mut tally = of_steps(20_000, 0);
        tally.add(0, "1 a reader 3 -\n".repeat(19).as_bytes());
        assert_eq!(
            said(&tally, "reader 3").as_deref(),
            Some("reader 3 19 of 20")
        );
        assert_eq!(said(&tally, TOO_LONG), Some(format!("{TOO_LONG} 0 of 1")));
        tally.add(0, b"1 a reader 3 -\n! the script has more\n");
        assert_eq!(said(&tally, "reader 3"), None);
        assert_eq!(said(&tally, TOO_LONG), None);
    }
}
