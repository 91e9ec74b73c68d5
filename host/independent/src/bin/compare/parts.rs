//! The four parts of the comparison and how each of them is run.

use crate::case::{Difference, Draw, Spoil};
use crate::tally::{Row, Tally};
use crate::{lines, logs, pairs, writings};
use independent::random::Random;

/// One part of the comparison.
pub struct Part {
    /// The part's name, in the plural since it is also what its inputs are called.
    pub name: &'static str,
    /// What the bytes in its table are the bytes of.
    pub measured: &'static str,
    /// How many inputs a full run has.
    pub full: u64,
    /// From how many inputs on every required class has to be met.
    pub enough: u64,
    /// The rows of its table.
    rows: &'static [Row],
    /// Makes one input and compares what becomes of it.
    one: fn(&mut Draw, &mut Tally) -> Result<(), Difference>,
}

/// How many parts there are.
pub const COUNT: usize = 4;

/// All parts in the order in which they are run.
pub const PARTS: [Part; COUNT] = [
    Part {
        name: "lines",
        measured: "the line",
        full: 2_000_000,
        enough: 50_000,
        rows: lines::ROWS,
        one: lines::one,
    },
    Part {
        name: "pairs",
        measured: "both lines",
        full: 2_000_000,
        enough: 50_000,
        rows: pairs::ROWS,
        one: pairs::one,
    },
    Part {
        name: "writings",
        measured: "the buffer",
        full: 1_000_000,
        enough: 50_000,
        rows: writings::ROWS,
        one: writings::one,
    },
    Part {
        name: "logs",
        measured: "the log",
        full: 20_000,
        enough: 500,
        rows: logs::ROWS,
        one: logs::one,
    },
];

impl Part {
    /// Runs the part on so many inputs, up to the first difference, which comes in words.
    pub fn run(&self, seed: u64, count: u64, spoil: Option<Spoil>) -> Result<Tally, String> {
        let mut tally = Tally::new(self.rows);
        let mut draw = Draw {
            random: Random::new(seed.wrapping_add(self.offset())),
            number: 0,
            spoil,
        };
        while draw.number < count {
            draw.number += 1;
            if let Err(difference) = (self.one)(&mut draw, &mut tally) {
                return Err(difference.report(seed, draw.number));
            }
        }
        Ok(tally)
    }

    /// Lists the classes that a run of so many inputs should have met and has not.
    pub fn missing(&self, tally: &Tally, count: u64) -> Vec<String> {
        if count < self.enough {
            return Vec::new();
        }
        tally.missing()
    }

    /// Gives what is added to the seed, so that each part draws from a stretch of its own, whatever
    /// the other parts draw.
    fn offset(&self) -> u64 {
        let place = PARTS.iter().position(|part| part.name == self.name);
        (place.unwrap_or(0) as u64) << 62
    }
}

#[cfg(test)]
mod tests {
    use super::*;

    /// What was not met is missed by a run that had inputs enough to meet it, and by no other.
    #[test]
    fn missed_from_enough_on() {
        for part in &PARTS {
            let tally = Tally::new(part.rows);
            assert!(part.missing(&tally, 0).is_empty());
            assert!(part.missing(&tally, part.enough - 1).is_empty());
            for count in [part.enough, part.full] {
                let missing = part.missing(&tally, count);
                assert!(!missing.is_empty());
                assert_eq!(missing, tally.missing());
            }
        }
    }
}
