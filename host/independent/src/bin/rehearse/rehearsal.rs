//! The run: scripts are made and played by the program and by the independent implementation.

use crate::cut;
use crate::program::{Answer, Program};
use crate::script;
use crate::tally::Tally;
use independent::drill::{play_by, Machines};
use independent::line::LINE_END;
use independent::shown;
use std::io;
use std::thread;

/// How many scripts each thread plays before all are looked at.
const EACH: u64 = 4;

/// What is to be run.
pub struct Rehearsal<'a> {
    pub seed: u64,
    /// How many steps are to be taken.
    pub steps: u64,
    /// The machines of the independent side.
    pub machines: Machines,
    pub program: &'a Program,
}

/// A script that was played on both sides.
struct Played {
    script: Vec<u8>,
    independent: Vec<u8>,
    answer: Answer,
}

impl Played {
    /// Tells whether the two sides differ, or the program failed or said anything on standard error, for one
    /// that has no status of its own can tell a failure only there.
    fn differs(&self) -> bool {
        let Answer {
            printed,
            said,
            failure,
        } = &self.answer;
        failure.is_some() || !said.is_empty() || *printed != self.independent
    }
}

/// How a run ended.
pub enum Ended {
    /// All steps were taken, and this was met.
    Agreed(Tally),
    /// A difference, in words.
    Differed(String),
}

impl Rehearsal<'_> {
    /// Plays one script after the other until there were steps enough, or up to the first difference.
    pub fn run(&self) -> io::Result<Ended> {
        let mut tally = Tally::new();
        let mut number = 0;
        while tally.steps < self.steps {
            let threads = thread::available_parallelism().map_or(1, usize::from) as u64;
            for played in self.batch(number + 1, threads)? {
                number += 1;
                if played.differs() {
                    return self.report(number, played).map(Ended::Differed);
                }
                tally.add(played.script.len(), &played.independent);
                // What was played beyond the steps asked for depends on the machine, and counts nothing.
                if tally.steps >= self.steps {
                    break;
                }
            }
        }
        Ok(Ended::Agreed(tally))
    }

    /// Plays some scripts, from a number on, and gives them in the order of their numbers.
    fn batch(&self, first: u64, threads: u64) -> io::Result<Vec<Played>> {
        thread::scope(|scope| {
            let parts: Vec<_> = (0..threads)
                .map(|part| {
                    let start = first + part * EACH;
                    scope.spawn(move || {
                        let numbers = start..start + EACH;
                        let scripts = numbers.map(|number| script::made(self.seed, number));
                        scripts.map(|script| self.played(script)).collect()
                    })
                })
                .collect();
            let mut all = Vec::new();
            for part in parts {
                let played: io::Result<Vec<Played>> = part.join().expect("a thread that ends");
                all.extend(played?);
            }
            Ok(all)
        })
    }

    /// Plays a script on both sides.
    fn played(&self, script: Vec<u8>) -> io::Result<Played> {
        Ok(Played {
            independent: play_by(self.machines, &script),
            answer: self.program.answer(&script)?,
            script,
        })
    }

    /// Cuts a script down that shows a difference, and puts all of it in words.
    fn report(&self, number: u64, found: Played) -> io::Result<String> {
        let first = cut::first_difference(&found.answer.printed, &found.independent);
        let cut = cut::cut(&found.script, first, &mut |script| {
            Ok(self.played(script.to_vec())?.differs())
        })?;
        let before = lines_of(&found.script);
        let mut shown = self.played(cut)?;
        // A program that does not always do the same shows its difference uncut.
        if !shown.differs() {
            shown = found;
        }
        let mut report = format!("DIFFERENCE: seed {}, script {number}\n", self.seed);
        report += &format!(
            "the script, {} of {before} lines:\n",
            lines_of(&shown.script)
        );
        report += &shown::lines(&shown.script);
        if let Some(failure) = &shown.answer.failure {
            report += &format!("the program failed: {failure}\n");
        }
        if !shown.answer.said.is_empty() {
            report += "the program said on standard error:\n";
            report += &shown::lines(&shown.answer.said);
        }
        report += "the program printed:\n";
        report += &shown::lines(&shown.answer.printed);
        report += "the independent implementation printed:\n";
        report += &shown::lines(&shown.independent);
        Ok(report.trim_end().to_string())
    }
}

/// Counts the lines of a script.
fn lines_of(script: &[u8]) -> usize {
    script.split_inclusive(|&byte| byte == LINE_END).count()
}

#[cfg(test)]
mod tests {
    use super::*;

    /// Another transcript, a failure and anything said are differences, each alone.
    #[test]
    fn differences() {
        let differs = |printed: &str, said: &str, failure: Option<&str>| {
            let answer = Answer {
                printed: printed.into(),
                said: said.into(),
                failure: failure.map(str::to_string),
            };
            let played = Played {
                script: b"a private end\n".to_vec(),
                independent: b"1 a\n".to_vec(),
                answer,
            };
            played.differs()
        };
        assert!(!differs("1 a\n", "", None));
        assert!(differs("1 a", "", None));
        assert!(differs("1 a\n", "x", None));
        assert!(differs("1 a\n", "", Some("it ended with status 3")));
    }
}
