//! All that is measured: the contests of the tables, and their rounds.

use crate::contest::Contest;
use crate::implementations::{Implementation, MACHINES};
use crate::inputs::{Inputs, LONGEST_LINE, SIZES};
use independent::line::LINE_END;
use independent::log::MOST;
use std::hint::black_box;
use std::time::{Duration, Instant};

/// The fewest rounds, however long they take.
const FEWEST: usize = 3;

/// All contests, table by table.
pub struct Contests<'a> {
    /// Line check, chooser and answer to a log.
    pub questions: [Contest<'a>; 3],
    /// The line check of lines by digits, and the answer to logs of them, sort by sort.
    pub digits: Vec<Contest<'a>>,
    /// A step of each machine, in whole calls and among any inputs.
    pub steps: Vec<Contest<'a>>,
    /// The answer to logs of one line and of each size.
    pub sizes: Vec<Contest<'a>>,
}

impl<'a> Contests<'a> {
    /// Puts each of these implementations into every contest but those of the steps.
    pub fn new(all: &[Implementation], inputs: &'a Inputs) -> Contests<'a> {
        let mut sizes = vec![answering(all, "1 line", &inputs.single_lines())];
        for size in SIZES {
            let name = format!("{size} bytes");
            sizes.push(answering(all, &name, &inputs.logs_of(size)));
        }
        Contests {
            questions: asking(all, inputs),
            digits: by_digits(all, inputs),
            steps: stepping(inputs),
            sizes,
        }
    }

    /// Runs rounds of all contests until the time is over, and gives how many there were.
    pub fn run(&mut self, time: Duration) -> usize {
        let begun = Instant::now();
        let mut rounds = 0;
        while rounds < FEWEST || begun.elapsed() < time {
            let lines = self.questions.iter_mut().chain(&mut self.digits);
            for contest in lines.chain(&mut self.steps).chain(&mut self.sizes) {
                contest.round(rounds);
            }
            rounds += 1;
        }
        rounds
    }
}

/// The contests of the three questions.
fn asking<'a>(all: &[Implementation], inputs: &'a Inputs) -> [Contest<'a>; 3] {
    [
        checking(all, "line check (a line)", &inputs.lines()),
        choosing(all, inputs),
        answering(all, "answer to a log (a line)", &inputs.logs()),
    ]
}

/// The contests of the lines by digits, and of the logs of them.
fn by_digits<'a>(all: &[Implementation], inputs: &'a Inputs) -> Vec<Contest<'a>> {
    let lines = inputs.by_digits.iter();
    let lines = lines.map(|sort| checking(all, &sort.name, &sort.pieces.list()));
    let logs = inputs.logs_by_digits.iter();
    let logs = logs.map(|sort| answering(all, &sort.name, &sort.pieces.list()));
    lines.chain(logs).collect()
}

/// Counts bytes.
fn total(pieces: &[&[u8]]) -> usize {
    pieces.iter().map(|piece| piece.len()).sum()
}

/// A contest of the line check.
fn checking<'a>(all: &[Implementation], name: &str, lines: &[&'a [u8]]) -> Contest<'a> {
    let mut contest = Contest::new(name, lines.len(), total(lines));
    for &one in all {
        let lines = lines.to_vec();
        contest.enter(one.name, move || (one.check_all)(&lines));
    }
    contest
}

/// The contest of the chooser.
fn choosing<'a>(all: &[Implementation], inputs: &'a Inputs) -> Contest<'a> {
    let pairs = inputs.pairs();
    let bytes = pairs.iter().map(|(one, other)| one.len() + other.len());
    let mut contest = Contest::new("chooser (a pair)", pairs.len(), bytes.sum());
    for &one in all {
        let pairs = pairs.clone();
        contest.enter(one.name, move || (one.choose_all)(&pairs));
    }
    contest
}

/// A contest of answers to logs, in a buffer that has room for every one.
fn answering<'a>(all: &[Implementation], name: &str, logs: &[&'a [u8]]) -> Contest<'a> {
    let lines = logs
        .iter()
        .map(|log| log.split_inclusive(|&byte| byte == LINE_END).count());
    let mut contest = Contest::new(name, lines.sum(), total(logs));
    for &one in all {
        let logs = logs.to_vec();
        let mut out = vec![0; 3 * MOST];
        contest.enter(one.name, move || (one.answer_all)(&logs, &mut out));
    }
    contest
}

/// The contests of the steps.
fn stepping(inputs: &Inputs) -> Vec<Contest<'_>> {
    let mut contests = Vec::new();
    for (machine, scripts) in MACHINES.iter().zip(&inputs.scripts) {
        for (sort, script) in ["whole calls", "any inputs"].iter().zip(scripts) {
            let name = format!("{}, {sort}", machine.name);
            let mut contest = Contest::new(&name, script.len(), script.len());
            for (name, steps) in machine.steps {
                let mut out = [0; LONGEST_LINE];
                contest.enter(name, move || {
                    black_box(steps(black_box(script), &mut out));
                });
            }
            contests.push(contest);
        }
    }
    contests
}

#[cfg(test)]
mod tests {
    use super::*;
    use crate::implementations::{measured, of, Answers};
    use std::cell::Cell;

    thread_local! {
        /// How many units and bytes were handed over.
        static HANDED: Cell<(usize, usize)> = const { Cell::new((0, 0)) };
    }

    /// Adds to what was handed over.
    fn hand(units: usize, bytes: usize) {
        HANDED.set((HANDED.get().0 + units, HANDED.get().1 + bytes));
    }

    /// An implementation that only keeps count.
    struct Tallying;

    impl Answers for Tallying {
        const NAME: &'static str = "tallying";

        fn check(line: &[u8]) -> u32 {
            hand(1, line.len());
            0
        }

        fn choose(first: &[u8], second: &[u8]) -> u32 {
            hand(1, first.len() + second.len());
            0
        }

        fn answer(log: &[u8], _out: &mut [u8]) -> usize {
            let lines = log.split_inclusive(|&byte| byte == LINE_END);
            hand(lines.count(), log.len());
            0
        }
    }

    /// A round, timed or not, hands over just as many lines, pairs and bytes as it is counted for, and
    /// these are enough.
    fn is_whole(mut contest: Contest, enough: (usize, usize)) {
        for run in [
            |one: &mut Contest| one.round(0),
            |one: &mut Contest| one.once(|run| run()),
        ] {
            HANDED.set((0, 0));
            run(&mut contest);
            assert_eq!(
                HANDED.get(),
                (contest.units, contest.bytes),
                "{}",
                contest.name
            );
        }
        assert!(contest.units >= enough.0 && contest.bytes >= enough.1);
    }

    /// The rounds of the questions and of the lines by digits are whole.
    #[test]
    fn rounds_are_whole() {
        let inputs = Inputs::new(1);
        let tallying = [of::<Tallying>()];
        for contest in asking(&tallying, &inputs) {
            is_whole(contest, (4_096, 60_000));
        }
        for contest in by_digits(&tallying, &inputs) {
            is_whole(contest, (1_024, 1_024 * 23));
        }
    }

    /// An earlier state runs right behind the proved implementation in every contest but those of the
    /// steps, where it is measured, and else in none.
    #[test]
    fn the_state_before_runs() {
        let inputs = Inputs::new(1);
        for before in [false, true] {
            let contests = Contests::new(&measured(before), &inputs);
            let lines = contests.questions.iter().chain(&contests.digits);
            for contest in lines.chain(&contests.sizes) {
                let names = contest.names();
                assert_eq!(names.len(), if before { 9 } else { 8 });
                assert_eq!((names[0], names[1] == "Rattle before"), ("Rattle", before));
            }
            let steps = contests.steps.iter();
            assert!(steps.clone().all(|one| one.names() == ["Rattle", "Rust"]));
        }
    }
}
