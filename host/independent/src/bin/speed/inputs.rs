//! The inputs that every implementation is given, all of them made from one seed.

use crate::digits::{self, Sort};
use crate::implementations::{Pair, MACHINES};
use independent::line::LINE_END;
use independent::log::MOST;
use independent::making;
use independent::random::Random;
use std::iter;

/// How many lines, pairs and bytes of a script there are.
const COUNT: usize = 4_096;

/// How long the longest line is, its end counted.
pub const LONGEST_LINE: usize = 63;

/// How many short scripts there are besides, and how long they can be.
const SHORT_SCRIPTS: usize = 400;
const SHORT: u64 = 200;

/// How many lines each of the logs has whose cost a line is measured.
pub const LINES_A_LOG: usize = 64;

/// One time in so many a line is damaged, or a pair is any that can be made.
const DAMAGED: u64 = 8;

/// How many bytes a script's inputs are drawn from, the last of them standing for all others.
const INPUTS: u64 = 12;

/// The sizes of the logs by which cost is held against size, in bytes.
pub const SIZES: [usize; 6] = [64, 256, 1_024, 4_096, 16_384, MOST];

/// Pieces of memory that lie one behind the other, as the lines of a log do.
pub struct Pieces {
    bytes: Vec<u8>,
    /// Where each piece ends.
    ends: Vec<usize>,
}

impl Pieces {
    /// Lays pieces one behind the other.
    pub fn new(pieces: impl Iterator<Item = Vec<u8>>) -> Pieces {
        let (mut bytes, mut ends) = (Vec::new(), Vec::new());
        for piece in pieces {
            bytes.extend(piece);
            ends.push(bytes.len());
        }
        Pieces { bytes, ends }
    }

    /// Lists the pieces.
    pub fn list(&self) -> Vec<&[u8]> {
        let mut begin = 0;
        let pieces = self.ends.iter().map(|&end| {
            let piece = &self.bytes[begin..end];
            begin = end;
            piece
        });
        pieces.collect()
    }
}

/// Says what the inputs are.
pub fn told(seed: u64) -> String {
    format!(
        "Inputs: {COUNT} lines of all kinds, one in {DAMAGED} damaged, in logs of {LINES_A_LOG}; \
         {COUNT} pairs of announcements, one in {DAMAGED} of any sort; \
         scripts of some {COUNT} steps, from seed {seed}."
    )
}

/// All inputs.
pub struct Inputs {
    lines: Pieces,
    firsts: Pieces,
    seconds: Pieces,
    logs: Pieces,
    /// Scripts for the private and the group machine, each with one of whole calls and one of any inputs.
    pub scripts: [[Vec<u8>; 2]; 2],
    /// Scripts for either machine that are not measured, every other one of any bytes.
    pub short_scripts: Vec<Vec<u8>>,
    /// Lines by digits, sort by sort.
    pub by_digits: Vec<Sort>,
    /// Logs of such lines, sort by sort.
    pub logs_by_digits: Vec<Sort>,
}

impl Inputs {
    /// Makes all inputs from a seed.
    pub fn new(seed: u64) -> Inputs {
        let mut random = Random::new(seed);
        let lines: Vec<Vec<u8>> = (0..COUNT).map(|_| line(&mut random)).collect();
        let pairs: Vec<(Vec<u8>, Vec<u8>)> = (0..COUNT).map(|_| pair(&mut random)).collect();
        let scripts = MACHINES.map(|machine| {
            [
                calls(&mut random, machine.calls),
                script(&mut random, COUNT, INPUTS),
            ]
        });
        let short_scripts = (0..SHORT_SCRIPTS).map(|place| {
            let length = random.below(SHORT) as usize;
            script(&mut random, length, [INPUTS, 256][place % 2])
        });
        let short_scripts = short_scripts.collect();
        Inputs {
            logs: Pieces::new(lines.chunks(LINES_A_LOG).map(<[Vec<u8>]>::concat)),
            lines: Pieces::new(lines.into_iter()),
            firsts: Pieces::new(pairs.iter().map(|(first, _)| first.clone())),
            seconds: Pieces::new(pairs.iter().map(|(_, second)| second.clone())),
            scripts,
            short_scripts,
            by_digits: digits::sorts(&mut random),
            logs_by_digits: digits::logs(&mut random),
        }
    }

    /// Lists the lines.
    pub fn lines(&self) -> Vec<&[u8]> {
        self.lines.list()
    }

    /// Lists the pairs of lines for the chooser.
    pub fn pairs(&self) -> Vec<Pair<'_>> {
        let seconds = self.seconds.list();
        self.firsts.list().into_iter().zip(seconds).collect()
    }

    /// Lists the logs, which are all of the lines, so many to each.
    pub fn logs(&self) -> Vec<&[u8]> {
        self.logs.list()
    }

    /// Lists logs of one line each, some 65,536 bytes together.
    pub fn single_lines(&self) -> Vec<&[u8]> {
        let mut lines = self.lines();
        lines.retain(|line| line.split_inclusive(|&byte| byte == LINE_END).count() == 1);
        let mut bytes = 0;
        let enough = lines.iter().take_while(|line| {
            bytes += line.len();
            bytes <= MOST
        });
        let enough = enough.count();
        lines.truncate(enough);
        lines
    }

    /// Lists logs of one of the sizes, 65,536 bytes together: each begins with a line, and is cut
    /// where it is long enough.
    pub fn logs_of(&self, size: usize) -> Vec<&[u8]> {
        let all = &self.lines.bytes;
        let mut logs = Vec::new();
        let mut next = 0;
        for begin in iter::once(0).chain(self.lines.ends.iter().copied()) {
            let end = begin + size;
            if begin >= next && end <= all.len() && logs.len() < MOST / size {
                logs.push(&all[begin..end]);
                next = end;
            }
        }
        logs
    }
}

/// Makes a line, which is damaged or out of range one time in eight.
fn line(random: &mut Random) -> Vec<u8> {
    if random.chance(DAMAGED) {
        making::damaged_line(random)
    } else {
        making::good_line(random)
    }
}

/// Makes a pair of lines, mostly one that there is a choice between.
fn pair(random: &mut Random) -> (Vec<u8>, Vec<u8>) {
    if random.chance(DAMAGED) {
        making::pair(random)
    } else {
        making::good_pair(random)
    }
}

/// Makes a script of whole calls, one after the other.
fn calls(random: &mut Random, calls: &[&[u8]]) -> Vec<u8> {
    let mut script = Vec::new();
    while script.len() < COUNT {
        script.extend(calls[random.below(calls.len() as u64) as usize]);
    }
    script
}

/// Makes a script of so many bytes below a bound.
fn script(random: &mut Random, length: usize, bound: u64) -> Vec<u8> {
    (0..length).map(|_| random.below(bound) as u8).collect()
}

#[cfg(test)]
mod tests {
    use super::*;
    use independent::chooser::chosen;
    use independent::line::read;

    /// Lines are of every kind, and about one in eight is refused.
    #[test]
    fn lines_of_every_kind() {
        let inputs = Inputs::new(1);
        let (mut kinds, mut refused) = ([0; 10], 0);
        for line in inputs.lines() {
            match read(line) {
                Ok(message) => kinds[message.kind().code() as usize] += 1,
                Err(_) => refused += 1,
            }
        }
        assert!(kinds[1..].iter().all(|&met| met > COUNT / 20), "{kinds:?}");
        assert!((COUNT / 12..COUNT / 6).contains(&refused), "{refused}");
    }

    /// Most pairs are chosen between, each side wins, and some are refused.
    #[test]
    fn pairs_of_every_choice() {
        let inputs = Inputs::new(2);
        let mut choices = [0; 3];
        for (first, second) in inputs.pairs() {
            choices[chosen(first, second) as usize] += 1;
        }
        assert!(choices.iter().all(|&met| met > COUNT / 40), "{choices:?}");
        assert!(choices[0] < COUNT / 8, "{choices:?}");
    }

    /// The logs of each size have it, and are 65,536 bytes together.
    #[test]
    fn logs_of_every_size() {
        let inputs = Inputs::new(3);
        assert_eq!(inputs.logs().concat(), inputs.lines().concat());
        for size in SIZES {
            let logs = inputs.logs_of(size);
            assert_eq!(logs.concat().len(), MOST, "{size}");
            assert!(logs.iter().all(|log| log.len() == size));
        }
        let single = inputs.single_lines().concat().len();
        assert!((MOST - 200..=MOST).contains(&single));
    }

    /// Another seed makes other inputs, the same seed the same.
    #[test]
    fn made_from_the_seed() {
        let (one, again, other) = (Inputs::new(4), Inputs::new(4), Inputs::new(5));
        assert_eq!((one.lines(), one.pairs()), (again.lines(), again.pairs()));
        assert_eq!(one.scripts, again.scripts);
        assert_ne!(one.lines(), other.lines());
        assert_ne!(one.scripts, other.scripts);
        assert!(one.scripts.iter().all(|[_, any]| any.contains(&11)));
    }

    /// In whole calls each step meets a row, among any inputs less than half of them.
    #[test]
    fn rows_met() {
        let inputs = Inputs::new(6);
        for (machine, [calls, any]) in MACHINES.iter().zip(&inputs.scripts) {
            let met = |script: &[u8]| (machine.steps[1].1)(script, &mut [0; LONGEST_LINE]);
            assert_eq!(met(calls), calls.len(), "{}", machine.name);
            assert!(met(any) < any.len() / 2, "{}", machine.name);
        }
    }
}
