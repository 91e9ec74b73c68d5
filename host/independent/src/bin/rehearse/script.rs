//! Making of scripts: a play is gone along with, so that what comes next can suit what the cabs are in.

use crate::endings;
use crate::phrase::{spaced, Pair, Phrase};
use crate::records;
use independent::drill::cab::{Cab, Name};
use independent::drill::words::Complaint;
use independent::drill::{Machines, Player};
use independent::line::LINE_END;
use independent::log::MOST;
use independent::random::Random;
use independent::{group, private};

/// One script in so many goes past the bytes that are taken.
pub const LONG_EVERY: u64 = 8;

/// The bytes from which on a script that is not to be too long is ended.
const ENOUGH: u64 = 48_000;

/// One script in so many prints as much as there can be, or has as many lines, or a line as long.
const DENSE_EVERY: u64 = 64;
/// Where that script stands among the others, from 0.
const DENSE: u64 = 32;

/// What the densest scripts are made of.
const DENSEST: [&[u8]; 6] = [b"\n", b"a\n", b"a hears\n", b"#", b"a", b"a hears ="];

/// The smallest scripts.
const SMALLEST: [&[u8]; 8] = [b"", b"\n", b"a", b"#", b"\r\n", b"\0", b"b hears", b"\n\n,"];

/// Makes the script of a number, which a seed has as many of as one likes.
pub fn made(seed: u64, number: u64) -> Vec<u8> {
    let own = Random::new(seed).next().wrapping_add(number);
    let mut random = Random::new(Random::new(own).next());
    let sort = number % LONG_EVERY;
    let length = match sort {
        0 if number % DENSE_EVERY == DENSE => return dense(&mut random),
        0 => MOST + 200,
        5 if random.chance(3) => return random.pick(&SMALLEST).to_vec(),
        5 => random.below(4_000) as usize,
        _ => (ENOUGH + random.below(10_000)) as usize,
    };
    let mut maker = Maker {
        random,
        script: Vec::new(),
        player: Player::new(Machines::RULES),
    };
    maker.nothing_sent_yet();
    while maker.script.len() < length {
        maker.turn();
    }
    if sort == 0 {
        maker.end_near_the_cut(number);
    } else {
        endings::put(&mut maker, number);
    }
    maker.script
}

/// Makes a script of one line again and again, or of one line alone, about as long as what is taken.
fn dense(random: &mut Random) -> Vec<u8> {
    let line = random.pick(&DENSEST);
    let length = MOST - 2 + random.below(5) as usize;
    let mut script = line.repeat(length / line.len() + 1);
    script.truncate(length);
    script
}

/// A script that is being made.
pub struct Maker {
    pub random: Random,
    script: Vec<u8>,
    /// The play of all that was put into the script.
    pub player: Player,
}

impl Maker {
    /// Shows a cab as it is after all that was put into the script.
    pub fn cab(&self, name: Name) -> &Cab {
        self.player.cab(name)
    }

    /// Puts a line into the script, or several if there are line ends in it.
    pub fn put(&mut self, line: &[u8]) {
        for line in line.split(|&byte| byte == LINE_END) {
            self.player.line(line);
            self.script.extend(line);
            self.script.push(LINE_END);
        }
    }

    /// Puts a command into the script, spelt in one of many ways.
    pub fn say(&mut self, phrase: &Phrase) {
        let words = phrase.words(&mut self.random);
        let line = spaced(&mut self.random, &words);
        self.put(&line);
    }

    /// Takes the last line end away.
    pub fn unended(&mut self) {
        self.script.pop();
    }

    /// Asks for lines while no cab has sent one.
    fn nothing_sent_yet(&mut self) {
        for _ in 0..self.random.below(16) {
            let name = *self.random.pick(&Name::ALL);
            self.unreadable(Complaint::NoLineYet(name));
        }
    }

    /// Makes the script end just before, at or just behind the last byte that is taken, or further on.
    fn end_near_the_cut(&mut self, number: u64) {
        match self.random.below(3) {
            0 => self.script[MOST - 1] = LINE_END,
            1 => self.script[MOST] = LINE_END,
            _ => {}
        }
        // Every second one is too long for sure.
        let shortest = if number.is_multiple_of(2 * LONG_EVERY) {
            0
        } else {
            2
        };
        match shortest + self.random.below(4) {
            0 => self.script.truncate(MOST - 1),
            1 => self.script.truncate(MOST),
            2 => self.script.truncate(MOST + 1),
            _ => {}
        }
    }

    /// Sets a private record, by naming what is not so yet and now and then more.
    pub fn set_private(&mut self, name: Name, record: &private::Record) {
        let now = records::private_pairs(&self.cab(name).private);
        let phrase = Phrase::new(name, &["private", "record"]);
        self.set(phrase, &now, &records::private_pairs(record));
    }

    /// Sets a group record, by naming what is not so yet and now and then more.
    pub fn set_group(&mut self, name: Name, record: &group::Record) {
        let now = records::group_pairs(&self.cab(name).group);
        let phrase = Phrase::new(name, &["group", "record"]);
        self.set(phrase, &now, &records::group_pairs(record));
    }

    /// Names what is wanted and not so yet, and now and then more, if that is anything.
    fn set(&mut self, mut phrase: Phrase, now: &[Pair], wanted: &[Pair]) {
        for (now, wanted) in now.iter().zip(wanted) {
            if now != wanted || self.random.chance(20) {
                phrase.given.push(*wanted);
            }
        }
        if !phrase.given.is_empty() {
            self.say(&phrase);
        }
    }
}
