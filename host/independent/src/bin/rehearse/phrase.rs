//! Commands as they are made, and the many ways to spell one.

use independent::drill::cab::Name;
use independent::random::Random;

/// The value behind a name.
#[derive(Clone, Copy, Debug, PartialEq, Eq)]
pub enum Value {
    Number(u32),
    Word(&'static str),
}

impl Value {
    /// Gives the word of an answer.
    pub fn yes(answer: bool) -> Value {
        Value::Word(if answer { "yes" } else { "no" })
    }

    /// Spells the value: a number mostly plain, else with zeros in front or with other digits.
    pub fn spelt(self, random: &mut Random) -> Vec<u8> {
        let number = match self {
            Value::Word(word) => return word.into(),
            Value::Number(number) => number,
        };
        let zeros = "0".repeat(random.below(12) as usize);
        let spelt = match random.below(16) {
            0 => format!("{zeros}{number}"),
            1 => format!("0x{number:x}"),
            2 => format!("0x{number:X}"),
            3 => format!("0x{zeros}{number:x}"),
            4 => format!("{number:#010x}"),
            _ => number.to_string(),
        };
        spelt.into_bytes()
    }
}

/// A name with its value.
pub type Pair = (&'static str, Value);

/// A command: the words that come first, and the names behind them.
#[derive(Clone, Debug)]
pub struct Phrase {
    pub first: Vec<Vec<u8>>,
    pub given: Vec<Pair>,
}

impl Phrase {
    /// Begins a command for a cab with some words.
    pub fn new(cab: Name, words: &[&str]) -> Phrase {
        let words = words.iter().map(|word| word.as_bytes().to_vec());
        Phrase {
            first: [cab.word().into()].into_iter().chain(words).collect(),
            given: Vec::new(),
        }
    }

    /// Puts one more word first, of whatever bytes.
    pub fn word(mut self, word: &[u8]) -> Phrase {
        self.first.push(word.to_vec());
        self
    }

    /// Gives a name a value.
    pub fn given(mut self, name: &'static str, value: Value) -> Phrase {
        self.given.push((name, value));
        self
    }

    /// Gives a name a number.
    pub fn number(self, name: &'static str, number: u32) -> Phrase {
        self.given(name, Value::Number(number))
    }

    /// Spells all words, with the names in any order.
    pub fn words(&self, random: &mut Random) -> Vec<Vec<u8>> {
        let mut given = self.given.clone();
        for place in (1..given.len()).rev() {
            given.swap(place, random.below(place as u64 + 1) as usize);
        }
        let mut words = self.first.clone();
        for (name, value) in given {
            words.push([name.as_bytes(), b"=", &value.spelt(random)].concat());
        }
        words
    }
}

/// Puts words into a line without its line end: mostly one blank between two, now and then more.
pub fn spaced(random: &mut Random, words: &[Vec<u8>]) -> Vec<u8> {
    if !random.chance(10) {
        let mut line = words.join(&b' ');
        if random.chance(40) {
            line.push(b'\r');
        }
        return line;
    }
    let mut line = blanks(random, 0);
    for (place, word) in words.iter().enumerate() {
        if place > 0 {
            line.extend(blanks(random, 1));
        }
        line.extend(word);
    }
    match random.below(3) {
        0 => line.extend(blanks(random, 1)),
        1 => {
            line.extend(blanks(random, 1));
            line.extend(comment(random));
        }
        _ => {}
    }
    line
}

/// Makes so many blanks or some more.
fn blanks(random: &mut Random, least: u64) -> Vec<u8> {
    let count = least + random.below(3);
    (0..count).map(|_| *random.pick(b"  \t,\r")).collect()
}

/// Makes a comment, now and then of strange bytes.
pub fn comment(random: &mut Random) -> Vec<u8> {
    const COMMENTS: [&[u8]; 8] = [
        b"#",
        b"# the night is long",
        b"#a private end",
        b"##\t#",
        b"# user=1, user=2",
        b"#\0\x01",
        b"# \xc3\xa4\xff",
        b"#\r",
    ];
    random.pick(&COMMENTS).to_vec()
}
