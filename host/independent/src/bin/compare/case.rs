//! One case of the comparison, and the difference that it may show.

use crate::lent::Lent;
use crate::words;
use independent::random::Random;
use std::fmt;

/// The slips that can be put into the independent answers, to see that they are found.
#[derive(Clone, Copy, Debug, PartialEq, Eq)]
pub enum Spoil {
    Lines,
    Values,
    Pairs,
    Numbers,
    Writings,
    Room,
    Logs,
}

impl Spoil {
    /// Every slip under its name.
    pub const ALL: [(&'static str, Spoil); 7] = [
        ("lines", Spoil::Lines),
        ("values", Spoil::Values),
        ("pairs", Spoil::Pairs),
        ("numbers", Spoil::Numbers),
        ("writings", Spoil::Writings),
        ("room", Spoil::Room),
        ("logs", Spoil::Logs),
    ];
}

/// What a case is made from.
pub struct Draw {
    /// The generator of the part.
    pub random: Random,
    /// How many cases there have been, this one counted.
    pub number: u64,
    /// The slip to put into the independent answers, if any.
    pub spoil: Option<Spoil>,
}

impl Draw {
    /// Tells whether a slip is to be put into the independent answer.
    pub fn spoilt(&self, by: Spoil) -> bool {
        self.spoil == Some(by)
    }

    /// Leaves nothing of a line, but seldom, since an empty one is seldom made.
    pub fn perhaps_emptied(&mut self, line: Vec<u8>) -> Vec<u8> {
        if self.random.chance(64) {
            return Vec::new();
        }
        line
    }

    /// Draws so many bytes.
    pub fn bytes(&mut self, count: usize) -> Vec<u8> {
        let words = (0..count.div_ceil(8)).map(|_| self.random.next().to_le_bytes());
        let mut bytes: Vec<u8> = words.flatten().collect();
        bytes.truncate(count);
        bytes
    }
}

/// A place where the two implementations do not agree, in words.
#[derive(Debug)]
pub struct Difference {
    part: &'static str,
    input: String,
    proved: String,
    independent: String,
}

impl Difference {
    /// Says where it was met, and then all of it.
    pub fn report(&self, seed: u64, draw: u64) -> String {
        format!(
            "DIFFERENCE in {}: seed {seed}, draw {draw}\n{self}",
            self.part
        )
    }
}

impl fmt::Display for Difference {
    /// Shows the input whole and what each implementation makes of it.
    fn fmt(&self, out: &mut fmt::Formatter) -> fmt::Result {
        writeln!(out, "{}", self.input)?;
        writeln!(out, "proved: {}", self.proved)?;
        write!(out, "independent: {}", self.independent)
    }
}

/// What is asked of both implementations, and how its input is put in words if they differ.
pub struct Case<'a> {
    /// The name under which a difference is told.
    pub part: &'static str,
    /// Puts the input in words.
    pub input: &'a dyn Fn() -> String,
}

impl Case<'_> {
    /// Compares two answers, and puts them in words where they are not the same.
    pub fn same<T: PartialEq>(
        &self,
        proved: &T,
        independent: &T,
        words: impl Fn(&T) -> String,
    ) -> Result<(), Difference> {
        if proved == independent {
            return Ok(());
        }
        Err(self.difference(words(proved), words(independent)))
    }

    /// Compares two answers that come with a buffer, and says where the buffers part if they do.
    pub fn same_written<T: PartialEq>(
        &self,
        proved: &(T, Vec<u8>),
        independent: &(T, Vec<u8>),
        words: impl Fn(&T) -> String,
    ) -> Result<(), Difference> {
        let all = |(answer, after): &(T, Vec<u8>)| {
            [words(answer), named("the buffer after", after)].join("; ")
        };
        let mut bytes = proved.1.iter().zip(&independent.1);
        self.same(proved, independent, all).map_err(|mut found| {
            if let Some(place) = bytes.position(|(one, other)| one != other) {
                found.independent += &format!("\nthe buffers part at byte {place}");
            }
            found
        })
    }

    /// Checks that something lent only to be read is as it was, and so is all around it.
    pub fn unharmed<T: Copy + PartialEq>(
        &self,
        lent: &Lent<T>,
        name: &str,
    ) -> Result<(), Difference> {
        self.no_harm(lent.harm(), name)
    }

    /// Checks that all around a lent buffer is as it was.
    pub fn unharmed_around(&self, lent: &Lent<u8>, name: &str) -> Result<(), Difference> {
        self.no_harm(lent.harm_around(), name)
    }

    /// Takes a harm for a difference.
    fn no_harm(&self, harm: Option<&'static str>, name: &str) -> Result<(), Difference> {
        match harm {
            None => Ok(()),
            Some(harm) => Err(self.difference(
                format!("changed memory that it may not change: of {name}, {harm}"),
                "changes no such memory".to_string(),
            )),
        }
    }

    /// Puts a difference together.
    fn difference(&self, proved: String, independent: String) -> Difference {
        Difference {
            part: self.part,
            input: (self.input)(),
            proved,
            independent,
        }
    }
}

/// Puts a piece of the input in words, with its name in front.
pub fn named(name: &str, bytes: &[u8]) -> String {
    format!("{name}, {}", words::counted(bytes))
}

#[cfg(test)]
mod tests {
    use super::*;

    /// A difference shows its input and both answers, and sameness shows nothing.
    #[test]
    fn differences_are_shown() {
        let case = Case {
            part: "lines",
            input: &|| named("the line", b"02\n"),
        };
        let compare =
            |proved, independent| case.same(&proved, &independent, |&number| words::number(number));
        assert!(compare(4, 4).is_ok());
        let difference = compare(4, 3).unwrap_err();
        assert_eq!(
            difference.report(7, 12),
            "DIFFERENCE in lines: seed 7, draw 12\n\
             the line, 3 bytes: 02\\x0a\n\
             proved: number 4, another count of digits than its kind has\n\
             independent: number 3, no kind"
        );
    }

    /// Where the buffers part is told, counted from 0, and only where they do.
    #[test]
    fn buffers_part() {
        let case = Case {
            part: "logs",
            input: &|| named("the log", b""),
        };
        let compare = |proved, independent: &[u8]| {
            let independent = (3, independent.to_vec());
            case.same_written(&(proved, b"!3\n".to_vec()), &independent, |length| {
                format!("length {length}")
            })
        };
        assert!(compare(3, b"!3\n").is_ok());
        let length = compare(2, b"!3\n").unwrap_err().to_string();
        assert_eq!(
            length,
            "the log, no bytes\n\
             proved: length 2; the buffer after, 3 bytes: !3\\x0a\n\
             independent: length 3; the buffer after, 3 bytes: !3\\x0a"
        );
        let bytes = compare(3, b"!4\n").unwrap_err().to_string();
        assert!(
            bytes.ends_with("bytes: !4\\x0a\nthe buffers part at byte 1"),
            "{bytes}"
        );
    }

    /// As many bytes are drawn as asked for.
    #[test]
    fn drawn_bytes() {
        let mut draw = Draw {
            random: Random::new(1),
            number: 1,
            spoil: None,
        };
        for count in 0..40 {
            assert_eq!(draw.bytes(count).len(), count);
        }
    }
}
