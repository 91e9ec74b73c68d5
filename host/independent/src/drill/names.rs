//! The names that commands take and the values that the names can have.

use super::words::{Complaint, Unreadable, Words};
use crate::timer::Timer;
use crate::{group, private};

/// What `settings` takes.
pub const SETTINGS: &[&str] = &[
    "user",
    "group",
    "restrict",
    "acknowledgement",
    "CFP1",
    "CFP3",
    "CFP4",
];
/// What `buffer` takes.
pub const BUFFER: &[&str] = &["length"];
/// What `private record` takes.
pub const PRIVATE_RECORD: &[&str] = &[
    "state",
    "TFP1",
    "TFP2",
    "TFP3",
    "TFP4",
    "TFP5",
    "TFP7",
    "CFP1",
    "CFP3",
    "CFP4",
    "identifier",
    "caller",
    "callee",
    "commencement",
    "media",
    "pck-id",
];
/// What `group record` takes.
pub const GROUP_RECORD: &[&str] = &[
    "state",
    "TFG2",
    "TFG4",
    "TFG6",
    "group",
    "identifier",
    "type",
    "refresh",
    "media",
    "originator",
    "start",
    "last-change",
    "last-changer",
];
/// What `private start` takes beside the verdicts.
pub const PRIVATE_START: &[&str] = &["identifier", "callee", "commencement", "media", "pck-id"];
/// What `group start` takes beside the verdicts.
pub const GROUP_START: &[&str] = &["identifier", "type", "refresh", "media", "confirm", "now"];
/// What `group raise` takes beside the verdicts.
pub const GROUP_RAISE: &[&str] = &["type", "now"];
/// What `hears` takes beside the verdicts.
pub const HEARS: &[&str] = &["ended"];
/// What a command takes that takes nothing.
pub const NOTHING: &[&str] = &[];
/// The verdicts, which every step takes.
pub const VERDICTS: &[&str] = &["media-verdict", "signature-verdict"];

/// The values that a name can have.
enum Values {
    /// `yes`, which is kept as 1, or `no`, which is 0.
    YesOrNo,
    /// A state of the private machine, kept as its place among all of them.
    PrivateState,
    /// A state of the group machine, kept as its place among all of them.
    GroupState,
    /// A number up to this one.
    UpTo(u32),
}

impl Values {
    /// Finds the values of a name of a command that takes these names.
    fn of(name: &str, names: &[&str]) -> Values {
        match name {
            "state" if names == GROUP_RECORD => Values::GroupState,
            "state" => Values::PrivateState,
            "restrict" | "acknowledgement" | "ended" => Values::YesOrNo,
            "media-verdict" | "signature-verdict" => Values::YesOrNo,
            "identifier" | "refresh" => Values::UpTo(65_535),
            "commencement" | "type" | "confirm" | "CFP1" | "CFP3" | "CFP4" => Values::UpTo(255),
            "length" => Values::UpTo(128),
            _ if Timer::of_name(name).is_some() => Values::YesOrNo,
            _ => Values::UpTo(u32::MAX),
        }
    }

    /// Reads a value, if it is one of these.
    fn read(&self, value: &[u8]) -> Option<u32> {
        match self {
            Values::YesOrNo => place(&["no", "yes"], value),
            Values::PrivateState => place(&private::State::ALL.map(private::State::name), value),
            Values::GroupState => place(&group::State::ALL.map(group::State::name), value),
            Values::UpTo(largest) => number(value).filter(|read| read <= largest),
        }
    }
}

/// Finds the place of a value among some words.
fn place(words: &[&str], value: &[u8]) -> Option<u32> {
    let found = words.iter().position(|word| word.as_bytes() == value);
    found.map(|place| place as u32)
}

/// Reads a number, decimal or hexadecimal, however many zeros it has in front.
fn number(value: &[u8]) -> Option<u32> {
    let (digits, radix) = match value.strip_prefix(b"0x") {
        Some(digits) => (digits, 16),
        None => (value, 10),
    };
    if digits.is_empty() {
        return None;
    }
    digits.iter().try_fold(0_u32, |sum, &byte| {
        let digit = char::from(byte).to_digit(radix)?;
        sum.checked_mul(radix)?.checked_add(digit)
    })
}

/// The names that a command was given, with their values.
#[derive(Clone, Debug, Default)]
pub struct Given {
    pairs: Vec<(&'static str, u32)>,
}

impl Given {
    /// Reads the further words of a command that takes some names, and perhaps the verdicts.
    pub fn read(
        words: &mut Words,
        names: &'static [&'static str],
        verdicts: &'static [&'static str],
    ) -> Result<Given, Unreadable> {
        let mut given = Given::default();
        for word in words {
            let known = names.iter().chain(verdicts).find_map(|&name| {
                let value = word.bytes.strip_prefix(name.as_bytes())?;
                Some((name, value.strip_prefix(b"=")?))
            });
            let (name, value) = known.ok_or(Complaint::Name.about(word))?;
            if given.value(name).is_some() {
                return Err(Complaint::Twice.about(word));
            }
            let value = Values::of(name, names).read(value);
            let value = value.ok_or(Complaint::Value.about(word))?;
            given.pairs.push((name, value));
        }
        Ok(given)
    }

    /// Lists the names with their values.
    pub fn pairs(&self) -> &[(&'static str, u32)] {
        &self.pairs
    }

    /// Gives the value of a name that was given.
    pub fn value(&self, name: &str) -> Option<u32> {
        let found = self.pairs.iter().find(|(given, _)| *given == name);
        found.map(|&(_, value)| value)
    }

    /// Gives the value of a name, 0 where it was not given.
    pub fn or_zero(&self, name: &str) -> u32 {
        self.value(name).unwrap_or(0)
    }

    /// Tells whether a name is yes, as it is where it was not given.
    pub fn or_yes(&self, name: &str) -> bool {
        self.value(name) != Some(0)
    }
}
