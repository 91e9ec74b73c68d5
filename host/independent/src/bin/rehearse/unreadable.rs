//! Commands that cannot be read, each by a word of a certain sort.

use crate::phrase::{Phrase, Value};
use crate::pools;
use independent::drill::cab::Name;
use independent::drill::words::Complaint;
use independent::random::Random;

/// Words that are no cab.
const NO_CABS: [&[u8]; 9] = [
    b"c",
    b"A",
    b"ab",
    b"aa",
    b"a=",
    b"settings",
    b"1",
    b"\0",
    b"\xc3\xa4",
];

/// Words that are no command.
const NO_COMMANDS: [&[u8]; 13] = [
    b"setting",
    b"Settings",
    b"buffers",
    b"TFP6",
    b"TFP",
    b"tfp1",
    b"TFG1",
    b"hear",
    b"a",
    b"private=",
    b"expires",
    b"\0",
    b"chooses=1",
];

/// Words that come neither behind `private` nor behind `group`.
const NO_PARTS: [&[u8]; 7] = [
    b"starts", b"Start", b"stop", b"record=", b"clear", b"raised", b"\xff",
];

/// Words that are not `expires`.
const NO_EXPIRES: [&[u8]; 5] = [b"expired", b"expire", b"Expires", b"yes", b"expires=yes"];

/// Words that are no line.
const NO_LINES: [&[u8]; 5] = [b"ended=no", b"media-verdict=yes", b"=", b"02=", b"=02"];

/// Words that are no name of any command.
const NO_NAMES: [&[u8]; 12] = [
    b"user",
    b"User=1",
    b"user:1",
    b"users=1",
    b"=",
    b"=1",
    b"pck_id=0",
    b"PCK-ID=0",
    b"0x10",
    b"length",
    b"TFP6=yes",
    b"\0=\0",
];

/// Values that no number is.
const NO_NUMBERS: [&[u8]; 22] = [
    b"",
    b"-1",
    b"+1",
    b"0x",
    b"0X10",
    b"0xg",
    b"x1",
    b"1a",
    b"a",
    b"00x1",
    b"1.0",
    b"1_0",
    b"=1",
    b"1=",
    b"1#",
    b"yes",
    b"0x-1",
    b"4294967296",
    b"0x100000000",
    b"18446744073709551616",
    b"0x10000000000000000",
    b"\xd9\xa1",
];

/// Values that no answer is.
const NO_ANSWERS: [&[u8]; 8] = [b"", b"Yes", b"NO", b"1", b"0", b"true", b"yes=", b"ye"];

/// Values that no state is.
const NO_STATES: [&[u8]; 10] = [
    b"", b"P6", b"S0", b"S2", b"S6", b"p0", b"P", b"P00", b"4", b"P1\0",
];

/// Values of any sort.
const ANY_VALUES: [&[u8]; 4] = [b"1", b"", b"yes", b"x"];

/// Makes the words of a command that is unreadable for this reason, from one that is readable.
pub fn words(random: &mut Random, complaint: Complaint, good: &Phrase) -> Vec<Vec<u8>> {
    let cab = *random.pick(&Name::ALL);
    match complaint {
        Complaint::Cab => {
            let mut words = good.words(random);
            words[0] = random.pick(&NO_CABS).to_vec();
            words.truncate(1 + random.below(words.len() as u64) as usize);
            words
        }
        Complaint::Command => broken_off(random, &[cab.word()], &NO_COMMANDS),
        Complaint::BehindPrivate => behind(random, &[cab.word(), "private"], b"leave"),
        Complaint::BehindGroup => behind(random, &[cab.word(), "group"], b"end"),
        Complaint::Expires => {
            let timer = *random.pick(&["TFP1", "TFP2", "TFP7", "TFG2", "TFG6"]);
            broken_off(random, &[cab.word(), timer], &NO_EXPIRES)
        }
        Complaint::Line => no_line(random, cab),
        Complaint::NoLineYet(name) => no_line_yet(random, cab, name),
        Complaint::Name => no_name(random, cab, good),
        Complaint::Twice => twice(random, cab),
        Complaint::Value => no_value(random, cab),
    }
}

/// Makes a command whose last word is missing or is one of some wrong ones, with words behind it or not.
fn broken_off(random: &mut Random, first: &[&str], wrong: &[&[u8]]) -> Vec<Vec<u8>> {
    let mut words: Vec<Vec<u8>> = first.iter().map(|word| word.as_bytes().to_vec()).collect();
    if random.chance(3) {
        return words;
    }
    words.push(random.pick(wrong).to_vec());
    if random.chance(3) {
        words.push(random.pick(&NO_NAMES).to_vec());
    }
    words
}

/// Makes a command that goes wrong behind its machine, now and then by a word of the other machine.
fn behind(random: &mut Random, first: &[&str], others: &[u8]) -> Vec<Vec<u8>> {
    let mut words = broken_off(random, first, &NO_PARTS);
    if words.len() > 2 && random.chance(3) {
        words[2] = others.to_vec();
    }
    words
}

/// Makes a command that has no line where it should have one.
fn no_line(random: &mut Random, cab: Name) -> Vec<Vec<u8>> {
    match random.below(3) {
        0 => broken_off(random, &[cab.word(), "hears"], &NO_LINES),
        1 => broken_off(random, &[cab.word(), "chooses"], &NO_LINES),
        _ => broken_off(random, &[cab.word(), "chooses", "nothing"], &NO_LINES),
    }
}

/// Makes a command that asks for the line of a cab, which may have sent none.
fn no_line_yet(random: &mut Random, cab: Name, name: Name) -> Vec<Vec<u8>> {
    let words: &[&str] = match random.below(5) {
        0 => &[cab.word(), "chooses", name.word(), "nothing"],
        1 => &[cab.word(), "chooses", "nothing", name.word()],
        2 => &[cab.word(), "chooses", name.word()],
        3 => &[cab.word(), "hears", name.word(), "ended=no"],
        _ => &[cab.word(), "hears", name.word()],
    };
    words.iter().map(|word| word.as_bytes().to_vec()).collect()
}

/// Makes a command with a name that it does not take, or with no name at all.
fn no_name(random: &mut Random, cab: Name, good: &Phrase) -> Vec<Vec<u8>> {
    let strange: [(&[&str], &[u8]); 8] = [
        (&["settings"], b"length=5"),
        (&["settings"], b"media-verdict=yes"),
        (&["buffer"], b"user=1"),
        (&["private", "record"], b"state"),
        (&["private", "cleared"], b"state=P0"),
        (&["private", "end"], b"identifier=1"),
        (&["chooses", "nothing", "nothing"], b"ended=no"),
        (&["group", "record"], b"TFP1=no"),
    ];
    if random.chance(2) {
        let (first, name) = random.pick(&strange);
        return Phrase::new(cab, first).word(name).words(random);
    }
    let mut words = good.words(random);
    words.push(random.pick(&NO_NAMES).to_vec());
    if random.chance(2) {
        words.push(random.pick(&NO_NAMES).to_vec());
    }
    words
}

/// Makes a command that gives a name twice, the second time with any value.
fn twice(random: &mut Random, cab: Name) -> Vec<Vec<u8>> {
    let (phrase, name, _) = named(random, cab);
    let mut words = phrase.words(random);
    let value = random.pick(&ANY_VALUES);
    words.push([name.as_bytes(), b"=", value].concat());
    words
}

/// Makes a command that gives a name a value which that name cannot have.
fn no_value(random: &mut Random, cab: Name) -> Vec<Vec<u8>> {
    let (mut phrase, name, largest) = named(random, cab);
    let (_, value) = phrase.given.pop().expect("the name is given");
    let wrong = match value {
        Value::Number(_) if random.chance(2) => {
            let next = u64::from(largest) + 1;
            let spelt = [format!("{next}"), format!("{next:#x}"), format!("00{next}")];
            random.pick(&spelt).clone().into_bytes()
        }
        Value::Number(_) => random.pick(&NO_NUMBERS).to_vec(),
        Value::Word("yes" | "no") => random.pick(&NO_ANSWERS).to_vec(),
        Value::Word(_) => random.pick(&NO_STATES).to_vec(),
    };
    let mut words = phrase.words(random);
    words.push([name.as_bytes(), b"=", &wrong].concat());
    words
}

/// Makes a readable command with a name, and gives the name and the largest number behind it.
fn named(random: &mut Random, cab: Name) -> (Phrase, &'static str, u32) {
    let forms: [(&[&str], &'static str, u32); 16] = [
        (&["settings"], "user", u32::MAX),
        (&["settings"], "CFP3", 255),
        (&["settings"], "restrict", 1),
        (&["buffer"], "length", 128),
        (&["private", "record"], "state", 5),
        (&["private", "record"], "TFP7", 1),
        (&["private", "record"], "pck-id", u32::MAX),
        (&["group", "record"], "state", 0),
        (&["group", "record"], "last-change", u32::MAX),
        (&["private", "start"], "identifier", 65_535),
        (&["private", "start"], "commencement", 255),
        (&["group", "start"], "refresh", 65_535),
        (&["group", "raise"], "type", 255),
        (&["TFP1", "expires"], "media-verdict", 1),
        (&["hears", "02"], "ended", 1),
        (&["group", "leave"], "signature-verdict", 1),
    ];
    let &(first, name, largest) = random.pick(&forms);
    let value = match (name, first[0]) {
        ("state", "private") => Value::Word("P2"),
        ("state", _) => Value::Word("S3"),
        ("restrict" | "TFP7" | "ended" | "media-verdict" | "signature-verdict", _) => {
            Value::yes(random.chance(2))
        }
        _ => Value::Number(pools::zero_or_one(random)),
    };
    (Phrase::new(cab, first).given(name, value), name, largest)
}
