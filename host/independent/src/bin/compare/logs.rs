//! The part `logs`: the answer to a whole log.

use crate::case::{named, Case, Difference, Draw, Spoil};
use crate::lent::Lent;
use crate::proved;
use crate::tally::{Row, Tally};
use independent::line::LINE_END;
use independent::log::{answer, MOST};
use independent::making;

/// The rows of the part's table.
pub const ROWS: &[Row] = &[
    ("log", &["empty", "ended", "unended"]),
    ("length", &["up to 65536", "over 65536"]),
    ("close", &[]),
    ("lent", &["filled", "empty", "null"]),
    ("answered", &["0", "1", "2", "3", "4", "5"]),
    ("buffer", &["empty", "shorter", "one less", "exact", "more"]),
];

/// One log in so many is long for sure, since the others seldom are.
const LONG_EVERY: u64 = 100;

/// The most bytes that a buffer has behind the answer.
const MORE: u64 = 200;

/// Makes a log and a buffer, and compares what the two implementations answer into it.
pub fn one(draw: &mut Draw, tally: &mut Tally) -> Result<(), Difference> {
    let log = made(draw);
    let whole = answer(&log);
    let (length, room) = length(draw, whole.len());
    let before = draw.bytes(length);
    let mut lent = Lent::bytes(&mut draw.random, &log);
    let mut buffer = Lent::buffer(&before);
    count(tally, &log);
    count_answers(tally, &whole);
    tally.meet("lent", lent.sort());
    tally.meet("buffer", room);
    let name = lent.named("the log");
    let case = Case {
        part: "logs",
        input: &|| [named(&name, &log), named("the buffer before", &before)].join("\n"),
    };
    let independent = if draw.spoilt(Spoil::Logs) {
        put(&answer(ended_part(&log)), &before)
    } else {
        put(&whole, &before)
    };
    let written = proved::answer_log(&mut lent, &mut buffer);
    case.unharmed(&lent, "the log")?;
    case.unharmed_around(&buffer, "the buffer")?;
    let proved = (written, buffer.inside().to_vec());
    case.same_written(&proved, &independent, |length| format!("length {length}"))
}

/// Makes a log, from time to time one that is longer than the program takes.
fn made(draw: &mut Draw) -> Vec<u8> {
    let mut log = making::log(&mut draw.random);
    while draw.number.is_multiple_of(LONG_EVERY) && log.len() <= MOST {
        log = making::log(&mut draw.random);
    }
    log
}

/// Draws a buffer's length: that of the answer, one less, less than that, or more.
fn length(draw: &mut Draw, answer: usize) -> (usize, &'static str) {
    match draw.random.below(4) {
        0 if answer > 0 => (answer - 1, "one less"),
        1 => (answer + 1 + draw.random.below(MORE) as usize, "more"),
        2 if answer > 0 => shorter(draw, answer),
        _ => (answer, "exact"),
    }
}

/// Draws a buffer's length that is shorter than an answer by more than one byte, one time out of four 0.
fn shorter(draw: &mut Draw, answer: usize) -> (usize, &'static str) {
    let length = draw.random.below(answer as u64 - 1) as usize;
    if length == 0 || draw.random.chance(4) {
        return (0, "empty");
    }
    (length, "shorter")
}

/// Counts what a log is like.
fn count(tally: &mut Tally, log: &[u8]) {
    tally.input(log.len());
    let end = match log.last() {
        None => "empty",
        Some(&LINE_END) => "ended",
        Some(_) => "unended",
    };
    tally.meet("log", end);
    let over = log.len() > MOST;
    tally.meet("length", if over { "over 65536" } else { "up to 65536" });
    match log.len() {
        65_535 => tally.meet("close", "65535"),
        65_536 => tally.meet("close", "65536"),
        65_537 => tally.meet("close", "65537"),
        _ => {}
    }
}

/// Counts the lines of an answer: 0 for one that was readable, else its number.
fn count_answers(tally: &mut Tally, answer: &[u8]) {
    for line in answer.split_inclusive(|&byte| byte == LINE_END) {
        let number = match line {
            [b'!', digit, ..] => u32::from(digit - b'0'),
            _ => 0,
        };
        tally.meet_number("answered", number);
    }
}

/// Puts an answer at the front of a buffer where it has room, and gives its length there or 0.
fn put(answer: &[u8], before: &[u8]) -> (usize, Vec<u8>) {
    let mut buffer = before.to_vec();
    match buffer.get_mut(..answer.len()) {
        Some(front) => {
            front.copy_from_slice(answer);
            (answer.len(), buffer)
        }
        None => (0, buffer),
    }
}

/// Gives a log without what stands behind its last line end: what a slip would answer.
fn ended_part(log: &[u8]) -> &[u8] {
    let end = log.iter().rposition(|&byte| byte == LINE_END);
    &log[..end.map_or(0, |end| end + 1)]
}
