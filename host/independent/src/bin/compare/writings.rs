//! The part `writings`: values written as a line into a buffer.

use crate::case::{named, Case, Difference, Draw, Spoil};
use crate::lent::Lent;
use crate::pck_id;
use crate::proved;
use crate::tally::{Row, Tally};
use crate::words;
use independent::kind::Kind;
use independent::line::{line_of, write, NO_KIND, SHORT_BUFFER};
use independent::making;
use independent::message::{Message, MOST_FIELDS};
use independent::random::Random;

/// The rows of the part's table.
pub const ROWS: &[Row] = &[
    ("number", &["0", "3", "5", "6"]),
    ("written", &["1", "2", "3", "4", "5", "6", "7", "8", "9"]),
    ("PCK-ID", pck_id::CLASSES),
    (
        "values",
        &[
            "whole",
            "wide",
            "too many",
            "cut short",
            "no kind",
            "empty",
            "null",
        ],
    ),
    (
        "buffer",
        &[
            "empty", "shorter", "one less", "exact", "one more", "longer",
        ],
    ),
];

/// The longest buffer lent.
const LONGEST: u64 = 80;

/// Makes values and a buffer, and compares what the two implementations write into it.
pub fn one(draw: &mut Draw, tally: &mut Tally) -> Result<(), Difference> {
    let (message, sort) = message(&mut draw.random);
    let (values, sort) = values_of(&mut draw.random, &message, sort);
    let line = 2 * message.kind().total() + 1;
    let length = length(&mut draw.random, line);
    let before = draw.bytes(length);
    let mut lent = Lent::values(&mut draw.random, &values);
    let mut buffer = Lent::buffer(&before);
    tally.input(length);
    tally.meet("values", sort.unwrap_or(lent.sort()));
    meet_pck_id(tally, &message, sort);
    tally.meet("buffer", room(length, line));
    let name = lent.named("the values");
    let case = Case {
        part: "writings",
        input: &|| {
            let values = format!("{name}: {}", words::values(&values));
            [values, named("the buffer before", &before)].join("\n")
        },
    };
    let independent = independent(&values, &before, draw);
    tally.meet_number("number", independent.0);
    if independent.0 == 0 {
        tally.meet_number("written", values[0]);
    }
    let number = proved::write_line(&mut lent, &mut buffer);
    case.unharmed(&lent, "the values")?;
    case.unharmed_around(&buffer, "the buffer")?;
    let proved = (number, buffer.inside().to_vec());
    // Another number is told as a difference in `room`, only another buffer as one in `writings`.
    let part = if proved.0 == independent.0 {
        "writings"
    } else {
        "room"
    };
    let case = Case { part, ..case };
    case.same_written(&proved, &independent, |&number| words::number(number))
}

/// Counts the PCK-ID of a message whose values are handed over as they are.
fn meet_pck_id(tally: &mut Tally, message: &Message, sort: Option<&str>) {
    if sort == Some("whole") {
        if let Some(class) = pck_id::class(&line_of(message)) {
            tally.meet("PCK-ID", class);
        }
    }
}

/// Makes a message, now and then with a value that is wider than its field, and says so.
fn message(random: &mut Random) -> (Message, &'static str) {
    if random.chance(8) {
        (making::message_wide(random), "wide")
    } else {
        (making::message_perhaps_outside(random), "whole")
    }
}

/// Lays a message out as values, now and then without a kind, without some of the last or with more
/// than there are fields, and says so.
fn values_of(
    random: &mut Random,
    message: &Message,
    sort: &'static str,
) -> (Vec<u32>, Option<&'static str>) {
    let fields = message.kind().fields().len();
    let mut values = vec![message.kind().code()];
    values.extend_from_slice(&message.values()[..fields]);
    let sort = match random.below(40) {
        0 => {
            values[0] = *random.pick(&[0, 10, 255, 256, 257, u32::MAX]);
            Some("no kind")
        }
        1 => {
            values.clear();
            None
        }
        2..=4 => {
            values.truncate(1 + random.below(fields as u64) as usize);
            Some("cut short")
        }
        5..=7 => {
            values.push(random.next() as u32);
            if random.chance(2) {
                values.push(random.next() as u32);
            }
            Some("too many")
        }
        _ => Some(sort),
    };
    (values, sort)
}

/// Draws a buffer's length, often just that of the line or one byte beside it.
fn length(random: &mut Random, line: usize) -> usize {
    match random.below(16) {
        0..=3 => line,
        4..=7 => line - 1,
        8..=11 => line + 1,
        12 => 0,
        _ => random.below(LONGEST + 1) as usize,
    }
}

/// Names the room that a buffer has for a line.
fn room(length: usize, line: usize) -> &'static str {
    match length {
        0 => "empty",
        _ if length + 1 == line => "one less",
        _ if length == line => "exact",
        _ if length == line + 1 => "one more",
        _ if length < line => "shorter",
        _ => "longer",
    }
}

/// Gives the independent number and the buffer afterwards, by three rules of the entry's own as well:
/// 3 where there is no kind, 0 for a value that is not there, and a value is cut to its field's width.
fn independent(values: &[u32], before: &[u8], draw: &Draw) -> (u32, Vec<u8>) {
    let mut buffer = before.to_vec();
    let kind = values.first().and_then(|&code| Kind::of_code(code));
    let Some(kind) = kind else {
        return (NO_KIND, buffer);
    };
    // A slip lets 6 go before 5.
    if draw.spoilt(Spoil::Room) && buffer.len() < 2 * kind.total() + 1 {
        return (SHORT_BUFFER, buffer);
    }
    let mut cut = [0; MOST_FIELDS];
    for ((place, field), &value) in cut.iter_mut().zip(kind.fields()).zip(&values[1..]) {
        *place = value & field.largest();
    }
    match write(&Message::from_values(kind, &cut), &mut buffer) {
        Ok(length) => {
            // A slip clears the buffer behind the line.
            if draw.spoilt(Spoil::Writings) {
                buffer[length..].fill(0);
            }
            (0, buffer)
        }
        Err(number) => (number, buffer),
    }
}
