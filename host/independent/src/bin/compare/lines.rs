//! The part `lines`: what number a line gets, and what a readable one reads as.

use crate::case::{named, Case, Difference, Draw, Spoil};
use crate::lent::Lent;
use crate::pck_id;
use crate::proved;
use crate::tally::{Row, Tally};
use crate::words;
use independent::line::read;
use independent::making;
use independent::message::Message;

/// The rows of the part's table.
pub const ROWS: &[Row] = &[
    ("number", &["0", "1", "2", "3", "4", "5"]),
    ("kind", &["1", "2", "3", "4", "5", "6", "7", "8", "9"]),
    ("PCK-ID", pck_id::CLASSES),
    ("lent", &["filled", "empty", "null"]),
];

/// How many places of each line are asked for, from the kind on: more than any kind has.
const PLACES: usize = 13;

/// Places far behind the last one, of which one is asked for too.
const FAR: [usize; 6] = [PLACES, 255, 256, 65_536, usize::MAX / 2 + 1, usize::MAX];

/// Makes a line and compares what the two implementations say of it.
pub fn one(draw: &mut Draw, tally: &mut Tally) -> Result<(), Difference> {
    let line = making::line(&mut draw.random);
    let line = draw.perhaps_emptied(line);
    let mut lent = Lent::bytes(&mut draw.random, &line);
    let far = *draw.random.pick(&FAR);
    let reading = read(&line);
    tally.input(line.len());
    tally.meet("lent", lent.sort());
    tally.meet_number("number", number_of(&reading));
    if let Ok(message) = reading {
        tally.meet_number("kind", message.kind().code());
    }
    if let Some(class) = pck_id::class(&line) {
        tally.meet("PCK-ID", class);
    }
    compare_number(draw, &line, &mut lent, &reading)?;
    compare_values(draw, &line, &mut lent, &reading, far)
}

/// Compares the line's number.
fn compare_number(
    draw: &Draw,
    line: &[u8],
    lent: &mut Lent<u8>,
    reading: &Result<Message, u32>,
) -> Result<(), Difference> {
    let name = lent.named("the line");
    let case = Case {
        part: "lines",
        input: &|| named(&name, line),
    };
    let independent = if draw.spoilt(Spoil::Lines) {
        number_of(&read(&line.to_ascii_lowercase()))
    } else {
        number_of(reading)
    };
    let proved = proved::line_check(lent);
    case.unharmed(lent, "the line")?;
    case.same(&proved, &independent, |&number| words::number(number))
}

/// Compares what stands at each place of the line, and at one place far behind.
fn compare_values(
    draw: &Draw,
    line: &[u8],
    lent: &mut Lent<u8>,
    reading: &Result<Message, u32>,
    far: usize,
) -> Result<(), Difference> {
    let name = lent.named("the line");
    let case = Case {
        part: "values",
        input: &|| named(&name, line),
    };
    let mut independent = read_as(reading);
    if draw.spoilt(Spoil::Values) && (1..=7).contains(&independent[0]) {
        independent.swap(2, 3);
    }
    let mut proved = [0; PLACES + 1];
    for (place, value) in (0..PLACES).chain([far]).zip(&mut proved) {
        *value = proved::value(lent, place);
        case.unharmed(lent, "the line")?;
    }
    case.same(&proved, &independent, |found| {
        let (near, last) = (words::values(&found[..PLACES]), found[PLACES]);
        format!("the values {near} at the places from 0, and {last} at place {far}")
    })
}

/// Gives the number of a reading, 0 where it is a message.
fn number_of(reading: &Result<Message, u32>) -> u32 {
    reading.err().unwrap_or(0)
}

/// Gives what is to be found at each place: the kind, the fields, and 0 from there on.
fn read_as(reading: &Result<Message, u32>) -> [u32; PLACES + 1] {
    let mut places = [0; PLACES + 1];
    if let Ok(message) = reading {
        places[0] = message.kind().code();
        for (place, value) in places[1..].iter_mut().zip(message.values()) {
            *place = value;
        }
    }
    places
}
