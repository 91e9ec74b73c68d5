//! The part `pairs`: which of two lines is the better one.

use crate::case::{named, Case, Difference, Draw, Spoil};
use crate::lent::Lent;
use crate::proved;
use crate::tally::{Row, Tally};
use crate::words;
use independent::chooser::{choice_number, chosen, NO_CHOICE};
use independent::kind::Kind;
use independent::line::read;
use independent::making;
use independent::message::Message;

/// The rows of the part's table.
pub const ROWS: &[Row] = &[
    ("number", &["0", "1", "2", "3", "4", "5", "10"]),
    ("winner", &["none", "first", "second"]),
    (
        "reason",
        &[
            "first line",
            "second line",
            "kinds",
            "groups",
            "same identifier",
            "rank",
            "start",
            "identifier",
        ],
    ),
    ("first", &["filled", "empty", "null"]),
    ("second", &["filled", "empty", "null"]),
];

/// Makes two lines and compares what the two implementations choose.
pub fn one(draw: &mut Draw, tally: &mut Tally) -> Result<(), Difference> {
    let (first, second) = making::pair(&mut draw.random);
    let (first, second) = (draw.perhaps_emptied(first), draw.perhaps_emptied(second));
    let mut lent_first = Lent::bytes(&mut draw.random, &first);
    let mut lent_second = Lent::bytes(&mut draw.random, &second);
    let (winner, number) = independent(&first, &second, draw);
    tally.input(first.len() + second.len());
    tally.meet_number("number", number);
    tally.meet("winner", ["none", "first", "second"][winner as usize]);
    tally.meet("reason", reason(&first, &second));
    tally.meet("first", lent_first.sort());
    tally.meet("second", lent_second.sort());
    let names = (lent_first.named("first"), lent_second.named("second"));
    let case = Case {
        part: "pairs",
        input: &|| [named(&names.0, &first), named(&names.1, &second)].join("\n"),
    };
    let proved = proved::choose(&mut lent_first, &mut lent_second);
    case.unharmed(&lent_first, "the first line")?;
    case.unharmed(&lent_second, "the second line")?;
    case.same(&proved, &winner, |&winner| words::winner(winner))?;
    let case = Case {
        part: "numbers",
        ..case
    };
    let proved = proved::choose_number(&mut lent_first, &mut lent_second);
    case.unharmed(&lent_first, "the first line")?;
    case.unharmed(&lent_second, "the second line")?;
    case.same(&proved, &number, |&number| words::number(number))
}

/// Names what decides between two lines, or what forbids a choice.
fn reason(first: &[u8], second: &[u8]) -> &'static str {
    match (read(first), read(second)) {
        (Err(_), _) => "first line",
        (_, Err(_)) => "second line",
        (Ok(Message::GroupCallAnnouncement(one)), Ok(Message::GroupCallAnnouncement(other))) => {
            if one.group != other.group {
                "groups"
            } else if one.identifier == other.identifier {
                "same identifier"
            } else if one.call_type != other.call_type {
                "rank"
            } else if one.start != other.start {
                "start"
            } else {
                "identifier"
            }
        }
        _ => "kinds",
    }
}

/// Gives the independent choice and its number.
fn independent(first: &[u8], second: &[u8], draw: &Draw) -> (u32, u32) {
    let mut winner = chosen(first, second);
    let mut number = choice_number(first, second);
    if draw.spoilt(Spoil::Pairs) {
        winner = chosen_by_code(first, second).unwrap_or(winner);
    }
    // A slip lets 10 go before the second line's number.
    if draw.spoilt(Spoil::Numbers) && is_other_kind(first) {
        number = NO_CHOICE;
    }
    (winner, number)
}

/// Tells whether a line is readable and no announcement.
fn is_other_kind(line: &[u8]) -> bool {
    read(line).is_ok_and(|message| message.kind() != Kind::GroupCallAnnouncement)
}

/// Chooses by the code of the type, a slip: a basic call would be better than an emergency.
fn chosen_by_code(first: &[u8], second: &[u8]) -> Option<u32> {
    if choice_number(first, second) != 0 {
        return None;
    }
    let standing = |line| match read(line) {
        Ok(Message::GroupCallAnnouncement(call)) => {
            Some((call.call_type, call.start, call.identifier))
        }
        _ => None,
    };
    let (first, second) = (standing(first)?, standing(second)?);
    Some(if first < second { 1 } else { 2 })
}
