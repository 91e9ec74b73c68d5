//! The choice between two announcement lines of one group.

use crate::line::read;
use crate::message::{Announcement, Message};

/// The two lines do not announce two calls of one group.
pub const NO_CHOICE: u32 = 10;

/// Gives 0 if a choice can be made, else the number of the first line, of the second, or 10.
pub fn choice_number(first: &[u8], second: &[u8]) -> u32 {
    rivals(first, second).err().unwrap_or(0)
}

/// Gives 1 if the first line is the better, 2 if the second is, 0 on refusal.
pub fn chosen(first: &[u8], second: &[u8]) -> u32 {
    match rivals(first, second) {
        Ok((one, other)) if better(&one, &other) => 1,
        Ok(_) => 2,
        Err(_) => 0,
    }
}

/// Reads both lines as two calls of one group, or gives the number that stops it.
fn rivals(first: &[u8], second: &[u8]) -> Result<(Announcement, Announcement), u32> {
    let first = read(first)?;
    let second = read(second)?;
    match (first, second) {
        (Message::GroupCallAnnouncement(one), Message::GroupCallAnnouncement(other))
            if one.group == other.group && one.identifier != other.identifier =>
        {
            Ok((one, other))
        }
        _ => Err(NO_CHOICE),
    }
}

/// Tells whether one call of a group is better than another.
pub fn better(one: &Announcement, other: &Announcement) -> bool {
    standing(one) < standing(other)
}

/// Tells whether one type of group call has a better rank than another.
pub fn better_rank(one: u32, other: u32) -> bool {
    rank(one) < rank(other)
}

/// Gives what decides between calls, in that order: the lower is the better.
fn standing(call: &Announcement) -> (u32, u32, u32) {
    (rank(call.call_type), call.start, call.identifier)
}

/// Gives the place of a type among the group types, 0 the best.
fn rank(call_type: u32) -> u32 {
    const BEST_FIRST: [u32; 3] = [EMERGENCY, IMMINENT_PERIL, BASIC];
    BEST_FIRST
        .iter()
        .position(|&best| best == call_type)
        .unwrap_or(BEST_FIRST.len()) as u32
}

/// The code of an ordinary group call.
const BASIC: u32 = 1;
/// The code of an emergency.
const EMERGENCY: u32 = 2;
/// The code of imminent peril.
const IMMINENT_PERIL: u32 = 3;

#[cfg(test)]
mod tests {
    use super::*;
    use crate::line::line_of;
    use crate::samples::{self, ended, ANNOUNCEMENT};

    /// Gives the sample announcement's line with another type, start and identifier.
    fn call(call_type: u32, start: u32, identifier: u32) -> Vec<u8> {
        line_of(&Message::GroupCallAnnouncement(Announcement {
            call_type,
            start,
            identifier,
            ..ANNOUNCEMENT
        }))
    }

    /// Checks one choice both ways round.
    fn check_better(better: &[u8], worse: &[u8]) {
        assert_eq!(choice_number(better, worse), 0);
        assert_eq!(choice_number(worse, better), 0);
        assert_eq!(chosen(better, worse), 1);
        assert_eq!(chosen(worse, better), 2);
    }

    /// Checks one refusal.
    fn check_refused(first: &[u8], second: &[u8], number: u32) {
        assert_eq!(choice_number(first, second), number);
        assert_eq!(chosen(first, second), 0);
    }

    /// Marked cases I and J.
    #[test]
    fn cases_i_and_j() {
        check_better(&call(2, 1000, 16), &call(2, 1000, 17));
        check_better(&call(2, 1000, 16), &call(3, 1000, 17));
        check_better(&call(2, 1000, 17), &call(3, 1000, 16));
    }

    /// Rank goes before start, and start before identifier, at the ends of each.
    #[test]
    fn order_of_the_rules() {
        let last = u32::MAX;
        check_better(&call(2, last, 65535), &call(3, 0, 1));
        check_better(&call(3, last, 65535), &call(1, 0, 1));
        check_better(&call(2, last, 65535), &call(1, 0, 1));
        for call_type in 1..=3 {
            check_better(&call(call_type, 0, 65535), &call(call_type, 1, 1));
            check_better(&call(call_type, last - 1, 2), &call(call_type, last, 1));
            check_better(&call(call_type, last, 1), &call(call_type, last, 65535));
            check_better(&call(call_type, 0, 0x00ff), &call(call_type, 0, 0x0100));
        }
    }

    /// Fields other than type, start and identifier take no part in the choice.
    #[test]
    fn other_fields_do_not_count() {
        let other = Announcement {
            identifier: 17,
            refresh: 1,
            media: 1,
            originator: 1,
            last_change: 0,
            last_changer: 1,
            confirm: 0,
            ..ANNOUNCEMENT
        };
        let other = line_of(&Message::GroupCallAnnouncement(other));
        check_better(&call(2, 1000, 16), &other);
    }

    /// Number 10: equal identifiers, other groups, another kind on either side.
    #[test]
    fn number_ten() {
        let good = call(2, 1000, 16);
        check_refused(&good, &good, 10);
        check_refused(&good, &call(1, 5, 16), 10);
        let other = Announcement {
            identifier: 17,
            group: 4,
            ..ANNOUNCEMENT
        };
        let other = line_of(&Message::GroupCallAnnouncement(other));
        check_refused(&good, &other, 10);
        check_refused(&other, &good, 10);
        for digits in samples::DIGITS {
            if !digits.starts_with("08") {
                check_refused(&ended(digits), &call(2, 1, 17), 10);
                check_refused(&call(2, 1, 17), &ended(digits), 10);
            }
        }
    }

    /// The first line's number goes before the second's, and both before 10.
    #[test]
    fn numbers_in_order() {
        let good = call(2, 1000, 16);
        let bad: [(&[u8], u32); 6] = [
            (b"", 1),
            (b"02", 1),
            (b"A\n", 2),
            (b"\n", 3),
            (b"08\n", 4),
            (b"0200000000000700000009\n", 5),
        ];
        for (line, number) in bad {
            check_refused(line, &good, number);
            check_refused(&good, line, number);
            check_refused(&ended(samples::DIGITS[1]), line, number);
            for (other, _) in bad {
                check_refused(line, other, number);
            }
        }
    }
}
