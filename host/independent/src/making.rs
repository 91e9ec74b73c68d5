//! Making of inputs for the comparison, all of them drawn from one seed.

mod damage;
mod messages;

pub use self::damage::damage;
pub use self::messages::{message_perhaps_outside, message_wide, values_in_range};

use self::damage::put_kind;
use self::messages::{message_in_range, message_of_edges, message_outside, values_outside};
use crate::kind::Kind;
use crate::line::{line_of, DIGITS, LINE_END};
use crate::log::MOST;
use crate::message::{Announcement, Message};
use crate::random::Random;

/// The bytes of the longest line made.
const LONGEST: u64 = 5_000;

/// Makes a line, good or bad, so that each number from 0 to 5 is common.
pub fn line(random: &mut Random) -> Vec<u8> {
    match random.below(40) {
        0..=9 => good_line(random),
        10..=15 => line_of(&message_outside(random)),
        16..=17 => line_of(&message_of_edges(random)),
        18..=32 => damaged_line(random),
        33..=38 => noise(random, 80),
        _ => noise(random, LONGEST),
    }
}

/// Makes a line that reads without refusal.
pub fn good_line(random: &mut Random) -> Vec<u8> {
    line_of(&message_in_range(random))
}

/// Makes a line and damages it: a good one or, one time out of four, one with a field out of range.
pub fn damaged_line(random: &mut Random) -> Vec<u8> {
    let whole = if random.chance(4) {
        line_of(&message_outside(random))
    } else {
        good_line(random)
    };
    damage(random, whole)
}

/// Makes a piece of digits or of any bytes, some of it with a kind in front or an end behind.
fn noise(random: &mut Random, most: u64) -> Vec<u8> {
    let length = random.below(most + 1);
    let mut noise: Vec<u8> = if random.chance(3) {
        (0..length).map(|_| random.next() as u8).collect()
    } else {
        (0..length).map(|_| *random.pick(DIGITS)).collect()
    };
    if random.chance(4) {
        let kind = *random.pick(&Kind::ALL);
        put_kind(&mut noise, kind.code() as u8);
    }
    if !random.chance(3) {
        if let Some(last) = noise.last_mut() {
            *last = LINE_END;
        }
    }
    noise
}

/// Makes two lines for the chooser, so that each answer is common.
pub fn pair(random: &mut Random) -> (Vec<u8>, Vec<u8>) {
    let (first, mut second) = rivals(random);
    let sort = random.below(20);
    match sort {
        8 => second.identifier = first.identifier,
        9 => second.group = first.group % 3 + 1,
        _ => {}
    }
    let mut lines = (announced(first), announced(second));
    match sort {
        10 => lines.1 = lines.0.clone(),
        11 => lines.1 = good_line(random),
        12 => lines = (line(random), line(random)),
        13..=15 => lines.1 = spoilt(random, second),
        16 => lines = (spoilt(random, first), spoilt(random, second)),
        17..=19 => lines.0 = spoilt(random, first),
        _ => {}
    }
    if random.chance(2) {
        lines = (lines.1, lines.0);
    }
    lines
}

/// Makes two lines that the chooser chooses between.
pub fn good_pair(random: &mut Random) -> (Vec<u8>, Vec<u8>) {
    let (first, second) = rivals(random);
    (announced(first), announced(second))
}

/// Makes the announcements of two calls of one group.
fn rivals(random: &mut Random) -> (Announcement, Announcement) {
    let first = announcement(random);
    let mut second = announcement(random);
    second.group = first.group;
    while second.identifier == first.identifier {
        second.identifier = announcement(random).identifier;
    }
    (first, second)
}

/// Makes an announcement whose type, start and identifier often tie with another's.
fn announcement(random: &mut Random) -> Announcement {
    let kind = Kind::GroupCallAnnouncement;
    let values = values_in_range(random, kind);
    let Message::GroupCallAnnouncement(mut made) = Message::from_values(kind, &values) else {
        unreachable!("the kind asked for is the kind made");
    };
    made.group = *random.pick(&[1, 2, 3, u32::MAX]);
    if !random.chance(8) {
        made.identifier = *random.pick(&[1, 16, 17, 255, 256, 65535]);
        made.start = *random.pick(&[0, 1000, 1001, u32::MAX]);
    }
    made
}

/// Gives the line of an announcement.
fn announced(announcement: Announcement) -> Vec<u8> {
    line_of(&Message::GroupCallAnnouncement(announcement))
}

/// Makes a line that is hardly an announcement any more.
fn spoilt(random: &mut Random, announcement: Announcement) -> Vec<u8> {
    match random.below(5) {
        0 => {
            let kind = Kind::GroupCallAnnouncement;
            line_of(&Message::from_values(kind, &values_outside(random, kind)))
        }
        1 => line(random),
        _ => damage(random, announced(announcement)),
    }
}

/// Makes a log of lines run together, now and then larger than the program takes.
pub fn log(random: &mut Random) -> Vec<u8> {
    if random.chance(40) {
        return large_log(random);
    }
    let most = *random.pick(&[1, 3, 20, 20, 60, 300]);
    let lines = random.below(most + 1);
    let all_good = random.chance(4);
    let mut log = Vec::new();
    for _ in 0..lines {
        log.extend(log_line(random, all_good));
    }
    match random.below(3) {
        0 => {
            let tail = good_line(random);
            let length = 1 + random.below(tail.len() as u64 - 1) as usize;
            log.extend_from_slice(&tail[..length]);
        }
        1 if log.last().is_some_and(|&last| last != LINE_END) => log.push(LINE_END),
        _ => {}
    }
    log
}

/// Makes one line of a log.
fn log_line(random: &mut Random, good: bool) -> Vec<u8> {
    if good || random.chance(2) {
        good_line(random)
    } else {
        line(random)
    }
}

/// Makes a log that goes past the cut, or ends at it or a byte beside it.
fn large_log(random: &mut Random) -> Vec<u8> {
    let all_good = random.chance(4);
    let mut log = Vec::new();
    while log.len() <= MOST {
        log.extend(log_line(random, all_good));
    }
    match random.below(3) {
        0 => log[MOST - 1] = LINE_END,
        1 => log[MOST] = LINE_END,
        _ => {}
    }
    match random.below(6) {
        0 => log.truncate(MOST - 1),
        1 => log.truncate(MOST),
        2 => log.truncate(MOST + 1),
        _ => {
            for _ in 0..random.below(100) {
                log.extend(log_line(random, all_good));
            }
        }
    }
    log
}

#[cfg(test)]
mod tests {
    use super::*;
    use crate::chooser::{choice_number, chosen};
    use crate::line::read;

    /// How many inputs each test draws.
    const DRAWS: usize = 20_000;

    /// Each number from 0 to 5 is met by a twentieth of the lines, and each kind is read.
    #[test]
    fn lines_meet_every_number_and_kind() {
        let mut random = Random::new(7);
        let (mut numbers, mut kinds, mut long) = ([0; 6], [0; 10], 0);
        for _ in 0..DRAWS {
            let line = line(&mut random);
            long += u32::from(line.len() > 1_000);
            match read(&line) {
                Ok(message) => {
                    numbers[0] += 1;
                    kinds[message.kind().code() as usize] += 1;
                    assert_eq!(line_of(&message), line);
                }
                Err(number) => numbers[number as usize] += 1,
            }
        }
        let common = |&met: &usize| met >= DRAWS / 20;
        assert!(numbers.iter().all(common), "{numbers:?}");
        assert!(kinds[1..].iter().all(|&met| met > DRAWS / 100), "{kinds:?}");
        assert!(long > 100);
    }

    /// Each answer of the chooser is met, both winners among them.
    #[test]
    fn pairs_meet_every_answer() {
        let mut random = Random::new(8);
        let (mut numbers, mut winners) = ([0; 11], [0; 3]);
        for _ in 0..DRAWS {
            let (first, second) = pair(&mut random);
            numbers[choice_number(&first, &second) as usize] += 1;
            winners[chosen(&first, &second) as usize] += 1;
        }
        for number in [0, 1, 2, 3, 4, 5, 10] {
            assert!(numbers[number] > DRAWS / 50, "{numbers:?}");
        }
        assert!(winners.iter().all(|&met| met > DRAWS / 10), "{winners:?}");
    }

    /// Between the lines of a good pair there is a choice, and each side wins now and then.
    #[test]
    fn good_pairs_are_chosen_between() {
        let mut random = Random::new(11);
        let mut winners = [0; 3];
        for _ in 0..DRAWS {
            let (first, second) = good_pair(&mut random);
            winners[chosen(&first, &second) as usize] += 1;
        }
        assert_eq!(winners[0], 0);
        assert!(winners[1..].iter().all(|&met| met > DRAWS / 4));
    }

    /// Rivals tie on rank, and on rank and start, often enough.
    #[test]
    fn rivals_often_tie() {
        let mut random = Random::new(9);
        let (mut ranks, mut starts) = (0, 0);
        for _ in 0..DRAWS {
            let (first, second) = pair(&mut random);
            if choice_number(&first, &second) != 0 {
                continue;
            }
            // Digits 14 and 15 of an announcement are its type, 36 to 43 its start.
            let same_type = first[14..16] == second[14..16];
            ranks += usize::from(same_type);
            starts += usize::from(same_type && first[36..44] == second[36..44]);
        }
        assert!(ranks > DRAWS / 20 && starts > DRAWS / 100);
    }

    /// Logs come empty, ended, unended and past the cut.
    #[test]
    fn logs_of_every_sort() {
        let mut random = Random::new(10);
        let (mut empty, mut ended, mut unended, mut large, mut exact) = (0, 0, 0, 0, 0);
        for _ in 0..2_000 {
            let log = log(&mut random);
            match log.last() {
                None => empty += 1,
                Some(&LINE_END) => ended += 1,
                Some(_) => unended += 1,
            }
            large += u32::from(log.len() > MOST);
            exact += u32::from(log.len().abs_diff(MOST) <= 1);
        }
        assert!(empty > 20 && ended > 200 && unended > 200);
        assert!(large > 20 && exact > 5, "{large} {exact}");
    }
}
