//! Damage to lines, of the sorts a wire or a careless hand could do.

use super::good_line;
use crate::kind::Kind;
use crate::line::{DIGITS, LINE_END};
use crate::random::Random;

/// One way to damage a line that is not empty.
type Damage = fn(&mut Random, Vec<u8>) -> Vec<u8>;

/// Every way to damage a line; wrong kinds stand twice, to be met often enough.
const DAMAGES: [Damage; 13] = [
    byte_changed,
    digit_made_capital,
    byte_dropped,
    byte_inserted,
    byte_doubled,
    return_put_in,
    end_put_in,
    last_dropped,
    cut,
    run_together,
    other_kind,
    no_kind,
    no_kind,
];

/// Does one sort of damage to a line, now and then two.
pub fn damage(random: &mut Random, mut line: Vec<u8>) -> Vec<u8> {
    let times = if random.chance(5) { 2 } else { 1 };
    for _ in 0..times {
        if !line.is_empty() {
            line = random.pick(&DAMAGES)(random, line);
        }
    }
    line
}

/// Draws a place in a line.
fn place(random: &mut Random, line: &[u8]) -> usize {
    random.below(line.len() as u64) as usize
}

/// Draws a byte: any one, or a digit, one time like the other.
fn byte(random: &mut Random) -> u8 {
    if random.chance(2) {
        *random.pick(DIGITS)
    } else {
        random.next() as u8
    }
}

/// Changes one byte.
fn byte_changed(random: &mut Random, mut line: Vec<u8>) -> Vec<u8> {
    let place = place(random, &line);
    line[place] = byte(random);
    line
}

/// Turns a letter into its capital, or any byte into one if there is no letter.
fn digit_made_capital(random: &mut Random, mut line: Vec<u8>) -> Vec<u8> {
    let start = place(random, &line);
    let mut places = (start..line.len()).chain(0..start);
    let found = places.find(|&place| line[place].is_ascii_lowercase());
    match found {
        Some(place) => line[place] = line[place].to_ascii_uppercase(),
        None => line[start] = *random.pick(b"ABCDEF"),
    }
    line
}

/// Leaves one byte out.
fn byte_dropped(random: &mut Random, mut line: Vec<u8>) -> Vec<u8> {
    let place = place(random, &line);
    line.remove(place);
    line
}

/// Puts one byte more in, at any place from the front to the end.
fn byte_inserted(random: &mut Random, mut line: Vec<u8>) -> Vec<u8> {
    let place = random.below(line.len() as u64 + 1) as usize;
    line.insert(place, byte(random));
    line
}

/// Repeats one byte.
fn byte_doubled(random: &mut Random, mut line: Vec<u8>) -> Vec<u8> {
    let place = place(random, &line);
    line.insert(place, line[place]);
    line
}

/// Puts a carriage return before the last byte, now and then elsewhere.
fn return_put_in(random: &mut Random, mut line: Vec<u8>) -> Vec<u8> {
    let place = if random.chance(4) {
        place(random, &line)
    } else {
        line.len() - 1
    };
    line.insert(place, b'\r');
    line
}

/// Puts a line end somewhere inside, beside or in place of a byte.
fn end_put_in(random: &mut Random, mut line: Vec<u8>) -> Vec<u8> {
    let place = place(random, &line);
    if random.chance(2) {
        line.insert(place, LINE_END);
    } else {
        line[place] = LINE_END;
    }
    line
}

/// Leaves the last byte out.
fn last_dropped(_: &mut Random, mut line: Vec<u8>) -> Vec<u8> {
    line.pop();
    line
}

/// Cuts the line at any place, and ends the rest again one time out of two.
fn cut(random: &mut Random, mut line: Vec<u8>) -> Vec<u8> {
    line.truncate(place(random, &line));
    if random.chance(2) {
        line.push(LINE_END);
    }
    line
}

/// Lets another line follow, with or without a line end between them.
fn run_together(random: &mut Random, mut line: Vec<u8>) -> Vec<u8> {
    if random.chance(2) {
        line.pop();
    }
    line.extend(good_line(random));
    line
}

/// Puts the digits of one of the nine kinds in front.
fn other_kind(random: &mut Random, mut line: Vec<u8>) -> Vec<u8> {
    let kind = *random.pick(&Kind::ALL);
    put_kind(&mut line, kind.code() as u8);
    line
}

/// Puts digits in front that are mostly no kind's.
fn no_kind(random: &mut Random, mut line: Vec<u8>) -> Vec<u8> {
    let code = if random.chance(2) {
        *random.pick(&[0x00, 0x0a, 0x0f, 0x10, 0x11, 0x80, 0x90, 0xff])
    } else {
        random.next() as u8
    };
    put_kind(&mut line, code);
    line
}

/// Puts two digits over the first two bytes, as far as there are any.
pub fn put_kind(line: &mut [u8], code: u8) {
    let digits = [code >> 4, code & 0xf].map(|digit| DIGITS[usize::from(digit)]);
    for (place, digit) in line.iter_mut().zip(digits) {
        *place = digit;
    }
}

#[cfg(test)]
mod tests {
    use super::*;
    use crate::line::read;

    /// Every damage bears lines of every length from one byte up.
    #[test]
    fn short_lines_are_borne() {
        let mut random = Random::new(5);
        for damage in DAMAGES {
            for length in 1..80 {
                let mut line = good_line(&mut random);
                line.truncate(length);
                damage(&mut random, line);
            }
        }
        assert_eq!(damage(&mut random, Vec::new()), b"");
    }

    /// The damages whose number is sure give it.
    #[test]
    fn sure_numbers() {
        let sure: [(Damage, &[u32]); 3] = [
            // With no letter in the line the capital may fall on the line end.
            (digit_made_capital, &[1, 2]),
            (return_put_in, &[2]),
            (last_dropped, &[1]),
        ];
        let mut random = Random::new(6);
        for (damage, numbers) in sure {
            for _ in 0..200 {
                let good = good_line(&mut random);
                let refused = read(&damage(&mut random, good)).unwrap_err();
                assert!(numbers.contains(&refused), "{refused}");
            }
        }
    }
}
