//! Lines by digits: sorts of lines, each of one length, by which what a line costs is held against
//! how many digits it has, and logs of such lines.

use crate::inputs::{Pieces, LINES_A_LOG};
use independent::kind::Kind;
use independent::line::{line_with_values, DIGITS, LINE_END};
use independent::making::values_in_range;
use independent::random::Random;

/// How many lines there are of each sort.
const COUNT: usize = 1_024;

/// How many digits the lines have; no kind has the last of these.
const LENGTHS: [usize; 4] = [22, 42, 62, 184];

/// One sort: its name, and its lines or logs.
pub struct Sort {
    pub name: String,
    pub pieces: Pieces,
}

/// Says what the sorts are.
pub fn told() -> String {
    format!(
        "There are {COUNT} lines of each sort. No kind has {} digits, so these lines are refused; in a \
         damaged line one byte, at any place, is no digit. The last two columns are for a line of a log \
         that is answered, {LINES_A_LOG} lines of the other lengths in each: all readable, and all damaged.",
        LENGTHS[LENGTHS.len() - 1]
    )
}

/// Makes all sorts: those of each length as they are, and then damaged.
pub fn sorts(random: &mut Random) -> Vec<Sort> {
    let whole = LENGTHS.map(|length| Sort {
        name: format!("{length} digits"),
        pieces: Pieces::new((0..COUNT).map(|_| line(random, length))),
    });
    let damaged = LENGTHS.map(|length| Sort {
        name: format!("{length}, damaged"),
        pieces: Pieces::new((0..COUNT).map(|_| damaged(random, length))),
    });
    whole.into_iter().chain(damaged).collect()
}

/// Makes logs of lines of the lengths that kinds have: all readable, and then all damaged.
pub fn logs(random: &mut Random) -> Vec<Sort> {
    let mut sort = |name: &str, make: fn(&mut Random, usize) -> Vec<u8>| {
        let lines = (0..COUNT).map(|_| {
            let length = *random.pick(&LENGTHS[..LENGTHS.len() - 1]);
            make(random, length)
        });
        let lines: Vec<Vec<u8>> = lines.collect();
        Sort {
            name: name.to_string(),
            pieces: Pieces::new(lines.chunks(LINES_A_LOG).map(<[Vec<u8>]>::concat)),
        }
    };
    vec![sort("log", line), sort("log, damaged", damaged)]
}

/// Makes a line of so many digits: one of a kind that has as many, in range, or where there is none an
/// announcement's kind and any digits.
fn line(random: &mut Random, length: usize) -> Vec<u8> {
    let mut kinds = Kind::ALL.to_vec();
    kinds.retain(|kind| 2 * kind.total() == length);
    if kinds.is_empty() {
        let mut line = b"08".to_vec();
        line.extend((2..length).map(|_| *random.pick(DIGITS)));
        line.push(LINE_END);
        return line;
    }
    let kind = *random.pick(&kinds);
    line_with_values(kind, &values_in_range(random, kind))
}

/// Makes a line of so many digits, and turns one of them into a byte that is no digit and no end.
fn damaged(random: &mut Random, length: usize) -> Vec<u8> {
    let mut line = line(random, length);
    let place = random.below(length as u64) as usize;
    while line[place] == LINE_END || DIGITS.contains(&line[place]) {
        line[place] = random.next() as u8;
    }
    line
}

#[cfg(test)]
mod tests {
    use super::*;
    use independent::line::read;
    use std::collections::BTreeSet;

    /// Each sort has its lines, of its length, and all of them have one number.
    #[test]
    fn numbers_of_every_sort() {
        let sorts = sorts(&mut Random::new(1));
        let numbers = [0, 0, 0, 4, 2, 2, 2, 2];
        assert_eq!(sorts.len(), numbers.len());
        for (place, (sort, number)) in sorts.iter().zip(numbers).enumerate() {
            let (lines, length) = (sort.pieces.list(), LENGTHS[place % LENGTHS.len()]);
            assert!(sort.name.starts_with(&length.to_string()), "{}", sort.name);
            assert_eq!(lines.len(), COUNT, "{}", sort.name);
            assert!(lines.iter().all(|line| line.len() == length + 1));
            let met = lines.iter().map(|line| read(line).err().unwrap_or(0));
            assert_eq!(met.collect::<BTreeSet<_>>(), BTreeSet::from([number]));
        }
    }

    /// A log is of lines of each length that a kind has, all of one number.
    #[test]
    fn numbers_of_every_log() {
        let sorts = logs(&mut Random::new(4));
        assert_eq!(sorts.len(), 2);
        for (sort, number) in sorts.iter().zip([0, 2]) {
            let logs = sort.pieces.list();
            assert_eq!(logs.len() * LINES_A_LOG, COUNT, "{}", sort.name);
            let lines = logs
                .iter()
                .map(|log| log.split_inclusive(|&byte| byte == LINE_END));
            let lines: Vec<&[u8]> = lines.flatten().collect();
            let lengths: BTreeSet<usize> = lines.iter().map(|line| line.len() - 1).collect();
            assert_eq!(
                (lines.len(), lengths),
                (COUNT, BTreeSet::from([22, 42, 62]))
            );
            let met = lines.iter().map(|line| read(line).err().unwrap_or(0));
            assert_eq!(met.collect::<BTreeSet<_>>(), BTreeSet::from([number]));
        }
    }

    /// The readable lines are of each kind that has so many digits.
    #[test]
    fn kinds_of_every_length() {
        let sorts = sorts(&mut Random::new(2));
        let wanted: [&[&[u8]]; 4] = [&[b"02", b"05", b"06", b"07"], &[b"01"], &[b"08"], &[b"08"]];
        for (sort, wanted) in sorts.iter().zip(wanted) {
            let kinds: BTreeSet<&[u8]> = sort.pieces.list().iter().map(|line| &line[..2]).collect();
            assert_eq!(kinds, wanted.iter().copied().collect(), "{}", sort.name);
        }
    }

    /// Each damaged line has one byte that is no digit, ahead of its end, anywhere and any one.
    #[test]
    fn one_byte_is_no_digit() {
        let sorts = sorts(&mut Random::new(3));
        for (sort, length) in sorts[LENGTHS.len()..].iter().zip(LENGTHS) {
            let (mut places, mut bytes) = (BTreeSet::new(), BTreeSet::new());
            for line in sort.pieces.list() {
                let found = (0..length).filter(|&place| !DIGITS.contains(&line[place]));
                let found: Vec<usize> = found.collect();
                assert_eq!((found.len(), line[length]), (1, LINE_END), "{}", sort.name);
                places.insert(found[0]);
                bytes.insert(line[found[0]]);
            }
            assert!(places.len() * 10 > length * 9, "{}", sort.name);
            assert!(bytes.len() > 200 && !bytes.contains(&LINE_END));
        }
    }
}
