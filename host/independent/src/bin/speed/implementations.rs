//! The implementations that are measured, and the loops in which each is: the loop is compiled for
//! the implementation, so that what is called is called directly.

use crate::entries::{
    self, BestByCc, BestByClang, PlainByCc, PlainByClang, Rattle, RattleBefore, TableByCc,
    TableByClang,
};
use crate::plain::PlainRust;
use crate::scripts;
use std::hint::black_box;

/// The three questions, as one implementation answers them.
pub trait Answers {
    /// The implementation's name.
    const NAME: &'static str;

    /// Gives the number of a line.
    fn check(line: &[u8]) -> u32;

    /// Tells which of two lines is chosen: 1, 2, or 0 for neither.
    fn choose(first: &[u8], second: &[u8]) -> u32;

    /// Writes the answer to a log and gives its length, 0 where there is no room.
    fn answer(log: &[u8], out: &mut [u8]) -> usize;
}

/// Two lines for the chooser.
pub type Pair<'a> = (&'a [u8], &'a [u8]);

/// One implementation: each question by itself, and asked of all inputs in turn.
#[derive(Clone, Copy)]
pub struct Implementation {
    pub name: &'static str,
    pub check: fn(&[u8]) -> u32,
    pub choose: fn(&[u8], &[u8]) -> u32,
    pub answer: fn(&[u8], &mut [u8]) -> usize,
    pub check_all: fn(&[&[u8]]),
    pub choose_all: fn(&[Pair]),
    pub answer_all: fn(&[&[u8]], &mut [u8]),
}

/// Gives what the measurement needs of an implementation.
pub const fn of<A: Answers>() -> Implementation {
    Implementation {
        name: A::NAME,
        check: A::check,
        choose: A::choose,
        answer: A::answer,
        check_all: check_all::<A>,
        choose_all: choose_all::<A>,
        answer_all: answer_all::<A>,
    }
}

/// Every implementation of today, the proved one first; the C by each of two compilers.
pub const ALL: [Implementation; 8] = [
    of::<Rattle>(),
    of::<PlainByCc>(),
    of::<PlainByClang>(),
    of::<PlainRust>(),
    of::<TableByCc>(),
    of::<TableByClang>(),
    of::<BestByCc>(),
    of::<BestByClang>(),
];

/// Lists the implementations that are measured: those of today, and right behind the proved one an
/// earlier state of it, where there is one to be measured.
pub fn measured(before: bool) -> Vec<Implementation> {
    let mut all = ALL.to_vec();
    if before {
        all.insert(1, of::<RattleBefore>());
    }
    all
}

/// Asks for the number of every line.
fn check_all<A: Answers>(lines: &[&[u8]]) {
    for line in lines {
        black_box(A::check(black_box(line)));
    }
}

/// Asks for the choice of every pair.
fn choose_all<A: Answers>(pairs: &[Pair]) {
    for (first, second) in pairs {
        black_box(A::choose(black_box(first), black_box(second)));
    }
}

/// Asks for the answer to every log, all of them in the same buffer.
fn answer_all<A: Answers>(logs: &[&[u8]], out: &mut [u8]) {
    for log in logs {
        black_box(A::answer(black_box(log), black_box(&mut *out)));
    }
}

/// Plays a script through a machine, and gives how many steps met a row.
pub type Steps = fn(&[u8], &mut [u8]) -> usize;

/// One of the two machines, by its name, in each of the implementations that have it, the proved one
/// first.
pub struct Machine {
    pub name: &'static str,
    pub steps: [(&'static str, Steps); 2],
    /// Scripts of whole calls: from the cleared record each step meets a row, and the last one clears
    /// the record again.
    pub calls: &'static [&'static [u8]],
}

/// Both machines.
pub const MACHINES: [Machine; 2] = [
    Machine {
        name: "private step",
        steps: [
            (Rattle::NAME, entries::private_steps),
            ("Rust", scripts::private_steps),
        ],
        calls: &[&[0, 1, 2, 3, 4, 5], &[0, 10, 2, 3, 4, 5], &[6, 7, 8, 9, 5]],
    },
    Machine {
        name: "group step",
        steps: [
            (Rattle::NAME, entries::group_steps),
            ("Rust", scripts::group_steps),
        ],
        calls: &[
            &[0, 1, 2, 1, 5],
            &[0, 4, 1, 5],
            &[2, 6, 1, 2, 5],
            &[3, 7],
            &[2, 8],
        ],
    },
];
