//! Whether all implementations answer all inputs alike, found out before anything is measured.

use crate::implementations::{Implementation, Machine, Steps, MACHINES};
use crate::inputs::{Inputs, LONGEST_LINE, SIZES};
use independent::shown::text;
use std::fmt::Debug;

/// What stands in a buffer before it is lent: a byte of no line.
const BEFORE: u8 = 0xa5;

/// Lengths of buffers for the lines of steps: none, for each kind just enough or a byte less, and more than enough.
const ROOMS: [usize; 13] = [0, 1, 22, 23, 24, 25, 30, 31, 42, 43, 62, 63, 80];

/// Compares all answers of these implementations to all inputs, and gives the first difference in one
/// line.
pub fn all(all: &[Implementation], inputs: &Inputs) -> Result<(), String> {
    lines(all, inputs)?;
    pairs(all, inputs)?;
    logs(all, inputs)?;
    for (machine, long) in MACHINES.iter().zip(&inputs.scripts) {
        scripts(machine, inputs, long)?;
    }
    Ok(())
}

/// Compares the numbers of all lines, also of those by digits.
fn lines(all: &[Implementation], inputs: &Inputs) -> Result<(), String> {
    let by_digits = inputs.by_digits.iter().flat_map(|sort| sort.pieces.list());
    for line in inputs.lines().into_iter().chain(by_digits) {
        each(all, "line check", line, |one| (one.check)(line))?;
    }
    Ok(())
}

/// Compares the choices of all pairs.
fn pairs(all: &[Implementation], inputs: &Inputs) -> Result<(), String> {
    for (first, second) in inputs.pairs() {
        let both = [first, b" and ", second].concat();
        each(all, "chooser", &both, |one| (one.choose)(first, second))?;
    }
    Ok(())
}

/// Compares the answers to all logs, in a buffer three times as long as the log, in one that has just
/// the room, and in one that is a byte too short.
fn logs(all: &[Implementation], inputs: &Inputs) -> Result<(), String> {
    let sized = SIZES.iter().flat_map(|&size| inputs.logs_of(size));
    let by_digits = inputs.logs_by_digits.iter();
    let by_digits = by_digits.flat_map(|sort| sort.pieces.list());
    let logs = [&b""[..]].into_iter().chain(inputs.single_lines());
    for log in logs.chain(inputs.logs()).chain(sized).chain(by_digits) {
        let answered = |one: &Implementation, room: usize| {
            let mut out = vec![BEFORE; room];
            ((one.answer)(log, &mut out), out)
        };
        let needed = answered(&all[0], 3 * log.len()).0;
        for room in [3 * log.len(), needed, needed.saturating_sub(1)] {
            each(all, "answer to a log", log, |one| answered(one, room))?;
        }
    }
    Ok(())
}

/// Compares what the two implementations of a machine make of its scripts and of many short ones, with
/// buffers of many lengths.
fn scripts(machine: &Machine, inputs: &Inputs, long: &[Vec<u8>]) -> Result<(), String> {
    let shorts = inputs.short_scripts.iter().zip(ROOMS.into_iter().cycle());
    let longs = long.iter().map(|script| (script, LONGEST_LINE));
    for (script, room) in longs.chain(shorts) {
        let played = |steps: Steps| {
            let mut out = vec![BEFORE; room];
            (steps(script, &mut out), out)
        };
        let [(_, proved), (name, other)] = machine.steps;
        same(name, machine.name, script, &played(other), &played(proved))?;
    }
    Ok(())
}

/// Compares what each implementation answers with what the first does.
fn each<T: PartialEq + Debug>(
    all: &[Implementation],
    question: &str,
    input: &[u8],
    answer: impl Fn(&Implementation) -> T,
) -> Result<(), String> {
    let proved = answer(&all[0]);
    for one in &all[1..] {
        same(one.name, question, input, &answer(one), &proved)?;
    }
    Ok(())
}

/// Compares one answer with the proved one, and tells a difference in one line.
fn same<T: PartialEq + Debug>(
    name: &str,
    question: &str,
    input: &[u8],
    answer: &T,
    proved: &T,
) -> Result<(), String> {
    if answer == proved {
        return Ok(());
    }
    Err(format!(
        "DIFFERENCE: {name} answers otherwise than Rattle: {question}, {} for {}, input: {}",
        shortened(answer),
        shortened(proved),
        text(input)
    ))
}

/// Puts an answer in words, not all of them where it is long.
fn shortened<T: Debug>(answer: &T) -> String {
    let whole = format!("{answer:?}");
    match whole.char_indices().nth(60) {
        Some((place, _)) => format!("{}...", &whole[..place]),
        None => whole,
    }
}

#[cfg(test)]
mod tests {
    use super::*;
    use crate::entries::Rattle;
    use crate::implementations::{Answers, ALL};

    /// All implementations of today agree from several seeds.
    #[test]
    fn they_agree() {
        for seed in [1, 2, 3] {
            assert_eq!(all(&ALL, &Inputs::new(seed)), Ok(()));
        }
    }

    /// An implementation that is wrong on lines by digits alone is told.
    #[test]
    fn lines_by_digits_are_compared() {
        let inputs = Inputs::new(1);
        let mut wrong = ALL;
        wrong[1].check = |line| Rattle::check(line) + u32::from(line.len() == 185);
        assert!(inputs.lines().iter().all(|line| line.len() != 185));
        let told = all(&wrong, &inputs).unwrap_err();
        assert!(told.contains(" line check, 5 for 4, input: 08"), "{told}");
    }

    /// A wrong implementation is named, with the input and both answers, in one line.
    #[test]
    fn a_difference_is_told() {
        let mut wrong = ALL;
        wrong[4].check = |_| 7;
        let told = each(&wrong, "line check", b"02\n", |one| (one.check)(b"02\n"));
        assert_eq!(
            told,
            Err("DIFFERENCE: table C by cc answers otherwise than Rattle: line check, 7 for 4, input: 02\\x0a".to_string())
        );
    }
}
