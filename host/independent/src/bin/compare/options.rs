//! What the program is asked to do, from the words it is called with.

use crate::case::Spoil;
use crate::parts::{COUNT, PARTS};
use independent::command::number;

/// What is to be done.
#[derive(Debug, PartialEq, Eq)]
pub enum Task {
    /// Compare the two implementations.
    Compare(Options),
    /// Answer standard input as the independent implementation does.
    Answer,
    /// Write a log made from a seed.
    Log(u64),
    /// Say how the program is called.
    Help,
}

/// How the comparison is run.
#[derive(Debug, PartialEq, Eq)]
pub struct Options {
    pub seed: u64,
    /// How many inputs each part has.
    pub counts: [u64; COUNT],
    pub spoil: Option<Spoil>,
}

/// How the program is called.
pub const HELP: &str = "\
compare [OPTIONS]: gives random inputs to the proved implementation and to an independent one, and looks for a difference
  --seed N      what the inputs are made from (1)
  --lines N     how many lines are read (2000000)
  --pairs N     how many pairs of lines are chosen from (2000000)
  --writings N  how many messages are written (1000000)
  --logs N      how many logs are answered (20000)
  --spoil SLIP  puts a slip into the independent answers, to see that it is found; SLIP is one of
                  lines     a capital digit is taken as good
                  values    caller and callee are swapped
                  pairs     types are ranked by their code number
                  numbers   10 goes before the number of the second line
                  writings  the buffer behind the line is cleared
                  room      6 goes before 5
                  logs      an unended tail is not answered
compare answer: writes the independent answer to the first 65536 bytes of standard input
compare log SEED: writes a random log made from SEED
A difference is shown with its draw, and as many inputs of its part show it again: --lines where it is in values, --pairs where it is in
numbers, --writings where it is in room. A run that is killed shows no input: fewer inputs of the part behind the last one shown find it.
Status: 0 no difference; 1 a difference, or a run of some size that did not try all it should; 2 bad usage or no way to read or write
";

/// Reads the words after the program's name, or says in one line what is wrong with them.
pub fn parse(words: &[String]) -> Result<Task, String> {
    if words.iter().any(|word| word == "--help") {
        return Ok(Task::Help);
    }
    let words: Vec<&str> = words.iter().map(String::as_str).collect();
    match words[..] {
        ["answer"] => Ok(Task::Answer),
        ["log", seed] => Ok(Task::Log(number("log", seed)?)),
        ["log"] => Err("log needs a seed".to_string()),
        ["answer" | "log", ..] => Err(format!("too many words for {}", words[0])),
        _ => options(&words).map(Task::Compare),
    }
}

/// Reads the options of the comparison.
fn options(words: &[&str]) -> Result<Options, String> {
    let mut options = Options {
        seed: 1,
        counts: PARTS.each_ref().map(|part| part.full),
        spoil: None,
    };
    let mut words = words.iter();
    while let Some(&name) = words.next() {
        let part = PARTS
            .iter()
            .position(|part| name.strip_prefix("--") == Some(part.name));
        if part.is_none() && !["--seed", "--spoil"].contains(&name) {
            return Err(format!("no such option: {name:?}; --help lists them"));
        }
        let Some(&word) = words.next() else {
            return Err(format!("{name} needs a word behind it"));
        };
        match part {
            Some(part) => options.counts[part] = number(name, word)?,
            None if name == "--seed" => options.seed = number(name, word)?,
            None => options.spoil = Some(slip(word)?),
        }
    }
    Ok(options)
}

/// Reads the name of a slip.
fn slip(word: &str) -> Result<Spoil, String> {
    let found = Spoil::ALL.iter().find(|(name, _)| *name == word);
    match found {
        Some((_, spoil)) => Ok(*spoil),
        None => Err(format!("--spoil needs the name of a slip, not {word:?}")),
    }
}

#[cfg(test)]
mod tests {
    use super::*;
    use independent::command::words_of;

    /// Reads words that are given in one line.
    fn parsed(line: &str) -> Result<Task, String> {
        parse(&words_of(line))
    }

    /// Every option is taken, and what is not given has the default that the help names.
    #[test]
    fn good_words() {
        let full = Options {
            seed: 1,
            counts: [2_000_000, 2_000_000, 1_000_000, 20_000],
            spoil: None,
        };
        assert_eq!(parsed(""), Ok(Task::Compare(full)));
        for part in &PARTS {
            assert!(HELP.contains(&format!("({})", part.full)));
        }
        let given = Options {
            seed: 7,
            counts: [1, 2, 3, 4],
            spoil: Some(Spoil::Values),
        };
        let line = "--logs 4 --seed 7 --spoil values --pairs 2 --lines 1 --writings 3";
        assert_eq!(parsed(line), Ok(Task::Compare(given)));
        assert_eq!(parsed("answer"), Ok(Task::Answer));
        assert_eq!(parsed("log 18446744073709551615"), Ok(Task::Log(u64::MAX)));
        assert_eq!(parsed("--seed x --help"), Ok(Task::Help));
    }

    /// Every slip is taken by its name, and the help names it.
    #[test]
    fn slips() {
        for (name, spoil) in Spoil::ALL {
            let Ok(Task::Compare(options)) = parsed(&format!("--spoil {name}")) else {
                panic!("{name} is not taken");
            };
            assert_eq!(options.spoil, Some(spoil));
            assert!(HELP.contains(&format!("\n                  {name:<10}")));
        }
    }

    /// Every wrong call is told in one line.
    #[test]
    fn bad_words() {
        for line in [
            "--seed",
            "--seed x",
            "--seed -1",
            "--lines 1.5",
            "--logs",
            "--spoil",
            "--spoil none",
            "--other 1",
            "lines",
            "log",
            "log x",
            "log 1 2",
            "answer 1",
            "log --seed 1",
            "--seed 18446744073709551616",
        ] {
            let told = parsed(line).unwrap_err();
            assert!(!told.is_empty() && !told.contains('\n'), "{line}: {told}");
        }
        assert!(!parse(&["a\nb".to_string()]).unwrap_err().contains('\n'));
    }
}
