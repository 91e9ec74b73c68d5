//! What the program is asked to do, from the words it is called with.

use crate::program::Program;
use crate::slips::{Slip, SLIPS};
use independent::command::number;

/// What is to be done.
#[derive(Debug, PartialEq, Eq)]
pub enum Task {
    /// Look for a difference.
    Rehearse(Options, Program),
    /// Write the script of a seed that has this number.
    Script(u64, u64),
    /// Write what the independent implementation makes of a script, given by the file's name or `-`, with the
    /// slip of a place put in, if there is one.
    Play(String, Option<usize>),
    /// List the slips.
    Slips,
    /// Say how the program is called.
    Help,
}

/// How the scripts are made and played.
#[derive(Debug, PartialEq, Eq)]
pub struct Options {
    pub seed: u64,
    pub steps: u64,
    /// The place of a slip among all of them.
    pub slip: Option<usize>,
}

/// How the program is called.
pub const HELP: &str = "\
rehearse [OPTIONS] -- COMMAND...: plays random scripts by the program that COMMAND runs, which reads a script from standard input and
writes its transcript to standard output, and by the independent implementation, and looks for a difference
  --seed N     what the scripts are made from (1)
  --steps N    how many steps of the machines there are at least (1000000)
  --slip NAME  puts a slip into the independent machines, to see that it is found
rehearse --slips: lists the slips by their names
rehearse --script N [--seed N]: writes the script of a seed that has this number, from 1
rehearse --play FILE [--slip NAME]: writes what the independent implementation makes of a script, with the slip put in where one is
named, and looks for no difference; from standard input where FILE is -
These three take no notice of a COMMAND. A difference is shown with its script, cut down to the words that are needed for it.
A program that fails, or says anything on standard error, differs.
Status: 0 no difference; 1 a difference, or a run of 10000 steps or more that did not meet each row, each number and each complaint about a
command at least 20 times in 10000 steps, or something else too seldom; 2 bad usage or no way to read, to write or to run COMMAND
";

/// Reads the words after the program's name, or says in one line what is wrong with them.
pub fn parse(words: &[String]) -> Result<Task, String> {
    let words: Vec<&str> = words.iter().map(String::as_str).collect();
    let mut parts = words.splitn(2, |&word| word == "--");
    let own = parts.next().unwrap_or_default();
    let command = parts.next();
    if own.contains(&"--help") {
        return Ok(Task::Help);
    }
    match own {
        ["--slips"] => Ok(Task::Slips),
        ["--slips", ..] => Err("too many words for --slips".to_string()),
        ["--play", ..] | ["--slip", _, "--play", ..] => play(own),
        _ => options(own, command),
    }
}

/// Reads the words of a play, where a slip may be named ahead of the script or behind it.
fn play(words: &[&str]) -> Result<Task, String> {
    match words {
        ["--play", file] => Ok(Task::Play(file.to_string(), None)),
        ["--play", file, "--slip", name] | ["--slip", name, "--play", file] => {
            Ok(Task::Play(file.to_string(), Some(slip(name)?)))
        }
        [.., name @ ("--play" | "--slip")] => Err(format!("{name} needs a word behind it")),
        _ => Err("too many words for --play".to_string()),
    }
}

/// Reads the options of a run or of a script.
fn options(words: &[&str], command: Option<&[&str]>) -> Result<Task, String> {
    let mut options = Options {
        seed: 1,
        steps: 1_000_000,
        slip: None,
    };
    let mut script = None;
    let mut words = words.iter();
    while let Some(&name) = words.next() {
        if !["--seed", "--steps", "--slip", "--script"].contains(&name) {
            return Err(format!("no such option: {name:?}; --help lists them"));
        }
        let Some(&word) = words.next() else {
            return Err(format!("{name} needs a word behind it"));
        };
        match name {
            "--seed" => options.seed = number(name, word)?,
            "--steps" => options.steps = number(name, word)?,
            "--slip" => options.slip = Some(slip(word)?),
            _ => script = Some(number(name, word)?),
        }
    }
    match (script, command) {
        (Some(script), _) => Ok(Task::Script(options.seed, script)),
        (None, Some([first, rest @ ..])) => {
            let words = [first].into_iter().chain(rest).map(|word| word.to_string());
            Ok(Task::Rehearse(options, Program::new(words.collect())))
        }
        _ => Err("no COMMAND: -- and what runs the program come last".to_string()),
    }
}

/// Reads the name of a slip, and gives its place.
fn slip(word: &str) -> Result<usize, String> {
    let named = |slip: &Slip| slip.name == word;
    SLIPS.iter().position(named).ok_or(format!(
        "--slip needs the name of a slip, not {word:?}; --slips lists them"
    ))
}

#[cfg(test)]
mod tests {
    use super::*;
    use independent::command::words_of;

    /// Reads words that are given in one line.
    fn parsed(line: &str) -> Result<Task, String> {
        parse(&words_of(line))
    }

    /// Every option is taken, and what is not given has the default that the help names.
    #[test]
    fn good_words() {
        let program = |words: &[&str]| {
            let words = words.iter().map(|word| word.to_string());
            Program::new(words.collect())
        };
        let full = Options {
            seed: 1,
            steps: 1_000_000,
            slip: None,
        };
        assert!(HELP.contains("(1)") && HELP.contains("(1000000)"));
        let run = Task::Rehearse(full, program(&["bin/drill"]));
        assert_eq!(parsed("-- bin/drill"), Ok(run));
        for (place, slip) in SLIPS.iter().enumerate() {
            let given = Options {
                seed: 7,
                steps: 5,
                slip: Some(place),
            };
            let line = format!("--slip {} --steps 5 --seed 7 -- x --seed -- y", slip.name);
            let run = Task::Rehearse(given, program(&["x", "--seed", "--", "y"]));
            assert_eq!(parsed(&line), Ok(run));
        }
        assert_eq!(parsed("--script 3 --seed 9"), Ok(Task::Script(9, 3)));
        assert_eq!(parsed("--script 3 -- x"), Ok(Task::Script(1, 3)));
        assert_eq!(parsed("--slips"), Ok(Task::Slips));
        assert_eq!(parsed("--seed x --help"), Ok(Task::Help));
    }

    /// A play takes no slip, or one that stands ahead of the script or behind it.
    #[test]
    fn plays() {
        let played = |file: &str, slip| Ok(Task::Play(file.to_string(), slip));
        assert_eq!(parsed("--play -"), played("-", None));
        assert_eq!(parsed("--play x -- y"), played("x", None));
        for (place, slip) in SLIPS.iter().enumerate() {
            let behind = format!("--play - --slip {} -- y", slip.name);
            assert_eq!(parsed(&behind), played("-", Some(place)));
            let ahead = format!("--slip {} --play x", slip.name);
            assert_eq!(parsed(&ahead), played("x", Some(place)));
        }
    }

    /// A play that lacks a word, or has one too many, is told by the word that matters.
    #[test]
    fn bad_plays() {
        for (line, told) in [
            ("--play", "--play needs a word behind it"),
            ("--slip old-start --play", "--play needs a word behind it"),
            ("--play x --slip", "--slip needs a word behind it"),
            ("--play x y", "too many words for --play"),
            ("--play x --slip old-start y", "too many words for --play"),
            ("--slip old-start --play x y", "too many words for --play"),
            ("--play x --seed 1", "too many words for --play"),
        ] {
            assert_eq!(parsed(line), Err(told.to_string()), "{line}");
        }
        for line in ["--play x --slip none", "--slip none --play x"] {
            let wrong = parsed(line).unwrap_err();
            assert!(wrong.starts_with("--slip needs the name of a slip, not \"none\""));
        }
        let unnamed = parsed("--slip --play x").unwrap_err();
        assert!(unnamed.starts_with("--slip needs the name of a slip, not \"--play\""));
    }

    /// Every wrong call is told in one line.
    #[test]
    fn bad_words() {
        for line in [
            "",
            "--",
            "--seed 1",
            "--seed -- x",
            "--seed x -- x",
            "--steps -1 -- x",
            "--slip none -- x",
            "--slips 1",
            "--script one",
            "--other 1 -- x",
            "x",
        ] {
            let wrong = parsed(line).unwrap_err();
            assert!(!wrong.contains('\n') && !wrong.is_empty(), "{line}");
        }
    }
}
