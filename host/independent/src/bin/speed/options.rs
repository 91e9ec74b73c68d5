//! What the program is asked to do, from the words it is called with.

use independent::command::number;
use std::time::Duration;

/// What is to be done.
#[derive(Debug, PartialEq, Eq)]
pub enum Task {
    /// Measure all implementations.
    Measure(Options),
    /// Go once over the inputs, for a counter of instructions that looks on.
    Once(Options),
    /// Say how the program is called.
    Help,
}

/// How it is measured.
#[derive(Debug, PartialEq, Eq)]
pub struct Options {
    pub seed: u64,
    pub quick: bool,
    /// Whether instructions are counted, and no time taken.
    pub instructions: bool,
    /// The page that the figures are written into, where they are not to be printed.
    pub page: Option<String>,
    /// What the parts of the program were compiled with, where that was told.
    pub compilers: Option<String>,
    /// Which earlier state of the proved implementation is measured too, where one is.
    pub before: Option<String>,
}

impl Options {
    /// Gives how long rounds are begun.
    pub fn time(&self) -> Duration {
        if self.quick {
            Duration::from_millis(500)
        } else {
            Duration::from_secs(25)
        }
    }
}

/// How the program is called.
pub const HELP: &str = "\
speed [OPTIONS]: measures the proved implementation against the same in C and in Rust, on the same inputs and in one run
  --seed N          what the inputs are made from (1)
  --quick           takes a second and not half a minute, to see that all is there; its figures mean little
  --instructions    counts instructions under valgrind, in some seconds, and measures no times
  --page FILE       writes the times and the instructions into this page, between its marks, and prints nothing;
                    with --instructions it leaves the times of the page alone
  --before FOLDER   measures an earlier state too: FOLDER is a checkout of this repository, whose own scripts prove it and make its
                    archives; it is host/speed.sh that has them made, and the program is told in FOLDER's place which state it is
  --compilers TEXT  what the parts were compiled with, told ahead of the figures
  --once            goes once over all that --instructions counts, and prints nothing
Before anything is measured, all implementations answer all inputs; the first answer that is another than the proved one is told.
Status: 0 measured; 1 an implementation answers otherwise; 2 bad usage, no valgrind where it has to count, or no way to write
";

/// Reads the words after the program's name, or says in one line what is wrong with them.
pub fn parse(words: &[String]) -> Result<Task, String> {
    if words.iter().any(|word| word == "--help") {
        return Ok(Task::Help);
    }
    let mut options = Options {
        seed: 1,
        quick: false,
        instructions: false,
        page: None,
        compilers: None,
        before: None,
    };
    let mut once = false;
    let mut words = words.iter();
    while let Some(name) = words.next() {
        match name.as_str() {
            "--quick" => options.quick = true,
            "--instructions" => options.instructions = true,
            "--once" => once = true,
            "--seed" => options.seed = number(name, behind(name, words.next())?)?,
            "--page" => options.page = Some(behind(name, words.next())?.to_string()),
            "--compilers" => options.compilers = Some(behind(name, words.next())?.to_string()),
            "--before" => options.before = Some(behind(name, words.next())?.to_string()),
            _ => return Err(format!("no such option: {name:?}; --help lists them")),
        }
    }
    if options.quick && (options.instructions || options.page.is_some()) {
        return Err("--quick goes neither with --page nor with --instructions".to_string());
    }
    Ok(if once {
        Task::Once(options)
    } else {
        Task::Measure(options)
    })
}

/// Gives the word behind an option, which has to be there.
fn behind<'a>(name: &str, word: Option<&'a String>) -> Result<&'a str, String> {
    word.map(String::as_str)
        .ok_or_else(|| format!("{name} needs a word behind it"))
}

#[cfg(test)]
mod tests {
    use super::*;
    use independent::command::words_of;

    /// Reads words that are given in one line.
    fn parsed(line: &str) -> Result<Task, String> {
        parse(&words_of(line))
    }

    /// Every option is taken, and what is not given has its default.
    #[test]
    fn good_words() {
        let plain = |seed, quick| Options {
            seed,
            quick,
            instructions: false,
            page: None,
            compilers: None,
            before: None,
        };
        assert_eq!(parsed(""), Ok(Task::Measure(plain(1, false))));
        let quick = plain(7, true);
        assert!(quick.time() < Duration::from_secs(1));
        assert_eq!(parsed("--seed 7 --quick"), Ok(Task::Measure(quick)));
        let given = Options {
            instructions: true,
            page: Some("p".to_string()),
            compilers: Some("cc".to_string()),
            before: Some("b".to_string()),
            ..plain(7, false)
        };
        let line = "--compilers cc --instructions --before b --seed 7 --page p";
        assert_eq!(parsed(line), Ok(Task::Measure(given)));
        assert_eq!(parsed("--once --seed 7"), Ok(Task::Once(plain(7, false))));
        assert_eq!(parsed("--seed x --help"), Ok(Task::Help));
    }

    /// Every wrong call is told in one line.
    #[test]
    fn bad_words() {
        for line in [
            "--seed",
            "--seed x",
            "--quick 5",
            "--slow",
            "5",
            "--compilers",
            "--before",
            "--page",
            "--quick --page p",
            "--instructions --quick",
        ] {
            let told = parsed(line).unwrap_err();
            assert!(!told.is_empty() && !told.contains('\n'), "{line}: {told}");
        }
        assert!(!parse(&["a\nb".to_string()]).unwrap_err().contains('\n'));
    }
}
