//! The program that is tried: it is given a script on its standard input and prints to its standard output.

use std::io::{self, Read, Write};
use std::os::unix::process::ExitStatusExt;
use std::process::{Child, Command, ExitStatus, Stdio};
use std::thread;
use std::time::{Duration, Instant};

/// How long the program may take for a script where nothing else is said.
const LONGEST: Duration = Duration::from_secs(20);

/// How long it is left alone before it is looked at again.
const PAUSE: Duration = Duration::from_micros(500);

/// The most bytes of its output that are taken, more than any script is worth.
const MOST_PRINTED: u64 = 1 << 26;

/// The command line that runs the program.
#[derive(Clone, Debug, PartialEq, Eq)]
pub struct Program {
    pub words: Vec<String>,
    /// How long it may take for a script.
    pub longest: Duration,
}

/// What the program makes of a script.
#[derive(Clone, Debug, PartialEq, Eq)]
pub struct Answer {
    /// What it printed.
    pub printed: Vec<u8>,
    /// What it said on standard error.
    pub said: Vec<u8>,
    /// How it failed, if it did.
    pub failure: Option<String>,
}

impl Program {
    /// Takes a command line, with the usual limit of time.
    pub fn new(words: Vec<String>) -> Program {
        Program {
            words,
            longest: LONGEST,
        }
    }

    /// Runs the program on a script.
    pub fn answer(&self, script: &[u8]) -> io::Result<Answer> {
        let mut child = Command::new(&self.words[0])
            .args(&self.words[1..])
            .stdin(Stdio::piped())
            .stdout(Stdio::piped())
            .stderr(Stdio::piped())
            .spawn()
            .map_err(|error| {
                io::Error::other(format!("{} could not be run: {error}", self.words[0]))
            })?;
        let stdin = child.stdin.take();
        let (stdout, stderr) = (child.stdout.take(), child.stderr.take());
        thread::scope(|scope| {
            scope.spawn(move || {
                // A program that does not read all of its input is judged by what it prints.
                stdin.map(|mut input| input.write_all(script));
            });
            let printed = scope.spawn(move || all_of(stdout));
            let said = scope.spawn(move || all_of(stderr));
            let failure = self.failure(self.awaited(&mut child)?);
            Ok(Answer {
                printed: printed.join().unwrap_or_default(),
                said: said.join().unwrap_or_default(),
                failure,
            })
        })
    }

    /// Waits for the program's end, and ends it where it takes too long.
    fn awaited(&self, child: &mut Child) -> io::Result<Option<ExitStatus>> {
        let begun = Instant::now();
        loop {
            if let Some(status) = child.try_wait()? {
                return Ok(Some(status));
            }
            if begun.elapsed() > self.longest {
                child.kill()?;
                child.wait()?;
                return Ok(None);
            }
            thread::sleep(PAUSE);
        }
    }

    /// Says how the program failed, if it did.
    fn failure(&self, ended: Option<ExitStatus>) -> Option<String> {
        let Some(status) = ended else {
            let longest = self.longest.as_secs_f64();
            return Some(format!("it did not end within {longest} s"));
        };
        match (status.code(), status.signal()) {
            (Some(0), _) => None,
            (Some(code), _) => Some(format!("it ended with status {code}")),
            (None, Some(signal)) => Some(format!("it was ended by signal {signal}")),
            (None, None) => Some("it ended without a status".to_string()),
        }
    }
}

/// Reads all that comes, as far as it goes.
fn all_of(output: Option<impl Read>) -> Vec<u8> {
    let mut all = Vec::new();
    if let Some(output) = output {
        let _ = output.take(MOST_PRINTED).read_to_end(&mut all);
    }
    all
}

#[cfg(test)]
mod tests {
    use super::*;

    /// Names a program by its words in one line, which may take so many milliseconds.
    fn program(line: &str, longest: u64) -> Program {
        Program {
            words: line.split(' ').map(str::to_string).collect(),
            longest: Duration::from_millis(longest),
        }
    }

    /// A program that takes too long is ended, and told with the limit.
    #[test]
    fn too_long() {
        let begun = Instant::now();
        let answer = program("sleep 5", 100).answer(b"a").expect("an answer");
        assert!(begun.elapsed() < Duration::from_secs(4));
        let wanted = Answer {
            printed: Vec::new(),
            said: Vec::new(),
            failure: Some("it did not end within 0.1 s".to_string()),
        };
        assert_eq!(answer, wanted);
    }

    /// A program that ends in time is not told, and the usual limit is 20 s.
    #[test]
    fn in_time() {
        let usual = Program::new(vec!["cat".to_string()]);
        assert_eq!(usual, program("cat", 20_000));
        let wanted = Answer {
            printed: b"a\nb".to_vec(),
            said: Vec::new(),
            failure: None,
        };
        assert_eq!(usual.answer(b"a\nb").expect("an answer"), wanted);
    }
}
