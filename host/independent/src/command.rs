//! What the programs of this package have in common: their words, what they
//! write, and how they end.

use std::env;
use std::io::{self, Write};
use std::process::ExitCode;

/// Gives the words that the program was called with.
pub fn words() -> Vec<String> {
    env::args_os()
        .skip(1)
        .map(|word| word.to_string_lossy().into_owned())
        .collect()
}

/// Gives the words of one line.
pub fn words_of(line: &str) -> Vec<String> {
    line.split_whitespace().map(str::to_string).collect()
}

/// Reads a number that stands behind an option of this name.
pub fn number(name: &str, word: &str) -> Result<u64, String> {
    word.parse()
        .map_err(|_| format!("{name} needs a number from 0 to {}, not {word:?}", u64::MAX))
}

/// Ends the program of this name: with status 0 where all was good, with 1 where it was
/// not, and with 2 and one line on standard error where it could not be done.
pub fn end(name: &str, done: Result<bool, String>) -> ExitCode {
    match done {
        Ok(good) => ExitCode::from(u8::from(!good)),
        Err(wrong) => {
            // Where not even this can be said, the status still tells.
            let _ = writeln!(io::stderr(), "{name}: {wrong}");
            ExitCode::from(2)
        }
    }
}

/// Writes a text and a line end to standard output, at once.
pub fn say(text: &str) -> io::Result<()> {
    put(format!("{text}\n").as_bytes())
}

/// Writes bytes to standard output, at once.
pub fn put(bytes: &[u8]) -> io::Result<()> {
    let mut out = io::stdout().lock();
    let written = out.write_all(bytes).and_then(|()| out.flush());
    written.map_err(|error| named("standard output could not be written", error))
}

/// Puts in front of an error what could not be done.
pub fn named(what: &str, error: io::Error) -> io::Error {
    io::Error::other(format!("{what}: {error}"))
}
