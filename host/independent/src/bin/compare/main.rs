//! Holds the proved implementation, which comes as the C archives of the crates `panel` and
//! `trial`, against the independent one of this package, on random inputs.

#![deny(unsafe_code)]

mod case;
mod lent;
mod lines;
mod logs;
mod options;
mod pairs;
mod parts;
mod pck_id;
mod proved;
mod tally;
mod words;
mod writings;

use independent::command::{self, named, put, say};
use independent::random::Random;
use independent::{log, making};
use options::{Options, Task};
use parts::PARTS;
use std::io::{self, Read};
use std::process::ExitCode;

/// Does what the words ask for, and says in one line why it could not.
fn main() -> ExitCode {
    let done = match options::parse(&command::words()) {
        Ok(task) => done(&task).map_err(|error| error.to_string()),
        Err(wrong) => Err(wrong),
    };
    command::end("compare", done)
}

/// Does a task, and tells whether all was as it should be.
fn done(task: &Task) -> io::Result<bool> {
    match task {
        Task::Compare(options) => return compare(options),
        Task::Answer => {
            let mut input = Vec::new();
            let mut front = io::stdin().lock().take(log::MOST as u64);
            let read = front.read_to_end(&mut input);
            read.map_err(|error| named("standard input could not be read", error))?;
            put(&log::answer_cut(&input))?;
        }
        Task::Log(seed) => put(&making::log(&mut Random::new(*seed)))?,
        Task::Help => put(options::HELP.as_bytes())?,
    }
    Ok(true)
}

/// Runs all parts up to the first difference, and tells whether there was none and all was tried.
fn compare(options: &Options) -> io::Result<bool> {
    say(&format!("seed {}", options.seed))?;
    let mut all_tried = true;
    let mut compared = Vec::new();
    for (part, &count) in PARTS.iter().zip(&options.counts) {
        let tally = match part.run(options.seed, count, options.spoil) {
            Ok(tally) => tally,
            Err(difference) => {
                say(&difference)?;
                return Ok(false);
            }
        };
        say(&tally.table(part.name, part.measured))?;
        let missing = part.missing(&tally, count).join(", ");
        if !missing.is_empty() {
            say(&format!("FAILED {}: not met: {missing}", part.name))?;
            all_tried = false;
        }
        compared.push(format!("{} {}", tally.inputs(), part.name));
    }
    let compared = compared.join(", ");
    if all_tried {
        say(&format!("no difference: {compared}"))?;
    } else {
        say(&format!(
            "FAILED: no difference, but not all was tried: {compared}"
        ))?;
    }
    Ok(all_tried)
}
