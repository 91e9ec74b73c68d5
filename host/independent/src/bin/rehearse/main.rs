//! Plays random scripts by a program and by the independent implementation of
//! this package, and looks for a difference.

#![forbid(unsafe_code)]

mod cues;
mod cut;
mod endings;
mod faults;
mod heard;
mod options;
mod phrase;
mod pools;
mod program;
mod records;
mod rehearsal;
mod script;
mod slips;
mod summary;
mod tally;
mod turns;
mod unreadable;

use independent::command::{self, named, put, say};
use independent::drill::{play_by, Machines};
use options::{Options, Task};
use program::Program;
use rehearsal::{Ended, Rehearsal};
use slips::SLIPS;
use std::fs::File;
use std::io::{self, Read};
use std::process::ExitCode;

/// Does what the words ask for, and says in one line why it could not.
fn main() -> ExitCode {
    let done = match options::parse(&command::words()) {
        Ok(task) => done(&task).map_err(|error| error.to_string()),
        Err(wrong) => Err(wrong),
    };
    command::end("rehearse", done)
}

/// Does a task, and tells whether all was as it should be.
fn done(task: &Task) -> io::Result<bool> {
    match task {
        Task::Rehearse(options, program) => return rehearse(options, program),
        Task::Script(seed, number) => put(&script::made(*seed, *number))?,
        Task::Play(file, slip) => put(&play_by(machines(*slip), &read(file)?))?,
        Task::Slips => {
            for slip in &SLIPS {
                say(&format!("{:<16} {}", slip.name, slip.meaning))?;
            }
        }
        Task::Help => put(options::HELP.as_bytes())?,
    }
    Ok(true)
}

/// Looks for a difference, and tells whether there was none and all was met often enough.
fn rehearse(options: &Options, program: &Program) -> io::Result<bool> {
    say(&format!("seed {}", options.seed))?;
    let rehearsal = Rehearsal {
        seed: options.seed,
        steps: options.steps,
        machines: machines(options.slip),
        program,
    };
    let tally = match rehearsal.run()? {
        Ended::Agreed(tally) => tally,
        Ended::Differed(difference) => {
            say(&difference)?;
            return Ok(false);
        }
    };
    say(&tally.table())?;
    let met = tally.verdict();
    match &met {
        Ok(good) => say(good)?,
        Err(seldom) => say(seldom)?,
    }
    Ok(met.is_ok())
}

/// Gives the machines with the slip of a place in them, or those that keep to the rules where there is none.
fn machines(slip: Option<usize>) -> Machines {
    slip.map_or(Machines::RULES, |place| SLIPS[place].machines)
}

/// Reads as much of a script as is needed to see that it is too long.
fn read(file: &str) -> io::Result<Vec<u8>> {
    let mut script = Vec::new();
    let most = independent::log::MOST as u64 + 1;
    let read = if file == "-" {
        io::stdin().lock().take(most).read_to_end(&mut script)
    } else {
        File::open(file).and_then(|opened| opened.take(most).read_to_end(&mut script))
    };
    read.map_err(|error| named(&format!("{file} could not be read"), error))?;
    Ok(script)
}
