//! Measures the proved implementation, which comes as C archives, against the same in C and in
//! Rust, on the same inputs and in one run.

#![deny(unsafe_code)]

mod agreement;
mod clock;
mod contest;
mod contests;
mod digits;
mod entries;
mod implementations;
mod inputs;
mod instructions;
mod machine;
mod options;
mod page;
mod plain;
mod report;
mod scripts;

use contests::Contests;
use implementations::measured;
use independent::command::{self, named, put, say};
use inputs::Inputs;
use options::{Options, Task};
use page::Part;
use std::process::ExitCode;
use std::{fs, io};

/// Does what the words ask for, and says in one line why it could not.
fn main() -> ExitCode {
    let done = match options::parse(&command::words()) {
        Ok(task) => done(&task).map_err(|error| error.to_string()),
        Err(wrong) => Err(wrong),
    };
    command::end("speed", done)
}

/// Does a task, and tells whether all was as it should be.
fn done(task: &Task) -> io::Result<bool> {
    match task {
        Task::Measure(options) => measure(options),
        Task::Once(options) => {
            let all = measured(options.before.is_some());
            let inputs = Inputs::new(options.seed);
            instructions::once(&mut Contests::new(&all, &inputs).questions);
            Ok(true)
        }
        Task::Help => put(options::HELP.as_bytes()).map(|()| true),
    }
}

/// Measures where all implementations agree, and says where they do not.
fn measure(options: &Options) -> io::Result<bool> {
    if let Some(file) = &options.page {
        // Found out first, since measuring takes its time.
        written(file, &[(Part::Times, "\n"), (Part::Instructions, "\n")])?;
    }
    let all = measured(options.before.is_some());
    let inputs = Inputs::new(options.seed);
    if let Err(difference) = agreement::all(&all, &inputs) {
        say(&difference)?;
        return Ok(false);
    }
    let mut contests = Contests::new(&all, &inputs);
    match &options.page {
        None if options.instructions => put(instructions(&contests, options)?.as_bytes())?,
        None => put(times(&mut contests, options).as_bytes())?,
        Some(file) => {
            let counted = instructions(&contests, options)?;
            let mut parts = vec![(Part::Instructions, counted.as_str())];
            let timed = (!options.instructions).then(|| times(&mut contests, options));
            parts.extend(timed.as_deref().map(|timed| (Part::Times, timed)));
            let text = written(file, &parts)?;
            fs::write(file, text)
                .map_err(|error| named(&format!("{file} cannot be written"), error))?;
        }
    }
    Ok(true)
}

/// Takes the times, and gives them as a text.
fn times(contests: &mut Contests, options: &Options) -> String {
    let rounds = contests.run(options.time());
    report::times(contests, options, rounds)
}

/// Counts instructions, and gives them as a text.
fn instructions(contests: &Contests, options: &Options) -> io::Result<String> {
    let counter = instructions::counter()?;
    let each = contests.questions.iter();
    let runs = each.map(|contest| contest.names().len()).sum();
    let counts = instructions::counted(options, runs)?;
    Ok(report::instructions(
        &contests.questions,
        &counts,
        &counter,
        options,
    ))
}

/// Gives a page with these parts in their places.
fn written(file: &str, parts: &[(Part, &str)]) -> io::Result<String> {
    let mut page = fs::read_to_string(file)
        .map_err(|error| named(&format!("{file} cannot be read"), error))?;
    for &(part, text) in parts {
        let placed = page::placed(&page, part, text);
        page = placed.ok_or_else(|| {
            io::Error::other(format!("{file}: the marks between which the figures stand are not there, or not in their order"))
        })?;
    }
    Ok(page)
}
