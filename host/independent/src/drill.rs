//! The player of scripts: what two cabs do, command by command, as text.

pub mod cab;
mod command;
mod names;
mod transcript;
pub mod words;

use self::cab::{Cab, Name};
use self::command::Command;
use self::transcript::Place;
use crate::chooser::{choice_number, chosen};
use crate::event::{Event, Verdicts};
use crate::line::{read, LINE_END};
use crate::log::MOST;
use crate::step::{Case, Step};
use crate::{group, private};

/// Fills the buffers that are lent, and stands in no line.
const LENT: u8 = 0xee;

/// The steps that a script is played by, so that others can be put in their place.
#[derive(Clone, Copy)]
pub struct Machines {
    pub private: fn(&Case<private::Record>, &mut [u8]) -> Step<private::Record>,
    pub group: fn(&Case<group::Record>, &mut [u8]) -> Step<group::Record>,
}

impl Machines {
    /// The machines that keep to the rules.
    pub const RULES: Machines = Machines {
        private: private::step,
        group: group::step,
    };
}

/// Plays a script by the rules, and gives all that is printed.
pub fn play(script: &[u8]) -> Vec<u8> {
    play_by(Machines::RULES, script)
}

/// Plays a script by some machines, and gives all that is printed.
pub fn play_by(machines: Machines, script: &[u8]) -> Vec<u8> {
    let mut player = Player::new(machines);
    for line in taken(script).split_inclusive(|&byte| byte == LINE_END) {
        player.line(line.strip_suffix(&[LINE_END]).unwrap_or(line));
    }
    if script.len() > MOST {
        player.print(transcript::TOO_LONG);
    }
    player.ended()
}

/// Gives the part of a script that is played: all of it, or the lines that end soon enough.
fn taken(script: &[u8]) -> &[u8] {
    if script.len() <= MOST {
        return script;
    }
    let end = script[..MOST].iter().rposition(|&byte| byte == LINE_END);
    &script[..end.map_or(0, |end| end + 1)]
}

/// A play that goes on line by line.
pub struct Player {
    machines: Machines,
    cabs: [Cab; 2],
    /// How many lines there were.
    lines: usize,
    printed: String,
}

impl Player {
    /// Begins a play.
    pub fn new(machines: Machines) -> Player {
        let mut player = Player {
            machines,
            cabs: Name::ALL.map(Cab::new),
            lines: 0,
            printed: String::new(),
        };
        player.print(transcript::FIELDS);
        player
    }

    /// Shows a cab as it is now.
    pub fn cab(&self, name: Name) -> &Cab {
        &self.cabs[name as usize]
    }

    /// Plays the next line, which comes without its line end.
    pub fn line(&mut self, line: &[u8]) {
        self.lines += 1;
        match command::read(line, &self.cabs) {
            Ok(None) => {}
            Ok(Some((name, command))) => self.command(name, &command),
            Err(wrong) => {
                let (column, text) = (wrong.column, wrong.complaint.text());
                self.print(&format!("! line {}, column {column}: {text}", self.lines));
            }
        }
    }

    /// Ends the play, and gives all that it has printed.
    pub fn ended(mut self) -> Vec<u8> {
        for line in transcript::last(&self.cabs) {
            self.print(&line);
        }
        self.printed.into_bytes()
    }

    /// Prints a line.
    fn print(&mut self, line: &str) {
        self.printed.push_str(line);
        self.printed.push('\n');
    }

    /// Carries a command out.
    fn command(&mut self, name: Name, command: &Command) {
        let cab = &mut self.cabs[name as usize];
        match command {
            Command::Settings(given) => cab.set_settings(given),
            Command::Buffer(given) => cab.set_buffer(given),
            Command::PrivateRecord(given) => cab.set_private(given),
            Command::PrivateCleared => cab.private = private::Record::CLEARED,
            Command::GroupRecord(given) => cab.set_group(given),
            Command::GroupCleared => cab.group = group::Record::CLEARED,
            Command::Happens(event, verdicts) => {
                if is_private(event) {
                    self.private_step(name, *event, *verdicts);
                } else {
                    self.group_step(name, *event, *verdicts);
                }
            }
            Command::Hears(line, verdicts) => self.hears(name, line, *verdicts),
            Command::Chooses(first, second) => self.chooses(name, first, second),
        }
    }

    /// Lets a cab hear a line.
    fn hears(&mut self, name: Name, line: &[u8], verdicts: Verdicts) {
        match read(line) {
            Ok(message) => {
                self.private_step(name, Event::Message(message), verdicts);
                self.group_step(name, Event::Message(message), verdicts);
            }
            Err(number) => {
                let place = self.place(name, "reader");
                self.print(&transcript::refused(place, number));
            }
        }
    }

    /// Asks the chooser about two lines.
    fn chooses(&mut self, name: Name, first: &[u8], second: &[u8]) {
        let number = choice_number(first, second);
        let better = match chosen(first, second) {
            1 => first.strip_suffix(&[LINE_END]),
            2 => second.strip_suffix(&[LINE_END]),
            _ => None,
        };
        let place = self.place(name, "chooser");
        self.print(&transcript::chosen(place, number, better));
    }

    /// Lets the private machine of a cab take a step.
    fn private_step(&mut self, name: Name, event: Event, verdicts: Verdicts) {
        let place = self.place(name, "private");
        let cab = &mut self.cabs[name as usize];
        let record = cab.private;
        let case = case(cab, record, event, verdicts);
        let mut buffer = vec![LENT; cab.length];
        let step = (self.machines.private)(&case, &mut buffer);
        cab.private = step.record;
        self.print_step(place, &record, &step, &buffer);
    }

    /// Lets the group machine of a cab take a step.
    fn group_step(&mut self, name: Name, event: Event, verdicts: Verdicts) {
        let place = self.place(name, "group");
        let cab = &mut self.cabs[name as usize];
        let record = cab.group;
        let case = case(cab, record, event, verdicts);
        let mut buffer = vec![LENT; cab.length];
        let step = (self.machines.group)(&case, &mut buffer);
        cab.group = step.record;
        self.print_step(place, &record, &step, &buffer);
    }

    /// Keeps the line that a step has sent, if it has sent one, and prints the step.
    fn print_step<R: transcript::Shown>(
        &mut self,
        place: Place,
        before: &R,
        step: &Step<R>,
        buffer: &[u8],
    ) {
        let sent = buffer[..step.length].strip_suffix(&[LINE_END]);
        if let Some(line) = sent {
            self.cabs[place.cab as usize].sent = Some(line.to_vec());
        }
        let untouched = buffer.iter().rev().take_while(|&&byte| byte == LENT);
        let line = transcript::step(place, before, step, sent, untouched.count());
        self.print(&line);
    }

    /// Says what the next line is printed for.
    fn place(&self, cab: Name, machine: &'static str) -> Place {
        Place {
            command: self.lines,
            cab,
            machine,
        }
    }
}

/// Tells whether an action or an expiry goes to the private machine.
fn is_private(event: &Event) -> bool {
    match event {
        Event::Action(action) => action.is_private(),
        Event::Expiry(timer) => timer.is_private(),
        Event::Message(_) => false,
    }
}

/// Puts together what a step of a cab is given.
fn case<R>(cab: &Cab, record: R, event: Event, verdicts: Verdicts) -> Case<R> {
    Case {
        settings: cab.settings,
        record,
        event,
        verdicts,
    }
}

#[cfg(test)]
mod tests;
