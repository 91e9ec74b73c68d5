//! The group call machine: its record, when the record is well formed, and its step.

mod rows;

use crate::message::{Announcement, Message};
use crate::settings::Settings;
use crate::step::{self, Case, Step};
use crate::timer::{Timer, Timers};

/// The states of a group call.
#[derive(Clone, Copy, Debug, PartialEq, Eq)]
pub enum State {
    S1,
    S3,
    S4,
    S5,
}

impl State {
    /// All states in the order of their numbers.
    pub const ALL: [State; 4] = [State::S1, State::S3, State::S4, State::S5];

    /// Gives the state's name.
    pub fn name(self) -> &'static str {
        match self {
            State::S1 => "S1",
            State::S3 => "S3",
            State::S4 => "S4",
            State::S5 => "S5",
        }
    }

    /// Gives the timers that have to run in the state.
    pub fn timers(self) -> Timers {
        match self {
            State::S1 => Timers::NONE,
            State::S3 => Timers::of(&[Timer::Tfg2, Timer::Tfg6]),
            State::S4 | State::S5 => Timers::of(&[Timer::Tfg4]),
        }
    }
}

/// The nine fields of a group call.
#[derive(Clone, Copy, Debug, PartialEq, Eq)]
pub struct Call {
    pub group: u32,
    pub identifier: u32,
    pub call_type: u32,
    pub refresh: u32,
    pub media: u32,
    pub originator: u32,
    pub start: u32,
    pub last_change: u32,
    pub last_changer: u32,
}

impl Call {
    /// The fields where there is no call.
    pub const EMPTY: Call = Call {
        group: 0,
        identifier: 0,
        call_type: 0,
        refresh: 0,
        media: 0,
        originator: 0,
        start: 0,
        last_change: 0,
        last_changer: 0,
    };

    /// Takes the fields of an announcement.
    pub fn of_announcement(announcement: &Announcement) -> Call {
        Call {
            group: announcement.group,
            identifier: announcement.identifier,
            call_type: announcement.call_type,
            refresh: announcement.refresh,
            media: announcement.media,
            originator: announcement.originator,
            start: announcement.start,
            last_change: announcement.last_change,
            last_changer: announcement.last_changer,
        }
    }

    /// Gives the announcement of the call.
    pub fn announcement(&self, confirm: u32) -> Announcement {
        Announcement {
            identifier: self.identifier,
            group: self.group,
            call_type: self.call_type,
            refresh: self.refresh,
            media: self.media,
            originator: self.originator,
            start: self.start,
            last_change: self.last_change,
            last_changer: self.last_changer,
            confirm,
        }
    }
}

/// All that the machine keeps from one step to the next.
#[derive(Clone, Copy, Debug, PartialEq, Eq)]
pub struct Record {
    pub state: State,
    pub running: Timers,
    pub call: Call,
}

impl Record {
    /// The record without a call.
    pub const CLEARED: Record = Record {
        state: State::S1,
        running: Timers::NONE,
        call: Call::EMPTY,
    };
}

impl step::Record for Record {
    type State = State;

    /// Gives the state.
    fn state(&self) -> State {
        self.state
    }

    /// Gives the timers that run.
    fn running(&self) -> Timers {
        self.running
    }

    /// Tells whether timers and call suit the state.
    fn well_formed(&self, settings: &Settings) -> bool {
        let call_fits = match self.state {
            State::S1 => self.call == Call::EMPTY,
            _ => {
                Message::GroupCallAnnouncement(self.call.announcement(0)).in_range()
                    && self.call.group == settings.group
            }
        };
        call_fits && self.running == self.state.timers()
    }

    /// Starts nothing: the rows name all that they start.
    fn started_by(_: State) -> Timers {
        Timers::NONE
    }

    /// Gives the record with other timers running.
    fn with_running(self, running: Timers) -> Record {
        Record { running, ..self }
    }
}

/// Takes a step of the machine, and writes the line that it sends to the front of the buffer.
pub fn step(case: &Case<Record>, out: &mut [u8]) -> Step<Record> {
    step::step(case, out, rows::found)
}

#[cfg(test)]
mod tests;
