//! The two cabs of a script, and what is set by hand in them.

use super::names::Given;
use crate::counter::{Counter, Counters};
use crate::settings::Settings;
use crate::timer::{Timer, Timers};
use crate::{group, private};

/// Which of the two cabs.
#[derive(Clone, Copy, Debug, PartialEq, Eq)]
pub enum Name {
    A,
    B,
}

impl Name {
    /// Both cabs in their order.
    pub const ALL: [Name; 2] = [Name::A, Name::B];

    /// Gives the word that names the cab.
    pub fn word(self) -> &'static str {
        match self {
            Name::A => "a",
            Name::B => "b",
        }
    }

    /// Finds the cab that a word names, if it names one.
    pub fn of_word(word: &[u8]) -> Option<Name> {
        Name::ALL
            .into_iter()
            .find(|name| name.word().as_bytes() == word)
    }
}

/// A cab: all that lasts from one command to the next.
#[derive(Clone, Debug)]
pub struct Cab {
    pub settings: Settings,
    /// How many bytes are lent to each step.
    pub length: usize,
    pub private: private::Record,
    pub group: group::Record,
    /// The line that was sent last, without its line end.
    pub sent: Option<Vec<u8>>,
}

impl Cab {
    /// Gives a cab as it is at the start.
    pub fn new(name: Name) -> Cab {
        Cab {
            settings: Settings {
                user: name as u32 + 1,
                group: 1,
                restrict: false,
                acknowledgement: false,
                limits: Counters::all(3),
            },
            length: 63,
            private: private::Record::CLEARED,
            group: group::Record::CLEARED,
            sent: None,
        }
    }

    /// Sets what is named of the settings.
    pub fn set_settings(&mut self, given: &Given) {
        for &(name, value) in given.pairs() {
            let settings = &mut self.settings;
            match name {
                "user" => settings.user = value,
                "group" => settings.group = value,
                "restrict" => settings.restrict = value != 0,
                "acknowledgement" => settings.acknowledgement = value != 0,
                _ => settings.limits = counted(settings.limits, name, value),
            }
        }
    }

    /// Sets how many bytes are lent, if it is named.
    pub fn set_buffer(&mut self, given: &Given) {
        if let Some(length) = given.value("length") {
            self.length = length as usize;
        }
    }

    /// Sets what is named of the private record.
    pub fn set_private(&mut self, given: &Given) {
        for &(name, value) in given.pairs() {
            let record = &mut self.private;
            let call = &mut record.call;
            match name {
                "state" => record.state = private::State::ALL[value as usize],
                "identifier" => call.identifier = value,
                "caller" => call.caller = value,
                "callee" => call.callee = value,
                "commencement" => call.commencement = value,
                "media" => call.media = value,
                "pck-id" => call.pck_id = value,
                _ => {
                    record.running = running(record.running, name, value);
                    record.counters = counted(record.counters, name, value);
                }
            }
        }
    }

    /// Sets what is named of the group record.
    pub fn set_group(&mut self, given: &Given) {
        for &(name, value) in given.pairs() {
            let record = &mut self.group;
            let call = &mut record.call;
            match name {
                "state" => record.state = group::State::ALL[value as usize],
                "group" => call.group = value,
                "identifier" => call.identifier = value,
                "type" => call.call_type = value,
                "refresh" => call.refresh = value,
                "media" => call.media = value,
                "originator" => call.originator = value,
                "start" => call.start = value,
                "last-change" => call.last_change = value,
                "last-changer" => call.last_changer = value,
                _ => record.running = running(record.running, name, value),
            }
        }
    }
}

/// Gives the running timers after one that is named, if it is a timer, runs or does not.
fn running(before: Timers, name: &str, runs: u32) -> Timers {
    let named = Timer::of_name(name).map_or(Timers::NONE, |timer| Timers::of(&[timer]));
    if runs != 0 {
        before.and(named)
    } else {
        before.without(named)
    }
}

/// Gives the counters after one that is named, if it is a counter, has this number.
fn counted(before: Counters, name: &str, number: u32) -> Counters {
    Counter::of_name(name).map_or(before, |counter| before.with(counter, number))
}
