//! The private call machine: its record, when the record is well formed, and its step.

mod rows;

use crate::counter::Counters;
use crate::event::PRIVATE_CALL_TYPE;
use crate::message::{Message, Reject, SetupRequest, Users};
use crate::settings::Settings;
use crate::step::{self, Case, Step};
use crate::timer::{Timer, Timers};

/// The states of a private call.
#[derive(Clone, Copy, Debug, PartialEq, Eq)]
pub enum State {
    P0,
    P1,
    P2,
    P3,
    P4,
    P5,
}

impl State {
    /// All states in the order of their numbers.
    pub const ALL: [State; 6] = [
        State::P0,
        State::P1,
        State::P2,
        State::P3,
        State::P4,
        State::P5,
    ];

    /// Gives the state's name.
    pub fn name(self) -> &'static str {
        match self {
            State::P0 => "P0",
            State::P1 => "P1",
            State::P2 => "P2",
            State::P3 => "P3",
            State::P4 => "P4",
            State::P5 => "P5",
        }
    }

    /// Lists the sets of timers of which one has to run in the state.
    pub fn timers(self) -> &'static [Timers] {
        const NONE: &[Timers] = &[Timers::NONE];
        const TFP7: &[Timers] = &[Timers::of(&[Timer::Tfp7])];
        const TFP1_OR_TFP2: &[Timers] = &[Timers::of(&[Timer::Tfp1]), Timers::of(&[Timer::Tfp2])];
        const TFP3: &[Timers] = &[Timers::of(&[Timer::Tfp3])];
        const TFP5: &[Timers] = &[Timers::of(&[Timer::Tfp5])];
        const TFP2_OR_TFP4: &[Timers] = &[Timers::of(&[Timer::Tfp2]), Timers::of(&[Timer::Tfp4])];
        match self {
            State::P0 => NONE,
            State::P1 => TFP7,
            State::P2 => TFP1_OR_TFP2,
            State::P3 => TFP3,
            State::P4 => TFP5,
            State::P5 => TFP2_OR_TFP4,
        }
    }
}

/// The fields of a private call.
#[derive(Clone, Copy, Debug, PartialEq, Eq)]
pub struct Call {
    pub identifier: u32,
    pub caller: u32,
    pub callee: u32,
    pub commencement: u32,
    pub media: u32,
    pub pck_id: u32,
}

impl Call {
    /// The fields where there is no call.
    pub const EMPTY: Call = Call {
        identifier: 0,
        caller: 0,
        callee: 0,
        commencement: 0,
        media: 0,
        pck_id: 0,
    };

    /// Takes the fields of a request.
    pub fn of_request(request: &SetupRequest) -> Call {
        Call {
            identifier: request.identifier,
            caller: request.caller,
            callee: request.callee,
            commencement: request.commencement,
            media: request.media,
            pck_id: request.pck_id,
        }
    }

    /// Gives the request for the call.
    pub fn request(&self) -> SetupRequest {
        SetupRequest {
            identifier: self.identifier,
            caller: self.caller,
            callee: self.callee,
            commencement: self.commencement,
            call_type: PRIVATE_CALL_TYPE,
            media: self.media,
            pck_id: self.pck_id,
        }
    }

    /// Gives what the messages carry that name only the call and its users.
    pub fn users(&self) -> Users {
        Users {
            identifier: self.identifier,
            caller: self.caller,
            callee: self.callee,
        }
    }

    /// Gives the message that rejects the call.
    pub fn reject(&self, reason: u32) -> Message {
        Message::Reject(Reject {
            identifier: self.identifier,
            caller: self.caller,
            callee: self.callee,
            reason,
        })
    }
}

/// All that the machine keeps from one step to the next.
#[derive(Clone, Copy, Debug, PartialEq, Eq)]
pub struct Record {
    pub state: State,
    pub running: Timers,
    pub counters: Counters,
    pub call: Call,
}

impl Record {
    /// The record without a call.
    pub const CLEARED: Record = Record {
        state: State::P0,
        running: Timers::NONE,
        counters: Counters::all(0),
        call: Call::EMPTY,
    };

    /// Tells whether the call's fields suit the state and the own user.
    fn call_fits(&self, user: u32) -> bool {
        if self.call.identifier == 0 {
            return self.state == State::P0 && self.call == Call::EMPTY;
        }
        let (calls, is_called) = (self.call.caller == user, self.call.callee == user);
        let own = match self.state {
            State::P2 => calls && !is_called,
            State::P5 => is_called && !calls,
            _ => calls != is_called,
        };
        own && Message::PrivateCallSetupRequest(self.call.request()).in_range()
    }
}

impl step::Record for Record {
    type State = State;

    /// Gives the state.
    fn state(&self) -> State {
        self.state
    }

    /// Gives the timers that run.
    fn running(&self) -> Timers {
        self.running
    }

    /// Tells whether timers, counters and call all suit the state.
    fn well_formed(&self, settings: &Settings) -> bool {
        self.state.timers().contains(&self.running)
            && self.counters.fit(self.running, &settings.limits)
            && self.call_fits(settings.user)
    }

    /// Starts TFP7 wherever P1 is entered.
    fn started_by(state: State) -> Timers {
        match state {
            State::P1 => Timers::of(&[Timer::Tfp7]),
            _ => Timers::NONE,
        }
    }

    /// Gives the record with other timers running, and no counter left without its timer.
    fn with_running(self, running: Timers) -> Record {
        Record {
            running,
            counters: self.counters.kept(running),
            ..self
        }
    }
}

/// Takes a step of the machine, and writes the line that it sends to the front of the buffer.
pub fn step(case: &Case<Record>, out: &mut [u8]) -> Step<Record> {
    step::step(case, out, rows::found)
}

#[cfg(test)]
mod tests;
