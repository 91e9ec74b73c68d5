//! What the steps of both machines have in common: the order of the refusals,
//! and the rules on timers and counters that hold whatever the row.

use crate::event::{Event, Verdicts};
use crate::line::write;
use crate::message::Message;
use crate::settings::Settings;
use crate::timer::Timers;

/// A setting is out of its range.
pub const WRONG_SETTING: u32 = 7;
/// The record is none that the settings allow.
pub const NOT_WELL_FORMED: u32 = 9;

/// What the common rules ask of a machine's record.
pub trait Record: Copy {
    /// The states of the machine.
    type State: Copy + PartialEq;

    /// Gives the state.
    fn state(&self) -> Self::State;

    /// Gives the timers that run.
    fn running(&self) -> Timers;

    /// Tells whether the record is one that the settings allow.
    fn well_formed(&self, settings: &Settings) -> bool;

    /// Gives the timers that are started whenever a state is entered.
    fn started_by(state: Self::State) -> Timers;

    /// Gives the record with other timers running, and no counter left without its timer.
    fn with_running(self, running: Timers) -> Self;
}

/// All that a step is given but the buffer.
#[derive(Clone, Copy, Debug)]
pub struct Case<R> {
    pub settings: Settings,
    pub record: R,
    pub event: Event,
    pub verdicts: Verdicts,
}

/// What a step hands back.
#[derive(Clone, Copy, Debug, PartialEq, Eq)]
pub struct Step<R> {
    /// 0, or the number that refuses.
    pub number: u32,
    /// The number of the row, 0 where none is met.
    pub row: u32,
    pub record: R,
    /// The timers to stop.
    pub stop: Timers,
    /// The timers to start after that.
    pub start: Timers,
    /// How long the line at the front of the buffer is, 0 where there is none.
    pub length: usize,
}

/// What a row does beside what the common rules do.
#[derive(Clone, Copy, Debug)]
pub struct Row<R> {
    pub number: u32,
    /// The record with its new state, call and counters; which timers run in it does not matter.
    pub record: R,
    pub stop: Timers,
    pub start: Timers,
    pub send: Option<Message>,
}

impl<R: Record> Row<R> {
    /// Begins a row that leaves this record behind.
    pub fn new(number: u32, record: R) -> Row<R> {
        Row {
            number,
            record,
            stop: Timers::NONE,
            start: Timers::NONE,
            send: None,
        }
    }

    /// Lets the row stop timers.
    pub fn stops(mut self, stop: Timers) -> Row<R> {
        self.stop = stop;
        self
    }

    /// Lets the row start timers.
    pub fn starts(mut self, start: Timers) -> Row<R> {
        self.start = start;
        self
    }

    /// Lets the row send a message.
    pub fn sends(mut self, message: Message) -> Row<R> {
        self.send = Some(message);
        self
    }
}

/// What is found for a case that nothing refuses before: a row, no row, or a row's own refusal.
pub type Found<R> = Result<Option<Row<R>>, u32>;

/// Takes a step by the rows of a machine, which are looked for last.
pub fn step<R: Record>(case: &Case<R>, out: &mut [u8], rows: fn(&Case<R>) -> Found<R>) -> Step<R> {
    let number = refusal(case);
    if number != 0 {
        return unchanged(case.record, number);
    }
    match rows(case) {
        Err(number) => unchanged(case.record, number),
        Ok(None) => unchanged(case.record, 0),
        Ok(Some(row)) => match row.send.map_or(Ok(0), |message| write(&message, out)) {
            Err(number) => unchanged(case.record, number),
            Ok(length) => carried_out(case, &row, length),
        },
    }
}

/// Gives the number that refuses a case before any row is looked for, or 0.
fn refusal<R: Record>(case: &Case<R>) -> u32 {
    if !case.settings.in_range() {
        WRONG_SETTING
    } else if !case.record.well_formed(&case.settings) {
        NOT_WELL_FORMED
    } else {
        case.event.number(&case.settings)
    }
}

/// Gives the step that does nothing.
fn unchanged<R>(record: R, number: u32) -> Step<R> {
    Step {
        number,
        row: 0,
        record,
        stop: Timers::NONE,
        start: Timers::NONE,
        length: 0,
    }
}

/// Carries a row out whose line, if it has one, is written.
fn carried_out<R: Record>(case: &Case<R>, row: &Row<R>, length: usize) -> Step<R> {
    let left = case.record.running().without(case.event.expired());
    let state = row.record.state();
    let (mut stop, mut start) = (row.stop, row.start);
    if state != case.record.state() {
        start = start.and(R::started_by(state));
        stop = stop.and(left.without(start));
    }
    Step {
        number: 0,
        row: row.number,
        record: row.record.with_running(left.without(stop).and(start)),
        stop,
        start,
        length,
    }
}
