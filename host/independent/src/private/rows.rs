//! The rows of the private call machine, R1 to R29.

use super::{Call, Record, State};
use crate::counter::Counter;
use crate::event::{Action, Event, PrivateStart, WRONG_ARGUMENT};
use crate::message::{Accept, Message, SetupRequest};
use crate::step::{Case, Found, Row};
use crate::timer::{Timer, Timers};

/// The reason of a user who rejects.
const REJECT: u32 = 0;
/// The reason where media cannot be set up.
const MEDIA_FAILURE: u32 = 1;
/// The reason of a user who is in another call.
const BUSY: u32 = 2;
/// The reason where the signature is bad.
const SECURITY_CONTEXT_FAILURE: u32 = 3;
/// The reason that tells nothing.
const FAILED: u32 = 4;

/// Finds the row of a case, if it has one.
pub fn found(case: &Case<Record>) -> Found<Record> {
    match &case.event {
        Event::Action(Action::PrivateStart(start)) => of_start(case, start),
        Event::Action(action) => Ok(of_action(case, action)),
        Event::Expiry(timer) => Ok(of_expiry(case, *timer)),
        Event::Message(Message::PrivateCallSetupRequest(request)) => Ok(of_request(case, request)),
        Event::Message(message) => Ok(of_message(case, message)),
    }
}

/// Finds the row of a start.
fn of_start(case: &Case<Record>, start: &PrivateStart) -> Found<Record> {
    if !matches!(case.record.state, State::P0 | State::P1) {
        return Ok(None);
    }
    if start.identifier == case.record.call.identifier {
        return Err(WRONG_ARGUMENT);
    }
    let call = Call::of_request(&start.request(case.settings.user));
    let stored = Record {
        call,
        ..case.record
    };
    Ok(Some(first_sent(1, stored, State::P2, Counter::Cfp1)))
}

/// Finds the row of any other action.
fn of_action(case: &Case<Record>, action: &Action) -> Option<Row<Record>> {
    let record = case.record;
    let asked = record.state == State::P5 && record.running.has(Timer::Tfp2);
    match (action, record.state) {
        (Action::PrivateEnd, State::P2) => Some(first_sent(8, record, State::P3, Counter::Cfp3)),
        (Action::PrivateEnd, State::P4) => Some(first_sent(9, record, State::P3, Counter::Cfp3)),
        (Action::PrivateAccept, _) if asked && secure(case, record.call.pck_id) => {
            let row = first_sent(23, record, State::P5, Counter::Cfp4);
            Some(row.stops(Timers::of(&[Timer::Tfp2])))
        }
        (Action::PrivateAccept, _) if asked => {
            let reason = told(case, SECURITY_CONTEXT_FAILURE);
            Some(given_up(24, record).sends(record.call.reject(reason)))
        }
        (Action::PrivateReject, _) if asked => {
            Some(given_up(25, record).sends(record.call.reject(told(case, REJECT))))
        }
        _ => None,
    }
}

/// Finds the row of a timer that runs out.
fn of_expiry(case: &Case<Record>, timer: Timer) -> Option<Row<Record>> {
    let record = case.record;
    if !record.running.has(timer) {
        return None;
    }
    match (record.state, timer) {
        (State::P2, Timer::Tfp1) => Some(sent_again(case, Counter::Cfp1, 2, 3)),
        (State::P2, Timer::Tfp2) => Some(given_up(7, record)),
        (State::P3, Timer::Tfp3) => Some(sent_again(case, Counter::Cfp3, 10, 11)),
        (State::P4, Timer::Tfp5) => Some(given_up(15, record)),
        (State::P5, Timer::Tfp4) => Some(sent_again(case, Counter::Cfp4, 16, 17)),
        (State::P5, Timer::Tfp2) => Some(given_up(26, record).sends(record.call.reject(FAILED))),
        (State::P1, Timer::Tfp7) => Some(Row::new(28, Record::CLEARED)),
        _ => None,
    }
}

/// Finds the row of a message that is no request.
fn of_message(case: &Case<Record>, message: &Message) -> Option<Row<Record>> {
    let record = case.record;
    if message.values()[0] != record.call.identifier {
        return None;
    }
    let own_call = record.call.caller == case.settings.user;
    match (message, record.state) {
        (Message::Ringing(_), State::P2) if record.running.has(Timer::Tfp1) => Some(
            Row::new(4, record)
                .stops(Timers::of(&[Timer::Tfp1]))
                .starts(Timers::of(&[Timer::Tfp2])),
        ),
        (Message::Accept(accept), State::P2) if case.verdicts.media => {
            Some(answered(record, accept.media))
        }
        (Message::Reject(_), State::P2) => Some(given_up(6, record)),
        (Message::ReleaseAck(_), State::P3) => Some(given_up(12, record)),
        (Message::Release(_), State::P3 | State::P4 | State::P5) => {
            Some(given_up(13, record).sends(Message::ReleaseAck(record.call.users())))
        }
        (Message::Release(_), State::P1) => {
            Some(Row::new(14, record).sends(Message::ReleaseAck(record.call.users())))
        }
        (Message::AcceptAck(_), State::P5) if record.running.has(Timer::Tfp4) => {
            Some(entering(18, record, State::P4).starts(Timers::of(&[Timer::Tfp5])))
        }
        (Message::Accept(_), State::P4) if own_call => {
            Some(Row::new(29, record).sends(Message::AcceptAck(record.call.users())))
        }
        _ => None,
    }
}

/// Finds the row of a request, which counts only where it calls the own user and another one calls.
fn of_request(case: &Case<Record>, request: &SetupRequest) -> Option<Row<Record>> {
    let (record, user) = (case.record, case.settings.user);
    if request.callee != user || request.caller == user {
        return None;
    }
    if request.identifier == record.call.identifier {
        return None;
    }
    let call = Call::of_request(request);
    match record.state {
        State::P0 | State::P1 => Some(called(case, Record { call, ..record })),
        _ => Some(Row::new(27, record).sends(call.reject(told(case, BUSY)))),
    }
}

/// Gives the row of a request to a user who is in no call; the record has its fields already.
fn called(case: &Case<Record>, stored: Record) -> Row<Record> {
    let call = stored.call;
    if !case.verdicts.media {
        let row = entering(19, stored, State::P1).starts(Timers::of(&[Timer::Tfp7]));
        return row.sends(call.reject(told(case, MEDIA_FAILURE)));
    }
    if call.commencement != 0 {
        let row = entering(22, stored, State::P5).starts(Timers::of(&[Timer::Tfp2]));
        return row.sends(Message::Ringing(call.users()));
    }
    if secure(case, call.pck_id) {
        return first_sent(20, stored, State::P5, Counter::Cfp4);
    }
    Row::new(21, stored).sends(call.reject(told(case, SECURITY_CONTEXT_FAILURE)))
}

/// Tells whether a call has no security or a good signature.
fn secure(case: &Case<Record>, pck_id: u32) -> bool {
    pck_id == 0 || case.verdicts.signature
}

/// Gives the reason that a reject tells: the one that is meant, or FAILED under restriction.
fn told(case: &Case<Record>, reason: u32) -> u32 {
    if case.settings.restrict {
        FAILED
    } else {
        reason
    }
}

/// Begins a row that leaves a state behind, whether that is a change or not.
fn entering(number: u32, record: Record, state: State) -> Row<Record> {
    Row::new(number, Record { state, ..record })
}

/// Gives the row after which only the identifier is remembered for a while.
fn given_up(number: u32, record: Record) -> Row<Record> {
    entering(number, record, State::P1)
}

/// Gives the row of a caller who hears an ACCEPT.
fn answered(mut record: Record, media: u32) -> Row<Record> {
    record.call.media = media;
    entering(5, record, State::P4)
        .starts(Timers::of(&[Timer::Tfp5]))
        .sends(Message::AcceptAck(record.call.users()))
}

/// Gives the row that sends the message of a counter for the first time.
fn first_sent(number: u32, record: Record, state: State, counter: Counter) -> Row<Record> {
    let counters = record.counters.with(counter, 1);
    sent(
        entering(number, Record { counters, ..record }, state),
        counter,
    )
}

/// Gives the row of a counter's timer that runs out: one more is sent, or all were.
fn sent_again(case: &Case<Record>, counter: Counter, again: u32, enough: u32) -> Row<Record> {
    let record = case.record;
    let counted = record.counters.get(counter);
    if counted >= case.settings.limits.get(counter) {
        return given_up(enough, record);
    }
    let counters = record.counters.with(counter, counted + 1);
    sent(Row::new(again, Record { counters, ..record }), counter)
}

/// Lets a row send the message of a counter and start its timer.
fn sent(row: Row<Record>, counter: Counter) -> Row<Record> {
    let call = row.record.call;
    let message = match counter {
        Counter::Cfp1 => Message::PrivateCallSetupRequest(call.request()),
        Counter::Cfp3 => Message::Release(call.users()),
        Counter::Cfp4 => Message::Accept(Accept {
            identifier: call.identifier,
            caller: call.caller,
            callee: call.callee,
            media: call.media,
        }),
    };
    row.sends(message).starts(Timers::of(&[counter.timer()]))
}
