//! The rows of the group call machine, G1 to G11.

use super::{Call, Record, State};
use crate::chooser::{better, better_rank};
use crate::event::{Action, Event, GroupRaise, GroupStart, WRONG_ARGUMENT};
use crate::message::{Announcement, GroupAccept, Message};
use crate::step::{Case, Found, Row};
use crate::timer::{Timer, Timers};

/// The two timers of a call that goes on.
const ONGOING: Timers = Timers::of(&[Timer::Tfg2, Timer::Tfg6]);

/// Finds the row of a case, if it has one.
pub fn found(case: &Case<Record>) -> Found<Record> {
    match &case.event {
        Event::Action(Action::GroupRaise(raise)) => of_raise(case, raise),
        Event::Action(action) => Ok(of_action(case, action)),
        Event::Expiry(timer) => Ok(of_expiry(case, *timer)),
        Event::Message(Message::GroupCallAnnouncement(announcement))
            if announcement.group == case.settings.group =>
        {
            Ok(of_announcement(case, announcement))
        }
        Event::Message(_) => Ok(None),
    }
}

/// Finds the row of a user who raises the type.
fn of_raise(case: &Case<Record>, raise: &GroupRaise) -> Found<Record> {
    let mut record = case.record;
    if record.state != State::S3 || !better_rank(raise.call_type, record.call.call_type) {
        return Ok(None);
    }
    if raise.now <= record.call.last_change {
        return Err(WRONG_ARGUMENT);
    }
    record.call.call_type = raise.call_type;
    record.call.last_change = raise.now;
    record.call.last_changer = case.settings.user;
    Ok(Some(Row::new(9, record).sends(announced(&record.call))))
}

/// Finds the row of any other action.
fn of_action(case: &Case<Record>, action: &Action) -> Option<Row<Record>> {
    let record = case.record;
    match (action, record.state) {
        (Action::GroupStart(start), State::S1) => Some(started(case, start)),
        (Action::GroupAccept, State::S5) => {
            Some(ongoing(5, record.call).sends(accepted(case, &record.call)))
        }
        (Action::GroupAccept, State::S4) => Some(ongoing(6, record.call)),
        (Action::GroupReject, State::S4 | State::S5) => Some(Row::new(7, Record::CLEARED)),
        (Action::GroupLeave, State::S3) => Some(Row::new(8, Record::CLEARED)),
        _ => None,
    }
}

/// Finds the row of a timer that runs out.
fn of_expiry(case: &Case<Record>, timer: Timer) -> Option<Row<Record>> {
    let record = case.record;
    if !record.running.has(timer) {
        return None;
    }
    match (record.state, timer) {
        (State::S3, Timer::Tfg2) => Some(
            Row::new(2, record)
                .sends(announced(&record.call))
                .starts(Timers::of(&[Timer::Tfg2])),
        ),
        (State::S4 | State::S5, Timer::Tfg4) => Some(Row::new(7, Record::CLEARED)),
        (State::S3, Timer::Tfg6) => Some(Row::new(8, Record::CLEARED)),
        _ => None,
    }
}

/// Finds the row of an announcement for the own group.
fn of_announcement(case: &Case<Record>, announcement: &Announcement) -> Option<Row<Record>> {
    let record = case.record;
    let own = record.call.announcement(0);
    match record.state {
        State::S1 => Some(invited(case, announcement)),
        State::S3 if announcement.identifier == own.identifier => {
            Some(refreshed(record, announcement))
        }
        State::S3 if better(announcement, &own) => {
            Some(ongoing(10, Call::of_announcement(announcement)).stops(ONGOING))
        }
        _ => None,
    }
}

/// Gives the row of a user who starts a call.
fn started(case: &Case<Record>, start: &GroupStart) -> Row<Record> {
    let announcement = start.announcement(&case.settings);
    ongoing(1, Call::of_announcement(&announcement))
        .sends(Message::GroupCallAnnouncement(announcement))
}

/// Gives the row of an announcement to a user who is in no call.
fn invited(case: &Case<Record>, announcement: &Announcement) -> Row<Record> {
    let call = Call::of_announcement(announcement);
    let confirm = announcement.confirm != 0;
    if case.settings.acknowledgement {
        let state = if confirm { State::S5 } else { State::S4 };
        let running = Timers::NONE;
        let record = Record {
            state,
            running,
            call,
        };
        return Row::new(3, record).starts(Timers::of(&[Timer::Tfg4]));
    }
    let row = ongoing(4, call);
    if confirm {
        row.sends(accepted(case, &call))
    } else {
        row
    }
}

/// Gives the row of an announcement of the call that the user is in.
fn refreshed(mut record: Record, announcement: &Announcement) -> Row<Record> {
    if announcement.last_change > record.call.last_change {
        record.call.call_type = announcement.call_type;
        record.call.last_change = announcement.last_change;
        record.call.last_changer = announcement.last_changer;
    }
    let again = Timers::of(&[Timer::Tfg2]);
    Row::new(11, record).stops(again).starts(again)
}

/// Begins a row after which a call goes on, with both its timers started.
fn ongoing(number: u32, call: Call) -> Row<Record> {
    let record = Record {
        state: State::S3,
        running: Timers::NONE,
        call,
    };
    Row::new(number, record).starts(ONGOING)
}

/// Gives the announcement of a call that asks for no confirmation.
fn announced(call: &Call) -> Message {
    Message::GroupCallAnnouncement(call.announcement(0))
}

/// Gives the message by which the own user accepts a call.
fn accepted(case: &Case<Record>, call: &Call) -> Message {
    Message::GroupCallAccept(GroupAccept {
        identifier: call.identifier,
        sender: case.settings.user,
        call_type: call.call_type,
        group: call.group,
    })
}
