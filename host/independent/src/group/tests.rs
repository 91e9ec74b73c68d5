//! Tests of the group machine: marked case H, and rows that depend on what is stored.

use super::*;
use crate::counter::Counters;
use crate::event::{Action, Event, GroupRaise, Verdicts};
use crate::samples::ANNOUNCEMENT;

/// The settings of the tests: user 9 in group 3, who is not asked.
const SETTINGS: Settings = Settings {
    user: 9,
    group: 3,
    restrict: false,
    acknowledgement: false,
    limits: Counters::all(3),
};

/// Takes a step and gives it with the line that it sends.
fn taken(record: Record, event: Event) -> (Step<Record>, String) {
    let mut out = [0xee; 63];
    let case = Case {
        settings: SETTINGS,
        record,
        event,
        verdicts: Verdicts {
            media: true,
            signature: true,
        },
    };
    let step = step(&case, &mut out);
    (
        step,
        String::from_utf8_lossy(&out[..step.length]).into_owned(),
    )
}

/// Gives the event of an announcement that is heard.
fn heard(announcement: Announcement) -> Event {
    Event::Message(Message::GroupCallAnnouncement(announcement))
}

/// An announcement that asks for a confirmation is joined by G4, and accepted.
#[test]
fn joined_with_an_accept() {
    let (step, line) = taken(Record::CLEARED, heard(ANNOUNCEMENT));
    assert_eq!((step.row, step.record.state), (4, State::S3));
    assert_eq!(line, "090010000000090200000003\n");
    let other = Announcement {
        group: 4,
        ..ANNOUNCEMENT
    };
    assert_eq!(taken(Record::CLEARED, heard(other)).0.row, 0);
}

/// Marked case H, and what stays where the call that is heard is not better.
#[test]
fn case_h() {
    let basic = Announcement {
        call_type: 1,
        ..ANNOUNCEMENT
    };
    let (step, _) = taken(Record::CLEARED, heard(basic));
    let emergency = Announcement {
        identifier: 17,
        start: 2000,
        ..ANNOUNCEMENT
    };
    let (merged, _) = taken(step.record, heard(emergency));
    assert_eq!((merged.row, merged.record.call.start), (10, 2000));
    assert_eq!((merged.stop, merged.start), (step.start, step.start));
    let (stayed, _) = taken(merged.record, heard(basic));
    assert_eq!((stayed.row, stayed.record), (0, merged.record));
}

/// A raise needs a better rank, and only then a later time.
#[test]
fn raises() {
    let peril = Announcement {
        call_type: 3,
        ..ANNOUNCEMENT
    };
    let (joined, _) = taken(Record::CLEARED, heard(peril));
    let raise = |call_type, now| Event::Action(Action::GroupRaise(GroupRaise { call_type, now }));
    assert_eq!(taken(joined.record, raise(4, 0)).0.number, 8);
    assert_eq!(taken(joined.record, raise(1, 0)).0.number, 0);
    assert_eq!(taken(joined.record, raise(2, 1000)).0.number, 8);
    let (raised, line) = taken(joined.record, raise(2, 1001));
    assert_eq!((raised.row, raised.record.call.last_changer), (9, 9));
    assert_eq!((raised.stop, raised.start), (Timers::NONE, Timers::NONE));
    assert_eq!(
        line,
        "0800100000000302001e0000000500000007000003e8000003e90000000900\n"
    );
}
