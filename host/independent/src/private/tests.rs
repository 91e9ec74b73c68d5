//! Tests of the private machine: the marked cases, the run, and the common rules.

use super::*;
use crate::counter::Counter;
use crate::event::{Action, Event, PrivateStart, Verdicts};
use crate::line::read;
use crate::samples::ended;

/// The settings of the tests: user 7, limits of 3.
const SETTINGS: Settings = Settings {
    user: 7,
    group: 3,
    restrict: false,
    acknowledgement: false,
    limits: Counters::all(3),
};

/// Both verdicts yes.
const YES: Verdicts = Verdicts {
    media: true,
    signature: true,
};

/// The start of the run.
const START: Event = Event::Action(Action::PrivateStart(PrivateStart {
    identifier: 0x1234,
    callee: 9,
    commencement: 0,
    media: 5,
    pck_id: 0,
}));

/// Takes a step and gives it with the line that it sends.
fn taken(settings: Settings, record: Record, event: Event) -> (Step<Record>, String) {
    let mut out = [0xee; 63];
    let case = Case {
        settings,
        record,
        event,
        verdicts: YES,
    };
    let step = step(&case, &mut out);
    assert!(out[step.length..].iter().all(|&byte| byte == 0xee));
    (
        step,
        String::from_utf8_lossy(&out[..step.length]).into_owned(),
    )
}

/// Gives the event of a line that is heard.
fn heard(digits: &str) -> Event {
    Event::Message(read(&ended(digits)).expect("a readable line"))
}

/// Gives a record of a call from 8 to 7 that is pending with this timer.
fn pending(timer: Timer) -> Record {
    Record {
        state: State::P5,
        running: Timers::of(&[timer]),
        counters: Counters::all(2).kept(Timers::of(&[timer])),
        call: Call {
            identifier: 1,
            caller: 8,
            callee: 7,
            commencement: 1,
            media: 5,
            pck_id: 0x1000_0000,
        },
    }
}

/// The run that is compared: three lines sent, by R1, R5 and R9.
#[test]
fn the_run() {
    let (start, line) = taken(SETTINGS, Record::CLEARED, START);
    assert_eq!((start.row, start.record.state), (1, State::P2));
    assert_eq!(line, "011234000000070000000900040000000500000000\n");
    let accept = heard("031234000000070000000900000006");
    let (accept, line) = taken(SETTINGS, start.record, accept);
    assert_eq!((accept.row, accept.record.call.media), (5, 6));
    assert_eq!(line, "0712340000000700000009\n");
    let (end, line) = taken(SETTINGS, accept.record, Event::Action(Action::PrivateEnd));
    assert_eq!((end.row, end.record.state), (9, State::P3));
    assert_eq!(end.stop, Timers::of(&[Timer::Tfp5]));
    assert_eq!(line, "0512340000000700000009\n");
}

/// Marked cases E, F and G.
#[test]
fn cases_e_f_g() {
    let limits = Counters::all(1);
    let (start, _) = taken(SETTINGS, Record::CLEARED, START);
    let lowest = Settings { limits, ..SETTINGS };
    let (expiry, _) = taken(lowest, start.record, Event::Expiry(Timer::Tfp1));
    assert_eq!((expiry.row, expiry.stop), (3, Timers::NONE));
    assert_eq!(expiry.record.counters, Counters::all(0));
    assert_eq!(expiry.start, Timers::of(&[Timer::Tfp7]));
    let accept = Event::Action(Action::PrivateAccept);
    let (first, _) = taken(SETTINGS, pending(Timer::Tfp2), accept);
    assert_eq!((first.row, first.stop), (23, Timers::of(&[Timer::Tfp2])));
    let (second, line) = taken(SETTINGS, first.record, accept);
    assert_eq!((second.number, second.row, line.as_str()), (0, 0, ""));
    assert_eq!(second.record, first.record);
    let ongoing = Record {
        state: State::P4,
        ..pending(Timer::Tfp5)
    };
    let (late, _) = taken(SETTINGS, ongoing, Event::Expiry(Timer::Tfp7));
    assert_eq!((late.number, late.row, late.record), (0, 0, ongoing));
}

/// The refusals come in their order, and 8 for the same identifier only where R1 would apply.
#[test]
fn refusals_in_order() {
    let wrong = Settings {
        limits: Counters::all(3).with(Counter::Cfp3, 17),
        ..SETTINGS
    };
    let broken = Record {
        running: Timers::NONE,
        ..pending(Timer::Tfp2)
    };
    assert_eq!(taken(wrong, broken, START).0.number, 7);
    assert_eq!(taken(SETTINGS, broken, START).0.number, 9);
    let (start, _) = taken(SETTINGS, Record::CLEARED, START);
    assert_eq!(taken(SETTINGS, start.record, START).0.number, 0);
    let (reject, _) = taken(SETTINGS, start.record, heard("041234000000070000000901"));
    assert_eq!((reject.row, reject.record.state), (6, State::P1));
    assert_eq!(taken(SETTINGS, reject.record, START).0.number, 8);
    let called = Settings {
        user: 9,
        ..SETTINGS
    };
    assert_eq!(taken(called, Record::CLEARED, START).0.number, 8);
}
