//! Scripts of bytes, each of which stands for one input of a machine, played through the machines
//! of this package: the Rust twin of the proved crate `pace`.

use independent::counter::Counters;
use independent::event::{Action, Event, GroupRaise, GroupStart, PrivateStart, Verdicts};
use independent::group;
use independent::message::{
    Accept, Announcement, GroupAccept, Message, Reject, SetupRequest, Users,
};
use independent::private;
use independent::settings::Settings;
use independent::step::Case;
use independent::timer::Timer;

/// The settings under which every script is played.
const SETTINGS: Settings = Settings {
    user: 7,
    group: 3,
    restrict: false,
    acknowledgement: true,
    limits: Counters::all(3),
};

/// What the host has found out for every step.
const VERDICTS: Verdicts = Verdicts {
    media: true,
    signature: true,
};

/// The call that the own user starts.
const CALLS: Users = Users {
    identifier: 0x1234,
    caller: 7,
    callee: 9,
};

/// The call that another user starts.
const CALLED: Users = Users {
    identifier: 0x4321,
    caller: 9,
    callee: 7,
};

/// The announcement of a call that is better than the one that the own user starts.
const BETTER: Announcement = Announcement {
    identifier: 17,
    group: 3,
    call_type: 2,
    refresh: 30,
    media: 6,
    originator: 9,
    start: 1100,
    last_change: 1100,
    last_changer: 9,
    confirm: 1,
};

/// Plays a script through the private machine from the cleared record on, each step with the same
/// buffer for its line, and gives how many steps met a row.
#[inline(never)]
pub fn private_steps(script: &[u8], out: &mut [u8]) -> usize {
    let mut record = private::Record::CLEARED;
    let mut met = 0;
    for &byte in script {
        let case = Case {
            settings: SETTINGS,
            record,
            event: private_event(byte),
            verdicts: VERDICTS,
        };
        let step = private::step(&case, out);
        record = step.record;
        met += usize::from(step.row != 0);
    }
    met
}

/// Plays a script through the group machine in the same way.
#[inline(never)]
pub fn group_steps(script: &[u8], out: &mut [u8]) -> usize {
    let mut record = group::Record::CLEARED;
    let mut met = 0;
    for &byte in script {
        let case = Case {
            settings: SETTINGS,
            record,
            event: group_event(byte),
            verdicts: VERDICTS,
        };
        let step = group::step(&case, out);
        record = step.record;
        met += usize::from(step.row != 0);
    }
    met
}

/// Gives the input of the private machine that a byte stands for.
fn private_event(byte: u8) -> Event {
    match byte {
        0 => Event::Action(Action::PrivateStart(PrivateStart {
            identifier: CALLS.identifier,
            callee: CALLS.callee,
            commencement: 0,
            media: 5,
            pck_id: 0,
        })),
        1 => Event::Message(Message::Ringing(CALLS)),
        2 => Event::Message(Message::Accept(Accept {
            identifier: CALLS.identifier,
            caller: CALLS.caller,
            callee: CALLS.callee,
            media: 6,
        })),
        3 => Event::Action(Action::PrivateEnd),
        4 => Event::Message(Message::ReleaseAck(CALLS)),
        5 => Event::Expiry(Timer::Tfp7),
        6 => Event::Message(Message::PrivateCallSetupRequest(SetupRequest {
            identifier: CALLED.identifier,
            caller: CALLED.caller,
            callee: CALLED.callee,
            commencement: 1,
            call_type: 4,
            media: 5,
            pck_id: 0,
        })),
        7 => Event::Action(Action::PrivateAccept),
        8 => Event::Message(Message::AcceptAck(CALLED)),
        9 => Event::Message(Message::Release(CALLED)),
        10 => Event::Expiry(Timer::Tfp1),
        _ => Event::Message(Message::Reject(Reject {
            identifier: 0x0999,
            caller: 9,
            callee: 7,
            reason: 2,
        })),
    }
}

/// Gives the input of the group machine that a byte stands for.
fn group_event(byte: u8) -> Event {
    match byte {
        0 => Event::Action(Action::GroupStart(GroupStart {
            identifier: 16,
            call_type: 1,
            refresh: 30,
            media: 5,
            confirm: 1,
            now: 1000,
        })),
        1 => Event::Expiry(Timer::Tfg2),
        2 => Event::Message(Message::GroupCallAnnouncement(BETTER)),
        3 => Event::Message(Message::GroupCallAnnouncement(Announcement {
            identifier: 18,
            call_type: 1,
            start: 2000,
            last_change: 2000,
            ..BETTER
        })),
        4 => Event::Action(Action::GroupRaise(GroupRaise {
            call_type: 2,
            now: 1200,
        })),
        5 => Event::Action(Action::GroupLeave),
        6 => Event::Action(Action::GroupAccept),
        7 => Event::Action(Action::GroupReject),
        8 => Event::Expiry(Timer::Tfg4),
        9 => Event::Message(Message::GroupCallAccept(GroupAccept {
            identifier: 16,
            sender: 9,
            call_type: 2,
            group: 3,
        })),
        _ => Event::Message(Message::GroupCallAnnouncement(Announcement {
            group: 4,
            ..BETTER
        })),
    }
}

#[cfg(test)]
mod tests {
    use super::*;

    /// Plays a script and gives how many steps met a row, with what stands in the buffer then.
    fn played(steps: fn(&[u8], &mut [u8]) -> usize, script: &[u8]) -> (usize, String) {
        let mut out = [b'.'; 63];
        let met = steps(script, &mut out);
        (met, String::from_utf8_lossy(&out).into_owned())
    }

    /// A call out and a call in: rows R1, R4, R5, R9, R12 and R28, then R22, R23, R18 and R13.
    #[test]
    fn private_scripts() {
        let (met, line) = played(private_steps, &[0]);
        assert_eq!(met, 1);
        assert!(line.starts_with("011234000000070000000900040000000500000000\n..."));
        let (met, line) = played(private_steps, &[0, 1, 10, 2, 3, 4, 5, 11]);
        assert_eq!(met, 6);
        assert!(line.starts_with("0512340000000700000009\n"));
        let (met, line) = played(private_steps, &[6, 7, 8, 9, 255]);
        assert_eq!(met, 4);
        assert!(line.starts_with("0643210000000900000007\n"));
    }

    /// A call of the own user that is refreshed, raised, left; one that is joined; and a better one.
    #[test]
    fn group_scripts() {
        let (met, line) = played(group_steps, &[0, 3, 11, 1, 4, 4, 5, 9]);
        assert_eq!(met, 4);
        assert!(
            line.starts_with("0800100000000302001e0000000500000007000003e8000004b00000000700\n")
        );
        let (met, line) = played(group_steps, &[2, 6, 5, 2, 7, 2, 8]);
        assert_eq!(met, 7);
        assert!(line.starts_with("090011000000070200000003\n"));
        assert_eq!(played(group_steps, &[0, 2, 2]).0, 3);
    }
}
