//! Slips that can be put into the independent machines, to see that they are found.

use independent::chooser::better_rank;
use independent::counter::Counter;
use independent::drill::Machines;
use independent::event::{Action, Event};
use independent::line::{read, write};
use independent::message::Message;
use independent::step::{Case, Step};
use independent::timer::{Timer, Timers};
use independent::{group, private};

/// A slip: its name, what it does, and the machines that have it.
pub struct Slip {
    pub name: &'static str,
    pub meaning: &'static str,
    pub machines: Machines,
}

/// A step of the private machine.
type PrivateStep = fn(&Case<private::Record>, &mut [u8]) -> Step<private::Record>;

/// A step of the group machine.
type GroupStep = fn(&Case<group::Record>, &mut [u8]) -> Step<group::Record>;

/// All slips.
pub const SLIPS: [Slip; 12] = [
    in_private(
        "second-accept",
        "an accept pressed again begins the count of CFP4 anew",
        second_accept,
    ),
    in_private(
        "tfp7-left",
        "a call that comes in during P1 does not stop TFP7",
        tfp7_left,
    ),
    in_private(
        "r24-untimed",
        "after a bad signature nothing times P1",
        r24_untimed,
    ),
    in_private(
        "busy-users",
        "a caller who is turned away is told the users of the call that goes on",
        busy_users,
    ),
    in_private(
        "second-start",
        "a start pressed again begins the count of CFP1 anew",
        second_start,
    ),
    in_private(
        "expired-stopped",
        "a state change stops the timer that has run out",
        expired_stopped,
    ),
    in_private(
        "refusal-writes",
        "a refusal clears the buffer",
        refusal_writes,
    ),
    in_private(
        "old-key-stored",
        "a stored PCK-ID with 0011 on top is taken for one with 0001",
        old_key_stored,
    ),
    in_private(
        "old-key-started",
        "a start with 0011 on top of its PCK-ID is taken for one with 0001",
        old_key_started,
    ),
    in_group(
        "types-by-code",
        "imminent peril goes ahead of emergency",
        types_by_code,
    ),
    in_group(
        "old-start",
        "a better call brings all but the time it began",
        old_start,
    ),
    in_group(
        "first-heard",
        "of two calls with the same rank and start the first heard stays",
        first_heard,
    ),
];

/// Names a slip of the private machine.
const fn in_private(name: &'static str, meaning: &'static str, private: PrivateStep) -> Slip {
    Slip {
        name,
        meaning,
        machines: Machines {
            private,
            group: group::step,
        },
    }
}

/// Names a slip of the group machine.
const fn in_group(name: &'static str, meaning: &'static str, group: GroupStep) -> Slip {
    Slip {
        name,
        meaning,
        machines: Machines {
            private: private::step,
            group,
        },
    }
}

/// Tells whether a step has done nothing, and not because it was refused.
fn discarded<R>(step: &Step<R>) -> bool {
    step.number == 0 && step.row == 0
}

/// Lets an accept that comes too late count as the first one.
fn second_accept(case: &Case<private::Record>, out: &mut [u8]) -> Step<private::Record> {
    let mut step = private::step(case, out);
    let accepts = case.event == Event::Action(Action::PrivateAccept);
    if accepts && discarded(&step) && case.record.running.has(Timer::Tfp4) {
        step.record.counters = step.record.counters.with(Counter::Cfp4, 1);
    }
    step
}

/// Forgets to stop TFP7 where a call comes in.
fn tfp7_left(case: &Case<private::Record>, out: &mut [u8]) -> Step<private::Record> {
    const TFP7: Timers = Timers::of(&[Timer::Tfp7]);
    let mut step = private::step(case, out);
    if step.record.state == private::State::P5 && step.stop == TFP7 {
        step.stop = Timers::NONE;
        step.record.running = step.record.running.and(TFP7);
    }
    step
}

/// Forgets the timer of P1 after a bad signature.
fn r24_untimed(case: &Case<private::Record>, out: &mut [u8]) -> Step<private::Record> {
    let mut step = private::step(case, out);
    if step.row == 24 {
        step.start = Timers::NONE;
        step.record.running = Timers::NONE;
    }
    step
}

/// Takes the users of the stored call for those of the one that is turned away.
fn busy_users(case: &Case<private::Record>, out: &mut [u8]) -> Step<private::Record> {
    let step = private::step(case, out);
    if let (27, Ok(Message::Reject(mut reject))) = (step.row, read(&out[..step.length])) {
        reject.caller = case.record.call.caller;
        reject.callee = case.record.call.callee;
        write(&Message::Reject(reject), out).expect("a line as long as the one before");
    }
    step
}

/// Lets a start that comes too late begin the count again.
fn second_start(case: &Case<private::Record>, out: &mut [u8]) -> Step<private::Record> {
    let mut step = private::step(case, out);
    let starts = matches!(case.event, Event::Action(Action::PrivateStart(_)));
    if starts && discarded(&step) && case.record.running.has(Timer::Tfp1) {
        step.record.counters = step.record.counters.with(Counter::Cfp1, 1);
    }
    step
}

/// Stops a timer that runs no more.
fn expired_stopped(case: &Case<private::Record>, out: &mut [u8]) -> Step<private::Record> {
    let mut step = private::step(case, out);
    if step.record.state != case.record.state {
        let expired = case.event.expired().without(step.start);
        step.stop = step.stop.and(expired);
    }
    step
}

/// Writes to the buffer though nothing is sent.
fn refusal_writes(case: &Case<private::Record>, out: &mut [u8]) -> Step<private::Record> {
    let step = private::step(case, out);
    if step.number != 0 {
        out.fill(0);
    }
    step
}

/// Goes on with a record that a build from before has left.
fn old_key_stored(case: &Case<private::Record>, out: &mut [u8]) -> Step<private::Record> {
    let mut renewed = *case;
    renew(&mut renewed.record.call.pck_id);
    if_taken(&renewed, case, out)
}

/// Starts a call whose key is one from before.
fn old_key_started(case: &Case<private::Record>, out: &mut [u8]) -> Step<private::Record> {
    let mut renewed = *case;
    if let Event::Action(Action::PrivateStart(start)) = &mut renewed.event {
        renew(&mut start.pck_id);
    }
    if_taken(&renewed, case, out)
}

/// Puts 0001 on top of a PCK-ID in the place of 0011.
fn renew(pck_id: &mut u32) {
    if *pck_id >> 28 == 3 {
        *pck_id ^= 0x2000_0000;
    }
}

/// Takes the step of a renewed case, or that of the case at hand where even the renewed one is refused.
fn if_taken(
    renewed: &Case<private::Record>,
    case: &Case<private::Record>,
    out: &mut [u8],
) -> Step<private::Record> {
    let step = private::step(renewed, out);
    if step.number == 0 {
        return step;
    }
    private::step(case, out)
}

/// Ranks imminent peril, whose code is the highest, above emergency.
fn types_by_code(case: &Case<group::Record>, out: &mut [u8]) -> Step<group::Record> {
    let mut turned = *case;
    turned.record = turned_record(&case.record);
    match &mut turned.event {
        Event::Action(Action::GroupStart(start)) => start.call_type = turned_type(start.call_type),
        Event::Action(Action::GroupRaise(raise)) => raise.call_type = turned_type(raise.call_type),
        Event::Message(Message::GroupCallAnnouncement(heard)) => {
            heard.call_type = turned_type(heard.call_type);
        }
        _ => {}
    }
    let mut step = group::step(&turned, out);
    step.record = turned_record(&step.record);
    let sent = match read(&out[..step.length]) {
        Ok(Message::GroupCallAnnouncement(mut sent)) => {
            sent.call_type = turned_type(sent.call_type);
            Message::GroupCallAnnouncement(sent)
        }
        Ok(Message::GroupCallAccept(mut sent)) => {
            sent.call_type = turned_type(sent.call_type);
            Message::GroupCallAccept(sent)
        }
        _ => return step,
    };
    write(&sent, out).expect("a line as long as the one before");
    step
}

/// Takes the codes of emergency and imminent peril for one another.
fn turned_type(call_type: u32) -> u32 {
    match call_type {
        2 => 3,
        3 => 2,
        other => other,
    }
}

/// Takes the two codes for one another in a record.
fn turned_record(record: &group::Record) -> group::Record {
    let mut turned = *record;
    turned.call.call_type = turned_type(turned.call.call_type);
    turned
}

/// Forgets one field of the nine that a better call brings.
fn old_start(case: &Case<group::Record>, out: &mut [u8]) -> Step<group::Record> {
    let mut step = group::step(case, out);
    if step.row == 10 {
        step.record.call.start = case.record.call.start;
    }
    step
}

/// Stays in a call where only the identifier of another one is better.
fn first_heard(case: &Case<group::Record>, out: &mut [u8]) -> Step<group::Record> {
    let step = group::step(case, out);
    let (stored, merged) = (case.record.call, step.record.call);
    let better = better_rank(merged.call_type, stored.call_type) || merged.start < stored.start;
    if step.row == 10 && !better {
        return Step {
            row: 0,
            record: case.record,
            stop: Timers::NONE,
            start: Timers::NONE,
            ..step
        };
    }
    step
}
