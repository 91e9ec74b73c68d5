//! Records that are set by hand: good ones in every state, and such as no machine would leave behind.

use crate::phrase::{Pair, Value};
use crate::pools;
use independent::counter::{Counter, Counters};
use independent::random::Random;
use independent::settings::Settings;
use independent::timer::{Timer, Timers};
use independent::{group, private};

/// Makes a private record of a state that these settings allow, if they are allowed themselves; where a
/// timer is wanted and the state can have it, it runs.
pub fn private(
    random: &mut Random,
    settings: &Settings,
    state: private::State,
    wanted: Option<Timer>,
) -> private::Record {
    let sets = state.timers();
    let suits = |set: &&Timers| wanted.is_some_and(|timer| set.has(timer));
    let running = *sets.iter().find(suits).unwrap_or(random.pick(sets));
    let counters = Counter::ALL
        .into_iter()
        .fold(Counters::all(0), |made, counter| {
            made.with(counter, counted(random, settings.limits.get(counter)))
        });
    let call = if state == private::State::P0 && random.chance(3) {
        private::Call::EMPTY
    } else {
        private_call(random, settings.user, state)
    };
    private::Record {
        state,
        running,
        counters: counters.kept(running),
        call,
    }
}

/// Draws what a counter with a limit has counted, one time out of three all.
fn counted(random: &mut Random, limit: u32) -> u32 {
    if random.chance(3) {
        return limit;
    }
    1 + random.below(u64::from(limit.max(1))) as u32
}

/// Makes the call of a user who calls or is called, as the state has it.
fn private_call(random: &mut Random, own: u32, state: private::State) -> private::Call {
    let other = pools::user_beside(random, own);
    let calls = match state {
        private::State::P2 => true,
        private::State::P5 => false,
        _ => random.chance(2),
    };
    let (caller, callee) = if calls { (own, other) } else { (other, own) };
    private::Call {
        identifier: pools::identifier(random),
        caller,
        callee,
        commencement: pools::zero_or_one(random),
        media: pools::media(random),
        pck_id: pools::pck_id(random),
    }
}

/// Makes a group record of a state that these settings allow, if they are allowed themselves.
pub fn group(random: &mut Random, settings: &Settings, state: group::State) -> group::Record {
    if state == group::State::S1 {
        return group::Record::CLEARED;
    }
    let start = pools::time(random);
    group::Record {
        state,
        running: state.timers(),
        call: group::Call {
            group: settings.group,
            identifier: pools::identifier(random),
            call_type: pools::call_type(random),
            refresh: pools::refresh(random),
            media: pools::media(random),
            originator: pools::user(random),
            start,
            last_change: pools::time_near(random, start),
            last_changer: pools::user(random),
        },
    }
}

/// Changes one thing of a private record, mostly to something that it may not be.
pub fn private_broken(random: &mut Random, record: &private::Record) -> private::Record {
    let mut broken = *record;
    let call = &mut broken.call;
    match random.below(15) {
        0 => broken.state = *random.pick(&private::State::ALL),
        1 | 2 => broken.running = flipped(broken.running, *random.pick(&Timer::PRIVATE)),
        3 | 4 => {
            let counter = *random.pick(&Counter::ALL);
            let number = *random.pick(&[0, 1, 3, 4, 16, 17, 255]);
            broken.counters = broken.counters.with(counter, number);
        }
        5 => call.identifier = 0,
        6 => std::mem::swap(&mut call.caller, &mut call.callee),
        7 => call.caller = call.callee,
        8 => call.callee = call.caller,
        9 => call.caller = pools::user(random),
        10 => call.callee = pools::user(random),
        11 | 12 => call.pck_id = pools::outside_pck_id(random),
        _ => {
            let name = *random.pick(&["caller", "callee", "commencement", "media"]);
            let value = pools::outside(random, name);
            match name {
                "caller" => call.caller = value,
                "callee" => call.callee = value,
                "commencement" => call.commencement = value,
                _ => call.media = value,
            }
        }
    }
    broken
}

/// Changes one thing of a group record, mostly to something that it may not be.
pub fn group_broken(random: &mut Random, record: &group::Record) -> group::Record {
    let mut broken = *record;
    let call = &mut broken.call;
    match random.below(13) {
        0 => broken.state = *random.pick(&group::State::ALL),
        1..=3 => broken.running = flipped(broken.running, *random.pick(&Timer::GROUP)),
        4 => call.group = pools::group(random),
        5 => call.identifier = 0,
        6 => call.call_type = pools::outside(random, "type"),
        7 => call.refresh = 0,
        8 => call.media = 0,
        9 => call.originator = 0,
        10 => call.last_changer = 0,
        11 => call.start = pools::time(random),
        _ => call.last_change = pools::time(random),
    }
    broken
}

/// Lets a timer run that did not, and the other way round.
fn flipped(running: Timers, timer: Timer) -> Timers {
    let alone = Timers::of(&[timer]);
    if running.has(timer) {
        running.without(alone)
    } else {
        running.and(alone)
    }
}

/// Lists all that can be named of a private record.
pub fn private_pairs(record: &private::Record) -> Vec<Pair> {
    let call = &record.call;
    let mut pairs = vec![("state", Value::Word(record.state.name()))];
    pairs.extend(Timer::PRIVATE.map(|timer| running(record.running, timer)));
    pairs.extend(Counter::ALL.map(|counter| {
        let number = record.counters.get(counter);
        (counter.name(), Value::Number(number))
    }));
    let numbers = [
        ("identifier", call.identifier),
        ("caller", call.caller),
        ("callee", call.callee),
        ("commencement", call.commencement),
        ("media", call.media),
        ("pck-id", call.pck_id),
    ];
    pairs.extend(numbers.map(|(name, number)| (name, Value::Number(number))));
    pairs
}

/// Lists all that can be named of a group record.
pub fn group_pairs(record: &group::Record) -> Vec<Pair> {
    let call = &record.call;
    let mut pairs = vec![("state", Value::Word(record.state.name()))];
    pairs.extend(Timer::GROUP.map(|timer| running(record.running, timer)));
    let numbers = [
        ("group", call.group),
        ("identifier", call.identifier),
        ("type", call.call_type),
        ("refresh", call.refresh),
        ("media", call.media),
        ("originator", call.originator),
        ("start", call.start),
        ("last-change", call.last_change),
        ("last-changer", call.last_changer),
    ];
    pairs.extend(numbers.map(|(name, number)| (name, Value::Number(number))));
    pairs
}

/// Says whether a timer runs.
fn running(running: Timers, timer: Timer) -> Pair {
    (timer.name(), Value::yes(running.has(timer)))
}
