//! What a script's play prints.

use super::cab::{Cab, Name};
use crate::counter::Counter;
use crate::step::Step;
use crate::timer::Timers;
use crate::{group, private};

/// The first line, which names the fields.
pub const FIELDS: &str = "# command cab machine number row before after stopped started running counters call sent untouched";

/// What is said of a script that is not taken whole.
pub const TOO_LONG: &str =
    "! the script has more than 65536 bytes: only the lines that end within them were played";

/// Stands for a field that has nothing.
const NOTHING: &str = "-";

/// How many fields of a line have nothing where the reader answers.
const BEHIND_NUMBER: usize = 10;

/// Where a line is printed for: its command, its cab and who answers.
#[derive(Clone, Copy, Debug)]
pub struct Place {
    pub command: usize,
    pub cab: Name,
    pub machine: &'static str,
}

impl Place {
    /// Begins a line with the fields that every answer has.
    fn begun(&self, number: u32) -> String {
        let (command, cab, machine) = (self.command, self.cab.word(), self.machine);
        format!("{command} {cab} {machine} {number}")
    }
}

/// What the transcript shows of a machine's record.
pub trait Shown {
    /// The letter of the machine's rows.
    const LETTER: char;

    /// Gives the state's name.
    fn state(&self) -> &'static str;

    /// Gives the running timers, the counters and the call.
    fn rest(&self) -> String;
}

impl Shown for private::Record {
    const LETTER: char = 'R';

    /// Gives the state's name.
    fn state(&self) -> &'static str {
        self.state.name()
    }

    /// Gives the running timers, the three counters and the six fields of the call.
    fn rest(&self) -> String {
        let counter = |counter: Counter| {
            let (name, number) = (counter.name(), self.counters.get(counter));
            format!("{name}={number}")
        };
        let counters = Counter::ALL.map(counter).join(",");
        let call = &self.call;
        format!(
            "{} {counters} identifier={},caller={},callee={},commencement={},media={},pck-id={:#010x}",
            timers(self.running),
            call.identifier,
            call.caller,
            call.callee,
            call.commencement,
            call.media,
            call.pck_id
        )
    }
}

impl Shown for group::Record {
    const LETTER: char = 'G';

    /// Gives the state's name.
    fn state(&self) -> &'static str {
        self.state.name()
    }

    /// Gives the running timers, no counters and the nine fields of the call.
    fn rest(&self) -> String {
        let call = &self.call;
        format!(
            "{} {NOTHING} group={},identifier={},type={},refresh={},media={},originator={},start={},last-change={},last-changer={}",
            timers(self.running),
            call.group,
            call.identifier,
            call.call_type,
            call.refresh,
            call.media,
            call.originator,
            call.start,
            call.last_change,
            call.last_changer
        )
    }
}

/// Gives the line of a step, from the record before it to the bytes that it left alone.
pub fn step<R: Shown>(
    place: Place,
    before: &R,
    step: &Step<R>,
    sent: Option<&[u8]>,
    untouched: usize,
) -> String {
    let row = match step.row {
        0 => NOTHING.to_string(),
        row => format!("{}{row}", R::LETTER),
    };
    format!(
        "{} {row} {} {} {} {} {} {} {untouched}",
        place.begun(step.number),
        before.state(),
        step.record.state(),
        timers(step.stop),
        timers(step.start),
        step.record.rest(),
        sent.map_or(NOTHING.into(), |line| String::from_utf8_lossy(line)),
    )
}

/// Gives the line of a reader that refuses.
pub fn refused(place: Place, number: u32) -> String {
    let nothing = [NOTHING; BEHIND_NUMBER].join(" ");
    format!("{} {nothing}", place.begun(number))
}

/// Gives the line of the chooser, with the better line if there is one.
pub fn chosen(place: Place, number: u32, better: Option<&[u8]>) -> String {
    let better = better.map_or(NOTHING.into(), String::from_utf8_lossy);
    format!("{} - - - - - - - {better} - -", place.begun(number))
}

/// Gives the names of timers, one comma between two.
fn timers(timers: Timers) -> String {
    let names: Vec<&str> = timers.list().map(|timer| timer.name()).collect();
    if names.is_empty() {
        return NOTHING.to_string();
    }
    names.join(",")
}

/// Lists the last lines: how each machine ends, and whether the cabs are in the same calls.
pub fn last(cabs: &[Cab; 2]) -> Vec<String> {
    let mut lines = Vec::new();
    for (name, cab) in Name::ALL.into_iter().zip(cabs) {
        lines.push(end(name, "private", &cab.private));
        lines.push(end(name, "group", &cab.group));
    }
    let private = cabs.each_ref().map(|cab| {
        let call = cab.private.call;
        (cab.private.state == private::State::P4).then_some((call.identifier, call))
    });
    let group = cabs.each_ref().map(|cab| {
        let call = cab.group.call;
        (cab.group.state == group::State::S3).then_some((call.identifier, call))
    });
    lines.push(format!("Private call: {}", sentence(private)));
    lines.push(format!("Group call: {}", sentence(group)));
    lines
}

/// Gives the line of how a machine ends.
fn end<R: Shown>(name: Name, machine: &str, record: &R) -> String {
    let (cab, state, rest) = (name.word(), record.state(), record.rest());
    format!("end {cab} {machine} {state} {rest}")
}

/// Says of the calls that the cabs are in, each with its identifier, whether they are the same.
fn sentence<C: PartialEq>(calls: [Option<(u32, C)>; 2]) -> &'static str {
    match calls {
        [None, None] => "neither cab is in a call.",
        [Some(_), None] => "cab a is in a call, cab b is in none.",
        [None, Some(_)] => "cab b is in a call, cab a is in none.",
        [Some(one), Some(other)] if one == other => "both cabs are in the same call.",
        [Some(one), Some(other)] if one.0 == other.0 => {
            "the cabs are in calls with the same identifier that differ in other fields."
        }
        _ => "the cabs are in different calls.",
    }
}
