//! The commands of a script, read from their words.

use super::cab::{Cab, Name};
use super::names::{self, Given};
use super::words::{Complaint, Unreadable, Word, Words};
use crate::event::{Action, Event, GroupRaise, GroupStart, PrivateStart, Verdicts};
use crate::line::LINE_END;
use crate::timer::Timer;

/// What a command does to its cab.
#[derive(Debug)]
pub enum Command {
    /// Sets settings.
    Settings(Given),
    /// Sets the length of the buffer.
    Buffer(Given),
    /// Sets some of the private record.
    PrivateRecord(Given),
    /// Clears the private record.
    PrivateCleared,
    /// Sets some of the group record.
    GroupRecord(Given),
    /// Clears the group record.
    GroupCleared,
    /// Lets something happen to the machine that it concerns.
    Happens(Event, Verdicts),
    /// Lets a line be heard, given with its line end if it has one.
    Hears(Vec<u8>, Verdicts),
    /// Asks for the better of two lines, given with their line ends.
    Chooses(Vec<u8>, Vec<u8>),
}

/// Reads a line's command and the cab that it names; a line without words has none.
pub fn read(line: &[u8], cabs: &[Cab; 2]) -> Result<Option<(Name, Command)>, Unreadable> {
    let mut words = Words::new(line);
    let Some(first) = words.next() else {
        return Ok(None);
    };
    let cab = Name::of_word(first.bytes).ok_or(Complaint::Cab.about(first))?;
    let command = command(&mut words, cabs)?;
    Ok(Some((cab, command)))
}

/// Reads what stands behind the cab.
fn command(words: &mut Words, cabs: &[Cab; 2]) -> Result<Command, Unreadable> {
    let word = words.wanted(Complaint::Command)?;
    match word.bytes {
        b"settings" => plain(words, names::SETTINGS).map(Command::Settings),
        b"buffer" => plain(words, names::BUFFER).map(Command::Buffer),
        b"private" => private(words),
        b"group" => group(words),
        b"hears" => hears(words, cabs),
        b"chooses" => {
            let first = line(words, cabs)?;
            let second = line(words, cabs)?;
            plain(words, names::NOTHING)?;
            Ok(Command::Chooses(ended(first), ended(second)))
        }
        _ => expires(word, words),
    }
}

/// Reads the names of a command that is no step.
fn plain(words: &mut Words, names: &'static [&'static str]) -> Result<Given, Unreadable> {
    Given::read(words, names, &[])
}

/// Reads what stands behind `private`.
fn private(words: &mut Words) -> Result<Command, Unreadable> {
    let word = words.wanted(Complaint::BehindPrivate)?;
    match word.bytes {
        b"record" => plain(words, names::PRIVATE_RECORD).map(Command::PrivateRecord),
        b"cleared" => plain(words, names::NOTHING).map(|_| Command::PrivateCleared),
        b"start" => acts(words, names::PRIVATE_START, |given| {
            Action::PrivateStart(PrivateStart {
                identifier: given.or_zero("identifier"),
                callee: given.or_zero("callee"),
                commencement: given.or_zero("commencement"),
                media: given.or_zero("media"),
                pck_id: given.or_zero("pck-id"),
            })
        }),
        b"end" => acts(words, names::NOTHING, |_| Action::PrivateEnd),
        b"accept" => acts(words, names::NOTHING, |_| Action::PrivateAccept),
        b"reject" => acts(words, names::NOTHING, |_| Action::PrivateReject),
        _ => Err(Complaint::BehindPrivate.about(word)),
    }
}

/// Reads what stands behind `group`.
fn group(words: &mut Words) -> Result<Command, Unreadable> {
    let word = words.wanted(Complaint::BehindGroup)?;
    match word.bytes {
        b"record" => plain(words, names::GROUP_RECORD).map(Command::GroupRecord),
        b"cleared" => plain(words, names::NOTHING).map(|_| Command::GroupCleared),
        b"start" => acts(words, names::GROUP_START, |given| {
            Action::GroupStart(GroupStart {
                identifier: given.or_zero("identifier"),
                call_type: given.or_zero("type"),
                refresh: given.or_zero("refresh"),
                media: given.or_zero("media"),
                confirm: given.or_zero("confirm"),
                now: given.or_zero("now"),
            })
        }),
        b"raise" => acts(words, names::GROUP_RAISE, |given| {
            Action::GroupRaise(GroupRaise {
                call_type: given.or_zero("type"),
                now: given.or_zero("now"),
            })
        }),
        b"accept" => acts(words, names::NOTHING, |_| Action::GroupAccept),
        b"reject" => acts(words, names::NOTHING, |_| Action::GroupReject),
        b"leave" => acts(words, names::NOTHING, |_| Action::GroupLeave),
        _ => Err(Complaint::BehindGroup.about(word)),
    }
}

/// Reads the names of an action and makes it from their values.
fn acts(
    words: &mut Words,
    names: &'static [&'static str],
    action: fn(&Given) -> Action,
) -> Result<Command, Unreadable> {
    let given = Given::read(words, names, names::VERDICTS)?;
    let event = Event::Action(action(&given));
    Ok(Command::Happens(event, verdicts(&given)))
}

/// Reads a timer's expiry, of which the second word was taken already.
fn expires(word: Word, words: &mut Words) -> Result<Command, Unreadable> {
    let timer = Timer::all().find(|timer| timer.name().as_bytes() == word.bytes);
    let timer = timer.ok_or(Complaint::Command.about(word))?;
    let word = words.wanted(Complaint::Expires)?;
    if word.bytes != b"expires" {
        return Err(Complaint::Expires.about(word));
    }
    let given = Given::read(words, names::NOTHING, names::VERDICTS)?;
    Ok(Command::Happens(Event::Expiry(timer), verdicts(&given)))
}

/// Reads what stands behind `hears`.
fn hears(words: &mut Words, cabs: &[Cab; 2]) -> Result<Command, Unreadable> {
    let digits = line(words, cabs)?;
    let given = Given::read(words, names::HEARS, names::VERDICTS)?;
    let heard = if given.or_yes("ended") {
        ended(digits)
    } else {
        digits
    };
    Ok(Command::Hears(heard, verdicts(&given)))
}

/// Gives the verdicts of a step.
fn verdicts(given: &Given) -> Verdicts {
    Verdicts {
        media: given.or_yes("media-verdict"),
        signature: given.or_yes("signature-verdict"),
    }
}

/// Reads the word that names a line, and gives the line without its line end.
fn line(words: &mut Words, cabs: &[Cab; 2]) -> Result<Vec<u8>, Unreadable> {
    let word = words.wanted(Complaint::Line)?;
    if word.bytes.contains(&b'=') {
        return Err(Complaint::Line.about(word));
    }
    if let Some(name) = Name::of_word(word.bytes) {
        let sent = cabs[name as usize].sent.clone();
        return sent.ok_or(Complaint::NoLineYet(name).about(word));
    }
    match word.bytes {
        b"nothing" => Ok(Vec::new()),
        digits => Ok(digits.to_vec()),
    }
}

/// Puts a line end behind a line.
fn ended(mut line: Vec<u8>) -> Vec<u8> {
    line.push(LINE_END);
    line
}
