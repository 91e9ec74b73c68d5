//! Lines that a cab hears, made so that they suit what it has stored.

use crate::cues::verdicts;
use crate::phrase::{Phrase, Value};
use crate::pools;
use independent::drill::cab::{Cab, Name};
use independent::event::PRIVATE_CALL_TYPE;
use independent::kind::Kind;
use independent::line::{line_of, LINE_END};
use independent::making;
use independent::message::{
    Accept, Announcement, GroupAccept, Message, Reject, SetupRequest, Users,
};
use independent::random::Random;

/// Puts in words that a line of a kind is heard.
pub fn phrase(random: &mut Random, name: Name, own: &Cab, kind: Kind) -> Phrase {
    let (mut media, mut signature) = (!random.chance(6), !random.chance(6));
    let message = match kind {
        Kind::PrivateCallSetupRequest => {
            // One of what can follow: no media, accepted, a bad signature, ringing.
            let sort = *random.pick(&[0, 1, 2, 2, 3]);
            (media, signature) = (sort != 0, sort == 1 || random.chance(3));
            Message::PrivateCallSetupRequest(request(random, own, sort))
        }
        Kind::GroupCallAnnouncement => Message::GroupCallAnnouncement(announcement(random, own)),
        Kind::GroupCallAccept => Message::GroupCallAccept(GroupAccept {
            identifier: pools::identifier(random),
            sender: pools::user(random),
            call_type: pools::call_type(random),
            group: own.settings.group,
        }),
        _ => of_call(random, own, kind),
    };
    let phrase = Phrase::new(name, &["hears"]).word(&digits(&message));
    verdicts(random, phrase, media, signature)
}

/// Gives the line of a message without its line end.
fn digits(message: &Message) -> Vec<u8> {
    let mut line = line_of(message);
    line.pop();
    line
}

/// Makes a message of a private call, mostly of the one that is stored.
fn of_call(random: &mut Random, own: &Cab, kind: Kind) -> Message {
    let call = own.private.call;
    let mut users = call.users();
    if users.identifier == 0 || random.chance(8) {
        users.identifier = pools::identifier(random);
    }
    if users.caller == 0 || users.callee == 0 || random.chance(6) {
        (users.caller, users.callee) = (pools::user(random), pools::user(random));
    }
    let Users {
        identifier,
        caller,
        callee,
    } = users;
    match kind {
        Kind::Ringing => Message::Ringing(users),
        Kind::Release => Message::Release(users),
        Kind::ReleaseAck => Message::ReleaseAck(users),
        Kind::AcceptAck => Message::AcceptAck(users),
        Kind::Accept => Message::Accept(Accept {
            identifier,
            caller,
            callee,
            media: pools::media(random),
        }),
        _ => Message::Reject(Reject {
            identifier,
            caller,
            callee,
            reason: random.below(5) as u32,
        }),
    }
}

/// Makes a request to the cab, now and then for the same call again, to another, from its own user or
/// with a PCK-ID that there cannot be.
fn request(random: &mut Random, own: &Cab, sort: u64) -> SetupRequest {
    let user = own.settings.user;
    let identifier = match random.below(10) {
        0 => own.private.call.identifier.max(1),
        _ => pools::identifier(random),
    };
    let pck_id = match sort {
        2 => *random.pick(&[0x1000_0000, 0x1fff_ffff]),
        _ => pools::pck_id(random),
    };
    let mut request = SetupRequest {
        identifier,
        caller: pools::user_beside(random, user),
        callee: user.max(1),
        commencement: u32::from(sort == 3),
        call_type: PRIVATE_CALL_TYPE,
        media: pools::media(random),
        pck_id,
    };
    match random.below(20) {
        0 => request.callee = pools::user(random),
        1 => request.caller = user.max(1),
        2 => (request.caller, request.callee) = (request.callee, request.caller),
        3 => request.pck_id = pools::outside_pck_id(random),
        _ => {}
    }
    request
}

/// Makes an announcement, of the stored call or of another one that is hardly better or worse.
pub fn announcement(random: &mut Random, own: &Cab) -> Announcement {
    let stored = own.group.call;
    let start = pools::time_near(random, stored.start);
    let mut made = Announcement {
        identifier: pools::identifier(random),
        group: own.settings.group.max(1),
        call_type: pools::call_type(random),
        refresh: pools::refresh(random),
        media: pools::media(random),
        originator: pools::user(random),
        start,
        last_change: pools::time_near(random, stored.last_change),
        last_changer: pools::user(random),
        confirm: pools::zero_or_one(random),
    };
    if random.chance(3) {
        made.identifier = stored.identifier.max(1);
    }
    if random.chance(4) {
        made.call_type = stored.call_type.clamp(1, 3);
        made.start = stored.start;
    }
    if random.chance(12) {
        made.group = pools::group(random);
    }
    made
}

/// Puts in words that a line is heard that is mostly not as it should be.
pub fn damaged(random: &mut Random, name: Name, own: &Cab) -> Phrase {
    let line = match random.below(4) {
        0 => making::line(random),
        1 => {
            let mut line = line_of(&making::message_perhaps_outside(random));
            if random.chance(3) {
                line.pop();
            }
            line
        }
        _ => {
            let kind = *random.pick(&Kind::ALL);
            let mut line = phrase(random, name, own, kind).first.remove(2);
            line.push(LINE_END);
            making::damage(random, line)
        }
    };
    let (word, ended) = word(random, &line);
    let phrase = Phrase::new(name, &["hears"]).word(&word);
    if !ended || random.chance(8) {
        return phrase.given("ended", Value::yes(ended));
    }
    phrase
}

/// Gives the word of a line, which mostly has no byte that would end it and now and then one that is no
/// digit, and whether the line is ended.
pub fn word(random: &mut Random, line: &[u8]) -> (Vec<u8>, bool) {
    let (mut word, ended) = match line.strip_suffix(&[LINE_END]) {
        Some(digits) => (digits.to_vec(), true),
        None => (line.to_vec(), false),
    };
    if !random.chance(16) {
        word.retain(|byte| !b" \t\r\n,=#".contains(byte));
    }
    if word.is_empty() {
        word.extend(b"nothing");
    } else if random.chance(6) {
        let place = random.below(word.len() as u64) as usize;
        word[place] = *random.pick(b"AFGgxZ.:/@`-\0\x7f\xff");
    }
    (word, ended)
}
