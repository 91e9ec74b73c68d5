//! What can happen to a cab, with the states in which a row waits for it.

use crate::heard;
use crate::phrase::{Phrase, Value};
use crate::pools;
use independent::drill::cab::{Cab, Name};
use independent::kind::Kind;
use independent::random::Random;
use independent::timer::Timer;
use independent::{group, private};

/// One thing that can happen.
#[derive(Clone, Copy, Debug)]
pub enum Cue {
    PrivateStart,
    PrivateEnd,
    PrivateAccept,
    PrivateReject,
    GroupStart,
    GroupAccept,
    GroupReject,
    GroupLeave,
    GroupRaise,
    Expires(Timer),
    Hears(Kind),
}

/// The states of the private machine, with a timer where only one will do, and what a row waits for there,
/// or what it must not take; what leads to several rows stands more than once.
pub const PRIVATE: &[(private::State, Option<Timer>, Cue)] = {
    use private::State::{P0, P1, P2, P3, P4, P5};
    use Cue::{Expires, Hears, PrivateAccept, PrivateEnd, PrivateReject, PrivateStart};
    use Kind::{Accept, AcceptAck, PrivateCallSetupRequest, Reject, Release, ReleaseAck, Ringing};
    use Timer::{Tfp1, Tfp2, Tfp3, Tfp4, Tfp5, Tfp7};
    &[
        (P0, None, PrivateStart),
        (P1, None, PrivateStart),
        (P2, Some(Tfp1), Expires(Tfp1)),
        (P2, Some(Tfp1), Expires(Tfp1)),
        (P2, Some(Tfp1), Expires(Tfp1)),
        (P2, Some(Tfp1), Hears(Ringing)),
        (P2, None, Hears(Accept)),
        (P2, None, Hears(Reject)),
        (P2, Some(Tfp2), Expires(Tfp2)),
        (P2, None, PrivateEnd),
        (P2, Some(Tfp1), PrivateStart),
        (P4, None, PrivateEnd),
        (P3, None, Expires(Tfp3)),
        (P3, None, Expires(Tfp3)),
        (P3, None, Hears(ReleaseAck)),
        (P3, None, Hears(Release)),
        (P4, None, Hears(Release)),
        (P5, None, Hears(Release)),
        (P1, None, Hears(Release)),
        (P4, None, Expires(Tfp5)),
        (P5, Some(Tfp4), Expires(Tfp4)),
        (P5, Some(Tfp4), Expires(Tfp4)),
        (P5, Some(Tfp4), Hears(AcceptAck)),
        (P5, Some(Tfp4), PrivateAccept),
        (P0, None, Hears(PrivateCallSetupRequest)),
        (P0, None, Hears(PrivateCallSetupRequest)),
        (P1, None, Hears(PrivateCallSetupRequest)),
        (P1, None, Hears(PrivateCallSetupRequest)),
        (P5, Some(Tfp2), PrivateAccept),
        (P5, Some(Tfp2), PrivateAccept),
        (P5, Some(Tfp2), PrivateAccept),
        (P5, Some(Tfp2), PrivateReject),
        (P5, Some(Tfp2), Expires(Tfp2)),
        (P2, None, Hears(PrivateCallSetupRequest)),
        (P3, None, Hears(PrivateCallSetupRequest)),
        (P4, None, Hears(PrivateCallSetupRequest)),
        (P5, None, Hears(PrivateCallSetupRequest)),
        (P1, None, Expires(Tfp7)),
        (P4, None, Hears(Accept)),
        (P4, None, Hears(Accept)),
    ]
};

/// The states of the group machine and what a row waits for there, as in the other table.
pub const GROUP: &[(group::State, Cue)] = {
    use group::State::{S1, S3, S4, S5};
    use Cue::{Expires, GroupAccept, GroupLeave, GroupRaise, GroupReject, GroupStart, Hears};
    use Kind::GroupCallAnnouncement;
    use Timer::{Tfg2, Tfg4, Tfg6};
    &[
        (S1, GroupStart),
        (S3, Expires(Tfg2)),
        (S1, Hears(GroupCallAnnouncement)),
        (S1, Hears(GroupCallAnnouncement)),
        (S5, GroupAccept),
        (S4, GroupAccept),
        (S4, Hears(GroupCallAnnouncement)),
        (S5, Hears(GroupCallAnnouncement)),
        (S4, GroupReject),
        (S5, GroupReject),
        (S4, Expires(Tfg4)),
        (S5, Expires(Tfg4)),
        (S3, GroupLeave),
        (S3, Expires(Tfg6)),
        (S3, GroupRaise),
        (S3, GroupRaise),
        (S3, GroupRaise),
        (S3, Hears(GroupCallAnnouncement)),
        (S3, Hears(GroupCallAnnouncement)),
        (S3, Hears(GroupCallAnnouncement)),
    ]
};

/// Draws something that can happen, whatever the state.
pub fn any(random: &mut Random) -> Cue {
    const ACTIONS: [Cue; 9] = [
        Cue::PrivateStart,
        Cue::PrivateEnd,
        Cue::PrivateAccept,
        Cue::PrivateReject,
        Cue::GroupStart,
        Cue::GroupAccept,
        Cue::GroupReject,
        Cue::GroupLeave,
        Cue::GroupRaise,
    ];
    match random.below(3) {
        0 => *random.pick(&ACTIONS),
        1 => {
            let timers: Vec<Timer> = Timer::all().collect();
            Cue::Expires(*random.pick(&timers))
        }
        _ => Cue::Hears(*random.pick(&Kind::ALL)),
    }
}

/// Draws something that a row of a cab may wait for in the states that its machines are in.
pub fn awaited(random: &mut Random, cab: &Cab) -> Cue {
    let private = PRIVATE
        .iter()
        .filter(|(state, timer, _)| {
            *state == cab.private.state && timer.is_none_or(|timer| cab.private.running.has(timer))
        })
        .map(|(_, _, cue)| *cue);
    let group = GROUP
        .iter()
        .filter(|(state, _)| *state == cab.group.state)
        .map(|(_, cue)| *cue);
    let cues: Vec<Cue> = private.chain(group).collect();
    *random.pick(&cues)
}

/// Puts in words what happens to a cab, while the other cab is as it is.
pub fn phrase(random: &mut Random, name: Name, own: &Cab, other: &Cab, cue: Cue) -> Phrase {
    match cue {
        Cue::PrivateStart => private_start(random, name, own, other),
        Cue::GroupStart => group_start(random, name),
        Cue::GroupRaise => group_raise(random, name, own),
        Cue::PrivateEnd => plain(random, name, &["private", "end"]),
        Cue::PrivateAccept => {
            let phrase = Phrase::new(name, &["private", "accept"]);
            let good = random.chance(3);
            verdicts(random, phrase, true, good)
        }
        Cue::PrivateReject => plain(random, name, &["private", "reject"]),
        Cue::GroupAccept => plain(random, name, &["group", "accept"]),
        Cue::GroupReject => plain(random, name, &["group", "reject"]),
        Cue::GroupLeave => plain(random, name, &["group", "leave"]),
        Cue::Expires(timer) => plain(random, name, &[timer.name(), "expires"]),
        Cue::Hears(kind) => heard::phrase(random, name, own, kind),
    }
}

/// Puts an event without arguments in words.
fn plain(random: &mut Random, name: Name, words: &[&str]) -> Phrase {
    let (media, signature) = (!random.chance(8), !random.chance(8));
    verdicts(random, Phrase::new(name, words), media, signature)
}

/// Names verdicts: a no always, a yes seldom.
pub fn verdicts(random: &mut Random, mut phrase: Phrase, media: bool, signature: bool) -> Phrase {
    for (name, verdict) in [("media-verdict", media), ("signature-verdict", signature)] {
        if !verdict || random.chance(8) {
            phrase = phrase.given(name, Value::yes(verdict));
        }
    }
    phrase
}

/// Puts the start of a private call in words.
fn private_start(random: &mut Random, name: Name, own: &Cab, other: &Cab) -> Phrase {
    let identifier = match random.below(12) {
        0 => own.private.call.identifier,
        _ => pools::identifier(random),
    };
    let callee = match random.below(8) {
        0 => pools::user(random),
        1..=3 => pools::user_beside(random, own.settings.user),
        _ => other.settings.user,
    };
    let pck_id = match random.below(16) {
        0 => pools::outside_pck_id(random),
        _ => pools::pck_id(random),
    };
    let arguments = [
        ("identifier", identifier),
        ("callee", callee),
        ("commencement", pools::zero_or_one(random)),
        ("media", pools::media(random)),
        ("pck-id", pck_id),
    ];
    with_arguments(random, Phrase::new(name, &["private", "start"]), &arguments)
}

/// Puts the start of a group call in words.
fn group_start(random: &mut Random, name: Name) -> Phrase {
    let arguments = [
        ("identifier", pools::identifier(random)),
        ("type", pools::call_type(random)),
        ("refresh", pools::refresh(random)),
        ("media", pools::media(random)),
        ("confirm", pools::zero_or_one(random)),
        ("now", pools::time(random)),
    ];
    with_arguments(random, Phrase::new(name, &["group", "start"]), &arguments)
}

/// Puts a raise in words.
fn group_raise(random: &mut Random, name: Name, own: &Cab) -> Phrase {
    let last_change = own.group.call.last_change;
    let now = match random.below(3) {
        0 => last_change.saturating_add(1),
        _ => pools::time_near(random, last_change),
    };
    let arguments = [("type", *random.pick(&[1, 2, 2, 2, 3])), ("now", now)];
    with_arguments(random, Phrase::new(name, &["group", "raise"]), &arguments)
}

/// Names arguments, now and then one that is out of its range, and not every 0.
fn with_arguments(
    random: &mut Random,
    mut phrase: Phrase,
    arguments: &[(&'static str, u32)],
) -> Phrase {
    let spoilt = random.below(arguments.len() as u64 * 10) as usize;
    for (place, &(name, good)) in arguments.iter().enumerate() {
        let value = if place == spoilt && name != "now" {
            pools::outside(random, name)
        } else {
            good
        };
        if value != 0 || random.chance(2) {
            phrase = phrase.number(name, value);
        }
    }
    let (media, signature) = (!random.chance(8), !random.chance(8));
    verdicts(random, phrase, media, signature)
}
