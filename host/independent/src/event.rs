//! What can happen to a machine, whichever of the two it concerns.

use crate::kind::GROUP_CALL_TYPE;
use crate::line::OUTSIDE;
use crate::message::{Announcement, Message, SetupRequest};
use crate::settings::Settings;
use crate::timer::{Timer, Timers};

/// An argument of an action is out of its range, or is one that its row forbids.
pub const WRONG_ARGUMENT: u32 = 8;

/// The type of every private call.
pub const PRIVATE_CALL_TYPE: u32 = 4;

/// What the user names to start a private call.
#[derive(Clone, Copy, Debug, PartialEq, Eq)]
pub struct PrivateStart {
    pub identifier: u32,
    pub callee: u32,
    pub commencement: u32,
    pub media: u32,
    pub pck_id: u32,
}

impl PrivateStart {
    /// Gives the request that a caller with these arguments would send.
    pub fn request(&self, caller: u32) -> SetupRequest {
        SetupRequest {
            identifier: self.identifier,
            caller,
            callee: self.callee,
            commencement: self.commencement,
            call_type: PRIVATE_CALL_TYPE,
            media: self.media,
            pck_id: self.pck_id,
        }
    }
}

/// What the user names to start a group call.
#[derive(Clone, Copy, Debug, PartialEq, Eq)]
pub struct GroupStart {
    pub identifier: u32,
    pub call_type: u32,
    pub refresh: u32,
    pub media: u32,
    pub confirm: u32,
    pub now: u32,
}

impl GroupStart {
    /// Gives the announcement that a user of these settings would send.
    pub fn announcement(&self, settings: &Settings) -> Announcement {
        Announcement {
            identifier: self.identifier,
            group: settings.group,
            call_type: self.call_type,
            refresh: self.refresh,
            media: self.media,
            originator: settings.user,
            start: self.now,
            last_change: self.now,
            last_changer: settings.user,
            confirm: self.confirm,
        }
    }
}

/// What the user names to raise the type of a group call.
#[derive(Clone, Copy, Debug, PartialEq, Eq)]
pub struct GroupRaise {
    pub call_type: u32,
    pub now: u32,
}

/// What a user can do.
#[derive(Clone, Copy, Debug, PartialEq, Eq)]
pub enum Action {
    PrivateStart(PrivateStart),
    PrivateEnd,
    PrivateAccept,
    PrivateReject,
    GroupStart(GroupStart),
    GroupAccept,
    GroupReject,
    GroupLeave,
    GroupRaise(GroupRaise),
}

impl Action {
    /// Tells whether every argument is in range, and a callee is not the own user.
    fn in_range(&self, settings: &Settings) -> bool {
        match self {
            Action::PrivateStart(start) => {
                let request = Message::PrivateCallSetupRequest(start.request(settings.user));
                request.in_range() && start.callee != settings.user
            }
            Action::GroupStart(start) => {
                Message::GroupCallAnnouncement(start.announcement(settings)).in_range()
            }
            Action::GroupRaise(raise) => GROUP_CALL_TYPE.allows(raise.call_type),
            _ => true,
        }
    }

    /// Tells whether the action is one of a private call.
    pub fn is_private(&self) -> bool {
        matches!(
            self,
            Action::PrivateStart(_)
                | Action::PrivateEnd
                | Action::PrivateAccept
                | Action::PrivateReject
        )
    }
}

/// What can happen: the user does something, a timer runs out, or a message is heard.
#[derive(Clone, Copy, Debug, PartialEq, Eq)]
pub enum Event {
    Action(Action),
    Expiry(Timer),
    Message(Message),
}

impl Event {
    /// Gives the number that refuses the event in whatever state it comes, or 0.
    pub fn number(&self, settings: &Settings) -> u32 {
        match self {
            Event::Message(message) if !message.in_range() => OUTSIDE,
            Event::Action(action) if !action.in_range(settings) => WRONG_ARGUMENT,
            _ => 0,
        }
    }

    /// Gives the timer that has run out, as a set of one or none.
    pub fn expired(&self) -> Timers {
        match self {
            Event::Expiry(timer) => Timers::of(&[*timer]),
            _ => Timers::NONE,
        }
    }
}

/// What the host has found out for a step.
#[derive(Clone, Copy, Debug, PartialEq, Eq)]
pub struct Verdicts {
    /// Whether media can be set up.
    pub media: bool,
    /// Whether the signature is good.
    pub signature: bool,
}
