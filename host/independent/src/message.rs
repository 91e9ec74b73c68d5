//! Messages of the nine kinds, with fields wide enough to hold wrong values too.

use crate::kind::Kind;

/// The most fields any kind has, the identifier counted.
pub const MOST_FIELDS: usize = 10;

/// A message's field values in line order; places a kind does not use are 0.
pub type Values = [u32; MOST_FIELDS];

/// What a PRIVATE CALL SETUP REQUEST carries.
#[derive(Clone, Copy, Debug, PartialEq, Eq)]
pub struct SetupRequest {
    pub identifier: u32,
    pub caller: u32,
    pub callee: u32,
    pub commencement: u32,
    pub call_type: u32,
    pub media: u32,
    pub pck_id: u32,
}

/// What RINGING, RELEASE, RELEASE ACK and ACCEPT ACK carry alike.
#[derive(Clone, Copy, Debug, PartialEq, Eq)]
pub struct Users {
    pub identifier: u32,
    pub caller: u32,
    pub callee: u32,
}

/// What an ACCEPT carries.
#[derive(Clone, Copy, Debug, PartialEq, Eq)]
pub struct Accept {
    pub identifier: u32,
    pub caller: u32,
    pub callee: u32,
    pub media: u32,
}

/// What a REJECT carries.
#[derive(Clone, Copy, Debug, PartialEq, Eq)]
pub struct Reject {
    pub identifier: u32,
    pub caller: u32,
    pub callee: u32,
    pub reason: u32,
}

/// What a GROUP CALL ANNOUNCEMENT carries.
#[derive(Clone, Copy, Debug, PartialEq, Eq)]
pub struct Announcement {
    pub identifier: u32,
    pub group: u32,
    pub call_type: u32,
    pub refresh: u32,
    pub media: u32,
    pub originator: u32,
    pub start: u32,
    pub last_change: u32,
    pub last_changer: u32,
    pub confirm: u32,
}

/// What a GROUP CALL ACCEPT carries.
#[derive(Clone, Copy, Debug, PartialEq, Eq)]
pub struct GroupAccept {
    pub identifier: u32,
    pub sender: u32,
    pub call_type: u32,
    pub group: u32,
}

/// A message of one of the nine kinds.
#[derive(Clone, Copy, Debug, PartialEq, Eq)]
pub enum Message {
    PrivateCallSetupRequest(SetupRequest),
    Ringing(Users),
    Accept(Accept),
    Reject(Reject),
    Release(Users),
    ReleaseAck(Users),
    AcceptAck(Users),
    GroupCallAnnouncement(Announcement),
    GroupCallAccept(GroupAccept),
}

impl Message {
    /// Tells which of the nine kinds the message is.
    pub fn kind(&self) -> Kind {
        match self {
            Message::PrivateCallSetupRequest(_) => Kind::PrivateCallSetupRequest,
            Message::Ringing(_) => Kind::Ringing,
            Message::Accept(_) => Kind::Accept,
            Message::Reject(_) => Kind::Reject,
            Message::Release(_) => Kind::Release,
            Message::ReleaseAck(_) => Kind::ReleaseAck,
            Message::AcceptAck(_) => Kind::AcceptAck,
            Message::GroupCallAnnouncement(_) => Kind::GroupCallAnnouncement,
            Message::GroupCallAccept(_) => Kind::GroupCallAccept,
        }
    }

    /// Lays the fields out in the order of the kind's table.
    pub fn values(&self) -> Values {
        match self {
            Message::PrivateCallSetupRequest(sent) => padded(&[
                sent.identifier,
                sent.caller,
                sent.callee,
                sent.commencement,
                sent.call_type,
                sent.media,
                sent.pck_id,
            ]),
            Message::Ringing(sent)
            | Message::Release(sent)
            | Message::ReleaseAck(sent)
            | Message::AcceptAck(sent) => padded(&[sent.identifier, sent.caller, sent.callee]),
            Message::Accept(sent) => {
                padded(&[sent.identifier, sent.caller, sent.callee, sent.media])
            }
            Message::Reject(sent) => {
                padded(&[sent.identifier, sent.caller, sent.callee, sent.reason])
            }
            Message::GroupCallAnnouncement(sent) => padded(&[
                sent.identifier,
                sent.group,
                sent.call_type,
                sent.refresh,
                sent.media,
                sent.originator,
                sent.start,
                sent.last_change,
                sent.last_changer,
                sent.confirm,
            ]),
            Message::GroupCallAccept(sent) => {
                padded(&[sent.identifier, sent.sender, sent.call_type, sent.group])
            }
        }
    }

    /// Builds the message of a kind from values in the order of its table.
    pub fn from_values(kind: Kind, values: &Values) -> Message {
        match kind {
            Kind::PrivateCallSetupRequest => {
                Message::PrivateCallSetupRequest(setup_request(values))
            }
            Kind::Ringing => Message::Ringing(users(values)),
            Kind::Accept => Message::Accept(accept(values)),
            Kind::Reject => Message::Reject(reject(values)),
            Kind::Release => Message::Release(users(values)),
            Kind::ReleaseAck => Message::ReleaseAck(users(values)),
            Kind::AcceptAck => Message::AcceptAck(users(values)),
            Kind::GroupCallAnnouncement => Message::GroupCallAnnouncement(announcement(values)),
            Kind::GroupCallAccept => Message::GroupCallAccept(group_accept(values)),
        }
    }

    /// Tells whether every field has a value that the rules allow.
    pub fn in_range(&self) -> bool {
        self.kind()
            .fields()
            .iter()
            .zip(self.values())
            .all(|(field, value)| field.allows(value))
    }
}

/// Fills a short list of values up with zeros.
fn padded(short: &[u32]) -> Values {
    let mut values = [0; MOST_FIELDS];
    values[..short.len()].copy_from_slice(short);
    values
}

/// Names the values of kind 01.
fn setup_request(values: &Values) -> SetupRequest {
    let [identifier, caller, callee, commencement, call_type, media, pck_id, ..] = *values;
    SetupRequest {
        identifier,
        caller,
        callee,
        commencement,
        call_type,
        media,
        pck_id,
    }
}

/// Names the values of the kinds that carry only the two users.
fn users(values: &Values) -> Users {
    let [identifier, caller, callee, ..] = *values;
    Users {
        identifier,
        caller,
        callee,
    }
}

/// Names the values of kind 03.
fn accept(values: &Values) -> Accept {
    let [identifier, caller, callee, media, ..] = *values;
    Accept {
        identifier,
        caller,
        callee,
        media,
    }
}

/// Names the values of kind 04.
fn reject(values: &Values) -> Reject {
    let [identifier, caller, callee, reason, ..] = *values;
    Reject {
        identifier,
        caller,
        callee,
        reason,
    }
}

/// Names the values of kind 08.
fn announcement(values: &Values) -> Announcement {
    let [identifier, group, call_type, refresh, media, ..] = *values;
    let [.., originator, start, last_change, last_changer, confirm] = *values;
    Announcement {
        identifier,
        group,
        call_type,
        refresh,
        media,
        originator,
        start,
        last_change,
        last_changer,
        confirm,
    }
}

/// Names the values of kind 09.
fn group_accept(values: &Values) -> GroupAccept {
    let [identifier, sender, call_type, group, ..] = *values;
    GroupAccept {
        identifier,
        sender,
        call_type,
        group,
    }
}

#[cfg(test)]
mod tests {
    use super::*;
    use crate::samples::{self, RANGES};

    /// A message must survive being laid out as values and built again.
    #[test]
    fn values_there_and_back() {
        for (kind, message) in samples::MESSAGES {
            assert_eq!(message.kind(), kind);
            assert_eq!(Message::from_values(kind, &message.values()), message);
            assert!(message.in_range(), "{message:?}");
        }
    }

    /// Each field alone, at the values named in the rules' ranges and just outside.
    #[test]
    fn each_field_at_its_edges() {
        let mut met = 0;
        for (kind, message) in samples::MESSAGES {
            for (place, field) in kind.fields().iter().enumerate() {
                let range = samples::range_of(kind, field.name);
                for (list, expected) in [(range.good, true), (range.bad, false)] {
                    for &value in list {
                        let mut values = message.values();
                        values[place] = value;
                        let changed = Message::from_values(kind, &values);
                        assert_eq!(changed.in_range(), expected, "{changed:?}");
                    }
                }
                met += 1;
            }
        }
        assert_eq!(met, 51);
        assert!(RANGES.iter().all(|range| !range.good.is_empty()));
    }
}
