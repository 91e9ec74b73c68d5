//! The rules' table of kinds as data: which fields a kind carries, how wide
//! each one is on the line, and which values each one may have.

/// One field of a frame, as reader, writer and range test all see it.
#[derive(Clone, Copy, Debug, PartialEq, Eq)]
pub struct Field {
    /// The field's name, the same as in the message structs.
    pub name: &'static str,
    /// How many bytes the field takes, each of them two digits on the line.
    pub bytes: usize,
    /// The stretches of allowed values, both ends included.
    pub allowed: &'static [(u32, u32)],
}

impl Field {
    /// Tells whether a value is in the field's range.
    pub fn allows(&self, value: u32) -> bool {
        self.allowed
            .iter()
            .any(|&(lowest, highest)| lowest <= value && value <= highest)
    }

    /// Gives the largest value that the field's bytes can carry.
    pub fn largest(&self) -> u32 {
        match self.bytes {
            1 => 0xff,
            2 => 0xffff,
            _ => u32::MAX,
        }
    }

    /// Tells whether a value, in range or not, can be put on a line at all.
    pub fn fits(&self, value: u32) -> bool {
        value <= self.largest()
    }
}

/// Builds a table entry, so that the tables below stay one line a field.
const fn field(name: &'static str, bytes: usize, allowed: &'static [(u32, u32)]) -> Field {
    Field {
        name,
        bytes,
        allowed,
    }
}

/// Four-byte numbers that may not be 0: users, groups and media.
const FROM_ONE: &[(u32, u32)] = &[(1, u32::MAX)];
/// Two-byte numbers that may not be 0: the identifier and refresh.
const SHORT_FROM_ONE: &[(u32, u32)] = &[(1, 0xffff)];
/// Times, which may have any value.
const ANY: &[(u32, u32)] = &[(0, u32::MAX)];
/// Fields with two answers: commencement and confirm.
const ZERO_OR_ONE: &[(u32, u32)] = &[(0, 1)];
/// The one type of a private call.
const PRIVATE_TYPE: &[(u32, u32)] = &[(4, 4)];
/// The types of a group call: basic, emergency, imminent peril.
const GROUP_TYPE: &[(u32, u32)] = &[(1, 3)];
/// The five reasons of a reject.
const REASONS: &[(u32, u32)] = &[(0, 4)];
/// No security, or a number whose top four bits are 0001.
const PCK_ID: &[(u32, u32)] = &[(0, 0), (0x1000_0000, 0x1fff_ffff)];

/// The identifier, which every kind carries first.
const IDENTIFIER: Field = field("identifier", 2, SHORT_FROM_ONE);
/// The user who calls.
const CALLER: Field = field("caller", 4, FROM_ONE);
/// The user who is called.
const CALLEE: Field = field("callee", 4, FROM_ONE);
/// The media number.
const MEDIA: Field = field("media", 4, FROM_ONE);
/// The group number.
const GROUP: Field = field("group", 4, FROM_ONE);
/// The type of a group call.
pub const GROUP_CALL_TYPE: Field = field("call_type", 1, GROUP_TYPE);

/// The fields of kind 01.
const SETUP_REQUEST: &[Field] = &[
    IDENTIFIER,
    CALLER,
    CALLEE,
    field("commencement", 1, ZERO_OR_ONE),
    field("call_type", 1, PRIVATE_TYPE),
    MEDIA,
    field("pck_id", 4, PCK_ID),
];
/// The fields of the four kinds 02, 05, 06 and 07.
const USERS: &[Field] = &[IDENTIFIER, CALLER, CALLEE];
/// The fields of kind 03.
const ACCEPT: &[Field] = &[IDENTIFIER, CALLER, CALLEE, MEDIA];
/// The fields of kind 04.
const REJECT: &[Field] = &[IDENTIFIER, CALLER, CALLEE, field("reason", 1, REASONS)];
/// The fields of kind 08.
const ANNOUNCEMENT: &[Field] = &[
    IDENTIFIER,
    GROUP,
    GROUP_CALL_TYPE,
    field("refresh", 2, SHORT_FROM_ONE),
    MEDIA,
    field("originator", 4, FROM_ONE),
    field("start", 4, ANY),
    field("last_change", 4, ANY),
    field("last_changer", 4, FROM_ONE),
    field("confirm", 1, ZERO_OR_ONE),
];
/// The fields of kind 09.
const GROUP_ACCEPT: &[Field] = &[
    IDENTIFIER,
    field("sender", 4, FROM_ONE),
    GROUP_CALL_TYPE,
    GROUP,
];

/// The nine kinds of frame, each with its number on the line.
#[derive(Clone, Copy, Debug, PartialEq, Eq)]
pub enum Kind {
    PrivateCallSetupRequest = 1,
    Ringing = 2,
    Accept = 3,
    Reject = 4,
    Release = 5,
    ReleaseAck = 6,
    AcceptAck = 7,
    GroupCallAnnouncement = 8,
    GroupCallAccept = 9,
}

impl Kind {
    /// All kinds in the order of their numbers.
    pub const ALL: [Kind; 9] = [
        Kind::PrivateCallSetupRequest,
        Kind::Ringing,
        Kind::Accept,
        Kind::Reject,
        Kind::Release,
        Kind::ReleaseAck,
        Kind::AcceptAck,
        Kind::GroupCallAnnouncement,
        Kind::GroupCallAccept,
    ];

    /// Gives the number that stands in the first byte of a frame.
    pub fn code(self) -> u32 {
        self as u32
    }

    /// Finds the kind with a given number, if there is one.
    pub fn of_code(code: u32) -> Option<Kind> {
        Kind::ALL.into_iter().find(|kind| kind.code() == code)
    }

    /// Gives the fields that follow the kind byte, in line order.
    pub fn fields(self) -> &'static [Field] {
        match self {
            Kind::PrivateCallSetupRequest => SETUP_REQUEST,
            Kind::Ringing | Kind::Release | Kind::ReleaseAck | Kind::AcceptAck => USERS,
            Kind::Accept => ACCEPT,
            Kind::Reject => REJECT,
            Kind::GroupCallAnnouncement => ANNOUNCEMENT,
            Kind::GroupCallAccept => GROUP_ACCEPT,
        }
    }

    /// Gives the bytes of a whole frame, as the last column of the table has it.
    pub fn total(self) -> usize {
        match self {
            Kind::PrivateCallSetupRequest => 21,
            Kind::Ringing | Kind::Release | Kind::ReleaseAck | Kind::AcceptAck => 11,
            Kind::Accept => 15,
            Kind::Reject => 12,
            Kind::GroupCallAnnouncement => 31,
            Kind::GroupCallAccept => 12,
        }
    }
}

#[cfg(test)]
mod tests {
    use super::*;
    use crate::message::MOST_FIELDS;

    /// The totals of the table must be the sum of kind byte and fields.
    #[test]
    fn totals_are_sums() {
        for kind in Kind::ALL {
            let sum: usize = kind.fields().iter().map(|field| field.bytes).sum();
            assert_eq!(kind.total(), 1 + sum, "{kind:?}");
            assert!(kind.fields().len() <= MOST_FIELDS);
        }
    }

    /// Numbers 1 to 9 name a kind each and no other number does.
    #[test]
    fn codes_run_from_one_to_nine() {
        for code in 0..=300 {
            let kind = Kind::of_code(code);
            assert_eq!(kind.is_some(), (1..=9).contains(&code));
            assert!(kind.is_none_or(|kind| kind.code() == code));
        }
    }

    /// Every allowed value must fit its field's bytes, or no line could carry it.
    #[test]
    fn allowed_values_fit() {
        for field in Kind::ALL.iter().flat_map(|kind| kind.fields()) {
            for &(lowest, highest) in field.allowed {
                assert!(lowest <= highest && field.fits(highest), "{}", field.name);
            }
        }
    }
}
