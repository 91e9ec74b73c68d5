//! Sample messages, lines and ranges for the unit tests: values, digits and
//! ranges are written out by hand, and only which field stands at which place
//! of a message is taken from the tables.

use crate::kind::Kind;
use crate::message::{Accept, Announcement, GroupAccept, Message, Reject, SetupRequest, Users};

/// The two users and the identifier of the marked RINGING line.
const USERS: Users = Users {
    identifier: 0x1234,
    caller: 7,
    callee: 9,
};

/// The first line of the run that is compared, as a message.
pub const SETUP: SetupRequest = SetupRequest {
    identifier: 0x1234,
    caller: 7,
    callee: 9,
    commencement: 0,
    call_type: 4,
    media: 5,
    pck_id: 0,
};

/// The announcement that is compared, as a message.
pub const ANNOUNCEMENT: Announcement = Announcement {
    identifier: 16,
    group: 3,
    call_type: 2,
    refresh: 30,
    media: 5,
    originator: 7,
    start: 1000,
    last_change: 1000,
    last_changer: 7,
    confirm: 1,
};

/// An announcement whose ten values all differ, so that no two fields can be swapped unseen.
const ALL_DIFFERENT: Announcement = Announcement {
    identifier: 0x0a1b,
    group: 0x1122_3344,
    call_type: 3,
    refresh: 0x2c3d,
    media: 0x5566_7788,
    originator: 0x99aa_bbcc,
    start: 0xddee_ff00,
    last_change: 0x0123_4567,
    last_changer: 0x89ab_cdef,
    confirm: 0,
};

/// One good message of every kind, and a second announcement.
pub const MESSAGES: [(Kind, Message); 10] = [
    (
        Kind::PrivateCallSetupRequest,
        Message::PrivateCallSetupRequest(SETUP),
    ),
    (Kind::Ringing, Message::Ringing(USERS)),
    (
        Kind::Accept,
        Message::Accept(Accept {
            identifier: 0x1234,
            caller: 7,
            callee: 9,
            media: 6,
        }),
    ),
    (
        Kind::Reject,
        Message::Reject(Reject {
            identifier: 0xabcd,
            caller: 0x89ef,
            callee: 9,
            reason: 2,
        }),
    ),
    (Kind::Release, Message::Release(USERS)),
    (Kind::ReleaseAck, Message::ReleaseAck(USERS)),
    (Kind::AcceptAck, Message::AcceptAck(USERS)),
    (
        Kind::GroupCallAnnouncement,
        Message::GroupCallAnnouncement(ANNOUNCEMENT),
    ),
    (
        Kind::GroupCallAccept,
        Message::GroupCallAccept(GroupAccept {
            identifier: 16,
            sender: 7,
            call_type: 3,
            group: 0xfedc_ba98,
        }),
    ),
    (
        Kind::GroupCallAnnouncement,
        Message::GroupCallAnnouncement(ALL_DIFFERENT),
    ),
];

/// The same messages as lines, written out digit by digit without the line end.
pub const DIGITS: [&str; 10] = [
    "011234000000070000000900040000000500000000",
    "0212340000000700000009",
    "031234000000070000000900000006",
    "04abcd000089ef0000000902",
    "0512340000000700000009",
    "0612340000000700000009",
    "0712340000000700000009",
    "0800100000000302001e0000000500000007000003e8000003e80000000701",
    "0900100000000703fedcba98",
    "080a1b11223344032c3d5566778899aabbccddeeff000123456789abcdef00",
];

/// Values of one field that must pass and that must not.
pub struct Range {
    /// The names of the fields that share the range.
    pub names: &'static [&'static str],
    /// Values in range.
    pub good: &'static [u32],
    /// Values out of range, some of them too wide for a line.
    pub bad: &'static [u32],
}

/// The type of a private call, the only field whose range depends on the kind.
const PRIVATE_TYPE: Range = Range {
    names: &["call_type"],
    good: &[4],
    bad: &[0, 1, 2, 3, 5, 255, 260],
};

/// The ranges of all other fields.
pub const RANGES: [Range; 7] = [
    Range {
        names: &["identifier", "refresh"],
        good: &[1, 2, 65535],
        bad: &[0, 65536, 65537, u32::MAX],
    },
    Range {
        names: &[
            "caller",
            "callee",
            "media",
            "group",
            "originator",
            "last_changer",
            "sender",
        ],
        good: &[1, 2, u32::MAX],
        bad: &[0],
    },
    Range {
        names: &["commencement", "confirm"],
        good: &[0, 1],
        bad: &[2, 255, 256, 257],
    },
    Range {
        names: &["call_type"],
        good: &[1, 2, 3],
        bad: &[0, 4, 5, 255, 257],
    },
    Range {
        names: &["pck_id"],
        good: &[0, 0x1000_0000, 0x1000_0001, 0x1fff_ffff],
        bad: &[
            1,
            0x0fff_ffff,
            0x2000_0000,
            0x3000_0000,
            0x3fff_ffff,
            u32::MAX,
        ],
    },
    Range {
        names: &["reason"],
        good: &[0, 1, 2, 3, 4],
        bad: &[5, 255, 256],
    },
    Range {
        names: &["start", "last_change"],
        good: &[0, 1, u32::MAX],
        bad: &[],
    },
];

/// Finds the range of a field of a kind.
pub fn range_of(kind: Kind, name: &str) -> &'static Range {
    if kind == Kind::PrivateCallSetupRequest && name == "call_type" {
        return &PRIVATE_TYPE;
    }
    RANGES
        .iter()
        .find(|range| range.names.contains(&name))
        .expect("every field has its range")
}

/// Ends a piece of digits, so that tests can name lines as text.
pub fn ended(digits: &str) -> Vec<u8> {
    format!("{digits}\n").into_bytes()
}
