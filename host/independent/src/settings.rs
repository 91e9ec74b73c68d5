//! The settings of a cab.

use crate::counter::{Counter, Counters};

/// The largest limit that a counter may have.
const LARGEST_LIMIT: u32 = 16;

/// What is set for a cab and does not change during a call.
#[derive(Clone, Copy, Debug, PartialEq, Eq)]
pub struct Settings {
    /// The own user.
    pub user: u32,
    /// The own group.
    pub group: u32,
    /// Whether a reject hides its reason.
    pub restrict: bool,
    /// Whether the user is asked before a group call is joined.
    pub acknowledgement: bool,
    /// How often each message is sent that is sent again without an answer.
    pub limits: Counters,
}

impl Settings {
    /// Tells whether every setting has a value that the rules allow.
    pub fn in_range(&self) -> bool {
        self.user != 0
            && self.group != 0
            && Counter::ALL
                .into_iter()
                .all(|counter| (1..=LARGEST_LIMIT).contains(&self.limits.get(counter)))
    }
}
