//! A second reading of the cab terminal's rules, written from the rules
//! alone, so that another implementation can be compared with it.
//!
//! The crate reads and writes frames as lines, chooses between two announcement
//! lines, answers a whole log, takes the steps of the private and the group call
//! machine, plays scripts of such steps, and makes seeded inputs for comparisons.

#![forbid(unsafe_code)]

pub mod chooser;
pub mod command;
pub mod counter;
pub mod drill;
pub mod event;
pub mod group;
pub mod kind;
pub mod line;
pub mod log;
pub mod making;
pub mod message;
pub mod private;
pub mod random;
pub mod settings;
pub mod shown;
pub mod step;
pub mod timer;

#[cfg(test)]
mod samples;
