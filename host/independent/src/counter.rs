//! The three counters of the private machine, each of which goes with a timer.

use crate::timer::{Timer, Timers};

/// One of the three counters.
#[derive(Clone, Copy, Debug, PartialEq, Eq)]
pub enum Counter {
    Cfp1,
    Cfp3,
    Cfp4,
}

impl Counter {
    /// All counters in the order of their numbers.
    pub const ALL: [Counter; 3] = [Counter::Cfp1, Counter::Cfp3, Counter::Cfp4];

    /// Gives the counter's name.
    pub fn name(self) -> &'static str {
        match self {
            Counter::Cfp1 => "CFP1",
            Counter::Cfp3 => "CFP3",
            Counter::Cfp4 => "CFP4",
        }
    }

    /// Finds the counter of a name, if there is one.
    pub fn of_name(name: &str) -> Option<Counter> {
        Counter::ALL
            .into_iter()
            .find(|counter| counter.name() == name)
    }

    /// Gives the timer of the same number.
    pub fn timer(self) -> Timer {
        match self {
            Counter::Cfp1 => Timer::Tfp1,
            Counter::Cfp3 => Timer::Tfp3,
            Counter::Cfp4 => Timer::Tfp4,
        }
    }
}

/// A number for each counter: what it has counted, or its limit.
#[derive(Clone, Copy, Debug, PartialEq, Eq)]
pub struct Counters {
    numbers: [u32; 3],
}

impl Counters {
    /// Gives every counter the same number.
    pub const fn all(number: u32) -> Counters {
        Counters {
            numbers: [number; 3],
        }
    }

    /// Gives the number of one counter.
    pub fn get(&self, counter: Counter) -> u32 {
        self.numbers[counter as usize]
    }

    /// Gives the same numbers but for one counter.
    pub fn with(mut self, counter: Counter, number: u32) -> Counters {
        self.numbers[counter as usize] = number;
        self
    }

    /// Tells whether each is from 1 to its limit where its timer runs, and 0 where it does not.
    pub fn fit(&self, running: Timers, limits: &Counters) -> bool {
        Counter::ALL.into_iter().all(|counter| {
            let counted = self.get(counter);
            if running.has(counter.timer()) {
                (1..=limits.get(counter)).contains(&counted)
            } else {
                counted == 0
            }
        })
    }

    /// Sets every counter to 0 whose timer does not run.
    pub fn kept(self, running: Timers) -> Counters {
        let idle = Counter::ALL
            .into_iter()
            .filter(|counter| !running.has(counter.timer()));
        idle.fold(self, |kept, counter| kept.with(counter, 0))
    }
}
