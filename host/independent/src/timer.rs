//! The nine timers of the two machines, and sets of them.

/// One timer, of the private machine or of the group machine.
#[derive(Clone, Copy, Debug, PartialEq, Eq)]
pub enum Timer {
    Tfp1,
    Tfp2,
    Tfp3,
    Tfp4,
    Tfp5,
    Tfp7,
    Tfg2,
    Tfg4,
    Tfg6,
}

impl Timer {
    /// The timers of the private machine in the order of their numbers.
    pub const PRIVATE: [Timer; 6] = [
        Timer::Tfp1,
        Timer::Tfp2,
        Timer::Tfp3,
        Timer::Tfp4,
        Timer::Tfp5,
        Timer::Tfp7,
    ];

    /// The timers of the group machine in the order of their numbers.
    pub const GROUP: [Timer; 3] = [Timer::Tfg2, Timer::Tfg4, Timer::Tfg6];

    /// Gives the timer's name.
    pub fn name(self) -> &'static str {
        match self {
            Timer::Tfp1 => "TFP1",
            Timer::Tfp2 => "TFP2",
            Timer::Tfp3 => "TFP3",
            Timer::Tfp4 => "TFP4",
            Timer::Tfp5 => "TFP5",
            Timer::Tfp7 => "TFP7",
            Timer::Tfg2 => "TFG2",
            Timer::Tfg4 => "TFG4",
            Timer::Tfg6 => "TFG6",
        }
    }

    /// Lists the timers of both machines, those of the private one first.
    pub fn all() -> impl Iterator<Item = Timer> {
        Timer::PRIVATE.into_iter().chain(Timer::GROUP)
    }

    /// Finds the timer of a name, if there is one.
    pub fn of_name(name: &str) -> Option<Timer> {
        Timer::all().find(|timer| timer.name() == name)
    }

    /// Tells whether the timer is the private machine's.
    pub fn is_private(self) -> bool {
        Timer::PRIVATE.contains(&self)
    }
}

/// A set of timers.
#[derive(Clone, Copy, Debug, PartialEq, Eq)]
pub struct Timers {
    /// One bit for each timer that is in the set.
    bits: u32,
}

impl Timers {
    /// The set without a timer.
    pub const NONE: Timers = Timers { bits: 0 };

    /// Puts timers into a set.
    pub const fn of(list: &[Timer]) -> Timers {
        let mut bits = 0;
        let mut place = 0;
        while place < list.len() {
            bits |= 1 << list[place] as u32;
            place += 1;
        }
        Timers { bits }
    }

    /// Tells whether a timer is in the set.
    pub fn has(self, timer: Timer) -> bool {
        self.bits & Timers::of(&[timer]).bits != 0
    }

    /// Gives what is in either of two sets.
    pub fn and(self, other: Timers) -> Timers {
        Timers {
            bits: self.bits | other.bits,
        }
    }

    /// Gives what is in this set and not in the other.
    pub fn without(self, other: Timers) -> Timers {
        Timers {
            bits: self.bits & !other.bits,
        }
    }

    /// Lists the timers of the set in the order of their names.
    pub fn list(self) -> impl Iterator<Item = Timer> {
        Timer::all().filter(move |&timer| self.has(timer))
    }
}

#[cfg(test)]
mod tests {
    use super::*;

    /// Every timer is found by its name, and sets hold just what was put into them.
    #[test]
    fn names_and_sets() {
        for timer in Timer::all() {
            assert_eq!(Timer::of_name(timer.name()), Some(timer));
            let alone = Timers::of(&[timer]);
            assert!(alone.list().eq([timer]));
            assert_eq!(alone.without(alone), Timers::NONE);
        }
        assert_eq!(Timer::of_name("TFP6"), None);
        let both = Timers::of(&[Timer::Tfg6, Timer::Tfg2]);
        assert!(both.list().eq([Timer::Tfg2, Timer::Tfg6]));
        assert_eq!(both.and(Timers::NONE), both);
    }
}
