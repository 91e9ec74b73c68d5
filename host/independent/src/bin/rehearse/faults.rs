//! Turns of a script in which a cab is set to what the rules refuse, and put right again.

use crate::cues;
use crate::phrase::{Phrase, Value};
use crate::pools;
use crate::records;
use crate::script::Maker;
use independent::drill::cab::Name;
use independent::step::Record;
use independent::{group, private};

/// The bytes of the longest line that is sent.
const LONGEST_LINE: usize = 63;

impl Maker {
    /// Changes some settings to such as there can be, and mostly clears what does not suit them any more.
    pub fn good_settings(&mut self, name: Name) {
        let mut phrase = Phrase::new(name, &["settings"]);
        let random = &mut self.random;
        if random.chance(2) {
            phrase = phrase.given("restrict", Value::yes(random.chance(2)));
        }
        if random.chance(2) {
            phrase = phrase.given("acknowledgement", Value::yes(random.chance(2)));
        }
        for counter in ["CFP1", "CFP3", "CFP4"] {
            if random.chance(3) {
                phrase = phrase.number(counter, *random.pick(&[1, 2, 2, 3, 4, 16]));
            }
        }
        if random.chance(6) {
            phrase = phrase.number("user", pools::user(random));
        }
        if random.chance(8) {
            phrase = phrase.number("group", pools::group(random));
        }
        self.say(&phrase);
    }

    /// Changes a setting to one that there cannot be, and lets something happen.
    pub fn bad_settings(&mut self, name: Name) {
        let bad = [
            ("user", 0),
            ("group", 0),
            ("CFP1", 0),
            ("CFP1", 17),
            ("CFP3", 0),
            ("CFP3", 17),
            ("CFP4", 0),
            ("CFP4", 17),
            ("CFP4", 255),
        ];
        let &(setting, value) = self.random.pick(&bad);
        self.say(&Phrase::new(name, &["settings"]).number(setting, value));
        self.something(name);
    }

    /// Breaks a record, and lets something happen to it.
    pub fn bad_record(&mut self, name: Name) {
        let settings = self.cab(name).settings;
        if self.random.chance(2) {
            let state = *self.random.pick(&private::State::ALL);
            let record = records::private(&mut self.random, &settings, state, None);
            let broken = records::private_broken(&mut self.random, &record);
            self.set_private(name, &broken);
        } else {
            let state = *self.random.pick(&group::State::ALL);
            let record = records::group(&mut self.random, &settings, state);
            let broken = records::group_broken(&mut self.random, &record);
            self.set_group(name, &broken);
        }
        let cue = cues::awaited(&mut self.random, self.player.cab(name));
        self.happens(name, cue);
    }

    /// Lends a buffer of another length, and lets something happen that may need it.
    pub fn other_buffer(&mut self, name: Name) {
        let length = pools::length(&mut self.random);
        self.say(&Phrase::new(name, &["buffer"]).number("length", length));
        self.something_set_up(name);
    }

    /// Puts right what is wrong with a cab.
    pub fn repair(&mut self, name: Name) {
        let settings = self.cab(name).settings;
        if !settings.in_range() {
            let user = name as u32 + 1;
            let mut phrase = Phrase::new(name, &["settings"]).number("user", user);
            for (name, value) in [("group", 1), ("CFP1", 2), ("CFP3", 3), ("CFP4", 2)] {
                phrase = phrase.number(name, value);
            }
            self.say(&phrase);
        }
        let settings = self.cab(name).settings;
        if !self.cab(name).private.well_formed(&settings) {
            self.say(&Phrase::new(name, &["private", "cleared"]));
        }
        if !self.cab(name).group.well_formed(&settings) {
            self.say(&Phrase::new(name, &["group", "cleared"]));
        }
        if self.cab(name).length < LONGEST_LINE && self.random.chance(2) {
            let length = 63 + self.random.below(10) as u32;
            self.say(&Phrase::new(name, &["buffer"]).number("length", length));
        }
    }
}
