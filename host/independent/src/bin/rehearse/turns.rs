//! Turns of a script: what comes next, and how often.

use crate::cues::{self, Cue};
use crate::phrase::{comment, spaced, Phrase};
use crate::script::Maker;
use crate::{heard, records, unreadable};
use independent::drill::cab::Name;
use independent::drill::words::Complaint;
use independent::line::line_of;
use independent::making;
use independent::message::Message;

impl Maker {
    /// Puts the next few commands into the script.
    pub fn turn(&mut self) {
        let name = *self.random.pick(&Name::ALL);
        if self.random.chance(2) {
            self.repair(name);
        }
        match self.random.below(100) {
            0..=29 => self.something(name),
            30..=63 => self.something_set_up(name),
            64..=66 => self.good_settings(name),
            67..=68 => self.bad_settings(name),
            69..=71 => self.bad_record(name),
            72..=74 => self.other_buffer(name),
            75..=79 => {
                let phrase = heard::damaged(&mut self.random, name, self.player.cab(name));
                self.say(&phrase);
            }
            80..=87 => self.choice(name),
            88..=97 => {
                let mut complaints = Complaint::ALL.to_vec();
                complaints.retain(|complaint| self.can_be_met(*complaint));
                let complaint = *self.random.pick(&complaints);
                self.unreadable(complaint);
            }
            _ => self.no_command(),
        }
    }

    /// Lets something happen that is awaited, or a line of a cab be heard, or anything.
    pub fn something(&mut self, name: Name) {
        let cue = match self.random.below(8) {
            0..=2 => return self.hears_cab(name),
            3 => cues::any(&mut self.random),
            _ => cues::awaited(&mut self.random, self.player.cab(name)),
        };
        self.happens(name, cue);
    }

    /// Lets something happen to a cab.
    pub fn happens(&mut self, name: Name, cue: Cue) {
        let (own, other) = (self.player.cab(name), self.player.cab(beside(name)));
        let phrase = cues::phrase(&mut self.random, name, own, other, cue);
        self.say(&phrase);
    }

    /// Lets a cab hear what a cab sent last, mostly the other one.
    fn hears_cab(&mut self, name: Name) {
        let from = if self.random.chance(8) {
            name
        } else {
            beside(name)
        };
        let phrase = Phrase::new(name, &["hears", from.word()]);
        let (media, signature) = (!self.random.chance(4), !self.random.chance(4));
        let phrase = cues::verdicts(&mut self.random, phrase, media, signature);
        self.say(&phrase);
    }

    /// Sets a record in which a row waits for something, and lets that happen.
    pub fn something_set_up(&mut self, name: Name) {
        let settings = self.cab(name).settings;
        let cue = if self.random.chance(3) {
            let &(state, cue) = self.random.pick(cues::GROUP);
            let record = records::group(&mut self.random, &settings, state);
            self.set_group(name, &record);
            cue
        } else {
            let &(state, timer, cue) = self.random.pick(cues::PRIVATE);
            let record = records::private(&mut self.random, &settings, state, timer);
            self.set_private(name, &record);
            cue
        };
        self.happens(name, cue);
        if self.random.chance(4) {
            self.happens(name, cue);
        }
    }

    /// Asks the chooser about two lines.
    pub fn choice(&mut self, name: Name) {
        let (first, second) = match self.random.below(4) {
            0 => {
                let cab = self.player.cab(name);
                let lines = [(); 2].map(|()| {
                    let made = heard::announcement(&mut self.random, cab);
                    line_of(&Message::GroupCallAnnouncement(made))
                });
                (lines[0].clone(), lines[1].clone())
            }
            _ => making::pair(&mut self.random),
        };
        let mut words = [first, second].map(|line| heard::word(&mut self.random, &line).0);
        if self.random.chance(8) {
            let place = self.random.below(2) as usize;
            words[place] = self.random.pick(&["a", "b", "nothing"]).as_bytes().to_vec();
        }
        let phrase = Phrase::new(name, &["chooses"]);
        self.say(&phrase.word(&words[0]).word(&words[1]));
    }

    /// Tells whether a command can be unreadable for this reason by now.
    fn can_be_met(&self, complaint: Complaint) -> bool {
        match complaint {
            Complaint::NoLineYet(name) => self.cab(name).sent.is_none(),
            _ => true,
        }
    }

    /// Puts a command into the script that cannot be read.
    pub fn unreadable(&mut self, complaint: Complaint) {
        let name = *self.random.pick(&Name::ALL);
        let cue = cues::any(&mut self.random);
        let cab = self.player.cab(name);
        let good = cues::phrase(&mut self.random, name, cab, cab, cue);
        let words = unreadable::words(&mut self.random, complaint, &good);
        let line = spaced(&mut self.random, &words);
        self.put(&line);
    }

    /// Puts a line into the script that is no command: nothing, blanks, a comment, or any bytes.
    pub fn no_command(&mut self) {
        let line = match self.random.below(8) {
            0 => Vec::new(),
            1 => b" \t,\r ,".to_vec(),
            2 => {
                let count = self.random.below(40);
                (0..count).map(|_| self.random.next() as u8).collect()
            }
            _ => comment(&mut self.random),
        };
        self.put(&line);
    }
}

/// Gives the other cab.
fn beside(name: Name) -> Name {
    match name {
        Name::A => Name::B,
        Name::B => Name::A,
    }
}
