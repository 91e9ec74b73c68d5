//! Ends of scripts, made so that every sentence about the two cabs comes up.

use crate::records;
use crate::script::Maker;
use independent::drill::cab::Name;
use independent::{group, private};

/// How many sentences there are about private calls, and as many about group calls.
const SENTENCES: u64 = 6;

/// Puts the last commands into the script of a number, and now and then takes the last line end away.
pub fn put(maker: &mut Maker, number: u64) {
    private_calls(maker, number % SENTENCES);
    group_calls(maker, (number + number / SENTENCES) % SENTENCES);
    if maker.random.chance(3) {
        maker.unended();
    }
}

/// Puts the cabs into private calls, or into none, for the sentence of this place.
fn private_calls(maker: &mut Maker, sentence: u64) {
    let states = match sentence {
        0 => [private::State::P3, private::State::P0],
        1 => [private::State::P4, private::State::P2],
        2 => [private::State::P5, private::State::P4],
        _ => [private::State::P4, private::State::P4],
    };
    let settings = Name::ALL.map(|name| maker.cab(name).settings);
    let mut ends =
        [0, 1].map(|cab| records::private(&mut maker.random, &settings[cab], states[cab], None));
    match sentence {
        3 => ends[1].call = ends[0].call,
        4 => {
            ends[1].call = ends[0].call;
            match maker.random.below(5) {
                0 => ends[1].call.caller ^= 1,
                1 => ends[1].call.callee ^= 1,
                2 => ends[1].call.commencement ^= 1,
                3 => ends[1].call.media ^= 1,
                _ => ends[1].call.pck_id ^= 1,
            }
        }
        5 => ends[1].call.identifier = ends[0].call.identifier ^ 1,
        _ => {}
    }
    for (name, end) in Name::ALL.into_iter().zip(ends) {
        maker.set_private(name, &end);
    }
}

/// Puts the cabs into group calls, or into none, for the sentence of this place.
fn group_calls(maker: &mut Maker, sentence: u64) {
    let states = match sentence {
        0 => [group::State::S1, group::State::S4],
        1 => [group::State::S3, group::State::S5],
        2 => [group::State::S1, group::State::S3],
        _ => [group::State::S3, group::State::S3],
    };
    let settings = Name::ALL.map(|name| maker.cab(name).settings);
    let mut ends = [0, 1].map(|cab| records::group(&mut maker.random, &settings[cab], states[cab]));
    match sentence {
        3 => ends[1].call = ends[0].call,
        4 => {
            ends[1].call = ends[0].call;
            match maker.random.below(8) {
                0 => ends[1].call.group ^= 1,
                1 => ends[1].call.call_type ^= 1,
                2 => ends[1].call.refresh ^= 1,
                3 => ends[1].call.media ^= 1,
                4 => ends[1].call.originator ^= 1,
                5 => ends[1].call.start ^= 1,
                6 => ends[1].call.last_change ^= 1,
                _ => ends[1].call.last_changer ^= 1,
            }
        }
        5 => ends[1].call.identifier = ends[0].call.identifier ^ 1,
        _ => {}
    }
    for (name, end) in Name::ALL.into_iter().zip(ends) {
        maker.set_group(name, &end);
    }
}
