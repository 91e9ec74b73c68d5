//! Summing up a script: what led to its last command, as settings and records that are set by hand.

use crate::phrase::{Pair, Value};
use crate::records;
use independent::counter::Counter;
use independent::drill::cab::{Cab, Name};
use independent::drill::words::Words;
use independent::drill::{Machines, Player};
use independent::settings::Settings;

/// Gives the last line of a script behind lines that set its cab to what it is in ahead of that line; gives
/// nothing where the last line is no command of a cab.
pub fn summed_up(lines: &[Vec<u8>]) -> Option<Vec<Vec<u8>>> {
    let (last, before) = lines.split_last()?;
    let mut player = Player::new(Machines::RULES);
    for line in before {
        player.line(line.trim_ascii_end());
    }
    let mut words: Vec<Vec<u8>> = Words::new(last.trim_ascii_end())
        .map(|word| word.bytes.to_vec())
        .collect();
    let name = Name::of_word(words.first()?)?;
    for word in words.iter_mut().skip(2) {
        let sender = Name::of_word(word).map(|name| player.cab(name));
        if let Some(line) = sender.and_then(|cab| cab.sent.clone()) {
            *word = line;
        }
    }
    let mut summary = set_by_hand(name, player.cab(name));
    summary.push([words.join(&b' '), b"\n".to_vec()].concat());
    Some(summary)
}

/// Lists the lines that set a cab to what it is in.
fn set_by_hand(name: Name, cab: &Cab) -> Vec<Vec<u8>> {
    let length = Value::Number(cab.length as u32);
    let commands = [
        ("settings", settings_pairs(&cab.settings)),
        ("buffer", vec![("length", length)]),
        ("private record", records::private_pairs(&cab.private)),
        ("group record", records::group_pairs(&cab.group)),
    ];
    let lines = commands.map(|(command, pairs)| {
        let mut line = format!("{} {command}", name.word());
        for (name, value) in pairs {
            match value {
                Value::Number(number) => line += &format!(" {name}={number}"),
                Value::Word(word) => line += &format!(" {name}={word}"),
            }
        }
        line + "\n"
    });
    lines.map(String::into_bytes).to_vec()
}

/// Lists all that can be named of settings.
fn settings_pairs(settings: &Settings) -> Vec<Pair> {
    let mut pairs = vec![
        ("user", Value::Number(settings.user)),
        ("group", Value::Number(settings.group)),
        ("restrict", Value::yes(settings.restrict)),
        ("acknowledgement", Value::yes(settings.acknowledgement)),
    ];
    pairs.extend(Counter::ALL.map(|counter| {
        let limit = settings.limits.get(counter);
        (counter.name(), Value::Number(limit))
    }));
    pairs
}

#[cfg(test)]
mod tests {
    use super::*;
    use independent::drill::play;

    /// The last command answers behind the summary as it does behind all that led to it.
    #[test]
    fn the_same_answer() {
        let script = "a settings user=7 restrict=yes\nb settings user=9\n\
            a private start identifier=5 callee=9 media=1\nb buffer length=50\nb hears a\n";
        let lines: Vec<Vec<u8>> = script.split_inclusive('\n').map(Into::into).collect();
        let summary = summed_up(&lines).expect("a command");
        let answer = |script: &[u8]| {
            let printed = String::from_utf8(play(script)).expect("text");
            let answers = printed.lines().filter(|line| line.starts_with("5 b"));
            answers.map(str::to_string).collect::<Vec<String>>()
        };
        assert_eq!(answer(&summary.concat()), answer(script.as_bytes()));
        assert_eq!(answer(script.as_bytes()).len(), 2);
        assert_eq!(summed_up(&[b"# a\n".to_vec()]), None);
        assert_eq!(summed_up(&[b"c end\n".to_vec()]), None);
        assert_eq!(summed_up(&[]), None);
    }
}
