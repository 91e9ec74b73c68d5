//! Cutting a script down to what shows a difference.

use crate::summary::summed_up;
use independent::drill::words::Words;
use independent::line::LINE_END;
use std::io;
use std::time::{Duration, Instant};

/// How long a script is cut at most, for a program that hangs would be waited for each time.
const LONGEST: Duration = Duration::from_secs(60);

/// How many lines are few enough to be left as they are.
const FEW: usize = 2;

/// Finds the command of the first line in which two transcripts differ, if a command has printed it.
pub fn first_difference(one: &[u8], other: &[u8]) -> Option<usize> {
    let mut ones = one.split(|&byte| byte == LINE_END);
    let mut others = other.split(|&byte| byte == LINE_END);
    loop {
        match (ones.next(), others.next()) {
            (None, None) => return None,
            (one, other) if one == other => {}
            (one, other) => return command_of(one).max(command_of(other)),
        }
    }
}

/// Finds the command that has printed a line, if one has.
fn command_of(line: Option<&[u8]>) -> Option<usize> {
    let text = String::from_utf8_lossy(line?).into_owned();
    let number = text.strip_prefix("! line ").unwrap_or(&text);
    let digits = number.split([' ', ',']).next()?;
    digits.parse().ok()
}

/// Tells whether a script still shows a difference.
type Differs<'a> = &'a mut dyn FnMut(&[u8]) -> io::Result<bool>;

/// Cuts a script that shows a difference: what stands behind the command of the first difference, then
/// every line without which there is still one, and then every such word. Where many lines are needed, what
/// they lead to is set by hand in their place, if that shows a difference too.
pub fn cut(script: &[u8], first: Option<usize>, differs: Differs) -> io::Result<Vec<u8>> {
    let until = Instant::now() + LONGEST;
    let mut lines: Vec<&[u8]> = script.split_inclusive(|&byte| byte == LINE_END).collect();
    if let Some(front) = first.and_then(|first| lines.get(..first)) {
        if differs(&front.concat())? {
            lines = front.to_vec();
        }
    }
    let lines = needed(lines, until, |lines| differs(&lines.concat()))?;
    let mut lines: Vec<Vec<u8>> = lines.into_iter().map(<[u8]>::to_vec).collect();
    if let Some(summary) = summed_up(&lines).filter(|_| lines.len() > FEW) {
        if differs(&summary.concat())? {
            lines = summary;
        }
    }
    let lines = words_cut(lines, until, differs)?;
    // A line may be needed no more where another has lost a word.
    let lines = lines.iter().map(Vec::as_slice).collect();
    let lines = needed(lines, until, |lines| differs(&lines.concat()))?;
    Ok(lines.concat())
}

/// Leaves out every word of some lines without which there is still a difference.
fn words_cut(
    mut lines: Vec<Vec<u8>>,
    until: Instant,
    differs: Differs,
) -> io::Result<Vec<Vec<u8>>> {
    for place in 0..lines.len() {
        let with = |words: &[&[u8]]| {
            let mut changed = lines.clone();
            changed[place] = words.join(&b' ');
            changed[place].push(LINE_END);
            changed
        };
        let words: Vec<&[u8]> = Words::new(lines[place].trim_ascii_end())
            .map(|word| word.bytes)
            .collect();
        if differs(&with(&words).concat())? {
            let words = needed(words, until, |words| differs(&with(words).concat()))?;
            lines = with(&words);
        }
    }
    Ok(lines)
}

/// Leaves out every piece without which there is still a difference: first many at once, then one by one.
fn needed<'a>(
    mut pieces: Vec<&'a [u8]>,
    until: Instant,
    mut differs: impl FnMut(&[&'a [u8]]) -> io::Result<bool>,
) -> io::Result<Vec<&'a [u8]>> {
    let mut size = pieces.len().div_ceil(2);
    while size > 0 {
        let before = pieces.len();
        let mut place = 0;
        while place < pieces.len() && Instant::now() < until {
            let end = pieces.len().min(place + size);
            let rest = [&pieces[..place], &pieces[end..]].concat();
            if differs(&rest)? {
                pieces = rest;
            } else {
                place = end;
            }
        }
        // One by one goes on as long as it helps.
        if size > 1 || pieces.len() == before {
            size /= 2;
        }
    }
    Ok(pieces)
}

#[cfg(test)]
mod tests {
    use super::*;

    /// Only the lines that are needed stay, in their order.
    #[test]
    fn needed_lines_stay() {
        let script: String = (1..=500).map(|line| format!("{line}\n")).collect();
        let needed = |script: &[u8]| {
            let text = String::from_utf8_lossy(script).into_owned();
            let has = |wanted| text.lines().any(|line| line == wanted);
            Ok(has("17") && has("311") && has("312"))
        };
        for first in [None, Some(312), Some(400), Some(100), Some(9_999)] {
            let cut = cut(script.as_bytes(), first, &mut { needed }).expect("no error");
            assert_eq!(cut, b"17\n311\n312\n", "{first:?}");
        }
    }

    /// Only the words that are needed stay, one blank between two of them.
    #[test]
    fn needed_words_stay() {
        let needed = |script: &[u8]| {
            let text = String::from_utf8_lossy(script).into_owned();
            Ok(["a", "end", "last"].iter().all(|word| text.contains(word)))
        };
        let script = b"first\n,a  x=1\tprivate y=2 end # all\r\nlast";
        let cut = cut(script, None, &mut { needed }).expect("no error");
        assert_eq!(cut, b"end\nlast\n");
    }

    /// The command of the first difference is found in every sort of line.
    #[test]
    fn first_differences() {
        let cases: [(&[u8], &[u8], Option<usize>); 6] = [
            (b"#\n1 a\n", b"#\n1 a\n", None),
            (b"#\n1 a\n2 b\n", b"#\n1 a\n2 c\n", Some(2)),
            (b"#\n! line 7, column 2: x\n", b"#\n8 a\n", Some(8)),
            (b"#\n! line 7, column 2: x\n", b"#\nend a\n", Some(7)),
            (b"#\n3 a\n", b"#\n", Some(3)),
            (b"#\nend a\n", b"#\nend b\n", None),
        ];
        for (one, other, command) in cases {
            assert_eq!(first_difference(one, other), command);
        }
    }
}
