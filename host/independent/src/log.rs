//! The answer to a log of many lines.

use crate::line::{read, LINE_END};

/// The most bytes of its input that the program takes.
pub const MOST: usize = 65_536;

/// Answers every line of a log: a readable one by itself, any other by its number.
pub fn answer(log: &[u8]) -> Vec<u8> {
    let mut answer = Vec::with_capacity(log.len());
    for line in log.split_inclusive(|&byte| byte == LINE_END) {
        match read(line) {
            Ok(_) => answer.extend_from_slice(line),
            Err(number) => answer.extend_from_slice(format!("!{number}\n").as_bytes()),
        }
    }
    answer
}

/// Answers an input as the program does, which leaves out all after the first 65,536 bytes.
pub fn answer_cut(input: &[u8]) -> Vec<u8> {
    answer(&input[..input.len().min(MOST)])
}

#[cfg(test)]
mod tests {
    use super::*;
    use crate::samples::{ended, DIGITS};

    /// No input gives no output, and a lone line end is a line.
    #[test]
    fn smallest_logs() {
        assert_eq!(answer(b""), b"");
        assert_eq!(answer_cut(b""), b"");
        assert_eq!(answer(b"\n"), b"!3\n");
        assert_eq!(answer(b"\n\n"), b"!3\n!3\n");
        assert_eq!(answer(b"0"), b"!1\n");
    }

    /// Each number and each kind in one log, with and without an unended tail.
    #[test]
    fn whole_log() {
        let mut log = Vec::new();
        for digits in DIGITS {
            log.extend(ended(digits));
        }
        assert_eq!(answer(&log), log);
        let mut expected = log.clone();
        log.extend(b"0212340000000700000009\r\n0a\n02\n0200000000000700000009\n");
        expected.extend(b"!2\n!3\n!4\n!5\n");
        assert_eq!(answer(&log), expected);
        log.extend(DIGITS[1].as_bytes());
        expected.extend(b"!1\n");
        assert_eq!(answer(&log), expected);
    }

    /// The cut leaves a line whole at 65,536 bytes and makes an unended one before it.
    #[test]
    fn cut_at_most() {
        let line = ended(DIGITS[1]);
        let whole = MOST / line.len();
        let tail = MOST % line.len();
        let mut log = line.repeat(whole + 5);
        let mut expected = line.repeat(whole);
        assert!(tail > 0);
        expected.extend(b"!1\n");
        assert_eq!(answer_cut(&log), expected);
        assert_eq!(answer(&log), log);
        log[MOST - 1] = LINE_END;
        expected.truncate(whole * line.len());
        expected.extend(b"!4\n");
        assert_eq!(answer_cut(&log), expected);
        assert_eq!(answer_cut(&log[..MOST]), expected);
        expected.truncate(whole * line.len());
        expected.extend(b"!1\n");
        assert_eq!(answer_cut(&log[..MOST - 1]), expected);
    }
}
