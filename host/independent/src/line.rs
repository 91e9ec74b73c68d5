//! Frames as lines: the reader, the writer and the numbers they refuse with.

use crate::kind::Kind;
use crate::message::{Message, Values, MOST_FIELDS};

/// The line is empty or does not end with 0A.
pub const UNENDED: u32 = 1;
/// Something before the line end is no lower-case hexadecimal digit.
pub const NO_DIGIT: u32 = 2;
/// There is no kind to be read, or none with that number.
pub const NO_KIND: u32 = 3;
/// The kind has another count of digits.
pub const WRONG_COUNT: u32 = 4;
/// A field has a value out of its range.
pub const OUTSIDE: u32 = 5;
/// The buffer cannot hold the line.
pub const SHORT_BUFFER: u32 = 6;

/// The byte that ends a line.
pub const LINE_END: u8 = 0x0a;

/// The sixteen digits of a line in the order of their worth.
pub const DIGITS: &[u8; 16] = b"0123456789abcdef";

/// Reads a line as a message, or gives the first number that applies to it.
pub fn read(line: &[u8]) -> Result<Message, u32> {
    let Some((&LINE_END, digits)) = line.split_last() else {
        return Err(UNENDED);
    };
    if !digits.iter().all(|&byte| worth(byte).is_some()) {
        return Err(NO_DIGIT);
    }
    if digits.len() < 2 {
        return Err(NO_KIND);
    }
    let (front, rest) = digits.split_at(2);
    let kind = Kind::of_code(number(front)).ok_or(NO_KIND)?;
    if digits.len() != 2 * kind.total() {
        return Err(WRONG_COUNT);
    }
    let message = Message::from_values(kind, &values_of(kind, rest));
    if !message.in_range() {
        return Err(OUTSIDE);
    }
    Ok(message)
}

/// Writes a message as a line at the front of a buffer and gives its length.
pub fn write(message: &Message, out: &mut [u8]) -> Result<usize, u32> {
    if !message.in_range() {
        return Err(OUTSIDE);
    }
    let length = length_of(message.kind());
    let Some(front) = out.get_mut(..length) else {
        return Err(SHORT_BUFFER);
    };
    put_line(front, message.kind(), &message.values());
    Ok(length)
}

/// Gives the line of a message whose values all fit their widths, as every message in range does.
pub fn line_of(message: &Message) -> Vec<u8> {
    line_with_values(message.kind(), &message.values())
}

/// Lays out any values that fit their widths as a line of a kind, and panics if one does not fit.
pub fn line_with_values(kind: Kind, values: &Values) -> Vec<u8> {
    for (field, &value) in kind.fields().iter().zip(values) {
        assert!(field.fits(value), "{} {value:#x} is too wide", field.name);
    }
    let mut line = vec![LINE_END; length_of(kind)];
    put_line(&mut line, kind, values);
    line
}

/// Gives the length of a kind's lines, the line end counted.
fn length_of(kind: Kind) -> usize {
    2 * kind.total() + 1
}

/// Gives what a digit is worth, or nothing for any other byte.
fn worth(byte: u8) -> Option<u32> {
    match byte {
        b'0'..=b'9' => Some(u32::from(byte - b'0')),
        b'a'..=b'f' => Some(u32::from(byte - b'a') + 10),
        _ => None,
    }
}

/// Gives the number that up to eight digits stand for, the high one first.
fn number(digits: &[u8]) -> u32 {
    digits
        .iter()
        .filter_map(|&byte| worth(byte))
        .fold(0, |sum, digit| sum * 16 + digit)
}

/// Cuts the digits after the kind into the kind's fields.
fn values_of(kind: Kind, mut rest: &[u8]) -> Values {
    let mut values = [0; MOST_FIELDS];
    for (field, value) in kind.fields().iter().zip(&mut values) {
        let (own, later) = rest.split_at(2 * field.bytes);
        *value = number(own);
        rest = later;
    }
    values
}

/// Lays out values that fit their widths as a line of a kind, which is as long as the place for it.
fn put_line(line: &mut [u8], kind: Kind, values: &Values) {
    let (front, mut rest) = line.split_at_mut(2);
    put_digits(front, kind.code());
    for (field, &value) in kind.fields().iter().zip(values) {
        let (own, later) = rest.split_at_mut(2 * field.bytes);
        put_digits(own, value);
        rest = later;
    }
    rest.fill(LINE_END);
}

/// Fills a place with the digits of a value, the low one last.
fn put_digits(place: &mut [u8], mut value: u32) {
    for digit in place.iter_mut().rev() {
        *digit = DIGITS[value as usize & 0xf];
        value >>= 4;
    }
}

#[cfg(test)]
mod tests {
    use super::*;
    use crate::message::{SetupRequest, Users};
    use crate::samples::{self, ended};

    /// The line of case A without its end.
    const RINGING: &str = "0212340000000700000009";

    /// The message of case A.
    const RINGING_READ: Message = Message::Ringing(Users {
        identifier: 0x1234,
        caller: 7,
        callee: 9,
    });

    /// Gives the refusal number of a line, or 0.
    fn number_of(line: &[u8]) -> u32 {
        read(line).err().unwrap_or(0)
    }

    /// Marked cases A to D.
    #[test]
    fn cases_a_to_d() {
        assert_eq!(read(&ended(RINGING)), Ok(RINGING_READ));
        for place in 0..RINGING.len() {
            let mut line = ended(RINGING);
            line[place] = b'A';
            assert_eq!(read(&line), Err(2));
        }
        assert_eq!(read(b"\n"), Err(3));
        assert_eq!(read(b"0a12340000000700000009\n"), Err(3));
    }

    /// Marked case K, and what stands in the buffer before and after.
    #[test]
    fn case_k_and_the_buffer() {
        let mut short = [0xee; 22];
        assert_eq!(write(&RINGING_READ, &mut short), Err(6));
        assert_eq!(short, [0xee; 22]);
        assert_eq!(write(&RINGING_READ, &mut []), Err(6));
        let mut exact = [0xee; 23];
        assert_eq!(write(&RINGING_READ, &mut exact), Ok(23));
        assert_eq!(exact.to_vec(), ended(RINGING));
        let mut long = [0xee; 30];
        assert_eq!(write(&RINGING_READ, &mut long), Ok(23));
        assert_eq!(long[..23], ended(RINGING));
        assert_eq!(long[23..], [0xee; 7]);
    }

    /// Marked case L, read and written.
    #[test]
    fn case_l() {
        for (pck_id, number) in [(0x1000_0000, 0), (0x3000_0000, 5)] {
            let setup = SetupRequest {
                pck_id,
                ..samples::SETUP
            };
            let message = Message::PrivateCallSetupRequest(setup);
            assert_eq!(number_of(&line_of(&message)), number);
            let mut out = [0xee; 63];
            assert_eq!(write(&message, &mut out).err().unwrap_or(0), number);
            assert_eq!(out[42] == 0xee, number == 5);
        }
    }

    /// Every sample, the four lines of the run among them, reads and writes as written out.
    #[test]
    fn samples_read_and_written() {
        for ((_, message), digits) in samples::MESSAGES.iter().zip(samples::DIGITS) {
            assert_eq!(read(&ended(digits)), Ok(*message));
            assert_eq!(line_of(message), ended(digits));
        }
    }

    /// Every kind's total, and its line one byte or digit short or long.
    #[test]
    fn totals_and_counts() {
        let totals = [21, 11, 15, 12, 11, 11, 11, 31, 12, 31];
        for (digits, total) in samples::DIGITS.into_iter().zip(totals) {
            assert_eq!(digits.len(), 2 * total);
            assert_eq!(number_of(digits.as_bytes()), 1);
            for short in 2..digits.len() {
                assert_eq!(number_of(&ended(&digits[..short])), 4);
            }
            for more in ["0", "00", "01", "f", "0000000"] {
                assert_eq!(number_of(&ended(&format!("{digits}{more}"))), 4);
            }
        }
    }

    /// Number 1 wins over everything else that is wrong.
    #[test]
    fn number_one() {
        for line in ["", "0", "zz", "\n ", "\n\r", "\nA", RINGING, "0a", "\n0"] {
            assert_eq!(number_of(line.as_bytes()), 1, "{line:?}");
        }
    }

    /// Number 2: each byte at each place of a short line, line ends and returns among them.
    #[test]
    fn number_two() {
        for byte in 0..=255_u8 {
            let digit = byte.is_ascii_digit() || (b'a'..=b'f').contains(&byte);
            for place in 2..RINGING.len() {
                let mut line = ended(RINGING);
                line[place] = byte;
                assert_eq!(number_of(&line) == 2, !digit, "{byte:#x} at {place}");
            }
            assert_eq!(number_of(&[byte, LINE_END]), if digit { 3 } else { 2 });
        }
        assert_eq!(number_of(b"\n\n"), 2);
        assert_eq!(number_of(&ended(&format!("{RINGING}\r"))), 2);
        assert_eq!(number_of(&ended(&format!("{RINGING}\n{RINGING}"))), 2);
        assert_eq!(number_of(&ended(&format!("0a{RINGING}g"))), 2);
    }

    /// Number 3 for every kind byte but 01 to 09, however many digits follow.
    #[test]
    fn number_three() {
        for code in 0..=255 {
            let expected = if (1..=9).contains(&code) { 4 } else { 3 };
            assert_eq!(number_of(&ended(&format!("{code:02x}"))), expected);
            assert_eq!(number_of(&ended(&format!("{code:02x}0"))), expected);
        }
        assert_eq!(number_of(b"0012340000000700000009\n"), 3);
        assert_eq!(number_of(b"ff12340000000700000009\n"), 3);
    }

    /// Number 5, read and written, for each field of each kind at its edges.
    #[test]
    fn number_five() {
        for (kind, message) in samples::MESSAGES {
            for (place, field) in kind.fields().iter().enumerate() {
                let range = samples::range_of(kind, field.name);
                for (list, number) in [(range.good, 0), (range.bad, 5)] {
                    for &value in list {
                        let mut values = message.values();
                        values[place] = value;
                        check_field(&Message::from_values(kind, &values), number);
                    }
                }
            }
        }
    }

    /// Checks that reader and writer give a message with one changed field the same number.
    fn check_field(message: &Message, number: u32) {
        let mut out = [0xee; 70];
        assert_eq!(write(message, &mut out).err().unwrap_or(0), number);
        assert_eq!(
            write(message, &mut []),
            Err(if number == 5 { 5 } else { 6 })
        );
        assert_eq!(out == [0xee; 70], number == 5);
        let mut fields = message.kind().fields().iter().zip(message.values());
        if fields.all(|(field, value)| field.fits(value)) {
            let line = line_of(message);
            assert_eq!(read(&line).err().unwrap_or(0), number);
            assert_eq!(out.starts_with(&line), number == 0);
        }
    }
}
