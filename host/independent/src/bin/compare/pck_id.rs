//! What the PCK-ID of a request alone decides: classes that the parts `lines` and `writings` have to meet.

use independent::line::{read, DIGITS};
use independent::message::Message;

/// No security, the purpose of a private call's key, that of a group's key, and the one that was asked for before.
pub const CLASSES: &[&str] = &["0", "0001", "0000", "0011"];

/// The places of the digits of a PCK-ID.
const PLACES: std::ops::Range<usize> = 34..42;

/// Names the class of the PCK-ID of a line that would read as a setup request without security.
pub fn class(line: &[u8]) -> Option<&'static str> {
    let digits = line.get(PLACES)?;
    let mut plain = line.to_vec();
    plain[PLACES].fill(b'0');
    let request = matches!(read(&plain), Ok(Message::PrivateCallSetupRequest(_)));
    if !request || !digits.iter().all(|digit| DIGITS.contains(digit)) {
        return None;
    }
    Some(match digits {
        b"00000000" => "0",
        [b'0', ..] => "0000",
        [b'1', ..] => "0001",
        [b'3', ..] => "0011",
        _ => "other",
    })
}

#[cfg(test)]
mod tests {
    use super::*;

    /// Gives the class of a request's line with this PCK-ID.
    fn of(pck_id: &str) -> Option<&'static str> {
        let front = "0112340000000700000009000400000005";
        class(format!("{front}{pck_id}\n").as_bytes())
    }

    /// Where all else is good, the PCK-ID has its class, good or bad; where it is not, there is none.
    #[test]
    fn classes() {
        assert_eq!(of("00000000"), Some("0"));
        assert_eq!(of("10000000"), Some("0001"));
        assert_eq!(of("0fffffff"), Some("0000"));
        assert_eq!(of("3000000f"), Some("0011"));
        assert_eq!(of("20000000"), Some("other"));
        for wrong in ["3000000F", "3000000", "300000000", "3000000\n"] {
            assert_eq!(of(wrong), None);
        }
        let identifier_0 = b"010000000000070000000900040000000530000000\n";
        assert_eq!(class(identifier_0), None);
        assert_eq!(class(b"0212340000000700000009\n"), None);
    }
}
