//! Inputs and answers in words, for whoever has to look at a difference.

use independent::shown::text;

/// Gives bytes as text with their count in front.
pub fn counted(bytes: &[u8]) -> String {
    match bytes.len() {
        0 => "no bytes".to_string(),
        1 => format!("1 byte: {}", text(bytes)),
        length => format!("{length} bytes: {}", text(bytes)),
    }
}

/// Gives a number with what it means.
pub fn number(number: u32) -> String {
    let meaning = match number {
        0 => "nothing is wrong",
        1 => "empty, or no line end at its end",
        2 => "a byte that is no digit",
        3 => "no kind",
        4 => "another count of digits than its kind has",
        5 => "a field out of its range",
        6 => "a buffer too short for the line",
        10 => "not two calls of one group",
        _ => "a number that there is not",
    };
    format!("number {number}, {meaning}")
}

/// Gives a choice with what it means.
pub fn winner(winner: u32) -> String {
    let meaning = match winner {
        0 => "no choice",
        1 => "the first line",
        2 => "the second line",
        _ => "an answer that there is not",
    };
    format!("{winner}, {meaning}")
}

/// Gives values one after the other.
pub fn values(values: &[u32]) -> String {
    if values.is_empty() {
        return "none".to_string();
    }
    let each: Vec<String> = values.iter().map(u32::to_string).collect();
    each.join(" ")
}

#[cfg(test)]
mod tests {
    use super::*;

    /// The count goes before the text, and nothing is cut.
    #[test]
    fn counted_bytes() {
        assert_eq!(counted(b""), "no bytes");
        assert_eq!(counted(b"\n"), "1 byte: \\x0a");
        assert_eq!(counted(b"02\n"), "3 bytes: 02\\x0a");
        assert_eq!(
            counted(&[b'0'; 70_000]).len(),
            70_000 + "70000 bytes: ".len()
        );
    }
}
