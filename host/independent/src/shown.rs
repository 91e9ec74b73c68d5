//! Bytes as text that can be looked at.

use crate::line::LINE_END;

/// Gives bytes as text, with \xNN for each byte that is not printable ASCII and for the backslash.
pub fn text(bytes: &[u8]) -> String {
    let mut text = String::with_capacity(bytes.len());
    for &byte in bytes {
        match byte {
            b' '..=b'~' if byte != b'\\' => text.push(char::from(byte)),
            _ => text.push_str(&format!("\\x{byte:02x}")),
        }
    }
    text
}

/// Gives bytes as lines of text, and says so where the last one has no line end.
pub fn lines(bytes: &[u8]) -> String {
    let mut all = String::with_capacity(bytes.len());
    for line in bytes.split_inclusive(|&byte| byte == LINE_END) {
        match line.strip_suffix(&[LINE_END]) {
            Some(ended) => all.push_str(&text(ended)),
            None => all.push_str(&format!("{} (no line end)", text(line))),
        }
        all.push('\n');
    }
    all
}

#[cfg(test)]
mod tests {
    use super::*;

    /// Printable bytes stand for themselves, all others are spelt out.
    #[test]
    fn bytes_as_text() {
        assert_eq!(text(b" 0aZ~!"), " 0aZ~!");
        assert_eq!(text(b"\n\r\0\\\x7f\xff"), "\\x0a\\x0d\\x00\\x5c\\x7f\\xff");
        assert_eq!(lines(b"a\r\n\nb\n"), "a\\x0d\n\nb\n");
        assert_eq!(lines(b"a\nb"), "a\nb (no line end)\n");
        assert_eq!(lines(b""), "");
    }
}
