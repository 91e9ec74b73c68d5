//! A page that keeps figures: each part of them stands between two marks, the second of which has
//! the sum of what stands between, so that a figure that somebody typed is found.

use std::ops::Range;

/// The parts of a page.
#[derive(Clone, Copy)]
pub enum Part {
    Times,
    Instructions,
}

impl Part {
    /// The line ahead of the part.
    fn begin(self) -> String {
        let name = match self {
            Part::Times => "times",
            Part::Instructions => "instructions",
        };
        format!("<!-- measured by host/speed.sh: {name} -->\n")
    }
}

/// How the line behind a part begins, and how it ends behind the sum.
const END: &str = "<!-- end of what is measured, cksum ";
const CLOSE: &str = " -->\n";

/// Finds what stands behind the first mark of a part, with the second mark.
fn place(page: &str, part: Part) -> Option<Range<usize>> {
    let begin = part.begin();
    let front = page.find(&begin)? + begin.len();
    let end = front + page[front..].find(END)?;
    let close = end + page[end..].find(CLOSE)? + CLOSE.len();
    let alone = !page[front..].contains(&begin) && !page[front..end].contains("<!--");
    (alone && !page[end..close - 1].contains('\n')).then_some(front..close)
}

/// Puts a text into its place of a page, with its sum; nothing where the page lacks the marks.
pub fn placed(page: &str, part: Part, text: &str) -> Option<String> {
    let place = place(page, part)?;
    let between = format!("\n{text}\n");
    let sum = sum(between.as_bytes());
    let (front, back) = (&page[..place.start], &page[place.end..]);
    Some(format!("{front}{between}{END}{sum}{CLOSE}{back}"))
}

/// The sum that the command cksum gives: of the bytes, and of those of their count, lowest first.
fn sum(bytes: &[u8]) -> u32 {
    let count = bytes.len().to_le_bytes();
    let used = count.len() - count.iter().rev().take_while(|&&byte| byte == 0).count();
    let mut sum = 0_u32;
    for &byte in bytes.iter().chain(&count[..used]) {
        sum ^= u32::from(byte) << 24;
        for _ in 0..8 {
            let top = sum >> 31;
            sum = (sum << 1) ^ (top * 0x04c1_1db7);
        }
    }
    !sum
}

#[cfg(test)]
mod tests {
    use super::*;

    /// The sums are those of cksum.
    #[test]
    fn sums() {
        assert_eq!(sum(b""), 4_294_967_295);
        assert_eq!(sum(b"123456789"), 930_766_865);
    }

    /// A part is put in its place, again with the same outcome, and the rest stays.
    #[test]
    fn parts_are_placed() {
        let page = "a\n<!-- measured by host/speed.sh: times -->\n\n<!-- end of what is measured, cksum 0 -->\nb\n\
             <!-- measured by host/speed.sh: instructions -->\nold\n<!-- end of what is measured, cksum 1 -->\nc\n";
        let put = placed(page, Part::Instructions, "new\n").unwrap();
        let (front, back) = put.split_once("instructions -->\n").unwrap();
        assert_eq!(front.len(), page.find("instructions").unwrap());
        let sum = sum(b"\nnew\n\n");
        let wanted = format!("\nnew\n\n<!-- end of what is measured, cksum {sum} -->\nc\n");
        assert_eq!(back, wanted);
        assert_eq!(placed(&put, Part::Instructions, "new\n"), Some(put.clone()));
        assert!(placed(&put, Part::Times, "x\n").unwrap().ends_with(back));
    }

    /// A page without the marks, or with one of them too many or too few, is left alone.
    #[test]
    fn marks_are_missed() {
        let (begin, end) = (Part::Times.begin(), format!("{END}0{CLOSE}"));
        for page in [
            String::new(),
            begin.clone(),
            end.clone(),
            format!("{end}{begin}"),
            format!("{begin}{begin}{end}"),
            format!("{begin}{end}{begin}{end}"),
            format!("{begin}{}{end}", Part::Instructions.begin()),
            format!("{begin}{END}0\n{CLOSE}"),
        ] {
            assert_eq!(placed(&page, Part::Times, "x\n"), None, "{page}");
        }
        assert!(placed(&(begin + &end), Part::Times, "x\n").is_some());
    }
}
