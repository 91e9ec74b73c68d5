//! The words of a script's line, and what is said of a line that cannot be read.

use super::cab::Name;

/// The bytes that stand between words.
const BLANKS: &[u8] = b" \t,\r";

/// One word and where it begins.
#[derive(Clone, Copy, Debug, PartialEq, Eq)]
pub struct Word<'a> {
    /// The place of its first byte in the line, counted from 1.
    pub column: usize,
    pub bytes: &'a [u8],
}

/// The words of a line that were not taken yet.
#[derive(Clone, Debug)]
pub struct Words<'a> {
    line: &'a [u8],
    place: usize,
}

impl<'a> Words<'a> {
    /// Begins with the first word of a line, which comes without its line end.
    pub fn new(line: &'a [u8]) -> Words<'a> {
        Words { line, place: 0 }
    }

    /// Takes the next word, and complains where there is none.
    pub fn wanted(&mut self, complaint: Complaint) -> Result<Word<'a>, Unreadable> {
        self.next().ok_or(Unreadable {
            column: self.place + 1,
            complaint,
        })
    }
}

impl<'a> Iterator for Words<'a> {
    type Item = Word<'a>;

    /// Takes the next word, if there is one ahead of the comment or of the line's end.
    fn next(&mut self) -> Option<Word<'a>> {
        let rest = &self.line[self.place..];
        let blanks = rest.iter().take_while(|byte| BLANKS.contains(byte)).count();
        self.place += blanks;
        let rest = &rest[blanks..];
        if rest.is_empty() || rest[0] == b'#' {
            return None;
        }
        let length = rest
            .iter()
            .take_while(|byte| !BLANKS.contains(byte))
            .count();
        let column = self.place + 1;
        self.place += length;
        Some(Word {
            column,
            bytes: &rest[..length],
        })
    }
}

/// What can be wrong with a word.
#[derive(Clone, Copy, Debug, PartialEq, Eq)]
pub enum Complaint {
    Cab,
    Command,
    BehindPrivate,
    BehindGroup,
    Expires,
    Line,
    NoLineYet(Name),
    Name,
    Twice,
    Value,
}

impl Complaint {
    /// All complaints in the order in which a word is judged.
    pub const ALL: [Complaint; 11] = [
        Complaint::Cab,
        Complaint::Command,
        Complaint::BehindPrivate,
        Complaint::BehindGroup,
        Complaint::Expires,
        Complaint::Line,
        Complaint::NoLineYet(Name::A),
        Complaint::NoLineYet(Name::B),
        Complaint::Name,
        Complaint::Twice,
        Complaint::Value,
    ];

    /// Gives the complaint as it is printed.
    pub fn text(self) -> &'static str {
        match self {
            Complaint::Cab => "a cab was expected, a or b",
            Complaint::Command => {
                "settings, buffer, private, group, a timer, hears or chooses was expected"
            }
            Complaint::BehindPrivate => {
                "start, end, accept, reject, record or cleared was expected"
            }
            Complaint::BehindGroup => {
                "start, accept, reject, leave, raise, record or cleared was expected"
            }
            Complaint::Expires => "expires was expected",
            Complaint::Line => "a line was expected",
            Complaint::NoLineYet(Name::A) => "cab a has sent no line yet",
            Complaint::NoLineYet(Name::B) => "cab b has sent no line yet",
            Complaint::Name => "NAME=VALUE was expected, with a name that this command takes",
            Complaint::Twice => "this name was given before",
            Complaint::Value => "not a value of this name",
        }
    }

    /// Turns the complaint to a word.
    pub fn about(self, word: Word) -> Unreadable {
        Unreadable {
            column: word.column,
            complaint: self,
        }
    }
}

/// Why a line cannot be read: the place of the first wrong word and the complaint about it.
#[derive(Clone, Copy, Debug, PartialEq, Eq)]
pub struct Unreadable {
    pub column: usize,
    pub complaint: Complaint,
}
