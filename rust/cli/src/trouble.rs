//! What ends a command without an answer: input that is refused, or a fault of this program that it has noticed.
use std::fmt;

/// The numbers of refusals. Those up to 12 are the library's own; from 101 on they are this program's.
pub mod number {
    /// A pair stands in the table again.
    pub const TWIN: u32 = 5;
    /// A route is paired with itself.
    pub const ITSELF: u32 = 7;
    /// Two routes of a plan that the table does not have as a pair.
    pub const PARTNER: u32 = 10;
    /// The command line cannot be understood.
    pub const COMMAND: u32 = 101;
    /// A file cannot be read or written.
    pub const FILE: u32 = 102;
    /// A file is not UTF-8 text.
    pub const ENCODING: u32 = 103;
    /// A character that no name or line may hold.
    pub const CHARACTER: u32 = 104;
    /// A name is empty, or a line has more than two.
    pub const COUNT: u32 = 105;
    /// A space before or after a name.
    pub const SPACE: u32 = 106;
    /// A name is too long.
    pub const LENGTH: u32 = 107;
    /// Two names are equal but for spaces or case.
    pub const ALIKE: u32 = 108;
    /// A route that is named alone stands in another line too.
    pub const ALONE: u32 = 109;
    /// A line of a plan file is not of its form.
    pub const FORM: u32 = 110;
    /// A plan file names a route that the table does not have.
    pub const UNKNOWN: u32 = 111;
    /// A plan file names a route twice.
    pub const AGAIN: u32 = 112;
    /// A plan file does not name a route of the table.
    pub const MISSING: u32 = 113;
    /// A plan file was made from another sheet.
    pub const SHEET: u32 = 114;
}

/// Input that is refused: the number, where it stands, and what it means in words.
#[derive(Clone, Debug, PartialEq, Eq)]
pub struct Refused {
    pub number: u32,
    pub place: String,
    pub words: String,
}

impl Refused {
    /// Refused at a file, or at the command line.
    pub fn at(number: u32, place: &str, words: impl Into<String>) -> Refused {
        Refused { number, place: place.to_string(), words: words.into() }
    }

    /// Refused at a line of a file.
    pub fn in_line(number: u32, file: &str, line: usize, words: impl Into<String>) -> Refused {
        Refused { number, place: format!("{file}, line {line}"), words: words.into() }
    }
}

impl fmt::Display for Refused {
    fn fmt(&self, f: &mut fmt::Formatter<'_>) -> fmt::Result {
        write!(f, "refused, number {}: {}: {}", self.number, self.place, self.words)
    }
}

/// Why a command has no answer.
#[derive(Clone, Debug, PartialEq, Eq)]
pub enum Trouble {
    Refused(Refused),
    /// The second look at an answer failed. The answer is held back.
    Fault(String),
}

impl From<Refused> for Trouble {
    fn from(refused: Refused) -> Trouble {
        Trouble::Refused(refused)
    }
}

impl fmt::Display for Trouble {
    fn fmt(&self, f: &mut fmt::Formatter<'_>) -> fmt::Result {
        match self {
            Trouble::Refused(refused) => refused.fmt(f),
            Trouble::Fault(words) => {
                write!(f, "not shown: {words}. This is a fault of the program: its answer is held back")
            }
        }
    }
}
