//! Why something wasn't done.

use std::fmt;

use crate::calls;

/// Why a text wasn't done.
#[derive(Clone, Copy, Debug, PartialEq, Eq)]
pub enum Reason {
    /// A line may not stand where it stands; a reply is a refusal; a dump is faulty, or isn't made. The text says why.
    Refused,
    /// There is to be room for no event (54000).
    Full,
    /// Out of memory (53200).
    Memory,
    /// The text isn't UTF-8 (22021).
    NoText,
    /// A line asks for a file, and there are none: a DUMP; or an OPEN.
    Device,
    /// The arguments can't be right: a line with a newline, a line or place that isn't there, a value of another kind.
    Misuse,
    /// The line is done, and there was no memory for its answer's text: `last` asks for it once more.
    Unprinted,
    /// There are more schedules than may be run.
    TooMany,
    /// The library answers by a number that isn't known here.
    Other(i32),
}

/// Why a text wasn't done, the line that this speaks of (0 where it is none's matter), and the output of the lines
/// before; or the refusal.
#[derive(Clone, Debug, PartialEq, Eq)]
pub struct Error {
    pub reason: Reason,
    pub line: u64,
    pub text: String,
}

impl Error {
    pub(crate) fn of(status: i32, line: u64, text: String) -> Error {
        let reason = match status {
            calls::REFUSED => Reason::Refused,
            calls::FULL => Reason::Full,
            calls::MEMORY => Reason::Memory,
            calls::NO_TEXT => Reason::NoText,
            calls::DEVICE => Reason::Device,
            calls::MISUSE => Reason::Misuse,
            calls::UNPRINTED => Reason::Unprinted,
            calls::TOO_MANY => Reason::TooMany,
            other => Reason::Other(other),
        };
        Error { reason, line, text }
    }

    /// What stands behind `ERROR ` where a refusal was answered: its code and its place.
    fn told(&self) -> Option<&str> {
        let line = match self.reason {
            Reason::Refused => self.text.lines().next()?,
            _ => return None,
        };
        line.split_once("ERROR ").map(|(_, told)| told)
    }

    /// The SQLSTATE of a refusal, as `40001`; that of what else has one.
    pub fn sqlstate(&self) -> Option<&str> {
        match self.reason {
            Reason::Full => Some("54000"),
            Reason::Memory => Some("53200"),
            Reason::NoText => Some("22021"),
            _ => self.told().map(|told| told.split(' ').next().unwrap_or(told)),
        }
    }

    /// The place of a refusal, as `column 1`, `row` or `cause 2 3 2`; nothing where it has none.
    pub fn place(&self) -> Option<&str> {
        self.told().and_then(|told| told.split_once(' ')).map(|(_, place)| place)
    }

    /// Whether the transaction can be run again: another one was in its way (40001).
    pub fn is_serialization_failure(&self) -> bool {
        self.sqlstate() == Some("40001")
    }
}

impl fmt::Display for Error {
    fn fmt(&self, f: &mut fmt::Formatter<'_>) -> fmt::Result {
        match self.reason {
            Reason::Refused if self.line == 0 => write!(f, "{}", self.text.trim_end()),
            Reason::Refused => write!(f, "line {}", self.line),
            Reason::Full => write!(f, "54000: there is to be room for no event"),
            Reason::Memory => write!(f, "53200: out of memory"),
            Reason::NoText => write!(f, "22021: the text isn't UTF-8"),
            Reason::Device => write!(f, "line {}: there are no files", self.line),
            Reason::Misuse => write!(f, "the arguments can't be right"),
            Reason::Unprinted => write!(f, "the line is done, and there is no memory for its answer"),
            Reason::TooMany => write!(f, "there are more schedules than may be run"),
            Reason::Other(status) => write!(f, "status {status}"),
        }
    }
}

impl std::error::Error for Error {}
