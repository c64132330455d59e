//! Messages as records.

use crate::error::{status_of, Error, Status};
use crate::job::Warnings;
use crate::library::{self, Record};
use crate::texts::filled;
use std::fmt;
use std::str::FromStr;

/// The severity of a message.
#[derive(Clone, Copy, Debug, PartialEq, Eq, PartialOrd, Ord, Hash)]
pub enum Severity {
    /// Something looks like a mistake.
    Warning,
    /// Something was left out.
    Error,
    /// The reading stopped here.
    Fatal,
}

/// The code of a message, such as `E1`. [`Code::number`] is its number in C.
#[derive(Clone, Copy, Debug, PartialEq, Eq, PartialOrd, Ord, Hash)]
pub struct Code(u32);

impl Code {
    /// Returns 101 to 106 for E1 to E6, 201 to 212 for W1 to W12, 301 to 307 for F1 to F7. The number of a code never changes.
    #[must_use]
    pub fn number(self) -> u32 {
        self.0
    }
}

/// The kinds of codes: their letter, what their numbers begin with for C, and how many there are.
const KINDS: [(char, u32, u32); 3] = [('E', 100, 6), ('W', 200, 12), ('F', 300, 7)];

/// The error for a text that is no code of this version.
#[derive(Clone, Copy, Debug, PartialEq, Eq, Hash)]
pub struct NoCode;

impl fmt::Display for NoCode {
    fn fmt(&self, formatter: &mut fmt::Formatter<'_>) -> fmt::Result {
        formatter.write_str("this is no code")
    }
}

impl std::error::Error for NoCode {}

impl FromStr for Code {
    type Err = NoCode;

    /// Reads a code as messages have it.
    ///
    /// # Errors
    ///
    /// [`NoCode`] for all but E1 to E6, W1 to W12 and F1 to F7.
    ///
    /// # Examples
    ///
    /// ```
    /// use gregorio_chant::Code;
    ///
    /// assert_eq!("W12".parse::<Code>().map(Code::number), Ok(212));
    /// assert!(["", "E", "E0", "E01", "E7", "e1", "W+1"].iter().all(|it| it.parse::<Code>().is_err()));
    /// ```
    fn from_str(text: &str) -> Result<Code, NoCode> {
        let is_text = |it: &Code| it.to_string() == text;
        let codes = KINDS.iter().flat_map(|(_, base, count)| (base + 1..=base + count).map(Code));
        codes.into_iter().find(is_text).ok_or(NoCode)
    }
}

impl fmt::Display for Code {
    fn fmt(&self, formatter: &mut fmt::Formatter<'_>) -> fmt::Result {
        let kind = KINDS.iter().find(|(_, base, _)| *base == self.0 / 100 * 100).map_or('F', |it| it.0);
        write!(formatter, "{kind}{}", self.0 % 100)
    }
}

/// A message. Lines and columns count from 1, a column for each character.
#[derive(Clone, Copy, Debug, PartialEq, Eq, Hash)]
pub struct Message {
    /// The line, from 1.
    pub line: u64,
    /// The column in characters, from 1.
    pub column: u64,
    /// Its severity.
    pub severity: Severity,
    /// Its code.
    pub code: Code,
}

impl fmt::Display for Message {
    fn fmt(&self, formatter: &mut fmt::Formatter<'_>) -> fmt::Result {
        let severity = match self.severity {
            Severity::Warning => "warning",
            Severity::Error => "error",
            Severity::Fatal => "fatal",
        };
        write!(formatter, "{}:{}: {severity}: {}", self.line, self.column, self.code)
    }
}

/// The messages of a score, in the order of their places.
#[derive(Clone, Debug, PartialEq, Eq)]
pub struct Messages {
    /// The messages.
    pub list: Vec<Message>,
    /// How the score was read.
    pub status: Status,
}

impl IntoIterator for Messages {
    type Item = Message;
    type IntoIter = std::vec::IntoIter<Message>;

    fn into_iter(self) -> Self::IntoIter {
        self.list.into_iter()
    }
}

impl Messages {
    /// Returns an iterator over the messages.
    pub fn iter(&self) -> std::slice::Iter<'_, Message> {
        self.list.iter()
    }
}

impl<'a> IntoIterator for &'a Messages {
    type Item = &'a Message;
    type IntoIter = std::slice::Iter<'a, Message>;

    fn into_iter(self) -> Self::IntoIter {
        self.list.iter()
    }
}

fn message_of(record: &Record) -> Message {
    Message {
        line: record.line,
        column: record.column,
        severity: match record.severity {
            0 => Severity::Warning,
            1 => Severity::Error,
            _ => Severity::Fatal,
        },
        code: Code(record.code),
    }
}

/// Reads `score` under the default limits, and returns only its messages and its status.
///
/// # Errors
///
/// [`Error::NoMemory`].
///
/// # Examples
///
/// ```
/// use gregorio_chant::{messages, Status, Warnings};
///
/// let found = messages("%%\nKy(f)ri(/./)", Warnings::Untold)?;
/// assert_eq!(found.list[0].to_string(), "2:10: error: E1");
/// assert_eq!(found.status, Status::Errors);
/// # Ok::<(), gregorio_chant::Error>(())
/// ```
pub fn messages(score: impl AsRef<[u8]>, warnings: Warnings) -> Result<Messages, Error> {
    let score = score.as_ref();
    let mut records = filled::<Record>(64)?;
    loop {
        let mut count = 0;
        let status = status_of(library::messages(warnings, score, &mut records, &mut count))?;
        if let Some(found) = records.get(..count) {
            let list = found.iter().map(message_of).collect();
            return Ok(Messages { list, status });
        }
        records = filled(count)?;
    }
}
