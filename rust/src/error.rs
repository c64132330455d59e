//! Errors and statuses.

use crate::library;
use std::fmt;
use std::io;

/// How a score was read.
#[derive(Clone, Copy, Debug, PartialEq, Eq, Hash)]
pub enum Status {
    /// It was read to its end, and no error was found.
    Whole,
    /// It was read to its end, and errors were found.
    Errors,
    /// A fatal fault stopped the reading.
    Fatal,
    /// Its source failed ([`Run::broken`](crate::Run::broken)).
    Broken,
}

/// The error of a call that did nothing: its arguments are unchanged.
#[derive(Clone, Copy, Debug, PartialEq, Eq, Hash)]
#[non_exhaustive]
pub enum Error {
    /// There was not enough memory.
    NoMemory,
    /// A limit is out of range.
    Limits,
    /// The bytes are no state of a run.
    NoState,
    /// The state is one of another format, of other warnings or of other limits.
    OtherState,
    /// The run is over: a fatal fault ended it.
    Over,
    /// The library returned this number, which no library of this version returns.
    Library(u32),
}

impl fmt::Display for Error {
    fn fmt(&self, formatter: &mut fmt::Formatter<'_>) -> fmt::Result {
        match self {
            Error::NoMemory => formatter.write_str("there is not enough memory"),
            Error::Limits => formatter.write_str("a limit is out of range"),
            Error::NoState => formatter.write_str("the bytes are no state of a run"),
            Error::OtherState => formatter.write_str("the state is one of another format, of other warnings or of other limits"),
            Error::Over => formatter.write_str("the run is over"),
            Error::Library(answer) => write!(formatter, "the library is another one: it answered {answer}"),
        }
    }
}

impl std::error::Error for Error {}

impl From<Error> for io::Error {
    /// Returns an error of the same meaning, with this one within.
    fn from(error: Error) -> io::Error {
        let kind = match error {
            Error::NoMemory => io::ErrorKind::OutOfMemory,
            Error::Limits | Error::Over => io::ErrorKind::InvalidInput,
            Error::NoState | Error::OtherState => io::ErrorKind::InvalidData,
            Error::Library(_) => io::ErrorKind::Other,
        };
        io::Error::new(kind, error)
    }
}

/// Returns the status or the error with this number.
pub(crate) fn status_of(answer: u32) -> Result<Status, Error> {
    match answer {
        library::WHOLE => Ok(Status::Whole),
        library::ERRORS => Ok(Status::Errors),
        library::FATAL => Ok(Status::Fatal),
        library::BROKEN => Ok(Status::Broken),
        library::REFUSED => Err(Error::Limits),
        library::NO_MEMORY => Err(Error::NoMemory),
        library::NO_STATE => Err(Error::NoState),
        library::OTHER_STATE => Err(Error::OtherState),
        other => Err(Error::Library(other)),
    }
}
