//! Why there is no result.

use crate::ReadError;
use std::fmt;
use std::io;

/// Why a document wasn't lowered.
#[derive(Debug)]
pub enum Error {
    /// The document has an error, as `node 3: kind`. `docs/DOCUMENTS.md` lists them.
    Fault(String),
    /// Memory was refused, or an arena was full, as `memory`.
    Refused(String),
    /// What the library wrote isn't a result that this crate reads. Then the two don't belong together.
    Result(ReadError),
    /// The library answered a status that it doesn't have, or no text. Then the two don't belong together.
    Library(u32),
    /// The thread with enough stack couldn't be made.
    Thread(io::Error),
}

impl fmt::Display for Error {
    fn fmt(&self, f: &mut fmt::Formatter<'_>) -> fmt::Result {
        match self {
            Error::Fault(text) => write!(f, "fault: {text}"),
            Error::Refused(text) => write!(f, "refused: {text}"),
            Error::Result(error) => write!(f, "the library's result: {error}"),
            Error::Library(status) => write!(f, "the library answered {status}"),
            Error::Thread(error) => write!(f, "no thread: {error}"),
        }
    }
}

impl std::error::Error for Error {
    fn source(&self) -> Option<&(dyn std::error::Error + 'static)> {
        match self {
            Error::Result(error) => Some(error),
            Error::Thread(error) => Some(error),
            Error::Fault(_) | Error::Refused(_) | Error::Library(_) => None,
        }
    }
}

impl From<ReadError> for Error {
    fn from(error: ReadError) -> Error {
        Error::Result(error)
    }
}
