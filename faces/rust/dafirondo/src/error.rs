//! Why a call fails.

use std::fmt;

/// Why a call on the log fails. A text says more.
#[derive(Clone, Debug, PartialEq, Eq)]
pub enum Error {
    /// The call rejects an argument; nothing was done.
    InvalidArgument(String),
    /// The log's files hold bytes that no log has.
    Corruption(String),
    /// A call of the operating system failed.
    Io(String),
    /// A number in the log's files is damaged.
    Codec(String),
    /// There was no space, and nothing was written; the same call may succeed later.
    TryAgain(String),
    /// The entry was dropped by a compaction.
    EntryCompacted,
    /// There is no such entry.
    EntryNotFound,
    /// A batch has too many bytes.
    Full,
    /// Another error, such as invalid settings.
    Other(String),
    /// Memory ran out.
    Memory,
    /// The log failed, and takes nothing more until it is opened again.
    Failed,
    /// The entries would leave a gap after those that are there.
    Hole,
    /// The numbers of files have run out.
    NumberRange,
    /// A directory can't be opened, for example because another log uses it.
    Directory(String),
    /// A message's `parse` rejects the bytes.
    Message(String),
}

/// What a call on the log returns.
pub type Result<T, E = Error> = std::result::Result<T, E>;

impl Error {
    /// The error of a status that isn't 0. The text is asked for where the error has one.
    pub(crate) fn of(status: i32, text: impl FnOnce() -> String) -> Error {
        match status {
            1 => Error::InvalidArgument(text()),
            2 => Error::Corruption(text()),
            3 => Error::Io(text()),
            4 => Error::Codec(text()),
            5 => Error::TryAgain(text()),
            6 => Error::EntryCompacted,
            7 => Error::EntryNotFound,
            8 => Error::Full,
            10 => Error::Memory,
            11 => Error::Failed,
            12 => Error::Hole,
            13 => Error::NumberRange,
            14 => Error::Directory(text()),
            _ => Error::Other(text()),
        }
    }
}

impl fmt::Display for Error {
    fn fmt(&self, f: &mut fmt::Formatter<'_>) -> fmt::Result {
        match self {
            Error::InvalidArgument(text)
            | Error::Corruption(text)
            | Error::Io(text)
            | Error::Codec(text)
            | Error::TryAgain(text)
            | Error::Other(text)
            | Error::Directory(text) => f.write_str(text),
            Error::Message(text) => write!(f, "Message Error: {text}"),
            Error::EntryCompacted => f.write_str("Entry Compacted"),
            Error::EntryNotFound => f.write_str("Entry not found"),
            Error::Full => f.write_str("Full"),
            Error::Memory => f.write_str("Memory"),
            Error::Failed => f.write_str("Failed"),
            Error::Hole => f.write_str("Hole"),
            Error::NumberRange => f.write_str("Number out of range"),
        }
    }
}

impl std::error::Error for Error {}
