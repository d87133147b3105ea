use std::collections::TryReserveError;
use std::error::Error;
use std::{fmt, io};

/// Why a call was refused. It has changed nothing then, but for calls on many pairs, as
/// `try_extend`: the pairs before the refused one are done.
#[derive(Clone, Copy, Debug, PartialEq, Eq, Hash)]
#[non_exhaustive]
pub enum Refusal {
    /// The number would be past `u64::MAX`.
    LastNumber,
    /// Memory was refused: the library, or a copy of a key, of a value or of a page.
    NoMemory,
    /// The key is longer than a key of the map may be, or keys may be longer in the map that is put
    /// back.
    TooLong,
    /// The map has a key, and how long one may be is set without any.
    NotEmpty,
}

impl fmt::Display for Refusal {
    fn fmt(&self, f: &mut fmt::Formatter<'_>) -> fmt::Result {
        f.write_str(match self {
            Refusal::LastNumber => "the number of the map can't be raised",
            Refusal::NoMemory => "out of memory",
            Refusal::TooLong => "the key is too long",
            Refusal::NotEmpty => "the map has a key",
        })
    }
}

impl Error for Refusal {}

/// So `?` behind `try_reserve` answers a refusal, as in what [`crate::Lent::try_for_each`] calls.
impl From<TryReserveError> for Refusal {
    fn from(_: TryReserveError) -> Refusal {
        Refusal::NoMemory
    }
}

/// It has the refusal in it, in a box; of `NoMemory` it has the kind alone, for which it needs none.
impl From<Refusal> for io::Error {
    fn from(refusal: Refusal) -> io::Error {
        let kind = match refusal {
            Refusal::NoMemory => return io::ErrorKind::OutOfMemory.into(),
            Refusal::LastNumber | Refusal::NotEmpty => io::ErrorKind::Other,
            Refusal::TooLong => io::ErrorKind::InvalidInput,
        };
        io::Error::new(kind, refusal)
    }
}

/// Why bytes were not read as a map. The map that was to be made of them is as before.
#[derive(Clone, Copy, Debug, PartialEq, Eq, Hash)]
#[non_exhaustive]
pub enum LoadError {
    /// Memory was refused. Only with this error or `TooLong` may the bytes be a map's.
    NoMemory,
    /// The bytes end before the map's end.
    Truncated,
    /// The bytes are of a format that this library doesn't read.
    Unsupported,
    /// What begins at that byte stands in no map's form: bytes of another program, values of the
    /// other kind, keys that don't ascend, or bytes behind the end.
    Malformed {
        /// How many bytes stand before it.
        at: usize,
    },
    /// The key whose form begins at that byte is longer than a key of the map may be.
    TooLong {
        /// How many bytes stand before it.
        at: usize,
    },
    /// The sum at the end is not that of the bytes before it.
    WrongSum,
}

impl fmt::Display for LoadError {
    fn fmt(&self, f: &mut fmt::Formatter<'_>) -> fmt::Result {
        match self {
            LoadError::NoMemory => f.write_str("out of memory"),
            LoadError::Truncated => f.write_str("the bytes end early"),
            LoadError::Unsupported => f.write_str("the format is another"),
            LoadError::Malformed { at } => write!(f, "what begins at byte {at} is no map's"),
            LoadError::TooLong { at } => write!(f, "the key at byte {at} is too long"),
            LoadError::WrongSum => f.write_str("the checksum is another"),
        }
    }
}

impl Error for LoadError {}

/// It has the error in it, in a box; of `NoMemory` it has the kind alone, for which it needs none.
impl From<LoadError> for io::Error {
    fn from(error: LoadError) -> io::Error {
        let kind = match error {
            LoadError::NoMemory => return io::ErrorKind::OutOfMemory.into(),
            LoadError::Truncated => io::ErrorKind::UnexpectedEof,
            LoadError::Unsupported => io::ErrorKind::Unsupported,
            LoadError::Malformed { .. } | LoadError::TooLong { .. } | LoadError::WrongSum => {
                io::ErrorKind::InvalidData
            }
        };
        io::Error::new(kind, error)
    }
}

/// What was not refused. A refusal panics.
#[inline]
#[track_caller]
pub(crate) fn unrefused<T>(result: Result<T, Refusal>) -> T {
    match result {
        Ok(it) => it,
        Err(refusal) => panic!("{refusal}"),
    }
}
