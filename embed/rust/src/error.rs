use crate::raw::Status;
use crate::reply::Fault;
use std::fmt;

/// Why nothing was done.
#[derive(Clone, Copy, Debug, PartialEq, Eq)]
pub enum Error {
    OutOfMemory,
    /// A line that is no call.
    BadCall,
    BadName,
    /// A block has 1 to 1,024 calls.
    BadCount,
    /// The call was prepared with another caller.
    NotPrepared,
    /// A call or a block is left already.
    Occupied,
    /// A machine has 1 to 64 callers.
    BadCallers,
    /// A machine has room for 1 to 67,108,864 items.
    BadRoom,
    /// Nothing was answered yet.
    NoReply,
    /// The last caller was closed, and the book is with a thread that ended within a call.
    Unfinished,
    /// The call was not done, and changed nothing.
    Fault(Fault),
    /// A number that this binding does not know.
    Unknown(i32),
}

impl Error {
    pub(crate) fn of(status: Status) -> Error {
        match status {
            -1 => Error::OutOfMemory,
            -3 => Error::BadCall,
            -4 => Error::BadName,
            -5 => Error::BadCount,
            -6 => Error::NotPrepared,
            -7 => Error::Occupied,
            -8 => Error::BadCallers,
            -9 => Error::BadRoom,
            -12 => Error::NoReply,
            status => Error::Unknown(status),
        }
    }

    pub(crate) fn check(status: Status) -> Result<(), Error> {
        if status < 0 { Err(Error::of(status)) } else { Ok(()) }
    }
}

impl fmt::Display for Error {
    fn fmt(&self, f: &mut fmt::Formatter<'_>) -> fmt::Result {
        match self {
            Error::OutOfMemory => f.write_str("out of memory"),
            Error::BadCall => f.write_str("not a call"),
            Error::BadName => f.write_str("not a name"),
            Error::BadCount => f.write_str("not 1 to 1,024 calls"),
            Error::NotPrepared => f.write_str("no call of this number is prepared"),
            Error::Occupied => f.write_str("a call is left already"),
            Error::BadCallers => f.write_str("not 1 to 64 callers"),
            Error::BadRoom => f.write_str("no lawful room"),
            Error::NoReply => f.write_str("nothing was answered yet"),
            Error::Unfinished => f.write_str("a thread ended within a call"),
            Error::Fault(fault) => write!(f, "fault: {fault:?}"),
            Error::Unknown(status) => write!(f, "status {status}"),
        }
    }
}

impl std::error::Error for Error {}
