//! Why a call was refused.

use std::fmt;

/// Why a call was refused. The state is then what it was, unless the call says otherwise.
#[derive(Clone, Copy, PartialEq, Eq, Hash, Debug)]
#[non_exhaustive]
pub enum Error {
    /// The node that was named is free.
    NoEntry,
    /// A try form would have had to wait, or has given up; or another task changed the node in between.
    Again,
    /// There is no memory.
    NoMemory,
    /// Somebody is inside, or a freeze stands or is under way.
    Busy,
    /// The node that was named is a file.
    NotDir,
    /// The node that was named is a directory.
    IsDir,
    /// A number is out of range, or nothing is frozen that the call could thaw or snapshot.
    Invalid,
    /// One access, one open file or one task more than there may be.
    TooMany,
    /// No node is free, or no blocks are left.
    NoSpace,
    /// The mount or the superblock is read-only.
    ReadOnly,
    /// The task may not make the call now.
    Order,
    /// A freeze has not come to its end within its time, and has given up.
    TimedOut,
    /// A hook of the file system failed with this code.
    Hook(u16),
}

impl Error {
    pub(crate) fn of(number: u32) -> Error {
        match number {
            2 => Error::NoEntry,
            11 => Error::Again,
            12 => Error::NoMemory,
            16 => Error::Busy,
            20 => Error::NotDir,
            21 => Error::IsDir,
            22 => Error::Invalid,
            24 => Error::TooMany,
            28 => Error::NoSpace,
            30 => Error::ReadOnly,
            number if number >= 65_536 => Error::Hook((number - 65_536) as u16),
            _ => Error::Order,
        }
    }

    /// Returns the errno, as the kernel has it; None for a hook's failure, so that a hook's 16 isn't EBUSY.
    ///
    /// ```
    /// assert_eq!(mntgate::Error::Busy.errno(), Some(16));
    /// assert_eq!(mntgate::Error::Hook(16).errno(), None);
    /// ```
    pub fn errno(self) -> Option<i32> {
        Some(match self {
            Error::NoEntry => 2,
            Error::Again => 11,
            Error::NoMemory => 12,
            Error::Busy => 16,
            Error::NotDir => 20,
            Error::IsDir => 21,
            Error::Invalid => 22,
            Error::TooMany => 24,
            Error::NoSpace => 28,
            Error::ReadOnly => 30,
            Error::Order => 35,
            Error::TimedOut => 110,
            Error::Hook(_) => return None,
        })
    }
}

impl fmt::Display for Error {
    fn fmt(&self, f: &mut fmt::Formatter<'_>) -> fmt::Result {
        f.write_str(match self {
            Error::NoEntry => "no such node",
            Error::Again => "try again",
            Error::NoMemory => "out of memory",
            Error::Busy => "busy",
            Error::NotDir => "not a directory",
            Error::IsDir => "is a directory",
            Error::Invalid => "invalid",
            Error::TooMany => "too many",
            Error::NoSpace => "no space",
            Error::ReadOnly => "read-only",
            Error::Order => "out of order",
            Error::TimedOut => "timed out",
            Error::Hook(code) => return write!(f, "hook failed with {code}"),
        })
    }
}

impl std::error::Error for Error {}

/// A call that was refused, with the tasks that were given to it, as they were.
#[derive(Debug)]
pub struct Refused<T> {
    /// Why.
    pub error: Error,
    /// What the call would have consumed.
    pub task: T,
}

impl<T> fmt::Display for Refused<T> {
    fn fmt(&self, f: &mut fmt::Formatter<'_>) -> fmt::Result {
        self.error.fmt(f)
    }
}

impl<T: fmt::Debug> std::error::Error for Refused<T> {
    fn source(&self) -> Option<&(dyn std::error::Error + 'static)> {
        Some(&self.error)
    }
}

pub(crate) fn answer(number: u32) -> Result<(), Error> {
    match number {
        0 => Ok(()),
        _ => Err(Error::of(number)),
    }
}
