use std::fmt;
use std::os::raw::c_int;

/// Why a call changed nothing: the codes of heap.h.
#[derive(Clone, Copy, Debug, PartialEq, Eq)]
pub enum Error {
    /// `malloc` had none.
    NoMemory,
    /// No such place, or the anchor's where another is wanted.
    BadPlace,
    /// A field above 4.
    BadField,
    /// Too few places are free.
    NoRoom,
    /// No cell is free now.
    Wait,
    /// The field holds something else.
    Moved,
    /// The mutator is out.
    NotIn,
    /// A number from 2^62 on, or the anchor as a value.
    BadValue,
    /// The mutator is in already.
    IsIn,
    /// A handle that was never opened, or has ended.
    NoHandle,
    /// No cell is free, nor was one after two cycles more.
    Full,
    /// All mutators were seated.
    NoSeat,
    /// All cycles of the heap's life were made.
    Spent,
    /// A number of cells, mutators, places or values out of range.
    BadSize,
    /// A handle was to be written over.
    NotZero,
    /// A code that this binding does not know.
    Other(i32),
}

impl fmt::Display for Error {
    fn fmt(&self, f: &mut fmt::Formatter<'_>) -> fmt::Result {
        fmt::Debug::fmt(self, f)
    }
}

impl std::error::Error for Error {}

/// What a call gave, unless it answered a code.
pub type Result<T> = std::result::Result<T, Error>;

/// The code as a result.
pub(crate) fn checked(code: c_int) -> Result<()> {
    Err(match code {
        0 => return Ok(()),
        1 => Error::NoMemory,
        2 => Error::BadPlace,
        3 => Error::BadField,
        4 => Error::NoRoom,
        5 => Error::Wait,
        6 => Error::Moved,
        7 => Error::NotIn,
        8 => Error::BadValue,
        9 => Error::IsIn,
        10 => Error::NoHandle,
        11 => Error::Full,
        12 => Error::NoSeat,
        13 => Error::Spent,
        14 => Error::BadSize,
        15 => Error::NotZero,
        other => Error::Other(other),
    })
}
