//! Errors beside the archive's own refusals.

use crate::refusal::Refusal;
use crate::value::Type;
use alloc::string::String;
use alloc::vec::Vec;
use core::error::Error;
use core::fmt;

/// Why a key gives no string.
#[derive(Clone, Copy, Debug, PartialEq, Eq, Hash)]
#[non_exhaustive]
pub enum StringError {
    /// No entry has the key.
    Absent,
    /// The value of the key is not a string.
    OtherType,
    /// The header itself was refused.
    Refused(Refusal),
}

impl fmt::Display for StringError {
    fn fmt(&self, f: &mut fmt::Formatter<'_>) -> fmt::Result {
        f.write_str(match self {
            StringError::Absent => "no entry has this key",
            StringError::OtherType => "the value of this key is not a string",
            StringError::Refused(_) => "the header was refused",
        })
    }
}

impl Error for StringError {
    fn source(&self) -> Option<&(dyn Error + 'static)> {
        match self {
            StringError::Refused(refusal) => Some(refusal),
            _ => None,
        }
    }
}

impl From<Refusal> for StringError {
    fn from(refusal: Refusal) -> StringError {
        StringError::Refused(refusal)
    }
}

/// Why there is no range of bytes for a tensor.
#[derive(Clone, Copy, Debug, PartialEq, Eq, Hash)]
#[non_exhaustive]
pub enum RangeError {
    /// The header has no such tensor.
    NoSuchTensor,
    /// The tensor's data would end above 2^64 - 1: no file has these bytes.
    Overflow,
}

impl fmt::Display for RangeError {
    fn fmt(&self, f: &mut fmt::Formatter<'_>) -> fmt::Result {
        f.write_str(match self {
            RangeError::NoSuchTensor => "the header has no such tensor",
            RangeError::Overflow => "the tensor's data would end above 2^64 - 1",
        })
    }
}

impl Error for RangeError {}

/// Why a [`Sheet`](crate::Sheet) has no bytes.
#[derive(Clone, Debug, PartialEq, Eq, Hash)]
#[non_exhaustive]
pub enum SheetError {
    /// An item of an array, or of an array inside it, is not of the item type of the array that it
    /// is in.
    ItemType {
        /// The key of the entry.
        key: Vec<u8>,
        /// The item type of the array that the item is in.
        expected: Type,
        /// The item's own type.
        found: Type,
    },
    /// An entry or a tensor takes more than 2^32 - 1 bytes, the most that a sheet can hold of one.
    TooLong,
}

impl fmt::Display for SheetError {
    fn fmt(&self, f: &mut fmt::Formatter<'_>) -> fmt::Result {
        match self {
            SheetError::ItemType { key, expected, found } => {
                let key = String::from_utf8_lossy(key);
                write!(f, "under {key:?}, an array of {expected} has an item of type {found}")
            }
            SheetError::TooLong => {
                f.write_str("an entry or a tensor takes more than 2^32 - 1 bytes")
            }
        }
    }
}

impl Error for SheetError {}

/// Why a [`Sheet`](crate::Sheet) is not written.
#[derive(Clone, Debug, PartialEq, Eq, Hash)]
#[non_exhaustive]
pub enum WriteError {
    /// The sheet has no bytes.
    Sheet(SheetError),
    /// The writer refused.
    Refused(Refusal),
}

impl fmt::Display for WriteError {
    fn fmt(&self, f: &mut fmt::Formatter<'_>) -> fmt::Result {
        f.write_str(match self {
            WriteError::Sheet(_) => "the sheet can't be made",
            WriteError::Refused(_) => "the header was not written",
        })
    }
}

impl Error for WriteError {
    fn source(&self) -> Option<&(dyn Error + 'static)> {
        match self {
            WriteError::Sheet(error) => Some(error),
            WriteError::Refused(refusal) => Some(refusal),
        }
    }
}

impl From<SheetError> for WriteError {
    fn from(error: SheetError) -> WriteError {
        WriteError::Sheet(error)
    }
}

impl From<Refusal> for WriteError {
    fn from(refusal: Refusal) -> WriteError {
        WriteError::Refused(refusal)
    }
}
