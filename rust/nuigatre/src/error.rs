//! Why a call has no answer.

use crate::faults::{DedupeError, ReadError, TrimError};
use crate::memory::OutOfMemory;
use crate::place::Place;
use crate::world_error::{ValidateError, WorldError};
use std::error;
use std::fmt::{self, Display, Formatter};

/// Why a call has no answer.
///
/// Its text has all names that are known: that of `Dedupe` and of `Trim` is the one that the program `wctrim` prints. What it
/// is about is its source, where that is known, and its [place](Error::place):
///
/// ```
/// use nuigatre::gc;
///
/// // a module of one function, which it exports as `f`, and which is its start function
/// let adapter = b"\0asm\x01\0\0\0\x01\x04\x01\x60\0\0\x03\x02\x01\0\x07\x05\x01\x01f\0\0\x08\x01\0\x0a\x04\x01\x02\0\x0b";
/// let error = gc::run(adapter, ["f"], None, 16).expect_err("a start function");
/// assert_eq!(error.to_string(), "Trim: UnsupportedSection");
/// let place = error.place().expect("a section");
/// assert_eq!(place.to_string(), "start section");
/// let source = std::error::Error::source(&error).expect("the same");
/// assert_eq!(source.to_string(), "start section");
/// ```
#[derive(Clone, Debug, PartialEq, Eq)]
#[non_exhaustive]
pub enum Error {
    /// An allocation failed. What was asked for is not done, and nothing stays allocated.
    Memory,
    /// No export is required of an adapter that is to be trimmed.
    NothingRequired,
    /// The exponent of a page size is more than 16.
    LargePageSize,
    /// The library that is linked is of another version than this crate: its form has another number, or it answers what
    /// this crate does not know.
    OtherVersion,
    /// The imports of the module could not be renamed.
    Dedupe(DedupeError),
    /// The adapter could not be trimmed.
    Trim(TrimError),
    /// The bytes are no module.
    Read(ReadError),
    /// The module is refused, by itself.
    Validate(ValidateError),
    /// There is no world of the component.
    World(WorldError),
}

impl Error {
    /// The place of the error, if that is known: [`Refused::place`](crate::Refused::place).
    #[must_use]
    pub fn place(&self) -> Option<&Place> {
        match self {
            Error::Dedupe(error) => error.place(),
            Error::Trim(error) => error.place(),
            Error::Read(error) => error.place(),
            Error::Validate(error) => error.place(),
            Error::World(error) => error.place(),
            _ => None,
        }
    }
}

impl From<OutOfMemory> for Error {
    fn from(_: OutOfMemory) -> Self {
        Error::Memory
    }
}

impl Display for Error {
    fn fmt(&self, f: &mut Formatter<'_>) -> fmt::Result {
        match self {
            Error::Memory => f.write_str("out of memory"),
            Error::NothingRequired => f.write_str("no export is required"),
            Error::LargePageSize => f.write_str("a page has more than 2^16 bytes"),
            Error::OtherVersion => f.write_str("libnuigatre.a is of another version"),
            Error::Dedupe(error) => write!(f, "Dedupe: {error}"),
            Error::Trim(error) => write!(f, "Trim: {error}"),
            Error::Read(error) => write!(f, "Read: {error}"),
            Error::Validate(error) => write!(f, "Validate: {error}"),
            Error::World(error) => write!(f, "{error}"),
        }
    }
}

impl error::Error for Error {
    /// [The place](Error::place); or an [`AdapterModuleDidNotExport`](crate::AdapterModuleDidNotExport), if the fault is that.
    fn source(&self) -> Option<&(dyn error::Error + 'static)> {
        match self {
            Error::Dedupe(error) => error.source(),
            Error::Trim(error) => error.source(),
            Error::Read(error) => error.source(),
            Error::Validate(error) => error.source(),
            Error::World(error) => error.source(),
            _ => None,
        }
    }
}
