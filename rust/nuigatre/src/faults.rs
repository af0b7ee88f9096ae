//! The faults of renaming and trimming, and how their numbers are read.

use crate::ffi::Fault;
use crate::memory::string;
use crate::place::{About, Place};
use crate::read::{Backquoted, Unread};
use crate::refused::Refused;
use std::error;
use std::fmt::{self, Display, Formatter};

/// An enum of faults that carry nothing, with the numbers that the archive has for them. These never change. Each is
/// shown by its name, or by a text if it has one.
macro_rules! numbered {
    ($(#[$attribute:meta])* $name:ident {
        $($(#[$documentation:meta])* $variant:ident = $number:literal $($text:literal)?,)*
    }) => {
        $(#[$attribute])*
        #[derive(Clone, Copy, Debug, PartialEq, Eq, Hash)]
        #[non_exhaustive]
        pub enum $name {
            $($(#[$documentation])* $variant,)*
        }

        impl $name {
            pub(crate) fn from_number(number: u32) -> Result<$name, Unread> {
                match number {
                    $($number => Ok($name::$variant),)*
                    _ => Err(Unread::Unknown),
                }
            }
        }

        impl Display for $name {
            fn fmt(&self, f: &mut Formatter<'_>) -> fmt::Result {
                match self {
                    $($(Self::$variant => return f.write_str($text),)?)*
                    #[allow(unreachable_patterns)]
                    _ => write!(f, "{self:?}"),
                }
            }
        }

        impl error::Error for $name {}
    };
}

pub(crate) use numbered;

numbered! {
    /// Why bytes are no module.
    ReadFault {
        /// The bytes begin with the header neither of a module nor of a component.
        NotWasm = 1,
        /// The bytes begin with a component's header.
        Component = 2,
        /// The bytes end inside an item.
        Truncated = 3,
        /// A number has more bytes than its type allows, or bits past its type; flags of a memory argument are 128 or
        /// more; a block's type is a negative index.
        BadNumber = 4,
        /// A name is not UTF-8.
        BadName = 5,
        /// A section is after one that it belongs before, or twice.
        SectionOrder = 6,
        /// A section holds more bytes than its items.
        SectionSize = 7,
        /// A section's id is none of the format.
        UnknownSection = 8,
        /// A byte stands for no type, for none that may occur there, or for no mutability or kind of item.
        BadType = 9,
        /// Flags, bounds or a page size that no table or memory may have.
        BadLimits = 10,
        /// An index of a type, an item or a start function is out of range.
        BadIndex = 11,
        /// Two exports have one name.
        DuplicateExport = 12,
        /// An initialiser has an operator that is not constant, or bytes after its end, or does not leave one value of
        /// its global's type.
        BadInitialiser = 13,
        /// There are not as many bodies as local functions.
        CountMismatch = 14,
        /// A code is no operator's, or a fence lacks its byte 0.
        UnknownOperator = 15,
        /// Blocks of a body do not nest.
        BadNesting = 16,
        /// The start function takes or gives values. One that is not there is `BadIndex`.
        BadStart = 17,
        /// An index space, or the locals of a body, pass 2^32 - 1.
        TooLarge = 18,
    }
}

/// Why the imports of a module could not be renamed.
///
/// [`Error`](crate::Error) has an example.
#[derive(Clone, Copy, Debug, PartialEq, Eq, Hash)]
#[non_exhaustive]
pub enum DedupeFault {
    /// The bytes are no component, and can't be cut into sections or have a malformed import section.
    Read(ReadFault),
    /// A section of the renamed module would have 2^32 bytes or more.
    TooLarge,
}

/// Why an adapter could not be trimmed. Of several causes the first in this order is named.
///
/// [`Error`](crate::Error) has an example.
#[derive(Clone, Debug, PartialEq, Eq, Hash)]
#[non_exhaustive]
pub enum GcFault {
    /// The bytes are no module.
    Read(ReadFault),
    /// The first of the required names that the adapter does not export.
    MissingExport(String),
    /// The adapter has a start function, or a section of elements, data or a data count.
    UnsupportedSection,
    /// A body that is reached is no code, or names a segment, or an index that is out of range.
    LiveBody,
    /// Two live globals are named as the stack pointer, or two as the state of its allocation.
    SeveralNamed,
    /// A table is reached.
    LiveTable,
    /// Two memories are reached.
    SeveralMemories,
    /// A memory that is reached is the adapter's own.
    LocalMemory,
    /// An imported realloc is of another type.
    ReallocType,
    /// A realloc grows memory, and no memory is reached that has 32 bits and pages of the required size.
    ReallocMemory,
    /// A count or a size of the trimmed module is no number of 32 bits.
    TooLarge,
}

/// Why the imports of a module could not be renamed, and where.
///
/// [`Error`](crate::Error) has an example.
pub type DedupeError = Refused<DedupeFault>;

/// Why bytes are no module, and where.
///
/// [`Error`](crate::Error) has an example.
pub type ReadError = Refused<ReadFault>;

/// Why an adapter could not be trimmed, and where.
///
/// [`Error`](crate::Error) has an example.
pub type TrimError = Refused<GcFault>;

/// The error of a fault of renaming that the archive answered.
pub(crate) fn dedupe_error(answered: &Fault) -> Result<DedupeError, Unread> {
    let fault = DedupeFault::from_number(answered.number)?;
    Ok(Refused::new(fault, place_of(answered)?)?)
}

/// The error of a fault of reading that the archive answered.
pub(crate) fn read_error(answered: &Fault) -> Result<ReadError, Unread> {
    let fault = ReadFault::from_number(answered.number)?;
    Ok(Refused::new(fault, place_of(answered)?)?)
}

/// The error of a fault of trimming that the archive answered. `missing` is the name of the export that is missing.
pub(crate) fn trim_error(answered: &Fault, missing: Option<&str>) -> Result<TrimError, Unread> {
    let fault = GcFault::from_number(answered.number, missing)?;
    Ok(Refused::new(fault, place_of(answered)?)?)
}

/// The place of a fault of a call on the bytes of one module.
fn place_of(answered: &Fault) -> Result<Option<Place>, Unread> {
    match About::parse(&answered.text)? {
        None => Ok(None),
        Some(About::Place(place)) => Ok(Some(place)),
        Some(_) => Err(Unread::Unknown),
    }
}

/// A fault's own number, and that of the fault that it carries.
pub(crate) fn parts_of(number: u32) -> (u32, u32) {
    (number % 256, number / 256)
}

impl DedupeFault {
    pub(crate) fn from_number(number: u32) -> Result<DedupeFault, Unread> {
        match parts_of(number) {
            (1, carried) => Ok(DedupeFault::Read(ReadFault::from_number(carried)?)),
            (2, 0) => Ok(DedupeFault::TooLarge),
            _ => Err(Unread::Unknown),
        }
    }
}

impl GcFault {
    /// The fault of this number. `name` is the name of the export that is missing.
    pub(crate) fn from_number(number: u32, name: Option<&str>) -> Result<GcFault, Unread> {
        Ok(match parts_of(number) {
            (1, carried) => GcFault::Read(ReadFault::from_number(carried)?),
            (2, 0) => GcFault::MissingExport(string(name.ok_or(Unread::Unknown)?)?),
            (3, 0) => GcFault::UnsupportedSection,
            (4, 0) => GcFault::LiveBody,
            (5, 0) => GcFault::SeveralNamed,
            (6, 0) => GcFault::LiveTable,
            (7, 0) => GcFault::SeveralMemories,
            (8, 0) => GcFault::LocalMemory,
            (9, 0) => GcFault::ReallocType,
            (10, 0) => GcFault::ReallocMemory,
            (11, 0) => GcFault::TooLarge,
            _ => return Err(Unread::Unknown),
        })
    }
}

impl Display for DedupeFault {
    fn fmt(&self, f: &mut Formatter<'_>) -> fmt::Result {
        match self {
            DedupeFault::Read(fault) => write!(f, "Read: {fault}"),
            DedupeFault::TooLarge => f.write_str("TooLarge"),
        }
    }
}

impl Display for GcFault {
    fn fmt(&self, f: &mut Formatter<'_>) -> fmt::Result {
        match self {
            GcFault::Read(fault) => write!(f, "Read: {fault}"),
            GcFault::MissingExport(name) => {
                write!(
                    f,
                    "adapter module does not have export {}",
                    Backquoted(name)
                )
            }
            fault => write!(f, "{fault:?}"),
        }
    }
}

impl error::Error for DedupeFault {}
impl error::Error for GcFault {}

#[cfg(test)]
mod tests {
    use super::{DedupeFault, GcFault, ReadFault};
    use crate::ffi::fault_text::{
        DEDUPE_CALL, PATHS_CALL, SCAN_CALL, TRIM_CALL, WHY_CALL, fault_text,
    };

    /// How many numbers are those of a fault, each of one of its own.
    fn count<T: PartialEq>(fault: impl Fn(u32) -> Option<T>) -> usize {
        let known: Vec<T> = (0..100_000).filter_map(fault).collect();
        for (at, one) in known.iter().enumerate() {
            assert!(known[..at].iter().all(|other| other != one));
        }
        known.len()
    }

    #[test]
    fn numbers_mean_one_fault_each() {
        assert_eq!(count(|number| ReadFault::from_number(number).ok()), 18);
        assert_eq!(count(|number| DedupeFault::from_number(number).ok()), 19);
        let of_gc = |number| GcFault::from_number(number, Some("f")).ok();
        assert_eq!(count(of_gc), 28);
    }

    /// The library has the same texts for the same numbers, but that it knows no name.
    #[test]
    fn texts_are_those_of_the_library() {
        for number in 0..100_000 {
            let fault = DedupeFault::from_number(number).ok();
            let text = fault.map(|it| it.to_string());
            assert_eq!(fault_text(DEDUPE_CALL, number), text, "{number}");
            let fault = GcFault::from_number(number, Some("")).ok();
            let text = fault.map(|it| it.to_string().trim_end_matches(" ``").to_owned());
            assert_eq!(fault_text(TRIM_CALL, number), text, "{number}");
            assert_eq!(fault_text(WHY_CALL, number), text, "{number}");
            assert_eq!(fault_text(PATHS_CALL, number), text, "{number}");
            let fault = ReadFault::from_number(number).ok();
            let text = fault.map(|it| it.to_string());
            assert_eq!(fault_text(SCAN_CALL, number), text, "{number}");
            assert_eq!(fault_text(PATHS_CALL + 1, number), None);
        }
    }
}
