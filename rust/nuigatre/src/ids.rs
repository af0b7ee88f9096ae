//! Ids, keys of worlds, and ways to call functions.

use crate::json::Value;
use crate::memory::{OutOfMemory, string};
use crate::read::{Read, Unread, member, of_name, show};
use std::fmt::{self, Display, Formatter};

/// The index of an interface among those of the resolved worlds. Its text is as `interface 3`.
///
/// [`ComponentWorld::new`](crate::ComponentWorld::new) has an example.
#[derive(Clone, Copy, Debug, PartialEq, Eq, PartialOrd, Ord, Hash)]
pub struct InterfaceId(pub u32);

/// The index of a type among those of the resolved worlds. Its text is as `type 3`.
///
/// [`ComponentWorld::new`](crate::ComponentWorld::new) has an example.
#[derive(Clone, Copy, Debug, PartialEq, Eq, PartialOrd, Ord, Hash)]
pub struct TypeId(pub u32);

/// The key of an item of a world: a plain name, or an interface by its id. Its text is that of the JSON, `interface-3` of an
/// interface.
///
/// [`ComponentWorld::new`](crate::ComponentWorld::new) has an example.
#[derive(Clone, Debug, PartialEq, Eq, PartialOrd, Ord, Hash)]
pub enum WorldKey {
    /// A plain name.
    Name(String),
    /// An interface.
    Interface(InterfaceId),
}

/// How a guest imports or exports a function as a core function. Its text is as `guest-import-async`. These are all: another
/// one is a new version of this crate.
///
/// [`ComponentWorld::new`](crate::ComponentWorld::new) has an example.
#[derive(Clone, Copy, Debug, PartialEq, Eq, PartialOrd, Ord, Hash)]
pub enum AbiVariant {
    /// A synchronous import.
    GuestImport,
    /// A synchronous export.
    GuestExport,
    /// An asynchronous import.
    GuestImportAsync,
    /// An asynchronous export with a callback.
    GuestExportAsync,
    /// An asynchronous export without a callback.
    GuestExportAsyncStackful,
}

/// The encoding of a core module's texts. Its text is `utf8`, `utf16` or `compact-utf16`.
///
/// [`ComponentWorld::new`](crate::ComponentWorld::new) has an example.
#[derive(Clone, Copy, Debug, PartialEq, Eq, Hash)]
#[allow(missing_docs)]
pub enum StringEncoding {
    UTF8,
    UTF16,
    CompactUTF16,
}

impl AbiVariant {
    const ALL: [(&'static str, AbiVariant); 5] = [
        ("guest-import", AbiVariant::GuestImport),
        ("guest-export", AbiVariant::GuestExport),
        ("guest-import-async", AbiVariant::GuestImportAsync),
        ("guest-export-async", AbiVariant::GuestExportAsync),
        (
            "guest-export-async-stackful",
            AbiVariant::GuestExportAsyncStackful,
        ),
    ];
}

impl StringEncoding {
    const ALL: [(&'static str, StringEncoding); 3] = [
        ("utf8", StringEncoding::UTF8),
        ("utf16", StringEncoding::UTF16),
        ("compact-utf16", StringEncoding::CompactUTF16),
    ];
}

impl WorldKey {
    pub(crate) fn try_clone(&self) -> Result<WorldKey, OutOfMemory> {
        Ok(match self {
            WorldKey::Name(name) => WorldKey::Name(string(name)?),
            WorldKey::Interface(id) => WorldKey::Interface(*id),
        })
    }
}

impl Display for InterfaceId {
    fn fmt(&self, f: &mut Formatter<'_>) -> fmt::Result {
        write!(f, "interface {}", self.0)
    }
}

impl Display for TypeId {
    fn fmt(&self, f: &mut Formatter<'_>) -> fmt::Result {
        write!(f, "type {}", self.0)
    }
}

impl Display for WorldKey {
    fn fmt(&self, f: &mut Formatter<'_>) -> fmt::Result {
        match self {
            WorldKey::Name(name) => f.write_str(name),
            WorldKey::Interface(id) => write!(f, "interface-{}", id.0),
        }
    }
}

impl Display for AbiVariant {
    fn fmt(&self, f: &mut Formatter<'_>) -> fmt::Result {
        show(self, &AbiVariant::ALL, f)
    }
}

impl Display for StringEncoding {
    fn fmt(&self, f: &mut Formatter<'_>) -> fmt::Result {
        show(self, &StringEncoding::ALL, f)
    }
}

impl Read for InterfaceId {
    fn read(value: &Value<'_>) -> Result<Self, Unread> {
        Ok(InterfaceId(u32::read(value)?))
    }
}

impl Read for TypeId {
    fn read(value: &Value<'_>) -> Result<Self, Unread> {
        Ok(TypeId(u32::read(value)?))
    }
}

impl Read for WorldKey {
    fn read(value: &Value<'_>) -> Result<Self, Unread> {
        match value.find("name") {
            Some(name) => Ok(WorldKey::Name(String::read(name)?)),
            None => Ok(WorldKey::Interface(member(value, "interface")?)),
        }
    }
}

impl Read for AbiVariant {
    fn read(value: &Value<'_>) -> Result<Self, Unread> {
        of_name(value.as_str()?, &AbiVariant::ALL)
    }
}

impl Read for StringEncoding {
    fn read(value: &Value<'_>) -> Result<Self, Unread> {
        of_name(value.as_str()?, &StringEncoding::ALL)
    }
}
